//! The rules of the two headers and the trailer, one small function a rule.
//! The reader and the writer both follow them.

/// The refusals, by the numbers of the table "What each call says no to".
pub const OUTSIDE_BUFFER: u64 = 1;
pub const FEWER_THAN_24: u64 = 2;
pub const WRONG_SYNC: u64 = 3;
pub const WRONG_HEADER_SUM: u64 = 4;
pub const WRONG_VERSION: u64 = 5;
pub const RESERVED_TYPE: u64 = 6;
pub const WRONG_FLAGS: u64 = 7;
pub const CHANNEL_ZERO: u64 = 8;
pub const WRONG_LENGTH: u64 = 9;
pub const EXCEEDS_WINDOW: u64 = 10;
pub const WRONG_SECONDARY_SUM: u64 = 11;
pub const WRONG_SECONDARY: u64 = 12;
pub const WRONG_DATA_SUM: u64 = 13;
pub const FILLER_NOT_ZERO: u64 = 14;
pub const WRONG_BODY: u64 = 15;
pub const NO_ROOM: u64 = 16;
pub const OUT_OF_RANGE: u64 = 17;

/// The refusals of the renewal table. Request 13: "19 exactly when 64 other
/// entries live"
pub const TABLE_FULL: u64 = 19;
/// Request 13: "20 no such entry"
pub const NO_SUCH_ENTRY: u64 = 20;
/// Request 13: "21 packet over 1,024 bytes"
pub const PACKET_TOO_LONG: u64 = 21;

/// The reasons of refusal 15. Request 2: "Have the block walk name the rule
/// broken: 1 channel word (or under 4 bytes),"
pub const REASON_CHANNEL_WORD: u64 = 1;
/// Request 2: "2 block cut short"
pub const REASON_CUT_SHORT: u64 = 2;
/// Request 2: "3 time"
pub const REASON_TIME: u64 = 3;
/// Request 2: "4 length zero"
pub const REASON_LENGTH_ZERO: u64 = 4;
/// Request 2: "5 pad not zero"
pub const REASON_PAD: u64 = 5;
/// Request 2: "6 bytes after the counted blocks"
pub const REASON_BYTES_AFTER: u64 = 6;
/// Request 2: "7 body ends where a block must begin"
pub const REASON_NO_BLOCK: u64 = 7;

/// Request 2: "all others have reason 0", an acceptance too.
pub const NO_REASON: u64 = 0;

/// "Primary header, 24 bytes".
pub const HEADER_LENGTH: u64 = 24;

/// "Secondary header, 12 bytes".
pub const SECONDARY_LENGTH: u64 = 12;

/// "the sync bytes are 25 EB in that order".
pub const SYNC: [u8; 2] = [0x25, 0xEB];

/// The two types whose bodies are opened: "0x30 (Message) and 0x50 (UART)".
pub const MESSAGE: u64 = 0x30;
pub const UART: u64 = 0x50;

/// Time rules by their numbers. 5 stands for the reserved format.
pub const RULE_NONE: u64 = 0;
pub const RULE_BELOW_2_48: u64 = 1;
pub const RULE_CHAPTER_4: u64 = 2;
pub const RULE_IEEE_1588: u64 = 3;
pub const RULE_EXTENDED: u64 = 4;

/// The little-endian number of `width` bytes (at most 8) that starts at `at`.
pub fn number_at(bytes: &[u8], at: usize, width: usize) -> u64 {
    let mut number: u64 = 0;
    for i in 0..width {
        number |= u64::from(bytes[at + i]) << (8 * i);
    }
    number
}

/// Puts down a little-endian number of `width` bytes (at most 8) at `at`.
pub fn put_number(bytes: &mut [u8], at: usize, width: usize, number: u64) {
    for i in 0..width {
        bytes[at + i] = ((number >> (8 * i)) & 0xFF) as u8;
    }
}

/// "Version is 0x01 to 0x09."
pub fn version_is_good(version: u64) -> bool {
    version >= 0x01 && version <= 0x09
}

/// "Defined types: [...] That is 35; all others are reserved."
pub fn type_is_defined(kind: u64) -> bool {
    match kind {
        0x00..=0x04 => true,
        0x09 | 0x0A => true,
        0x11 | 0x12 => true,
        0x19 | 0x1A => true,
        0x21 => true,
        0x29 => true,
        0x30 => true,
        0x38 => true,
        0x40..=0x44 => true,
        0x48..=0x4A => true,
        0x50 => true,
        0x58 | 0x59 => true,
        0x60 => true,
        0x68 | 0x69 => true,
        0x70..=0x72 => true,
        0x78..=0x7A => true,
        _ => false,
    }
}

/// "bit 7 secondary header present".
pub fn has_secondary(flags: u64) -> bool {
    flags & 0x80 != 0
}

/// "bit 6 message times are absolute".
pub fn times_are_absolute(flags: u64) -> bool {
    flags & 0x40 != 0
}

/// "bits 3-2 time format (00 Chapter 4, 01 IEEE 1588, 10 extended counter,
/// 11 reserved".
pub fn time_format(flags: u64) -> u64 {
    (flags >> 2) & 3
}

/// "11 reserved, refused even where bit 7 is 0", and "bit 6 [...] (bit 7 must
/// then be 1)". "Bits 5 and 4 are carried."
pub fn flags_are_good(flags: u64) -> bool {
    if time_format(flags) == 3 {
        return false;
    }
    if times_are_absolute(flags) && !has_secondary(flags) {
        return false;
    }
    true
}

/// "Channel 0 only with types 0x01 and 0x04."
pub fn channel_is_good(channel: u64, kind: u64) -> bool {
    channel != 0 || kind == 0x01 || kind == 0x04
}

/// The length of the secondary header: "plus 12 if bit 7 is set".
pub fn secondary_length(flags: u64) -> u64 {
    if has_secondary(flags) {
        SECONDARY_LENGTH
    } else {
        0
    }
}

/// "bits 1-0 data sum (none, 8, 16, 32 bits)", as a width in bytes.
pub fn sum_width(flags: u64) -> u64 {
    match flags & 3 {
        0 => 0,
        1 => 1,
        2 => 2,
        _ => 4,
    }
}

/// P without its filler: 24, "plus 12 if bit 7 is set, plus D, [...] plus the
/// sum's width in bytes". D is below 2^63, so that 64 bits hold the whole.
pub fn length_without_filler(flags: u64, data_length: u64) -> u64 {
    HEADER_LENGTH + secondary_length(flags) + data_length + sum_width(flags)
}

/// "Filler is the 0 to 3 bytes that make P a multiple of 4."
pub fn filler_length(flags: u64, data_length: u64) -> u64 {
    match length_without_filler(flags, data_length) % 4 {
        0 => 0,
        1 => 3,
        2 => 2,
        _ => 1,
    }
}

/// "at most 524,288, or 134,217,728 for type 0x01".
pub fn longest_packet(kind: u64) -> u64 {
    if kind == 0x01 {
        134_217_728
    } else {
        524_288
    }
}

/// "P is a multiple of 4, at most 524,288, or 134,217,728 for type 0x01. D is
/// at least 1." "P = 24, plus 12 if bit 7 is set, plus D, plus filler, plus the
/// sum's width in bytes."
pub fn lengths_are_good(kind: u64, flags: u64, length: u64, data_length: u64) -> bool {
    if length % 4 != 0 {
        return false;
    }
    if length > longest_packet(kind) {
        return false;
    }
    if data_length < 1 {
        return false;
    }
    let filler = filler_length(flags, data_length);
    length == length_without_filler(flags, data_length) + filler
}

/// The time rule of the secondary header, from the time format. The reserved
/// format 11 gives 5.
pub fn secondary_rule(flags: u64) -> u64 {
    match time_format(flags) {
        0 => RULE_CHAPTER_4,
        1 => RULE_IEEE_1588,
        2 => RULE_EXTENDED,
        _ => 5,
    }
}

/// "Times: flag bit 6 clear means a value below 2^48; set means the secondary
/// time rule of the same format."
pub fn message_rule(flags: u64) -> u64 {
    if times_are_absolute(flags) {
        secondary_rule(flags)
    } else {
        RULE_BELOW_2_48
    }
}

/// Whether a 64-bit time, "high x 2^32 + low", has the form its rule asks for.
pub fn time_is_good(rule: u64, time: u64) -> bool {
    let low = time & 0xFFFF_FFFF;
    match rule {
        // "a value below 2^48"
        RULE_BELOW_2_48 => time < (1 << 48),
        // "Chapter 4 time: the low 16 bits are zero"
        RULE_CHAPTER_4 => time & 0xFFFF == 0,
        // "IEEE 1588: high is seconds, low is nanoseconds below 1,000,000,000."
        RULE_IEEE_1588 => low < 1_000_000_000,
        // "Extended counter: any."
        RULE_EXTENDED => true,
        // No other number is the rule of a stored time.
        _ => false,
    }
}

/// The sum of bytes, modulo 2^8.
pub fn sum_of_bytes(bytes: &[u8]) -> u64 {
    let mut sum: u8 = 0;
    for unit in bytes {
        sum = sum.wrapping_add(*unit);
    }
    u64::from(sum)
}

/// The sum of 16-bit words, modulo 65,536. Both header sums are of this kind
/// too: "Sixteen-bit words are meant even if the section speaks of bytes."
pub fn sum_of_words(bytes: &[u8]) -> u64 {
    let mut sum: u16 = 0;
    for unit in bytes.chunks_exact(2) {
        sum = sum.wrapping_add(u16::from_le_bytes([unit[0], unit[1]]));
    }
    u64::from(sum)
}

/// The sum of 32-bit words, modulo 2^32.
pub fn sum_of_long_words(bytes: &[u8]) -> u64 {
    let mut sum: u32 = 0;
    for unit in bytes.chunks_exact(4) {
        sum = sum.wrapping_add(u32::from_le_bytes([unit[0], unit[1], unit[2], unit[3]]));
    }
    u64::from(sum)
}

/// "The data sum adds body and filler in units of its own width, counted from
/// the body's first byte, modulo 2 to that width". 0 if there is no sum.
/// Body and filler are a whole number of units, since P is a multiple of 4.
pub fn data_sum(flags: u64, body_and_filler: &[u8]) -> u64 {
    match sum_width(flags) {
        0 => 0,
        1 => sum_of_bytes(body_and_filler),
        2 => sum_of_words(body_and_filler),
        _ => sum_of_long_words(body_and_filler),
    }
}
