//! The rules of plain numbers, for reader and writer alike, and the lengths of a packet's parts.

/// How times are formed: the bits under the mask stay below the limit.
#[derive(Clone, Copy)]
pub struct TimeRule {
    mask: u64,
    limit: u64,
}

const COUNTER: TimeRule = TimeRule {
    mask: u64::MAX,
    limit: 1 << 48,
};
const CHAPTER_4: TimeRule = TimeRule {
    mask: 0xFFFF,
    limit: 1,
};
const IEEE_1588: TimeRule = TimeRule {
    mask: 0xFFFF_FFFF,
    limit: 1_000_000_000,
};
const EXTENDED: TimeRule = TimeRule { mask: 0, limit: 1 };

impl TimeRule {
    /// The rule of message times.
    pub fn of_messages(flags: u8) -> TimeRule {
        if flags & 0x40 != 0 {
            TimeRule::absolute(flags)
        } else {
            COUNTER
        }
    }

    /// The rule of the secondary time and of absolute message times.
    pub fn absolute(flags: u8) -> TimeRule {
        match flags >> 2 & 3 {
            0 => CHAPTER_4,
            1 => IEEE_1588,
            _ => EXTENDED,
        }
    }

    /// Whether a time is in form.
    pub fn admits(self, time: u64) -> bool {
        time & self.mask < self.limit
    }
}

/// What the rules 5 to 9 look at.
pub struct Values {
    pub channel: u16,
    pub version: u8,
    pub flags: u8,
    pub kind: u8,
    pub length: u64,
    pub data_length: u64,
}

/// 5 to 9.
pub fn check_values(values: &Values) -> Result<(), u8> {
    let (flags, kind) = (values.flags, values.kind);
    if !(1..=9).contains(&values.version) {
        return Err(5);
    }
    if !DEFINED[usize::from(kind)] {
        return Err(6);
    }
    if flags & 0x0C == 0x0C || flags & 0xC0 == 0x40 {
        return Err(7);
    }
    if values.channel == 0 && kind != 0x01 && kind != 0x04 {
        return Err(8);
    }
    if !lengths_agree(values) {
        return Err(9);
    }
    Ok(())
}

/// Of each type whether it is defined.
static DEFINED: [bool; 256] = defined_types();

const fn defined_types() -> [bool; 256] {
    let mut defined = [false; 256];
    let mut kind = 0;
    while kind < defined.len() {
        defined[kind] = is_defined(kind as u8);
        kind += 1;
    }
    defined
}

/// Whether a type is one of the 35 defined ones.
const fn is_defined(kind: u8) -> bool {
    matches!(
        kind,
        0x00..=0x04
            | 0x09..=0x0A
            | 0x11..=0x12
            | 0x19..=0x1A
            | 0x21
            | 0x29
            | 0x30
            | 0x38
            | 0x40..=0x44
            | 0x48..=0x4A
            | 0x50
            | 0x58..=0x59
            | 0x60
            | 0x68..=0x69
            | 0x70..=0x72
            | 0x78..=0x7A
    )
}

/// The length rules.
fn lengths_agree(values: &Values) -> bool {
    values.length == length_for(values.flags, values.data_length)
        && within_limit(values.kind, values.length)
        && values.data_length > 0
}

/// Whether P is at most what it may be.
fn within_limit(kind: u8, length: u64) -> bool {
    length <= 524_288 || (kind == 0x01 && length <= 134_217_728)
}

/// P's parts without the filler, in 64 bits.
fn unfilled_length(flags: u8, data_length: u64) -> u64 {
    body_at(flags) as u64 + data_length + sum_width(flags) as u64
}

/// P of a packet with these flags and D: filler makes it a multiple of 4.
pub fn length_for(flags: u8, data_length: u64) -> u64 {
    (unfilled_length(flags, data_length) + 3) & !3
}

pub fn has_secondary(flags: u8) -> bool {
    flags & 0x80 != 0
}

/// Where the body stands: behind the primary header, and the secondary header if there is one.
pub fn body_at(flags: u8) -> usize {
    if has_secondary(flags) {
        36
    } else {
        24
    }
}

/// The data sum's width in bytes.
pub fn sum_width(flags: u8) -> usize {
    match flags & 3 {
        3 => 4,
        code => usize::from(code),
    }
}
