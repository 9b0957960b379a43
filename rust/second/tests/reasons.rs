//! Refusal 15 says why. Request 2: "1 channel word (or under 4 bytes), 2 block
//! cut short, 3 time, 4 length zero, 5 pad not zero, 6 bytes after the counted
//! blocks, 7 body ends where a block must begin". Both sides of each line, for
//! every call that can give 15; and all others have reason 0. The base is the
//! window's start throughout: each buffer is the recording from its first byte
//! on, and both places of a refusal are one number.

mod common;

use common::{body_at, by_hand, mend_header, CASE_L};
use second::*;

/// Channel words of 0x50, without time stamps and with them.
const BARE: u32 = 0;
const STAMPED: u32 = 0x8000_0000;

/// Flags: times below 2^48, then absolute times in the three formats.
const RELATIVE: u8 = 0x00;
const CHAPTER_4: u8 = 0xC0;
const IEEE_1588: u8 = 0xC4;
const EXTENDED: u8 = 0xC8;

/// The least time that is not below 2^48.
const LATE: u64 = 1 << 48;

/// One of the four message types with a counter that it may have, for one
/// block.
const ONE_MESSAGE: [u32; 4] = [0x0_0001, 0x1_0001, 0x2_0002, 0x3_0002];

/// Every channel word under which a body of one block is good: the type, the
/// channel word, and whether blocks have time stamps.
const ONE_BLOCK: [(u8, u32, bool); 6] = [
    (0x30, ONE_MESSAGE[0], true),
    (0x30, ONE_MESSAGE[1], true),
    (0x30, ONE_MESSAGE[2], true),
    (0x30, ONE_MESSAGE[3], true),
    (0x50, BARE, false),
    (0x50, STAMPED, true),
];

/// The same for two blocks.
const TWO_BLOCKS: [(u8, u32, bool); 3] = [
    (0x30, 0x0_0002, true),
    (0x50, BARE, false),
    (0x50, STAMPED, true),
];

/// What the writer is given for the same packet.
fn fields(kind: u8, flags: u8) -> Fields {
    Fields {
        channel: 1,
        version: 6,
        sequence: 0,
        flags: u64::from(flags),
        kind: u64::from(kind),
        rtc: 0,
        time: 0,
    }
}

/// A block: the time, if stamps are stored, the ID word and the bytes behind
/// it, a pad byte included.
fn block(stamped: bool, time: u64, id: u32, bytes: &[u8]) -> Vec<u8> {
    let mut block = Vec::new();
    if stamped {
        block.extend_from_slice(&time.to_le_bytes());
    }
    block.extend_from_slice(&id.to_le_bytes());
    block.extend_from_slice(bytes);
    block
}

/// A body: the channel word and its blocks.
fn body(channel_word: u32, blocks: &[&[u8]]) -> Vec<u8> {
    let mut body = channel_word.to_le_bytes().to_vec();
    for block in blocks {
        body.extend_from_slice(block);
    }
    body
}

fn refusal(number: u64, place: u64, reason: u64) -> Refusal {
    Refusal {
        number,
        place,
        recording_place: place,
        room: 0,
        reason,
    }
}

/// Every call gives 15 for this body, with this reason. `at` is the place of
/// the fault, counted from the body's first byte. The packet stands behind L
/// and ahead of L.
fn refused(kind: u8, flags: u8, body: &[u8], at: usize, reason: u64) {
    let mut buffer = CASE_L.to_vec();
    buffer.extend_from_slice(&by_hand(kind, flags, body));
    buffer.extend_from_slice(&CASE_L);
    let end = buffer.len();
    let place = (40 + body_at(flags) + at) as u64;
    let wanted = refusal(15, place, reason);
    assert_eq!(read_packet(&buffer, 40, end, 40), Err(wanted));
    assert_eq!(read_packet(&buffer, 40, end - 40, 40), Err(wanted));

    let mut starts = [99; 3];
    let mut lengths = [98; 3];
    let answer = list_messages(&buffer, 40, end, 40, &mut starts, &mut lengths);
    assert_eq!(answer, Err(wanted));
    assert_eq!((starts, lengths), ([99; 3], [98; 3]));
    // 15 comes ahead of 16 and 17.
    let answer = list_messages(&buffer, 40, end, 40, &mut [], &mut []);
    assert_eq!(answer, Err(wanted));
    assert_eq!(message(&buffer, 40, end, 40, 0), Err(wanted));
    assert_eq!(message(&buffer, 40, end, 40, usize::MAX), Err(wanted));

    let recording = Recording {
        refusal: wanted,
        accepted: 1,
        reached: 40,
        recording_reached: 40,
    };
    assert_eq!(read_recording(&buffer, 0, end, 0), recording);

    // "For the writer and builder the place is 0."
    let mut out = vec![0xAA; body.len() + 64];
    let written = write_packet(&fields(kind, flags), body, &mut out);
    assert_eq!(written, Err(refusal(15, 0, reason)));
    assert!(out.iter().all(|byte| *byte == 0xAA));
    // 15 comes ahead of 16.
    let written = write_packet(&fields(kind, flags), body, &mut []);
    assert_eq!(written, Err(refusal(15, 0, reason)));
}

/// Every call accepts this body, with this number of messages.
fn accepted(kind: u8, flags: u8, body: &[u8], count: u64) {
    let packet = by_hand(kind, flags, body);
    let end = packet.len();
    assert!(read_packet(&packet, 0, end, 0).is_ok());
    let mut starts = [99; 3];
    let mut lengths = [98; 3];
    let answer = list_messages(&packet, 0, end, 0, &mut starts, &mut lengths);
    assert_eq!(answer, Ok(count));
    assert!(message(&packet, 0, end, 0, count as usize - 1).is_ok());
    let none = message(&packet, 0, end, 0, count as usize);
    assert_eq!(none, Err(refusal(17, 0, 0)));
    let recording = Recording {
        refusal: refusal(0, 0, 0),
        accepted: 1,
        reached: end as u64,
        recording_reached: end as u64,
    };
    assert_eq!(read_recording(&packet, 0, end, 0), recording);
    let mut out = vec![0xAA; end];
    let written = write_packet(&fields(kind, flags), body, &mut out);
    assert_eq!(written, Ok(end as u64));
    assert_eq!(out, packet);
}

#[test]
fn channel_word_under_4_bytes() {
    for kind in [0x30, 0x50] {
        refused(kind, RELATIVE, &[0], 0, 1);
        refused(kind, RELATIVE, &[1, 0], 0, 1);
        refused(kind, RELATIVE, &[1, 0, 0], 0, 1);
        refused(kind, EXTENDED, &[1, 0, 0], 0, 1);
    }
    // The whole channel word: now the block is what is missing.
    refused(0x30, RELATIVE, &[1, 0, 0, 0], 4, 7);
    refused(0x50, RELATIVE, &[0, 0, 0, 0], 4, 7);
    refused(0x50, RELATIVE, &[0, 0, 0, 0x80], 4, 7);
}

#[test]
fn channel_word_reserved_bits() {
    let stamped = block(true, 0, 2, &[7, 7]);
    for word in ONE_MESSAGE {
        accepted(0x30, RELATIVE, &body(word, &[&stamped]), 1);
        for bit in 18..=31 {
            let spoilt = word | 1 << bit;
            refused(0x30, RELATIVE, &body(spoilt, &[&stamped]), 0, 1);
        }
    }
    let bare = block(false, 0, 2, &[7, 7]);
    accepted(0x50, RELATIVE, &body(BARE, &[&bare]), 1);
    accepted(0x50, RELATIVE, &body(STAMPED, &[&stamped]), 1);
    for bit in 0..=30 {
        refused(0x50, RELATIVE, &body(BARE | 1 << bit, &[&bare]), 0, 1);
        let spoilt = STAMPED | 1 << bit;
        refused(0x50, RELATIVE, &body(spoilt, &[&stamped]), 0, 1);
    }
}

#[test]
fn channel_word_counter() {
    let one = block(true, 0, 2, &[7, 7]);
    // The counters next to those allowed, of each message type.
    refused(0x30, RELATIVE, &body(0x0_0000, &[&one]), 0, 1);
    accepted(0x30, RELATIVE, &body(0x0_0001, &[&one]), 1);
    refused(0x30, RELATIVE, &body(0x1_0000, &[&one]), 0, 1);
    accepted(0x30, RELATIVE, &body(0x1_0001, &[&one]), 1);
    refused(0x30, RELATIVE, &body(0x1_0002, &[&one]), 0, 1);
    refused(0x30, RELATIVE, &body(0x1_FFFF, &[&one]), 0, 1);
    for word in [0x2_0000, 0x3_0000] {
        refused(0x30, RELATIVE, &body(word, &[&one]), 0, 1);
        refused(0x30, RELATIVE, &body(word + 1, &[&one]), 0, 1);
        accepted(0x30, RELATIVE, &body(word + 2, &[&one]), 1);
        accepted(0x30, RELATIVE, &body(word + 0xFFFF, &[&one]), 1);
    }
}

#[test]
fn channel_word_ahead_of_all_blocks() {
    // Counter 0 and no block: the channel word, not the missing block.
    refused(0x30, RELATIVE, &[0, 0, 0, 0], 0, 1);
    refused(0x30, RELATIVE, &[1, 0, 2, 0], 0, 1);
    refused(0x50, RELATIVE, &[1, 0, 0, 0], 0, 1);
    // Blocks at fault, of each kind, behind a spoilt channel word.
    let late = block(true, LATE, 2, &[7, 7]);
    let zero = block(true, 0, 0, &[]);
    let pad = block(true, 0, 1, &[7, 1]);
    for fault in [&late, &zero, &pad] {
        refused(0x30, RELATIVE, &body(0x4_0001, &[fault]), 0, 1);
        refused(0x50, RELATIVE, &body(0x8000_0001, &[fault]), 0, 1);
    }
    refused(0x30, RELATIVE, &body(0x1_0000, &[&zero[..5]]), 0, 1);
    refused(0x50, RELATIVE, &body(0x4000_0000, &[&zero[..3]]), 0, 1);
}

#[test]
fn block_cut_short_at_every_byte() {
    for (kind, word, stamped) in ONE_BLOCK {
        // n even, and n odd with its pad byte.
        for whole in [
            block(stamped, 5, 4, &[7, 7, 7, 7]),
            block(stamped, 5, 3, &[7, 7, 7, 0]),
        ] {
            refused(kind, RELATIVE, &body(word, &[]), 4, 7);
            for kept in 1..whole.len() {
                refused(kind, RELATIVE, &body(word, &[&whole[..kept]]), 4, 2);
            }
            accepted(kind, RELATIVE, &body(word, &[&whole]), 1);
        }
    }
}

#[test]
fn second_block_cut_short_at_every_byte() {
    for (kind, word, stamped) in TWO_BLOCKS {
        let good = block(stamped, 5, 2, &[8, 8]);
        let behind = 4 + good.len();
        let whole = block(stamped, 5, 3, &[7, 7, 7, 0]);
        for kept in 1..whole.len() {
            let cut = body(word, &[&good, &whole[..kept]]);
            refused(kind, RELATIVE, &cut, behind, 2);
        }
        accepted(kind, RELATIVE, &body(word, &[&good, &whole]), 2);
    }
    // With no byte of it there: a fault in 0x30 alone.
    let good = block(true, 5, 2, &[8, 8]);
    refused(0x30, RELATIVE, &body(0x0_0002, &[&good]), 18, 7);
    accepted(0x50, RELATIVE, &body(STAMPED, &[&good]), 1);
}

#[test]
fn missing_pad_is_cut_short() {
    // 24 + 4 + 4 + 1: the byte behind is a filler byte, zero, and no pad.
    refused(0x50, RELATIVE, &body(BARE, &[&[1, 0, 0, 0, 7]]), 4, 2);
    accepted(0x50, RELATIVE, &body(BARE, &[&[1, 0, 0, 0, 7, 0]]), 1);
    refused(0x50, RELATIVE, &body(BARE, &[&[1, 0, 0, 0, 7, 1]]), 4, 5);
    for word in ONE_MESSAGE {
        let cut = block(true, 0, 1, &[7]);
        refused(0x30, RELATIVE, &body(word, &[&cut]), 4, 2);
        let whole = block(true, 0, 1, &[7, 0]);
        accepted(0x30, RELATIVE, &body(word, &[&whole]), 1);
        let spoilt = block(true, 0, 1, &[7, 1]);
        refused(0x30, RELATIVE, &body(word, &[&spoilt]), 4, 5);
    }
}

#[test]
fn longest_block_cut_short() {
    for (kind, word, stamped) in ONE_BLOCK {
        let mut bytes = vec![7; 65_535];
        let no_pad = block(stamped, 0, 65_535, &bytes);
        refused(kind, RELATIVE, &body(word, &[&no_pad]), 4, 2);
        bytes.push(0);
        let whole = block(stamped, 0, 65_535, &bytes);
        accepted(kind, RELATIVE, &body(word, &[&whole]), 1);
        bytes[65_535] = 1;
        let spoilt = block(stamped, 0, 65_535, &bytes);
        refused(kind, RELATIVE, &body(word, &[&spoilt]), 4, 5);
        // The upper half of the ID word is no part of n.
        let upper = block(stamped, 0, 0xFFFF_0002, &[7, 7]);
        accepted(kind, RELATIVE, &body(word, &[&upper]), 1);
    }
}

#[test]
fn times_of_each_format() {
    // Flags, a time in form, and its neighbour out of form.
    let lines = [
        (RELATIVE, LATE - 1, LATE),
        (RELATIVE, 0, u64::MAX),
        (CHAPTER_4, 0xFFFF_FFFF_FFFF_0000, 0xFFFF_FFFF_FFFF_0001),
        (CHAPTER_4, 0x1_0000, 0x1_8000),
        (IEEE_1588, 999_999_999, 1_000_000_000),
        (IEEE_1588, 0xFFFF_FFFF_0000_0000, 0xFFFF_FFFF_FFFF_FFFF),
    ];
    for (flags, inside, outside) in lines {
        let good = block(true, inside, 2, &[7, 7]);
        let late = block(true, outside, 2, &[7, 7]);
        for word in ONE_MESSAGE {
            accepted(0x30, flags, &body(word, &[&good]), 1);
            refused(0x30, flags, &body(word, &[&late]), 4, 3);
        }
        accepted(0x50, flags, &body(STAMPED, &[&good]), 1);
        refused(0x50, flags, &body(STAMPED, &[&late]), 4, 3);
        // Behind a good block.
        accepted(0x30, flags, &body(0x0_0002, &[&good, &good]), 2);
        refused(0x30, flags, &body(0x0_0002, &[&good, &late]), 18, 3);
        accepted(0x50, flags, &body(STAMPED, &[&good, &good]), 2);
        refused(0x50, flags, &body(STAMPED, &[&good, &late]), 18, 3);
    }
    // "Extended counter: any."
    let any = block(true, u64::MAX, 2, &[7, 7]);
    for word in ONE_MESSAGE {
        accepted(0x30, EXTENDED, &body(word, &[&any]), 1);
        refused(0x30, RELATIVE, &body(word, &[&any]), 4, 3);
    }
    accepted(0x50, EXTENDED, &body(STAMPED, &[&any]), 1);
    refused(0x50, RELATIVE, &body(STAMPED, &[&any]), 4, 3);
}

#[test]
fn no_time_where_none_is_stored() {
    // The bytes of a late time and its block, read without time stamps: an ID
    // word of n = 0, and never 3. With time stamps: 3.
    let late = block(true, LATE, 2, &[7, 7]);
    refused(0x50, RELATIVE, &body(BARE, &[&late]), 4, 4);
    refused(0x50, RELATIVE, &body(STAMPED, &[&late]), 4, 3);
    // n = 4, and the next four bytes are FF: a block, but no time in form.
    let bytes = [4, 0, 0, 0, 0xFF, 0xFF, 0xFF, 0xFF];
    accepted(0x50, RELATIVE, &body(BARE, &[&bytes]), 1);
    // With time stamps the ID word is missing, which is the lower number.
    refused(0x50, RELATIVE, &body(STAMPED, &[&bytes]), 4, 2);
}

#[test]
fn length_zero() {
    for (kind, word, stamped) in ONE_BLOCK {
        for upper in [0, 0x0001_0000, 0x4000_0000, 0xFFFF_0000] {
            // As the body's last bytes, and with more behind.
            let zero = block(stamped, 5, upper, &[]);
            refused(kind, RELATIVE, &body(word, &[&zero]), 4, 4);
            let more = block(stamped, 5, upper, &[0, 0]);
            refused(kind, RELATIVE, &body(word, &[&more]), 4, 4);
            // Its neighbours: n = 1 with nothing behind, and whole.
            let cut = block(stamped, 5, upper + 1, &[]);
            refused(kind, RELATIVE, &body(word, &[&cut]), 4, 2);
            let whole = block(stamped, 5, upper + 1, &[0, 0]);
            accepted(kind, RELATIVE, &body(word, &[&whole]), 1);
        }
    }
    for (kind, word, stamped) in TWO_BLOCKS {
        let good = block(stamped, 5, 1, &[8, 0]);
        let behind = 4 + good.len();
        let zero = block(stamped, 5, 0, &[]);
        refused(kind, RELATIVE, &body(word, &[&good, &zero]), behind, 4);
    }
}

#[test]
fn pad_not_zero() {
    for (kind, word, stamped) in ONE_BLOCK {
        for pad in [0x01, 0x80, 0xFF] {
            let spoilt = block(stamped, 5, 3, &[7, 7, 7, pad]);
            refused(kind, RELATIVE, &body(word, &[&spoilt]), 4, 5);
            // With n one more that byte is the block's own.
            let own = block(stamped, 5, 4, &[7, 7, 7, pad]);
            accepted(kind, RELATIVE, &body(word, &[&own]), 1);
        }
        let good = block(stamped, 5, 3, &[7, 7, 7, 0]);
        accepted(kind, RELATIVE, &body(word, &[&good]), 1);
    }
    for (kind, word, stamped) in TWO_BLOCKS {
        let good = block(stamped, 5, 1, &[8, 0]);
        let behind = 4 + good.len();
        let spoilt = block(stamped, 5, 1, &[8, 9]);
        refused(kind, RELATIVE, &body(word, &[&good, &spoilt]), behind, 5);
        refused(kind, RELATIVE, &body(word, &[&spoilt, &good]), 4, 5);
        accepted(kind, RELATIVE, &body(word, &[&good, &good]), 2);
    }
}

#[test]
fn bytes_after_the_counted_blocks() {
    let good = block(true, 5, 2, &[7, 7]);
    // One byte, zero or not; many; a good block; and blocks at fault.
    let late = block(true, LATE, 2, &[7, 7]);
    let pad = block(true, 5, 1, &[7, 1]);
    let rests: [&[u8]; 7] = [&[0], &[1], &[0; 3], &[0; 12], &good, &late, &pad];
    for word in ONE_MESSAGE {
        accepted(0x30, RELATIVE, &body(word, &[&good]), 1);
        for rest in rests {
            refused(0x30, RELATIVE, &body(word, &[&good, rest]), 18, 6);
        }
    }
    // Counter 2: after two blocks.
    accepted(0x30, RELATIVE, &body(0x0_0002, &[&good, &good]), 2);
    for rest in rests {
        let over = body(0x0_0002, &[&good, &good, rest]);
        refused(0x30, RELATIVE, &over, 32, 6);
    }
    // The same rests where the counter asks for one block more.
    let reasons = [2, 2, 2, 4, 0, 3, 5];
    for (rest, reason) in rests.iter().zip(reasons) {
        let counted = body(0x0_0002, &[&good, rest]);
        if reason == 0 {
            accepted(0x30, RELATIVE, &counted, 2);
        } else {
            refused(0x30, RELATIVE, &counted, 18, reason);
        }
        // In 0x50 nothing is counted: the rest is a block there too.
        let uncounted = body(STAMPED, &[&good, rest]);
        if reason == 0 {
            accepted(0x50, RELATIVE, &uncounted, 2);
        } else {
            refused(0x50, RELATIVE, &uncounted, 18, reason);
        }
    }
}

#[test]
fn rest_of_a_body_without_time_stamps() {
    let good = [1, 0, 0, 0, 8, 0];
    let rests: [(&[u8], u64); 6] = [
        (&[0], 2),
        (&[0; 3], 2),
        (&[0; 4], 4),
        (&[0; 12], 4),
        (&[1, 0, 0, 0, 7], 2),
        (&[1, 0, 0, 0, 7, 7], 5),
    ];
    for (rest, reason) in rests {
        refused(0x50, RELATIVE, &body(BARE, &[&good, rest]), 10, reason);
    }
    accepted(0x50, RELATIVE, &body(BARE, &[&good]), 1);
}

#[test]
fn body_ends_where_a_block_must_begin() {
    // No block at all, though the counter is good.
    for word in [0x0_0001, 0x0_FFFF, 0x1_0001, 0x2_0002, 0x3_FFFF] {
        refused(0x30, RELATIVE, &body(word, &[]), 4, 7);
        refused(0x30, RELATIVE, &body(word, &[&[0]]), 4, 2);
    }
    for word in [BARE, STAMPED] {
        refused(0x50, RELATIVE, &body(word, &[]), 4, 7);
        refused(0x50, IEEE_1588, &body(word, &[]), 4, 7);
        refused(0x50, RELATIVE, &body(word, &[&[0]]), 4, 2);
    }
    // Fewer blocks than the counter says.
    let good = block(true, 5, 1, &[7, 0]);
    refused(0x30, RELATIVE, &body(0x0_0002, &[&good]), 18, 7);
    refused(0x30, RELATIVE, &body(0x0_FFFF, &[&good]), 18, 7);
    refused(0x30, RELATIVE, &body(0x0_0003, &[&good, &good]), 32, 7);
    accepted(0x30, RELATIVE, &body(0x0_0003, &[&good, &good, &good]), 3);
    // Types 10 and 11 have one block, whatever the counter says; so has 0x50
    // at the least.
    accepted(0x30, RELATIVE, &body(0x2_0003, &[&good]), 1);
    accepted(0x30, RELATIVE, &body(0x3_0003, &[&good]), 1);
    accepted(0x50, RELATIVE, &body(STAMPED, &[&good]), 1);
}

#[test]
fn lowest_of_several() {
    // Request 2: "For a block that breaks several, the lowest number from 2 to
    // 5 wins."
    for (kind, word, stamped) in ONE_BLOCK {
        if !stamped {
            continue;
        }
        // 2 and 3: the ID word, then the n bytes, then the pad byte missing.
        let whole = block(true, LATE, 3, &[7, 7, 7, 0]);
        for kept in 8..16 {
            refused(kind, RELATIVE, &body(word, &[&whole[..kept]]), 4, 2);
        }
        // 3 alone.
        refused(kind, RELATIVE, &body(word, &[&whole]), 4, 3);
        // 2 and 3, and n = 0 as far as the ID word goes.
        let zero = block(true, LATE, 0, &[]);
        for kept in 8..12 {
            refused(kind, RELATIVE, &body(word, &[&zero[..kept]]), 4, 2);
        }
        // 3 and 4; 4 alone.
        refused(kind, RELATIVE, &body(word, &[&zero]), 4, 3);
        let zero_in_time = block(true, LATE - 1, 0, &[]);
        refused(kind, RELATIVE, &body(word, &[&zero_in_time]), 4, 4);
        // 3 and 5; 5 alone.
        let pad = block(true, LATE, 3, &[7, 7, 7, 1]);
        refused(kind, RELATIVE, &body(word, &[&pad]), 4, 3);
        let pad_in_time = block(true, LATE - 1, 3, &[7, 7, 7, 1]);
        refused(kind, RELATIVE, &body(word, &[&pad_in_time]), 4, 5);
    }
    // 2 and 4 without time stamps: n = 0 as far as the ID word goes.
    for kept in 1..4 {
        refused(0x50, RELATIVE, &body(BARE, &[&[0, 0, 0, 0][..kept]]), 4, 2);
    }
    refused(0x50, RELATIVE, &body(BARE, &[&[0, 0, 0, 0]]), 4, 4);
}

#[test]
fn lowest_of_several_behind_a_good_block() {
    let good = block(true, 5, 1, &[8, 0]);
    let cut_and_late = block(true, LATE, 3, &[7, 7, 7]);
    let late_and_zero = block(true, LATE, 0, &[]);
    let late_and_pad = block(true, LATE, 1, &[7, 7]);
    for (kind, word) in [(0x30, 0x0_0002), (0x50, STAMPED)] {
        refused(kind, RELATIVE, &body(word, &[&good, &cut_and_late]), 18, 2);
        refused(kind, RELATIVE, &body(word, &[&good, &late_and_zero]), 18, 3);
        refused(kind, RELATIVE, &body(word, &[&good, &late_and_pad]), 18, 3);
    }
}

#[test]
fn first_block_at_fault() {
    // The lowest number is that of one block: a block behind, with a lower
    // number, has no say.
    for (kind, word, stamped) in TWO_BLOCKS {
        let pad = block(stamped, 5, 1, &[7, 1]);
        let zero = block(stamped, 5, 0, &[]);
        let cut = block(stamped, 5, 9, &[7]);
        refused(kind, RELATIVE, &body(word, &[&pad, &cut]), 4, 5);
        refused(kind, RELATIVE, &body(word, &[&pad, &zero]), 4, 5);
        refused(kind, RELATIVE, &body(word, &[&zero, &cut]), 4, 4);
        refused(kind, RELATIVE, &body(word, &[&zero, &pad]), 4, 4);
        // Nor has the end of the body.
        refused(kind, RELATIVE, &body(word, &[&pad]), 4, 5);
        refused(kind, RELATIVE, &body(word, &[&zero]), 4, 4);
    }
    let late = block(true, LATE, 2, &[7, 7]);
    let cut = block(true, 5, 9, &[7]);
    for (kind, word) in [(0x30, 0x0_0002), (0x50, STAMPED)] {
        refused(kind, RELATIVE, &body(word, &[&late, &cut]), 4, 3);
        refused(kind, RELATIVE, &body(word, &[&late]), 4, 3);
    }
    // Nor have bytes after the counted blocks.
    for word in ONE_MESSAGE {
        let pad = block(true, 5, 1, &[7, 1]);
        refused(0x30, RELATIVE, &body(word, &[&pad, &[0]]), 4, 5);
        refused(0x30, RELATIVE, &body(word, &[&late, &[0]]), 4, 3);
    }
}

#[test]
fn carried_types_have_no_reason() {
    // The bodies of all seven reasons, not looked into.
    let late = block(true, LATE, 2, &[7, 7]);
    let good = block(true, 5, 2, &[7, 7]);
    let bodies = [
        vec![1, 0, 0],
        body(0x0_0001, &[&good[..13]]),
        body(0x0_0001, &[&late]),
        body(0x0_0001, &[&[0; 12]]),
        body(0x0_0001, &[&block(true, 5, 1, &[7, 1])]),
        body(0x0_0001, &[&good, &[0]]),
        body(0x0_0001, &[]),
    ];
    let reasons = [1, 2, 3, 4, 5, 6, 7];
    for (bytes, reason) in bodies.iter().zip(reasons) {
        let at = match reason {
            1 => 0,
            6 => 18,
            _ => 4,
        };
        refused(0x30, RELATIVE, bytes, at, reason);
        let carried = by_hand(0x40, RELATIVE, bytes);
        assert!(read_packet(&carried, 0, carried.len(), 0).is_ok());
        let recording = read_recording(&carried, 0, carried.len(), 0);
        assert_eq!(recording.refusal, refusal(0, 0, 0));
        let written = write_packet(&fields(0x40, RELATIVE), bytes, &mut [0; 64]);
        assert_eq!(written, Ok(carried.len() as u64));
    }
}

#[test]
fn other_refusals_have_reason_0() {
    // A body at fault, under each test that comes ahead of 15.
    let spoilt = by_hand(0x50, IEEE_1588, &[0, 0, 0, 0, 0]);
    let end = spoilt.len();
    assert_eq!(read_packet(&spoilt, 0, end, 0), Err(refusal(15, 40, 2)));
    // At, value, and whether the header sum is then put right; the number.
    let spoils = [
        (0, 0x24, false, 3),
        (13, 1, false, 4),
        (12, 10, true, 5),
        (15, 0x05, true, 6),
        (14, 0xCC, true, 7),
        (2, 0, true, 8),
        (4, 40, true, 9),
        (34, 1, false, 11),
        (41, 1, false, 14),
    ];
    for (at, value, mend, number) in spoils {
        let mut packet = spoilt.clone();
        packet[at] = value;
        if mend {
            mend_header(&mut packet);
        }
        all_readers(&packet, 0, end, refusal(number, 0, 0));
    }
    all_readers(&spoilt, 0, end + 1, refusal(1, 0, 0));
    all_readers(&spoilt, 2, 1, refusal(1, 2, 0));
    all_readers(&spoilt, 0, 23, refusal(2, 0, 0));
    all_readers(&spoilt, 0, end - 1, refusal(10, 0, 0));
    // Reserved bytes and sum both 1.
    let mut packet = spoilt.clone();
    packet[32] = 1;
    packet[34] = 1;
    all_readers(&packet, 0, end, refusal(12, 0, 0));
    // An 8-bit sum: 36 + 5 + 2 + 1. The sum of the body is 0.
    let mut packet = spoilt.clone();
    packet[14] = 0xC5;
    mend_header(&mut packet);
    all_readers(&packet, 0, end, refusal(15, 40, 2));
    packet[43] = 1;
    all_readers(&packet, 0, end, refusal(13, 0, 0));
}

/// All four calls that read give this refusal.
fn all_readers(buf: &[u8], start: usize, end: usize, wanted: Refusal) {
    let base = start as u64;
    assert_eq!(read_packet(buf, start, end, base), Err(wanted));
    let listed = list_messages(buf, start, end, base, &mut [], &mut []);
    assert_eq!(listed, Err(wanted));
    assert_eq!(message(buf, start, end, base, 0), Err(wanted));
    assert_eq!(read_recording(buf, start, end, base).refusal, wanted);
}

#[test]
fn writer_has_reason_0_save_for_15() {
    // A body at fault, under each test that comes ahead of 15.
    let bytes = [0, 0, 0, 0, 0];
    let good = fields(0x50, IEEE_1588);
    let mut out = [0xAA; 64];
    let written = write_packet(&good, &bytes, &mut out);
    assert_eq!(written, Err(refusal(15, 0, 2)));
    let mut spoilt = [good; 7];
    spoilt[0].version = 0;
    spoilt[1].kind = 0x05;
    spoilt[2].flags = 0xCC;
    spoilt[3].channel = 0;
    spoilt[4].time = 1_000_000_000;
    spoilt[5].rtc = 1 << 48;
    spoilt[6].flags = 0;
    spoilt[6].time = 1;
    let numbers = [5, 6, 7, 8, 12, 17, 17];
    for (fields, number) in spoilt.iter().zip(numbers) {
        let written = write_packet(fields, &bytes, &mut out);
        assert_eq!(written, Err(refusal(number, 0, 0)));
    }
    assert_eq!(write_packet(&good, &[], &mut out), Err(refusal(9, 0, 0)));
    // 36 + 4 + 4 + 2 and 2 of filler.
    let whole = Refusal {
        number: 16,
        place: 0,
        recording_place: 0,
        room: 48,
        reason: 0,
    };
    let bytes = [0, 0, 0, 0, 2, 0, 0, 0, 7, 7];
    assert_eq!(write_packet(&good, &bytes, &mut out[..47]), Err(whole));
    assert_eq!(out, [0xAA; 64]);
    assert_eq!(write_packet(&good, &bytes, &mut out[..48]), Ok(48));
}

#[test]
fn lister_has_reason_0_for_lack_of_room() {
    let room = Refusal {
        number: 16,
        place: 0,
        recording_place: 0,
        room: 1,
        reason: 0,
    };
    assert_eq!(
        list_messages(&CASE_L, 0, 40, 0, &mut [], &mut [0]),
        Err(room)
    );
    assert_eq!(list_messages(&CASE_L, 0, 40, 0, &mut [0], &mut [0]), Ok(1));
    assert_eq!(message(&CASE_L, 0, 40, 0, 1), Err(refusal(17, 0, 0)));
    assert_eq!(
        read_recording(&CASE_L, 40, 40, 40).refusal,
        refusal(0, 0, 0)
    );
}

#[test]
fn listing_is_as_before() {
    // "then the three last lines": no line for the reason.
    let packet = by_hand(0x50, RELATIVE, &[0, 0, 0, 0]);
    assert_eq!(listing(&packet), b"packets=0\nbytes=0\nanswer=15\n");
}

#[test]
fn builder_adds_a_time_out_of_form() {
    // Time rule, a time in form, and its neighbour out of form.
    let lines = [
        (1, LATE - 1, LATE),
        (2, 0xFFFF_0000, 0xFFFF_8000),
        (3, 999_999_999, 1_000_000_000),
    ];
    for kind in [0x30, 0x50] {
        for (rule, inside, outside) in lines {
            let mut buf = [0xAA; 32];
            let (answer, first) = open(Draft::default(), &mut buf, kind, rule);
            assert_eq!(answer, refusal(0, 0, 0));
            let kept = buf;
            let refused = add(first, &mut buf, outside, 0, &[7]);
            assert_eq!(refused, (refusal(15, 0, 3), first));
            assert_eq!(buf, kept);
            // A good block, then the same again; 4 + 14 used.
            let (answer, second) = add(first, &mut buf, inside, 0, &[7]);
            assert_eq!(answer, refusal(0, 0, 0));
            let refused = add(second, &mut buf, outside, 0, &[7]);
            assert_eq!(refused, (refusal(15, 0, 3), second));
            // 15 ahead of 16, and 17 ahead of 15.
            let refused = add(second, &mut buf, outside, 0, &[7; 99]);
            assert_eq!(refused, (refusal(15, 0, 3), second));
            let refused = add(second, &mut buf, outside, 0, &[]);
            assert_eq!(refused, (refusal(17, 0, 0), second));
            // 18 + 12 + 99 + 1.
            let (answer, _) = add(second, &mut buf, inside, 0, &[7; 99]);
            assert_eq!((answer.number, answer.room, answer.reason), (16, 130, 0));
        }
        // "Extended counter: any."
        let mut buf = [0xAA; 32];
        let (_, draft) = open(Draft::default(), &mut buf, kind, 4);
        let (answer, _) = add(draft, &mut buf, u64::MAX, 0, &[7]);
        assert_eq!(answer, refusal(0, 0, 0));
    }
    // "17 for a time that isn't zero where none is stored"
    let mut buf = [0xAA; 32];
    let (_, draft) = open(Draft::default(), &mut buf, 0x50, 0);
    let refused = add(draft, &mut buf, LATE, 0, &[7]);
    assert_eq!(refused, (refusal(17, 0, 0), draft));
}

#[test]
fn builder_closes_without_a_block() {
    for kind in [0x30, 0x50] {
        for rule in 0..=4 {
            let mut buf = [0xAA; 32];
            let (answer, draft) = open(Draft::default(), &mut buf, kind, rule);
            if kind == 0x30 && rule == 0 {
                assert_eq!(answer, refusal(17, 0, 0));
                continue;
            }
            assert_eq!(answer, refusal(0, 0, 0));
            let kept = buf;
            assert_eq!(close(draft, &mut buf), (refusal(15, 0, 7), draft));
            assert_eq!(buf, kept);
            // One block: closed.
            let (_, draft) = add(draft, &mut buf, 0, 0, &[7]);
            assert_eq!(close(draft, &mut buf), (refusal(0, 0, 0), draft));
        }
    }
    // The used count alone decides; under 4 it is 1.
    let mut draft = Draft {
        used: 4,
        blocks: 9,
        kind: 0x50,
        rule: 0,
    };
    let mut buf = [0xAA; 32];
    assert_eq!(close(draft, &mut buf), (refusal(15, 0, 7), draft));
    draft.used = 5;
    assert_eq!(close(draft, &mut buf), (refusal(0, 0, 0), draft));
    draft.used = 3;
    assert_eq!(close(draft, &mut buf), (refusal(1, 0, 0), draft));
    assert_eq!(add(draft, &mut buf, 0, 0, &[7]), (refusal(1, 0, 0), draft));
}
