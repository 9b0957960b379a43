//! The builder: "It makes 0x30 type 00 and 0x50 bodies in a lent buffer."

use crate::body::{is_opened, CHANNEL_WORD_LENGTH};
use crate::rules::*;
use crate::{Draft, Refusal};

/// The most blocks of a 0x30 body: its counter has 16 bits.
const MOST_BLOCKS: u64 = 65_535;

/// A refused step: "For the writer and builder the place is 0", and "a
/// builder's step hands back the state it was given". Request 9: "a base that
/// the caller gives, plus the distance from the window's start": no step has
/// either, so that the place in the recording is 0 too.
fn refuse(number: u64, room: u64, draft: Draft) -> (Refusal, Draft) {
    let refusal = Refusal {
        number,
        place: 0,
        recording_place: 0,
        room,
        reason: NO_REASON,
    };
    (refusal, draft)
}

/// A step refused with 15, which names the rule broken. Request 2: "Lister,
/// recording reader, builder and writer pass it on."
fn refuse_body(reason: u64, draft: Draft) -> (Refusal, Draft) {
    let (refusal, draft) = refuse(WRONG_BODY, 0, draft);
    (Refusal { reason, ..refusal }, draft)
}

/// A step that is done.
fn done(draft: Draft) -> (Refusal, Draft) {
    (Refusal::default(), draft)
}

/// Opening refuses "another type, a reserved time format or no rule in 0x30".
/// Rules go from 0 (none) to 4; 5 is the reserved format, and no other number
/// is a rule.
fn opening_refuses(kind: u64, rule: u64) -> bool {
    if !is_opened(kind) {
        return true;
    }
    if rule > RULE_EXTENDED {
        return true;
    }
    kind == MESSAGE && rule == RULE_NONE
}

/// Refusal 1: "a builder's used count is outside its buffer, or that count is
/// under 4, or the builder's state has a type or time rule that opening
/// refuses, or over 65,535 blocks in 0x30".
fn state_is_bad(draft: Draft, buf: &[u8]) -> bool {
    if draft.used > buf.len() as u64 {
        return true;
    }
    if draft.used < CHANNEL_WORD_LENGTH as u64 {
        return true;
    }
    if opening_refuses(draft.kind, draft.rule) {
        return true;
    }
    draft.kind == MESSAGE && draft.blocks > MOST_BLOCKS
}

/// "It opens a body for a type and a time rule, or none in 0x50 (writing the
/// channel word, counter 0)".
pub fn open(draft: Draft, buf: &mut [u8], kind: u64, rule: u64) -> (Refusal, Draft) {
    // "Opening: 17 for another type, a reserved time format or no rule in
    // 0x30, then 16."
    if opening_refuses(kind, rule) {
        return refuse(OUT_OF_RANGE, 0, draft);
    }
    if buf.len() < CHANNEL_WORD_LENGTH {
        return refuse(NO_ROOM, CHANNEL_WORD_LENGTH as u64, draft);
    }
    // In 0x50 bit 31 says that times are stored; in 0x30 type 00 with counter 0
    // is all zeros.
    let mut channel_word = 0;
    if kind == UART && rule != RULE_NONE {
        channel_word = 0x8000_0000;
    }
    put_number(buf, 0, CHANNEL_WORD_LENGTH, channel_word);
    done(Draft {
        used: CHANNEL_WORD_LENGTH as u64,
        blocks: 0,
        kind,
        rule,
    })
}

/// "adds a block (time, upper half of the ID word, bytes)".
pub fn add(draft: Draft, buf: &mut [u8], time: u64, upper: u64, bytes: &[u8]) -> (Refusal, Draft) {
    // "Adding: 1,"
    if state_is_bad(draft, buf) {
        return refuse(OUTSIDE_BUFFER, 0, draft);
    }
    // "then 17 for n outside 1 to 65,535"
    if bytes.is_empty() || bytes.len() > 65_535 {
        return refuse(OUT_OF_RANGE, 0, draft);
    }
    // "or a 65,536th block in 0x30,"
    if draft.kind == MESSAGE && draft.blocks >= MOST_BLOCKS {
        return refuse(OUT_OF_RANGE, 0, draft);
    }
    // 17 too for a number that the ID word's upper half cannot hold.
    if upper > 0xFFFF {
        return refuse(OUT_OF_RANGE, 0, draft);
    }
    // "then 15 for a time out of form (and 17 for a time that isn't zero where
    // none is stored),"
    // Request 2: "3 time"
    let has_time = draft.rule != RULE_NONE;
    if has_time && !time_is_good(draft.rule, time) {
        return refuse_body(REASON_TIME, draft);
    }
    if !has_time && time != 0 {
        return refuse(OUT_OF_RANGE, 0, draft);
    }
    // "then 16", with the room for the whole body.
    let time_length = if has_time { 8 } else { 0 };
    let pad = bytes.len() % 2;
    let used = draft.used as usize;
    let new_used = used + time_length + 4 + bytes.len() + pad;
    if new_used > buf.len() {
        return refuse(NO_ROOM, new_used as u64, draft);
    }

    // "a time stamp of 8 bytes [...], an ID word of 4, then n bytes, then one
    // zero pad byte if n is odd"
    let id_at = used + time_length;
    let bytes_at = id_at + 4;
    let pad_at = bytes_at + bytes.len();
    put_number(buf, used, time_length, time);
    put_number(buf, id_at, 4, (upper << 16) | bytes.len() as u64);
    buf[bytes_at..pad_at].copy_from_slice(bytes);
    if pad == 1 {
        buf[pad_at] = 0;
    }
    done(Draft {
        used: new_used as u64,
        // The count goes up by one with each block, modulo 2^64.
        blocks: draft.blocks.wrapping_add(1),
        kind: draft.kind,
        rule: draft.rule,
    })
}

/// "closes (writing the counter in 0x30, nothing in 0x50)".
pub fn close(draft: Draft, buf: &mut [u8]) -> (Refusal, Draft) {
    // "Closing: 1,"
    if state_is_bad(draft, buf) {
        return refuse(OUTSIDE_BUFFER, 0, draft);
    }
    // "then 15 where the used count is 4 (no block)."
    // Request 2: "7 body ends where a block must begin"
    if draft.used == CHANNEL_WORD_LENGTH as u64 {
        return refuse_body(REASON_NO_BLOCK, draft);
    }
    // "the counter (bits 15-0)" of the channel word.
    if draft.kind == MESSAGE {
        put_number(buf, 0, 2, draft.blocks);
    }
    done(draft)
}
