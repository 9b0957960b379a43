//! Opened bodies: the layout of types 0x30 and 0x50.

use crate::rules::*;

/// The length of the channel word, with which both bodies start.
pub const CHANNEL_WORD_LENGTH: usize = 4;

/// One block as read. `start` and `end` are counted from the body's first byte.
#[derive(Clone, Copy, Debug)]
pub struct Block {
    /// The time, 0 if none is stored.
    pub time: u64,
    /// The ID word.
    pub id: u64,
    /// Where the n bytes start.
    pub start: usize,
    /// n.
    pub length: usize,
    /// The end of the block, behind the pad byte if there is one.
    pub end: usize,
}

/// What is wrong with a body: the place, counted from the body's first byte,
/// and the reason. The place is "the channel word or the first byte of the
/// block at fault (or of the bytes left over, or where a missing block should
/// begin)".
#[derive(Clone, Copy, Debug)]
pub struct Fault {
    pub at: usize,
    pub reason: u64,
}

/// "Bodies of type 0x30 (Message) and 0x50 (UART) are opened."
pub fn is_opened(kind: u64) -> bool {
    kind == MESSAGE || kind == UART
}

/// The blocks of a body, or its first fault from the front. A type that isn't
/// opened has no blocks and no faults.
pub fn read_body(kind: u64, rule: u64, body: &[u8]) -> Result<Vec<Block>, Fault> {
    if !is_opened(kind) {
        return Ok(Vec::new());
    }
    // Request 2: "1 channel word (or under 4 bytes)"
    if body.len() < CHANNEL_WORD_LENGTH {
        return fault(0, REASON_CHANNEL_WORD);
    }
    let channel_word = number_at(body, 0, CHANNEL_WORD_LENGTH);
    if !channel_word_is_good(kind, channel_word) {
        return fault(0, REASON_CHANNEL_WORD);
    }
    walk(kind, channel_word, rule, body)
}

/// A fault as an answer.
fn fault<T>(at: usize, reason: u64) -> Result<T, Fault> {
    Err(Fault { at, reason })
}

/// The rules of the channel word, its counter included.
fn channel_word_is_good(kind: u64, channel_word: u64) -> bool {
    // "bits 30-0 of the channel word are zero"
    if kind == UART {
        return channel_word & 0x7FFF_FFFF == 0;
    }
    // "bits 31-18 of the channel word are zero"
    if channel_word >> 18 != 0 {
        return false;
    }
    let counter = counter(channel_word);
    match message_type(channel_word) {
        // "Type (bits 17-16) 00: the counter (bits 15-0) is the number of
        // blocks, at least 1."
        0 => counter >= 1,
        // "Type 01: one block, counter 1."
        1 => counter == 1,
        // "Types 10 and 11: one block, counter at least 2."
        _ => counter >= 2,
    }
}

/// "Type (bits 17-16)", in 0x30.
fn message_type(channel_word: u64) -> u64 {
    (channel_word >> 16) & 3
}

/// "the counter (bits 15-0)", in 0x30.
fn counter(channel_word: u64) -> u64 {
    channel_word & 0xFFFF
}

/// Whether the blocks have a time stamp: "always in 0x30; in 0x50 only if bit
/// 31 of the channel word is set".
fn has_time(kind: u64, channel_word: u64) -> bool {
    kind == MESSAGE || channel_word >> 31 == 1
}

/// How many blocks a body must have at least. In 0x30 it must have no more
/// either: "the counter (bits 15-0) is the number of blocks", or "one block".
/// In 0x50: "One or more blocks".
fn blocks_due(kind: u64, channel_word: u64) -> u64 {
    if kind == MESSAGE && message_type(channel_word) == 0 {
        counter(channel_word)
    } else {
        1
    }
}

/// The block walk, behind a good channel word. It stops at the first block at
/// fault.
fn walk(kind: u64, channel_word: u64, rule: u64, body: &[u8]) -> Result<Vec<Block>, Fault> {
    let has_time = has_time(kind, channel_word);
    let due = blocks_due(kind, channel_word);
    let mut blocks = Vec::new();
    let mut at = CHANNEL_WORD_LENGTH;
    // In 0x50 the blocks go on "to the end of the body".
    while (blocks.len() as u64) < due || (kind == UART && at < body.len()) {
        let block = read_block(body, at, has_time, rule)?;
        blocks.push(block);
        at = block.end;
    }
    // "the bytes left over", in 0x30 alone: in 0x50 the walk is at the end.
    // Request 2: "6 bytes after the counted blocks"
    if at != body.len() {
        return fault(at, REASON_BYTES_AFTER);
    }
    Ok(blocks)
}

/// The block that must begin at `at` (at most the body's length), or its fault:
/// "a time stamp of 8 bytes [...], an ID word of 4, then n bytes, then one zero
/// pad byte if n is odd". The tests stand in the order of their numbers, save 7,
/// since then there is no block. Request 2: "For a block that breaks several,
/// the lowest number from 2 to 5 wins."
fn read_block(body: &[u8], at: usize, has_time: bool, rule: u64) -> Result<Block, Fault> {
    // Request 2: "7 body ends where a block must begin"
    if at == body.len() {
        return fault(at, REASON_NO_BLOCK);
    }
    // Request 2: "2 block cut short": in the time stamp or the ID word,
    let time_length = if has_time { 8 } else { 0 };
    if body.len() - at < time_length + 4 {
        return fault(at, REASON_CUT_SHORT);
    }
    let time = number_at(body, at, time_length);
    let id = number_at(body, at + time_length, 4);
    let start = at + time_length + 4;
    // or in the n bytes or ahead of the pad byte. "n is bits 15-0 of the ID
    // word"
    let length = (id & 0xFFFF) as usize;
    let pad = length % 2;
    if body.len() - start < length + pad {
        return fault(at, REASON_CUT_SHORT);
    }
    // Request 2: "3 time"
    if has_time && !time_is_good(rule, time) {
        return fault(at, REASON_TIME);
    }
    // Request 2: "4 length zero"; "n = 0 is refused"
    if length == 0 {
        return fault(at, REASON_LENGTH_ZERO);
    }
    // Request 2: "5 pad not zero"
    if pad == 1 && body[start + length] != 0 {
        return fault(at, REASON_PAD);
    }
    Ok(Block {
        time,
        id,
        start,
        length,
        end: start + length + pad,
    })
}
