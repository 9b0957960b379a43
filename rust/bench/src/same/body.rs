//! Opened bodies: the channel word, the walk over the blocks, and the messages of a body that the walk has passed.
use super::rules::TimeRule;
use super::units::{read32, read64};

/// What the channel word says of the blocks: whether each has a time stamp, and how many there are (if it says so).
#[derive(Clone, Copy)]
struct Shape {
    stamped: bool,
    count: Option<usize>,
}

/// What the head of a block says: its time (0 if none is stored), its ID word, and its number of bytes.
#[derive(Clone, Copy)]
pub struct Head {
    pub time: u64,
    pub id: u32,
    pub length: usize,
}

/// One message, its start counted from the body's first byte.
pub struct Message {
    pub head: Head,
    pub start: usize,
}

/// What the walk over a body comes to: reason 0 and the number of messages, or the reason of the first fault and its place in the body.
pub struct Walked {
    pub reason: u8,
    pub number: usize,
}

/// The walk over a body of an opened type.
#[cfg_attr(feature = "inlined", inline(always))]
pub fn walk_body(body: &[u8], kind: u8, flags: u8) -> Walked {
    match open_body(body, kind) {
        Some(shape) => count_blocks(body, shape, TimeRule::of_messages(flags)),
        None => Walked {
            reason: 1,
            number: 0,
        },
    }
}

/// The messages of a body that passed `walk_body`; none in a type that isn't opened.
pub fn messages(body: &[u8], kind: u8) -> impl Iterator<Item = Message> + '_ {
    let (stamped, mut rest) = if is_opened(kind) {
        (has_stamps(body, kind), &body[4..])
    } else {
        (false, &body[..0])
    };
    std::iter::from_fn(move || {
        let (head, bytes) = block_head(rest, stamped)?;
        let start = body.len() - bytes.len();
        rest = &bytes[head.length + head.length % 2..];
        Some(Message { head, start })
    })
}

/// Whether the blocks of an opened body have time stamps.
fn has_stamps(body: &[u8], kind: u8) -> bool {
    kind == 0x30 || read32(body, 0) >> 31 != 0
}

/// Whether a type is opened.
pub fn is_opened(kind: u8) -> bool {
    kind == 0x30 || kind == 0x50
}

/// What the channel word says, or nothing if it is wrong.
fn open_body(body: &[u8], kind: u8) -> Option<Shape> {
    let word = read32(body.get(..4)?, 0);
    if kind == 0x30 {
        message_shape(word)
    } else {
        uart_shape(word)
    }
}

/// 0x30: the type in bits 17-16 and the counter below it.
fn message_shape(word: u32) -> Option<Shape> {
    let counter = word & 0xFFFF;
    let count = match word >> 16 {
        0 if counter > 0 => counter as usize,
        1 if counter == 1 => 1,
        2 | 3 if counter > 1 => 1,
        _ => return None,
    };
    Some(Shape {
        stamped: true,
        count: Some(count),
    })
}

/// 0x50: bit 31 says whether blocks have time stamps.
fn uart_shape(word: u32) -> Option<Shape> {
    if word & 0x7FFF_FFFF != 0 {
        return None;
    }
    Some(Shape {
        stamped: word != 0,
        count: None,
    })
}

/// The number of blocks behind the channel word, or the first fault.
fn count_blocks(body: &[u8], shape: Shape, rule: TimeRule) -> Walked {
    let most = shape.count.unwrap_or(usize::MAX);
    let mut rest = &body[4..];
    let mut blocks = 0;
    while blocks < most {
        rest = match behind_block(rest, shape.stamped, rule) {
            Some(behind) => behind,
            None => {
                let number = body.len() - rest.len();
                let reason = broken_rule(&body[number..], shape.stamped, rule);
                return Walked { reason, number };
            }
        };
        blocks += 1;
        if rest.is_empty() {
            break;
        }
    }
    if rest.is_empty() && (blocks == most || shape.count.is_none()) {
        return Walked {
            reason: 0,
            number: blocks,
        };
    }
    Walked {
        reason: if rest.is_empty() { 7 } else { 6 },
        number: body.len() - rest.len(),
    }
}

/// What follows the block at the first byte, or nothing if it breaks the layout.
fn behind_block(block: &[u8], stamped: bool, rule: TimeRule) -> Option<&[u8]> {
    let (head, bytes) = block_head(block, stamped)?;
    let behind = bytes.get(head.length..)?;
    if !rule.admits(head.time) || head.length == 0 {
        return None;
    }
    if head.length % 2 == 0 {
        return Some(behind);
    }
    match behind.split_first() {
        Some((0, next)) => Some(next),
        _ => None,
    }
}

/// Why the block at the first byte breaks the layout: 7 where there is none, else the lowest of 2 to 5. A second look, which a sound body
/// does without.
#[cold]
fn broken_rule(block: &[u8], stamped: bool, rule: TimeRule) -> u8 {
    match block_head(block, stamped) {
        None if block.is_empty() => 7,
        None => 2,
        Some((head, bytes)) if bytes.len() < head.length + head.length % 2 => 2,
        Some((head, _)) if !rule.admits(head.time) => 3,
        Some((head, _)) if head.length == 0 => 4,
        Some(_) => 5,
    }
}

/// The head of a block and what follows it, if there is so much.
fn block_head(block: &[u8], stamped: bool) -> Option<(Head, &[u8])> {
    let head_length = if stamped { 12 } else { 4 };
    if block.len() < head_length {
        return None;
    }
    let (head, bytes) = block.split_at(head_length);
    let id = read32(head, head_length - 4);
    let head = Head {
        time: if stamped { read64(head, 0) } else { 0 },
        id,
        length: (id & 0xFFFF) as usize,
    };
    Some((head, bytes))
}
