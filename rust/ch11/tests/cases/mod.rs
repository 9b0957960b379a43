//! The two packets that the tests are made of, and the table of what is expected of them.

/// Case L of document 01: a UART packet of 40 bytes with one message, "ABC".
pub const L: [u8; 40] = [
    0x25, 0xEB, 0x01, 0x00, 0x28, 0x00, 0x00, 0x00, // sync, channel 1, P = 40
    0x0C, 0x00, 0x00, 0x00, 0x06, 0x00, 0x02,
    0x50, // D = 12, version 6, sequence 0, flags, type
    0x01, 0x00, 0x00, 0x00, 0x00, 0x00, 0x63, 0x3B, // RTC 1, header sum
    0x00, 0x00, 0x00, 0x00, 0x03, 0x00, 0x00, 0x00, // channel word without times, ID word
    b'A', b'B', b'C', 0x00, 0x00, 0x00, 0x87, 0x42, // bytes, pad, filler of 2, sum of 2
];

/// Case M, whose fields are as different from each other as can be: a message packet of 80 bytes
/// with secondary header, absolute IEEE 1588 times, two messages, filler and a 32-bit sum.
pub const M: [u8; 80] = [
    0x25, 0xEB, 0x34, 0x12, 0x50, 0x00, 0x00, 0x00, // sync, channel 0x1234, P = 80
    0x26, 0x00, 0x00, 0x00, 0x05, 0xC9, 0xC7, 0x30, // D = 38, version, sequence, flags, type
    0x0F, 0x0E, 0x0D, 0x0C, 0x0B, 0x0A, 0xC2, 0x1B, // RTC, header sum
    0x07, 0x06, 0x05, 0x04, 0x03, 0x02, 0x01, 0x00, // secondary time: low, high
    0x00, 0x00, 0x10, 0x0C, 0x02, 0x00, 0x00, 0x00, // reserved, secondary sum; channel word
    0x20, 0x00, 0x00, 0x00, 0x10, 0x00, 0x00, 0x00, // block 0 at 40: time
    0x03, 0x00, 0xCD, 0xAB, b'a', b'b', b'c', 0x00, // ID word, bytes at 52, pad
    0x21, 0x00, 0x00, 0x00, 0x11, 0x00, 0x00, 0x00, // block 1 at 56: time
    0x05, 0x00, 0x76, 0x98, b'v', b'w', b'x', b'y', // ID word, bytes at 68
    b'z', 0x00, 0x00, 0x00, 0xBD, 0xDA, 0x1E, 0xBE, // last byte, pad; filler of 2, sum of 4
];

/// A packet of this length, over 24: channel 3, version 1, a body that is carried, no sum. The eleven
/// words of its header add up to 0x2B29 and its two lengths.
pub fn carried(length: u16) -> Vec<u8> {
    let words = [0xEB25, 3, length, 0, length - 24, 0, 1, 0x4000, 0, 0, 0];
    let sum = [0x2B29 + length + (length - 24)];
    let header = words.iter().chain(&sum).flat_map(|word| word.to_le_bytes());
    let body = (24..length).map(|at| 1 + (37 * u32::from(at) % 255) as u8);
    header.chain(body).collect()
}

/// The place of M in `recording()`.
pub const M_AT: usize = 100;

/// The end of the third packet in `recording()`.
pub const FILLED: usize = 260;

/// 100 bytes that are no packet, M at 100, L at 180, L at 220, then from 260 an L whose data sum is
/// wrong.
pub fn recording() -> Vec<u8> {
    let mut buf = vec![0xEE; M_AT];
    buf.extend(M);
    buf.extend(L);
    buf.extend(L);
    buf.extend(L);
    buf[FILLED + 32] = 0x40;
    buf
}

/// The place of the second packet in `faulty()`.
pub const FAULTY_AT: usize = 40;

/// L, then from 40 an L whose pad byte is not zero; its data sum is right.
pub fn faulty() -> Vec<u8> {
    let mut buf = [L, L].concat();
    buf[FAULTY_AT + 35] = 0x01;
    buf[FAULTY_AT + 39] = 0x43;
    buf
}

/// Where L, M in `recording()` and the first byte of `faulty()` stand in their recordings: L as far
/// on as can be.
pub const L_BASE: u64 = u64::MAX - 40;
pub const M_BASE: u64 = 700_000_000_000;
pub const FAULTY_BASE: u64 = 5000;

/// The C header.
pub const HEADER: &str = include_str!("../../../../include/ch11.h");

/// What is expected of the structs, field by field; the table itself says how it is read.
const TABLE: &str = include_str!("../../../../tests/fields.h");

/// The struct of a case of the table as `{:?}` shows it, each of its numbers as `word` has it.
pub fn shown(case: &str, word: &mut dyn FnMut(u64) -> u64) -> String {
    let (mut kind, mut column, mut fields, mut slots) = ("", None, Vec::new(), Vec::new());
    for line in TABLE.lines() {
        let words = line
            .split(['(', ',', ' ', ')'])
            .filter(|word| !word.is_empty());
        match (&words.collect::<Vec<_>>()[..], column) {
            (["STRUCT", name, cases @ ..], None) => {
                (kind, column) = (name, cases.iter().position(|name| *name == case));
            }
            (["WORD", name, values @ ..], Some(column)) => {
                fields.push(format!("{name}: {}", word(number(values[column]))));
            }
            (["HOLDS", name, _, values @ ..], Some(column)) => {
                fields.push(format!("{name}: {}", shown(values[column], word)));
            }
            (["SLOTS", first, behind, _, values @ ..], Some(column)) => {
                slots.extend((number(first)..number(behind)).map(|_| shown(values[column], word)));
            }
            (["END"], Some(_)) => break,
            _ => {}
        }
    }
    assert!(column.is_some(), "no case {case} in the table");
    if !slots.is_empty() {
        fields.push(format!("slots: [{}]", slots.join(", ")));
    }
    let name = kind[..1].to_uppercase() + &kind[1..];
    // `type` is a word of Rust's own.
    format!("{name} {{ {} }}", fields.join(", ")).replace("type:", "kind:")
}

fn number(text: &str) -> u64 {
    let hex = text.strip_prefix("0x");
    hex.map_or(text.parse(), |digits| u64::from_str_radix(digits, 16))
        .expect("a number")
}
