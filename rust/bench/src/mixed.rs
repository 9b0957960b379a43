//! A recording of packets of different types, lengths, flags and sums, in an order without a pattern.
use crate::bodies::{self, add_block, packet, Noise};
use ch11::raw;

const KINDS: [u8; 9] = [0x09, 0x40, 0x19, 0x11, 0x01, 0x30, 0x50, 0x30, 0x50];

/// Packets one behind the other, as many as it takes to reach this length, and their number.
pub fn mixed(length: usize) -> (Vec<u8>, usize) {
    let mut noise = Noise::new();
    let mut recording = Vec::new();
    let mut packets = 0;
    while recording.len() < length {
        let kind = KINDS[noise.below(KINDS.len())];
        let flags = flags(&mut noise);
        let body = match kind {
            0x30 => message_body(&mut noise, flags),
            0x50 => uart_body(&mut noise, flags),
            _ => carried_body(&mut noise),
        };
        let fields = fields(&mut noise, kind, flags);
        recording.extend(packet(&fields, &body));
        packets += 1;
    }
    (recording, packets)
}

/// Any flags that the rules allow, half of them with a secondary header.
fn flags(noise: &mut Noise) -> u8 {
    let headers = [0x00, 0x00, 0x80, 0xC0][noise.below(4)];
    let format = [0x00, 0x04, 0x08][noise.below(3)];
    let carried = [0x00, 0x10, 0x20][noise.below(3)];
    headers | carried | format | noise.below(4) as u8
}

fn fields(noise: &mut Noise, kind: u8, flags: u8) -> raw::Fields {
    let secondary = flags & 0x80 != 0;
    raw::Fields {
        channel: 1 + noise.below(50) as u64,
        version: 1 + noise.below(9) as u64,
        sequence: noise.below(256) as u64,
        rtc: noise.next() >> 16,
        time: if secondary {
            absolute_time(noise, flags)
        } else {
            0
        },
        ..bodies::fields(flags, kind, 0)
    }
}

/// A time in the form that the flags' time format calls for.
fn absolute_time(noise: &mut Noise, flags: u8) -> u64 {
    let time = noise.next();
    match flags >> 2 & 3 {
        0 => time >> 16 << 16,
        1 => (time >> 32 << 32) + (time & 0xFFFF_FFFF) % 1_000_000_000,
        _ => time,
    }
}

fn message_time(noise: &mut Noise, flags: u8) -> u64 {
    if flags & 0x40 != 0 {
        absolute_time(noise, flags)
    } else {
        noise.next() >> 16
    }
}

/// 1 to 2,000 bytes, short bodies as often as long ones.
fn carried_body(noise: &mut Noise) -> Vec<u8> {
    let limit = [8, 64, 500, 2_000][noise.below(4)];
    let length = 1 + noise.below(limit);
    noise.bytes(length)
}

/// A 0x30 body: 1 to 20 complete messages, or one block of the other three types.
fn message_body(noise: &mut Noise, flags: u8) -> Vec<u8> {
    let (form, counter, blocks) = match noise.below(6) {
        0 => (1, 1, 1),
        1 => (2 + noise.below(2), 2 + noise.below(9), 1),
        _ => {
            let blocks = 1 + noise.below(20);
            (0, blocks, blocks)
        }
    };
    let word = (form << 16 | counter) as u32;
    blocks_behind(noise, word, blocks, Some(flags))
}

/// A 0x50 body of 1 to 20 messages, with times or without.
fn uart_body(noise: &mut Noise, flags: u8) -> Vec<u8> {
    let (word, stamps) = [(0, None), (0x8000_0000, Some(flags))][noise.below(2)];
    let blocks = 1 + noise.below(20);
    blocks_behind(noise, word, blocks, stamps)
}

/// A body of this channel word and so many blocks, with times by these flags or without.
fn blocks_behind(noise: &mut Noise, word: u32, blocks: usize, stamps: Option<u8>) -> Vec<u8> {
    let mut body = word.to_le_bytes().to_vec();
    for _ in 0..blocks {
        let time = stamps.map(|flags| message_time(noise, flags));
        let length = 1 + noise.below(90);
        let bytes = noise.bytes(length);
        add_block(&mut body, time, &bytes);
    }
    body
}
