//! Makes a recording to measure with, on standard output: `make KIND BYTES`, at least so many bytes.
//!
//! Kinds: `uart`, packets of 40 bytes with one message; `mixed`, packets of nine types, lengths and sums; `sums`, packets of 512 KiB with
//! 32-bit sums; `plain`, the same without sums; `setup`, packets of type 0x01 of 134,217,728 bytes with 32-bit sums.

use ch11::{Draft, Fields, TimeRule, MESSAGE, UART};
use generate::random::Random;
use std::error::Error;
use std::io::{self, Write};

/// The longest packet of every type but 0x01, and of type 0x01.
const LONGEST: usize = 524_288;
const LONGEST_SETUP: usize = 134_217_728;

/// How many bytes of mixed packets there are before they repeat.
const MIXED: usize = 64 << 20;

/// The packet of these fields and this body.
fn packet(fields: &Fields, body: &[u8]) -> Result<Vec<u8>, ch11::Refusal> {
    let mut out = vec![0; body.len() + 44];
    let length = ch11::write_packet(fields, body, &mut out)?;
    out.truncate(length);
    Ok(out)
}

fn fields(kind: u8, flags: u8) -> Fields {
    Fields {
        channel: 1,
        version: 6,
        flags,
        kind,
        rtc: 0x1234_5678_9ABC,
        ..Fields::default()
    }
}

/// A body of up to 20 messages of up to 90 bytes.
fn messages(random: &mut Random, kind: u8, rule: TimeRule) -> Result<Vec<u8>, ch11::Refusal> {
    let mut body = vec![0; 4_096];
    let mut draft = Draft::new().open(&mut body, kind, rule)?;
    for _ in 0..1 + random.index(20) {
        let length = 1 + random.index(90);
        let time = match rule {
            TimeRule::None => 0,
            _ => random.bits() >> 16,
        };
        draft = draft.add(&mut body, time, 0, &random.bytes(length))?;
    }
    let used = draft.close(&mut body)?;
    body.truncate(used);
    Ok(body)
}

/// Packets of different types, lengths, flags and sums, in an order without a pattern.
fn mixed() -> Result<Vec<u8>, ch11::Refusal> {
    let mut random = Random::new(11);
    let mut recording = Vec::new();
    while recording.len() < MIXED {
        let kind = random.choose(&[0x09, 0x40, 0x19, 0x11, 0x01, MESSAGE, UART, MESSAGE, UART]);
        let body = match kind {
            MESSAGE => messages(&mut random, kind, TimeRule::Counter)?,
            UART => {
                let rule = random.choose(&[TimeRule::None, TimeRule::Counter]);
                messages(&mut random, kind, rule)?
            }
            _ => {
                let limit = random.choose(&[8, 64, 500, 2_000]);
                let length = 1 + random.index(limit);
                random.bytes(length)
            }
        };
        let flags = random.choose(&[0x00, 0x08, 0x80, 0x88]) | random.below(4) as u8;
        let time = if flags & 0x80 == 0 {
            0
        } else {
            random.bits() >> 16 << 16
        };
        let fields = Fields {
            time,
            ..fields(kind, flags)
        };
        recording.extend(packet(&fields, &body)?);
    }
    Ok(recording)
}

/// The packets that a recording of this kind repeats.
fn piece(kind: &str) -> Result<Vec<u8>, Box<dyn Error>> {
    let mut random = Random::new(106);
    Ok(match kind {
        "uart" => packet(&fields(UART, 2), b"\0\0\0\0\x03\0\0\0ABC\0")?.repeat(26_214),
        "mixed" => mixed()?,
        "sums" => packet(&fields(0x40, 3), &random.bytes(LONGEST - 28))?,
        "plain" => packet(&fields(0x40, 0), &random.bytes(LONGEST - 24))?,
        "setup" => packet(&fields(0x01, 3), &random.bytes(LONGEST_SETUP - 28))?,
        _ => return Err("kinds: uart, mixed, sums, plain, setup".into()),
    })
}

fn main() -> Result<(), Box<dyn Error>> {
    let arguments: Vec<String> = std::env::args().skip(1).collect();
    let (kind, bytes) = match &arguments[..] {
        [kind, bytes] => (kind, bytes.parse::<u64>()?),
        _ => return Err("usage: make KIND BYTES".into()),
    };
    let piece = piece(kind)?;
    let mut out = io::stdout().lock();
    let mut written = 0;
    while written < bytes {
        out.write_all(&piece)?;
        written += piece.len() as u64;
    }
    Ok(())
}
