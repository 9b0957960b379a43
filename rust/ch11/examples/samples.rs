//! Makes the recordings in `samples/` with the library's own builder and writer.
//!
//! Usage: `samples FOLDER`

use ch11::{Draft, Fields, TimeRule, MESSAGE, UART};
use std::error::Error;
use std::fs;
use std::path::PathBuf;

/// Flag bits: a secondary header; absolute message times; IEEE 1588 times; data sums.
const SECONDARY: u8 = 0x80;
const ABSOLUTE: u8 = 0x40;
const IEEE_1588: u8 = 0x04;
const SUM_8: u8 = 1;
const SUM_16: u8 = 2;
const SUM_32: u8 = 3;

/// A message: its time and its bytes.
type Block = (u64, &'static [u8]);

/// The body of these messages.
fn body(kind: u8, rule: TimeRule, blocks: &[Block]) -> Result<Vec<u8>, Box<dyn Error>> {
    let mut buf = vec![0; 1000];
    let mut draft = Draft::new().open(&mut buf, kind, rule)?;
    for (time, bytes) in blocks {
        draft = draft.add(&mut buf, *time, 0, bytes)?;
    }
    let used = draft.close(&mut buf)?;
    buf.truncate(used);
    Ok(buf)
}

/// Writes a packet behind the recording so far; its sequence number and counter follow from its place.
fn record(
    recording: &mut Vec<u8>,
    number: u8,
    fields: Fields,
    body: &[u8],
) -> Result<(), Box<dyn Error>> {
    let fields = Fields {
        version: 6,
        sequence: number,
        rtc: 10_000_000 + u64::from(number) * 250_000,
        ..fields
    };
    let mut out = vec![0; 2000];
    let length = ch11::write_packet(&fields, body, &mut out)?;
    recording.extend_from_slice(&out[..length]);
    Ok(())
}

/// Fields of a channel, a type and flags, with a secondary time of whole seconds where bit 7 is set.
fn fields(channel: u16, kind: u8, flags: u8, seconds: u64) -> Fields {
    Fields {
        channel,
        kind,
        flags,
        time: seconds << 32,
        ..Fields::default()
    }
}

/// Seven packets of a made-up test flight.
fn flight() -> Result<Vec<u8>, Box<dyn Error>> {
    let counted: [Block; 2] = [(10_500_001, b"GEAR DOWN"), (10_500_417, b"FLAPS 20")];
    let absolute: [Block; 2] = [
        (1_794_740_400 << 32, b"$GPGGA"),
        (1_794_740_401 << 32, b"$GPRMC"),
    ];
    let messages = body(MESSAGE, TimeRule::Counter, &counted)?;
    let plain = body(UART, TimeRule::None, &[(0, b"ABC")])?;
    let stamped = body(UART, TimeRule::Ieee1588, &absolute)?;
    let set = SECONDARY | IEEE_1588;
    let mut all = Vec::new();
    record(
        &mut all,
        0,
        fields(0, 0x01, SUM_8, 0),
        b"\0\0\0\0G\\DSI\\N:2;",
    )?;
    record(
        &mut all,
        1,
        fields(1, 0x11, SUM_16, 0),
        b"\x11\0\0\0\x00\x12\x34\x12\x15\x11\x26\x20",
    )?;
    record(&mut all, 2, fields(7, MESSAGE, SUM_32, 0), &messages)?;
    record(&mut all, 3, fields(9, UART, SUM_16, 0), &plain)?;
    record(
        &mut all,
        4,
        fields(9, UART, set | ABSOLUTE | SUM_16, 1_794_740_400),
        &stamped,
    )?;
    record(
        &mut all,
        5,
        fields(12, 0x40, set, 1_794_740_401),
        &[0x47; 192],
    )?;
    record(&mut all, 6, fields(20, 0x09, SUM_32, 0), &[0x5A; 101])?;
    Ok(all)
}

fn main() -> Result<(), Box<dyn Error>> {
    let folder: PathBuf = std::env::args_os()
        .nth(1)
        .ok_or("usage: samples FOLDER")?
        .into();
    let flight = flight()?;
    // The recorder lost power in the last packet: 40 of its bytes are missing.
    let cut = &flight[..flight.len() - 40];
    // One byte of the fourth packet's message was altered behind the recorder.
    let mut altered = flight.clone();
    let message = flight.windows(3).position(|bytes| bytes == b"ABC");
    altered[message.ok_or("no message")?] = b'X';
    fs::write(folder.join("flight.ch11"), &flight)?;
    fs::write(folder.join("cut.ch11"), cut)?;
    fs::write(folder.join("altered.ch11"), &altered)?;
    Ok(())
}
