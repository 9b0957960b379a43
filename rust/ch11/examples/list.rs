//! Lists a recording: channel, type and length of each packet, and the messages in it.
//!
//! Usage: `list FILE`

use std::error::Error;
use std::io::{self, Write};
use std::process::ExitCode;

/// Prints the packets of a recording up to the first that is refused.
fn list(recording: &[u8]) -> Result<(), Box<dyn Error>> {
    let mut out = io::stdout().lock();
    let end = recording.len();
    for packet in ch11::packets(recording, 0, end, 0) {
        let packet = packet?;
        let (channel, kind, length) = (packet.fields.channel, packet.fields.kind, packet.length);
        writeln!(out, "channel {channel} type {kind:#04x} length {length}")?;
        for message in ch11::messages(recording, packet.header.at, end, packet.recording_place)? {
            writeln!(out, "  {}", message.escape_ascii())?;
        }
    }
    Ok(())
}

fn run() -> Result<(), Box<dyn Error>> {
    let path = std::env::args_os().nth(1).ok_or("usage: list FILE")?;
    list(&std::fs::read(path)?)
}

fn main() -> ExitCode {
    match run() {
        Ok(()) => ExitCode::SUCCESS,
        Err(error) => {
            eprintln!("{error}");
            ExitCode::FAILURE
        }
    }
}
