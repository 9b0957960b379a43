//! How fast the library reads a recording that is in memory already: `in_memory FILE [TIMES]` reads the file, then times `read_recording`
//! alone. `ch11 check` is measured against it.

use std::error::Error;
use std::fs;
use std::io::{self, Write};
use std::time::Instant;

fn main() -> Result<(), Box<dyn Error>> {
    let mut arguments = std::env::args_os().skip(1);
    let path = arguments.next().ok_or("usage: in_memory FILE [TIMES]")?;
    let times = match arguments.next() {
        Some(times) => times.to_string_lossy().parse()?,
        None => 5,
    };
    let recording = fs::read(path)?;
    let mut out = io::stdout().lock();
    for _ in 0..times {
        let start = Instant::now();
        let read = ch11::read_recording(&recording, 0, recording.len(), 0);
        let seconds = start.elapsed().as_secs_f64();
        let speed = read.recording_reached as f64 / seconds / 1e9;
        let packets = read.accepted;
        writeln!(out, "{packets} packets, {seconds:.4} s, {speed:.3} GB/s")?;
    }
    Ok(())
}
