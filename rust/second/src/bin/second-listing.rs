//! The listing program: reads standard input and writes the listing.

#![forbid(unsafe_code)]

use std::io::{self, Read, Write};

use second::{listing, LONGEST_INPUT};

/// Reads one byte more than the longest input at most: that byte is enough to
/// know that there is more.
fn run() -> io::Result<()> {
    let mut input = Vec::new();
    let most = LONGEST_INPUT as u64 + 1;
    io::stdin().lock().take(most).read_to_end(&mut input)?;
    let mut output = io::stdout();
    output.write_all(&listing(&input))?;
    output.flush()
}

fn main() {
    if let Err(error) = run() {
        eprintln!("second-listing: {}", error);
        std::process::exit(1);
    }
}
