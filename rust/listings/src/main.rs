//! Compares the listing program with the second program's listing: `listings COUNT COMMAND..` runs COMMAND with each of COUNT inputs on
//! its standard input and compares the whole of its standard output.

#![forbid(unsafe_code)]

use generate::hex;
use generate::random::Random;
use generate::recording::listing_input;
use std::io::{self, Write};
use std::process::{exit, Command, Output, Stdio};
use std::thread;

/// Runs the command with this standard input; a command that ends before it has read all is no fault.
fn run(command: &[String], input: &[u8]) -> io::Result<Output> {
    let mut child = Command::new(&command[0])
        .args(&command[1..])
        .stdin(Stdio::piped())
        .stdout(Stdio::piped())
        .spawn()?;
    let mut stdin = child.stdin.take().expect("it is piped");
    let fed = input.to_vec();
    let feeder = thread::spawn(move || stdin.write_all(&fed));
    let output = child.wait_with_output()?;
    match feeder.join().expect("writing doesn't panic") {
        Err(error) if error.kind() != io::ErrorKind::BrokenPipe => Err(error),
        _ => Ok(output),
    }
}

/// The first lines of a text from the first that differs from another text.
fn from_difference(text: &[u8], other: &[u8]) -> String {
    let same = text.iter().zip(other).take_while(|(a, b)| a == b).count();
    let line = text[..same]
        .iter()
        .rposition(|byte| *byte == b'\n')
        .map_or(0, |at| at + 1);
    let shown = &text[line..text.len().min(line + 200)];
    format!(
        "at byte {} of {}: {:?}",
        same,
        text.len(),
        String::from_utf8_lossy(shown)
    )
}

/// Whether the command's output for this input is the second program's; a command that fails never passes.
fn is_same(command: &[String], number: u64, input: &[u8]) -> io::Result<bool> {
    let output = run(command, input)?;
    let expected = second::listing(input);
    let same = output.stdout == expected && output.status.success();
    if !same {
        println!("difference in listing {} ({})", number, output.status);
        println!("  input:    {}", hex(input));
        println!("  command:  {}", from_difference(&output.stdout, &expected));
        println!("  expected: {}", from_difference(&expected, &output.stdout));
    }
    Ok(same)
}

fn main() {
    let arguments: Vec<String> = std::env::args().skip(1).collect();
    let count = arguments.first().and_then(|text| text.parse().ok());
    let count: u64 = match count {
        Some(count) if arguments.len() > 1 => count,
        _ => {
            eprintln!("usage: listings COUNT COMMAND..");
            exit(2)
        }
    };
    let mut random = Random::new(106);
    let mut differences = 0;
    for number in 0..count {
        let input = listing_input(&mut random, number);
        match is_same(&arguments[1..], number, &input) {
            Ok(same) => differences += u64::from(!same),
            Err(error) => {
                eprintln!("listings: {}: {}", arguments[1], error);
                exit(1)
            }
        }
    }
    println!("compared {} listings, {} differences", count, differences);
    if differences > 0 || count == 0 {
        exit(1);
    }
}
