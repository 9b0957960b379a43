//! The verified library against the same method in Rust.
//!
//!     bench [rounds] [where it runs]            checks that both sides agree and prints the table of times
//!     bench count <input> <side> <passes>       passes over one input on one side, for a counter of instructions
//!     bench inputs                              prints each input's name, how many packets one pass goes over, and whether a read-only
//!                                               pass is a measure for it (`read` or `-`)
//!     bench compiler                            prints the compiler that made it
//!
//! Sides are `library`, `rust` and `read`.
mod aligned;
mod as_raw;
mod bodies;
mod check;
mod check_renewal;
mod inputs;
mod kept;
mod library;
mod mixed;
mod same;
mod sides;
mod timing;

use inputs::{Input, INPUTS};
use sides::{Lent, Side};
use std::env;
use timing::Medians;

const ROUNDS: usize = 31;

fn main() {
    let arguments: Vec<String> = env::args().skip(1).collect();
    match arguments.first().map(String::as_str) {
        Some("count") => count(&arguments[1..]),
        Some("inputs") => list_inputs(),
        Some("compiler") => println!("{}", compiler()),
        _ => table(&arguments),
    }
}

/// Makes the passes that the arguments ask for.
fn count(arguments: &[String]) {
    let (_, make) = INPUTS
        .iter()
        .find(|(name, _)| *name == arguments[0])
        .expect("an input's name");
    let side = Side::named(&arguments[1]).expect("library, rust or read");
    let passes = arguments[2].parse().expect("a number of passes");
    let input = make("counted");
    sides::run(side, &input, &mut Lent::to(&input), passes);
}

fn list_inputs() {
    for (name, make) in INPUTS {
        let input = make(name);
        let read_only = if input.reads_through() { "read" } else { "-" };
        println!("{} {} {}", name, input.units(), read_only);
    }
}

/// Checks and times every input.
fn table(arguments: &[String]) {
    let rounds = arguments
        .first()
        .map_or(ROUNDS, |rounds| rounds.parse().expect("a number of rounds"));
    let place = arguments.get(1).map_or("not said", String::as_str);
    print_heading(rounds, place);
    for (name, make) in INPUTS {
        let input = make(name);
        check::check(&input);
        print_line(&input, &timing::measure(&input, rounds));
    }
    check_renewal::check_others();
    check::all_refusals_seen();
}

fn compiler() -> String {
    format!(
        "{}, target {}, opt level {}",
        env!("BENCH_RUSTC"),
        env!("BENCH_TARGET"),
        env!("BENCH_OPT_LEVEL")
    )
}

fn print_heading(rounds: usize, place: &str) {
    println!("Rust by {}", compiler());
    println!("runs: {}", place);
    println!(
        "medians of {} rounds, for one pass; ratio = library / Rust; GB/s = 10^9 bytes of input each second",
        rounds
    );
    println!("(512K-none: neither side reads the body, so its GB/s are no speed of reading)");
    println!();
    println!("input               bytes packets   library us      Rust us  ratio  lib GB/s Rust GB/s read GB/s");
}

fn print_line(input: &Input, medians: &Medians) {
    let bytes = input.bytes().len() * input.calls;
    let speed = |seconds: f64| bytes as f64 / seconds / 1e9;
    println!(
        "{:<16} {:>8} {:>7} {:>12.3} {:>12.3} {:>6.2} {:>9.3} {:>9.3} {:>9.3}",
        input.name,
        bytes,
        input.units(),
        medians.library * 1e6,
        medians.rust * 1e6,
        medians.library / medians.rust,
        speed(medians.library),
        speed(medians.rust),
        speed(medians.read_only)
    );
}
