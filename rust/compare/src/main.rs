//! Compares every call of the C interface with the second program, on inputs made for the purpose: `compare CALLS [SEED]` goes through
//! the systematic inputs, then through rounds by chance until at least CALLS calls are compared, those of the renewal table not counted.

mod bases;
mod bodies;
mod building;
mod cases;
mod check;
mod elsewhere;
mod expected;
mod flaws;
mod large;
mod library;
mod renewal;
mod rounds;
mod systematic;
mod tally;

use generate::random::Random;
use std::process::exit;
use tally::Tally;

const USAGE: &str = "usage: compare CALLS [SEED]";

/// The number that an argument gives.
fn number(argument: Option<String>, otherwise: Option<u64>) -> u64 {
    let given = argument.map_or(otherwise, |text| text.parse().ok());
    given.unwrap_or_else(|| {
        eprintln!("{}", USAGE);
        exit(2)
    })
}

fn main() {
    let mut arguments = std::env::args().skip(1);
    let calls = number(arguments.next(), None);
    let seed = number(arguments.next(), Some(106));
    let (mut tally, mut random) = (Tally::default(), Random::new(seed));
    systematic::all(&mut tally, &mut random);
    println!("seed {}; systematic calls: {}", seed, tally.calls());
    while tally.calls() - tally.renewals() < calls {
        rounds::round(&mut tally, &mut random);
    }
    if !tally.report() {
        exit(1);
    }
}
