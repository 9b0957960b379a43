//! Rounds of library, Rust and read-only pass, one behind the other, and the median of each.
use crate::inputs::Input;
use crate::sides::{run, Lent, Side};
use std::time::Instant;

/// Seconds that one sample of a side should take.
const SAMPLE: f64 = 0.008;

/// The median seconds of one pass over an input.
pub struct Medians {
    pub library: f64,
    pub rust: f64,
    pub read_only: f64,
}

pub fn measure(input: &Input, rounds: usize) -> Medians {
    let sides = [Side::Library, Side::Rust, Side::ReadOnly];
    let mut lent = Lent::to(input);
    let passes = sides.map(|side| passes_for(side, input, &mut lent));
    let mut samples = [Vec::new(), Vec::new(), Vec::new()];
    for _ in 0..rounds {
        for number in 0..sides.len() {
            samples[number].push(seconds(sides[number], input, &mut lent, passes[number]));
        }
    }
    let [library, rust, read_only] = samples.map(median);
    Medians {
        library,
        rust,
        read_only,
    }
}

/// The seconds of one pass, from so many.
fn seconds(side: Side, input: &Input, lent: &mut Lent, passes: usize) -> f64 {
    let begin = Instant::now();
    run(side, input, lent, passes);
    begin.elapsed().as_secs_f64() / passes as f64
}

/// How many passes make up a sample; the first tries warm the caches too.
fn passes_for(side: Side, input: &Input, lent: &mut Lent) -> usize {
    let mut passes = 1;
    loop {
        let one_pass = seconds(side, input, lent, passes);
        if one_pass * passes as f64 > SAMPLE / 4.0 {
            return (SAMPLE / one_pass).ceil() as usize;
        }
        passes *= 2;
    }
}

fn median(mut samples: Vec<f64>) -> f64 {
    samples.sort_by(f64::total_cmp);
    samples[samples.len() / 2]
}
