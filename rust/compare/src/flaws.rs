//! Blocks that break none, one or several rules of their layout, gone through one by one: "For a block that breaks several, the lowest
//! number from 2 to 5 wins."

use crate::bodies::{held_to, packet_of};
use crate::check;
use crate::tally::Tally;
use generate::opened::{Fault, Flaws, Opened, MESSAGE, UART};
use generate::random::Random;
use std::collections::BTreeSet;

pub fn all(tally: &mut Tally, random: &mut Random) {
    for (kind, rule) in FORMS {
        one_flawed(tally, random, kind, rule);
        two_flawed(tally, random, kind, rule);
    }
}

/// Every type and time rule of opened bodies.
const FORMS: [(u64, u64); 9] = [
    (MESSAGE, 1),
    (MESSAGE, 2),
    (MESSAGE, 3),
    (MESSAGE, 4),
    (UART, 0),
    (UART, 1),
    (UART, 2),
    (UART, 3),
    (UART, 4),
];

/// One block with each of the flaws: ahead of another block, behind it, and alone, in 0x30 under each type.
fn one_flawed(tally: &mut Tally, random: &mut Random, kind: u64, rule: u64) {
    let words: &[u64] = match (kind, rule) {
        (MESSAGE, _) => &[0x0_0001, 0x1_0001, 0x2_0002, 0x3_FFFF],
        (_, 0) => &[0],
        _ => &[0x8000_0000],
    };
    for flaws in all_flaws(rule) {
        for number in [0, 1] {
            let mut both = Opened::sound(random, kind, rule, 2);
            let fault = both.flaw(random, rule, number, flaws);
            flawed_body(tally, random, rule, &both, fault);
        }
        for word in words {
            let mut alone = Opened::sound(random, kind, rule, 1);
            alone.channel_word = *word;
            let fault = alone.flaw(random, rule, 0, flaws);
            flawed_body(tally, random, rule, &alone, fault);
        }
    }
}

/// The flaws that a block under this time rule can have, each with each as far as they go together; it is cut at the seams of its layout
/// and beside them.
fn all_flaws(rule: u64) -> Vec<Flaws> {
    let head = if rule == 0 { 4 } else { 12 };
    let times: &[bool] = match rule {
        1..=3 => &[false, true],
        _ => &[false],
    };
    let mut all = Vec::new();
    for mistimed in times {
        for n in [0, 1, 2] {
            let tail = n + n % 2;
            let size = head + tail;
            let cuts = [0, 1, tail, tail + 1, tail + 2, tail + 4, size - 1, size];
            for missing in BTreeSet::from(cuts) {
                all.push(flaws(n, *mistimed, 0, missing));
            }
        }
        all.push(flaws(1, *mistimed, 1, 0));
    }
    all
}

fn flaws(n: usize, mistimed: bool, pad: u8, missing: usize) -> Flaws {
    Flaws {
        n,
        mistimed,
        pad,
        missing,
    }
}

/// Two blocks, each with a flaw: the first that is at fault is told.
fn two_flawed(tally: &mut Tally, random: &mut Random, kind: u64, rule: u64) {
    let size = if rule == 0 { 6 } else { 14 };
    let mistimed = flaws(2, true, 0, 0);
    let empty = flaws(0, false, 0, 0);
    let padded = flaws(1, false, 1, 0);
    let (cut, gone) = (flaws(2, false, 0, 1), flaws(2, false, 0, size));
    for first in [mistimed, empty, padded] {
        for second in [mistimed, empty, padded, cut, gone] {
            let mut both = Opened::sound(random, kind, rule, 2);
            let fault = both.flaw(random, rule, 0, first);
            let later = both.flaw(random, rule, 1, second);
            flawed_body(tally, random, rule, &both, fault.or(later));
        }
    }
}

/// Reader and writer on a packet of this body, and all readers where no byte is missing.
fn flawed_body(
    tally: &mut Tally,
    random: &mut Random,
    rule: u64,
    opened: &Opened,
    fault: Option<Fault>,
) {
    let (recipe, window) = packet_of(random, rule, opened);
    let (_, packet) = if opened.cut == 0 {
        check::window(tally, random, &window)
    } else {
        check::read(tally, &window)
    };
    held_to(tally, &recipe, &window, &packet, fault);
}
