//! The builder's steps, gone through one by one: from every kind of state, with every kind of block, and with several faults at once.

use crate::check::{self, Step};
use crate::library;
use crate::tally::Tally;
use generate::opened::{MESSAGE, UART};
use generate::random::Random;
use generate::recipe::{time_in_form, time_to_try};

pub fn all(tally: &mut Tally, random: &mut Random) {
    states(tally, random);
    blocks(tally, random);
    orders(tally, random);
}

/// Types and rules for opening and for forged states, those that only look good in their low bytes too.
pub const KINDS: [u64; 9] = [
    MESSAGE,
    UART,
    0,
    0x31,
    304,
    336,
    1 << 32 | 0x50,
    1 << 48 | 0x50,
    u64::MAX,
];
pub const RULES: [u64; 10] = [0, 1, 2, 3, 4, 5, 257, 300, 1 << 32 | 1, u64::MAX];

/// Used counts and blocks of forged states, in a buffer of 24 bytes.
const USED: [u64; 10] = [0, 3, 4, 5, 8, 24, 25, 1 << 32 | 8, u64::MAX - 3, u64::MAX];
const BLOCKS: [u64; 8] = [
    0,
    255,
    65_534,
    65_535,
    65_536,
    1 << 32,
    u64::MAX - 1,
    u64::MAX,
];

/// Opening, adding and closing from every kind of state, forged ones too.
fn states(tally: &mut Tally, random: &mut Random) {
    let buf = random.bytes(24);
    for kind in KINDS {
        for rule in RULES {
            let chance = random.choose(&BLOCKS);
            let used = USED.iter().map(|used| (*used, chance));
            for (used, blocks) in used.chain(BLOCKS.iter().map(|blocks| (8, *blocks))) {
                let draft = library::draft(used, blocks, kind, rule);
                let upper = random.choose(&[0, 0xFFFF]);
                let bytes = vec![7; 1 + random.index(2)];
                let add = Step::Add(time_in_form(random, rule), upper, bytes);
                check::step(tally, draft, &buf, &add);
                check::step(tally, draft, &buf, &Step::Close);
            }
            let draft = library::draft(7, 8, 9, 10);
            for length in [0, 3, 4, 24] {
                check::step(tally, draft, &buf[..length], &Step::Open(kind, rule));
            }
        }
    }
}

/// Blocks of each n, time and upper half at the limits, in buffers of all sizes around what is needed.
fn blocks(tally: &mut Tally, random: &mut Random) {
    for (kind, rule) in [
        (MESSAGE, 1),
        (MESSAGE, 2),
        (MESSAGE, 3),
        (UART, 4),
        (UART, 0),
        (UART, 1),
    ] {
        for n in [0, 1, 2, 3, 65_534, 65_535, 65_536] {
            let needed = 4 + if rule == 0 { 4 } else { 12 } + n + n % 2;
            let least = if n < 4 { 4 } else { needed - 2 };
            for room in least..needed + 3 {
                for time in [time_in_form(random, rule), time_to_try(random, rule)] {
                    let upper =
                        random.choose(&[0, 1, 0xFFFF, 0x1_0000, 0x8000_0000, 1 << 32, u64::MAX]);
                    let add = Step::Add(time, upper, random.bytes(n));
                    let mut draft = library::draft(0, 0, 0, 0);
                    let mut buf = vec![0x5A; room];
                    for step in [Step::Open(kind, rule), add, Step::Close] {
                        (_, draft, buf) = check::step(tally, draft, &buf, &step);
                    }
                }
            }
        }
    }
}

/// Adding with each choice of good and bad for state, n, upper half, time and room together: which number comes first.
fn orders(tally: &mut Tally, random: &mut Random) {
    for number in 0..432 {
        let mut rest = number;
        let mut pick = |list: &[u64]| {
            let one = list[rest % list.len()];
            rest /= list.len();
            one
        };
        let states = [(MESSAGE, 1), (MESSAGE, 3), (UART, 0), (UART, 3)];
        let (kind, rule) = states[pick(&[0, 1, 2, 3]) as usize];
        let (used, blocks) = (pick(&[4, 3, 1000]), pick(&[0, 65_535, 65_536]));
        let bytes = vec![7; pick(&[1, 0, 65_536]) as usize];
        let (upper, room) = (pick(&[0, 0x1_0000]), pick(&[64, 10]) as usize);
        for time in [time_in_form(random, rule), time_to_try(random, rule)] {
            let draft = library::draft(used, blocks, kind, rule);
            let add = Step::Add(time, upper, bytes.clone());
            check::step(tally, draft, &vec![0x5A; room], &add);
        }
    }
}
