//! Adding and renewing with each refusal, alone and together: which comes first, and what it leaves.

use super::check;
use super::kept::{Kept, Name};
use super::met::Outcome;
use crate::check::refusal_in;
use crate::tally::Tally;
use ch11::raw::{Refusal, SLOTS, STORE_BYTES};
use generate::causes::{causes, with_faults, Cause};
use generate::filled::{cut, of_length, sound, Filled};
use generate::random::Random;
use generate::recipe::{Placed, CASE_L};

pub fn all(tally: &mut Tally, random: &mut Random) {
    for cause in causes(false) {
        for _ in 0..3 {
            refused_by_reader(tally, random, cause);
        }
    }
    small_stores(tally, random);
    full_tables(tally, random);
    lengths(tally, random);
    long_windows(tally, random);
}

/// The name that is tried; no other entry has it.
const NAME: Name = (7, 5_000);

/// A refusal at the window's start.
pub fn at_start(window: &Placed, number: u64) -> Outcome {
    Outcome::Refused(refusal_in(window, number, 0, 0))
}

/// 16, with the room that a store must have.
fn no_room(window: &Placed) -> Outcome {
    Outcome::Refused(Refusal {
        room: 65_536,
        ..refusal_in(window, 16, 0, 0)
    })
}

/// A table with so many entries of other names, from the lowest slot on, and a store of so many bytes.
pub fn with_others(count: usize, length: usize) -> Kept {
    let mut kept = Kept::new(length);
    for slot in 0..count {
        kept.put(slot, (1_000 + slot as u64, 5_000), &CASE_L);
    }
    kept
}

/// Adds, and requires what becomes of it.
pub fn adds(tally: &mut Tally, kept: &mut Kept, recording: u64, window: &Placed, wanted: Outcome) {
    let outcome = check::add(tally, kept, recording, window);
    let input = || format!("recording {}, {:?}", recording, window);
    tally.require("adding", &input, &outcome, &wanted);
}

/// Renews, and requires what becomes of it.
pub fn renews(
    tally: &mut Tally,
    kept: &mut Kept,
    recording: u64,
    window: &Placed,
    wanted: Outcome,
) {
    let outcome = check::renew(tally, kept, recording, window);
    let input = || format!("recording {}, {:?}", recording, window);
    tally.require("renewing", &input, &outcome, &wanted);
}

/// "adding, then the reader's", whether a slot is free or not; "The reader's other refusals drop the entry and are named beside it", also
/// where the entry holds the very bytes.
fn refused_by_reader(tally: &mut Tally, random: &mut Random, cause: Cause) {
    let (recipe, number) = with_faults(random, &[cause]);
    let window = recipe.placed(random);
    let (inside, reason) = recipe.fault_of(number);
    let refusal = refusal_in(&window, number, inside, reason);
    let name = (random.wide() % 1_000, window.base);
    for others in [random.index(SLOTS), SLOTS] {
        let mut kept = with_others(others, STORE_BYTES);
        adds(tally, &mut kept, name.0, &window, Outcome::Refused(refusal));
    }
    let wanted = if number == 1 {
        Outcome::Refused(refusal)
    } else {
        Outcome::Dropped(refusal)
    };
    let very = recipe.bytes();
    for held in [&very[..very.len().min(1_024)], &CASE_L] {
        let mut kept = with_others(random.index(SLOTS), STORE_BYTES);
        kept.put(random.index(SLOTS), name, held);
        renews(tally, &mut kept, name.0, &window, wanted);
    }
}

/// "16 first, for a store under 65,536 bytes", whatever else is to be refused; a longer one is no hindrance.
fn small_stores(tally: &mut Tally, random: &mut Random) {
    let short = of_length(random, 40);
    let long = of_length(random, 1_028);
    let mut outside = sound(random, &short, NAME.1);
    outside.window.end = outside.window.buf.len() + 1;
    let windows = [
        sound(random, &short, NAME.1),
        cut(random, &short, NAME.1, 0),
        sound(random, &long, NAME.1),
        outside,
    ];
    for length in [0, 1, 1_023, 1_024, 65_472, 65_535] {
        for Filled { window, .. } in &windows {
            for recording in [NAME.0, NAME.0 + 1] {
                let mut kept = Kept::new(length);
                kept.table = with_others(random.choose(&[0, 5, 64]), STORE_BYTES).table;
                kept.table.slots[0].recording = NAME.0;
                adds(tally, &mut kept, recording, window, no_room(window));
                renews(tally, &mut kept, recording, window, no_room(window));
            }
        }
    }
    for length in [65_536, 65_537, 66_560, 131_072] {
        let window = &windows[0].window;
        let mut kept = with_others(SLOTS - 1, length);
        adds(tally, &mut kept, NAME.0, window, Outcome::Added(63));
        renews(tally, &mut kept, NAME.0, window, Outcome::Lives);
    }
}

/// "19 exactly when 64 other entries live": one slot free, or one with the name, each of the 64; a longer packet is 21 before that, an
/// unknown name 20 before 1.
fn full_tables(tally: &mut Tally, random: &mut Random) {
    let (fits, long) = (of_length(random, 1_024), of_length(random, 1_028));
    let (fits, long) = (sound(random, &fits, NAME.1), sound(random, &long, NAME.1));
    let (fits, long) = (&fits.window, &long.window);
    let full = with_others(SLOTS, STORE_BYTES);
    for slot in 0..SLOTS {
        let (mut freed, mut named) = (full.clone(), full.clone());
        adds(tally, &mut freed, NAME.0, fits, at_start(fits, 19));
        adds(tally, &mut freed, NAME.0, long, at_start(long, 21));
        freed.table.slots[slot].live = 0;
        adds(tally, &mut freed, NAME.0, fits, Outcome::Added(slot as u64));
        named.put(slot, NAME, &CASE_L);
        adds(tally, &mut named, NAME.0, long, at_start(long, 21));
        adds(tally, &mut named, NAME.0, fits, Outcome::Added(slot as u64));
        if slot > 0 {
            named.table.slots[random.index(slot)].live = 0;
        }
        adds(tally, &mut named, NAME.0, fits, Outcome::Added(slot as u64));
        renews(tally, &mut named, NAME.0, fits, Outcome::Lives);
    }
    let mut outside = fits.clone();
    outside.start = outside.buf.len() + 1;
    let mut kept = full;
    renews(tally, &mut kept, NAME.0, &outside, at_start(&outside, 20));
    kept.put(9, NAME, &CASE_L);
    renews(tally, &mut kept, NAME.0, &outside, at_start(&outside, 1));
}

/// Packets of every length that a slot holds, added and renewed, each over the one before; then longer ones.
fn lengths(tally: &mut Tally, random: &mut Random) {
    let slot = random.index(SLOTS);
    let mut kept = with_others(slot, STORE_BYTES);
    for length in (28..1_025).step_by(4).rev() {
        let recipe = of_length(random, length);
        let window = sound(random, &recipe, NAME.1).window;
        adds(
            tally,
            &mut kept,
            NAME.0,
            &window,
            Outcome::Added(slot as u64),
        );
        renews(tally, &mut kept, NAME.0, &window, Outcome::Lives);
    }
    for length in [1_028, 1_032, 2_048, 65_536, 65_564, 66_560, 524_288] {
        let recipe = of_length(random, length);
        let window = sound(random, &recipe, NAME.1).window;
        adds(tally, &mut kept, NAME.0, &window, at_start(&window, 21));
    }
}

/// Windows far in a long buffer, and windows longer than a store.
fn long_windows(tally: &mut Tally, random: &mut Random) {
    let packet = of_length(random, 400).bytes();
    let mut kept = with_others(3, STORE_BYTES);
    for (ahead, behind) in [(70_000, 0), (0, 70_000), (66_000, 66_000)] {
        let buf = [vec![0x25; ahead], packet.clone(), vec![0xEB; behind]].concat();
        let mut window = Placed::whole(buf);
        (window.start, window.base) = (ahead, NAME.1);
        adds(tally, &mut kept, NAME.0, &window, Outcome::Added(3));
        renews(tally, &mut kept, NAME.0, &window, Outcome::Lives);
        window.end = ahead;
        let withdrawn = Outcome::Dropped(refusal_in(&window, 2, 0, 0));
        renews(tally, &mut kept, NAME.0, &window, withdrawn);
    }
}
