//! Long runs of adding and renewing on one table and store, in any order. Beside them goes a model in the paper's words: names, and the
//! bytes held under each. It knows what each window was made for, and asks no reader.

use super::check;
use super::kept::{entry_of, slot_bytes, Kept, Name};
use super::met::Outcome;
use super::orders::at_start;
use crate::check::refusal_in;
use crate::tally::Tally;
use ch11::raw::{Entry, Refusal, SLOTS, SLOT_BYTES, STORE_BYTES};
use generate::filled::{lost, some_packet, sound, Filled, Found};
use generate::random::Random;
use generate::recipe::Recipe;
use std::collections::BTreeMap;

/// Names share a recording number or a place. From the last two places on a window reaches past 2^64 - 1, unless it is short.
const RECORDINGS: [u64; 10] = [
    0,
    1,
    2,
    7,
    255,
    256,
    1 << 32,
    1 << 63,
    u64::MAX - 1,
    u64::MAX,
];
const PLACES: [u64; 10] = [
    0,
    1,
    40,
    1_024,
    65_536,
    1 << 32,
    1 << 40,
    1 << 63,
    u64::MAX - 60,
    u64::MAX,
];

/// What is held under a name: the slot, and the packet's bytes.
struct Held {
    slot: usize,
    bytes: Vec<u8>,
}

struct Run {
    kept: Kept,
    held: BTreeMap<Name, Held>,
    /// The store, as it must be.
    written: Vec<u8>,
    /// The names, each with the packet that its recording has there now.
    names: Vec<(Name, Recipe)>,
}

/// How many names and steps a run has; one window in `lost` is no longer the packet's, one step in `adding` adds.
#[derive(Clone, Copy)]
struct Plan {
    names: usize,
    steps: usize,
    lost: u64,
    adding: u64,
}

pub fn all(tally: &mut Tally, random: &mut Random) {
    for (names, steps, lost, adding) in [
        (2, 150, 2, 2),
        (5, 300, 3, 2),
        (20, 500, 3, 3),
        (66, 700, 20, 2),
        (90, 900, 40, 2),
        (100, 900, 6, 2),
    ] {
        let plan = Plan {
            names,
            steps,
            lost,
            adding,
        };
        run(tally, random, plan);
    }
}

/// A short run by chance.
pub fn short(tally: &mut Tally, random: &mut Random) {
    let plan = Plan {
        names: 1 + random.index(100),
        steps: 10 + random.index(40),
        lost: 2 + random.below(10),
        adding: 2 + random.below(2),
    };
    run(tally, random, plan);
}

fn run(tally: &mut Tally, random: &mut Random, plan: Plan) {
    let mut names: Vec<Name> = RECORDINGS
        .iter()
        .flat_map(|recording| PLACES.map(|place| (*recording, place)))
        .collect();
    while names.len() > plan.names {
        names.swap_remove(random.index(names.len()));
    }
    let length = random.choose(&[STORE_BYTES, STORE_BYTES, STORE_BYTES + 1, 70_000]);
    let kept = Kept::new(length);
    let mut run = Run {
        written: kept.store().to_vec(),
        kept,
        held: BTreeMap::new(),
        names: names
            .into_iter()
            .map(|name| (name, some_packet(random)))
            .collect(),
    };
    for _ in 0..plan.steps {
        run.step(tally, random, plan);
    }
}

impl Run {
    /// Adds or renews under one of the names; now and then its recording has another packet there from now on.
    fn step(&mut self, tally: &mut Tally, random: &mut Random, plan: Plan) {
        let number = random.index(self.names.len());
        let (name, recipe) = &mut self.names[number];
        if random.one_in(3 * plan.lost) {
            *recipe = some_packet(random);
        }
        let (name, place) = (*name, name.1);
        let filled = if random.one_in(plan.lost) {
            lost(random, recipe, place)
        } else {
            sound(random, recipe, place)
        };
        let (outcome, wanted) = if random.one_in(plan.adding) {
            let outcome = check::add(tally, &mut self.kept, name.0, &filled.window);
            (outcome, self.add(name, filled))
        } else {
            let outcome = check::renew(tally, &mut self.kept, name.0, &filled.window);
            (outcome, self.renew(name, &filled))
        };
        let input = || format!("name {:?}, {} held", name, self.held.len());
        tally.require("names and bytes held", &input, &outcome, &wanted);
        self.require_kept(tally, &input);
        // "So a packet withdrawn at the store is gone after one renewal of its entry."
        if let Outcome::Dropped(_) = outcome {
            let named = self.kept.named(name).len();
            tally.require("gone after one renewal", &input, &named, &0);
        }
    }

    /// What adding comes to: "adding a name already held replaces it in its own slot", "Freed slots are taken again, lowest first".
    fn add(&mut self, name: Name, filled: Filled) -> Outcome {
        let bytes = match filled.found {
            Found::Refused(number, inside, reason) => {
                return Outcome::Refused(refusal_in(&filled.window, number, inside, reason));
            }
            Found::Packet(bytes) if bytes.len() > SLOT_BYTES => {
                return at_start(&filled.window, 21)
            }
            Found::Packet(bytes) => bytes,
        };
        let taken: Vec<usize> = self.held.values().map(|held| held.slot).collect();
        let free = (0..SLOTS).find(|slot| !taken.contains(slot));
        let own = self.held.get(&name).map(|held| held.slot);
        let slot = match own.or(free) {
            Some(slot) => slot,
            None => return at_start(&filled.window, 19),
        };
        self.written[slot_bytes(slot)][..bytes.len()].copy_from_slice(&bytes);
        self.held.insert(name, Held { slot, bytes });
        Outcome::Added(slot as u64)
    }

    /// What renewing comes to: "The entry lives on exactly when the packet at the window's start is accepted and equals the held bytes;
    /// otherwise it is dropped in that same call".
    fn renew(&mut self, name: Name, filled: &Filled) -> Outcome {
        let held = match self.held.get(&name) {
            Some(held) => held,
            None => return at_start(&filled.window, 20),
        };
        let cause = match &filled.found {
            Found::Refused(1, ..) => return at_start(&filled.window, 1),
            Found::Refused(number, inside, reason) => {
                refusal_in(&filled.window, *number, *inside, *reason)
            }
            Found::Packet(bytes) if *bytes == held.bytes => return Outcome::Lives,
            Found::Packet(_) => Refusal::default(),
        };
        self.held.remove(&name);
        Outcome::Dropped(cause)
    }

    /// Table and store are those of the model: a row for each name, all others zero.
    fn require_kept(&self, tally: &mut Tally, input: &dyn Fn() -> String) {
        let mut rows = [Entry::default(); SLOTS];
        for (name, held) in &self.held {
            rows[held.slot] = entry_of(*name, &held.bytes);
        }
        tally.require("the names held", input, &self.kept.table.slots, &rows);
        let same = self.kept.store() == self.written;
        tally.require("the bytes written", input, &same, &true);
    }
}
