//! Counts what the calls of the renewal table met: each kind must have come up often enough.

use super::kept::{Kept, Name};
use crate::tally::{print_counts, Call, READERS, RENEWAL_ADD, RENEWAL_RENEW, WALKS};
use ch11::raw::{Entry, Refusal, SLOTS, SLOT_BYTES, STORE_BYTES};
use generate::recipe::Placed;
use std::collections::BTreeMap;

/// How often each kind must come up.
const LEAST: u64 = 6;

/// What became of a call.
#[derive(Clone, Copy, Debug, PartialEq)]
pub enum Outcome {
    Refused(Refusal),
    Added(u64),
    Lives,
    Dropped(Refusal),
}
use Outcome::{Added, Dropped, Lives, Refused};

/// A call, what it was lent, and what became of it.
pub struct Seen<'a> {
    before: &'a Kept,
    window: &'a Placed,
    outcome: Outcome,
    /// The slots of the entries that live under its name, and the free ones.
    named: Vec<usize>,
    free: Vec<usize>,
    /// Whether a free slot's row spells the name.
    is_spelt: bool,
}

impl<'a> Seen<'a> {
    pub fn new(before: &'a Kept, name: Name, window: &'a Placed, outcome: Outcome) -> Seen<'a> {
        let is_spelt = |row: &Entry| row.live == 0 && (row.recording, row.place) == name;
        Seen {
            before,
            window,
            outcome,
            named: before.named(name),
            free: before.free(),
            is_spelt: !before.slots(is_spelt).is_empty(),
        }
    }

    fn is_refused(&self, number: u64) -> bool {
        matches!(self.outcome, Refused(refusal) if refusal.number == number)
    }

    fn is_added(&self) -> bool {
        matches!(self.outcome, Added(_))
    }

    /// Whether one of the slots below this one is free.
    fn is_free_below(&self, slot: usize) -> bool {
        self.free.first().map_or(false, |free| *free < slot)
    }

    /// The row that the name counts in; all zero if there is none.
    fn row(&self) -> Entry {
        let slot = self.named.first();
        slot.map_or(Entry::default(), |slot| self.before.table.slots[*slot])
    }

    /// Whether this part of the buffer starts with as many bytes as the entry holds, and the same.
    fn is_held_at(&self, at: usize) -> bool {
        let held = self.named.first().and_then(|slot| {
            let store = self.before.store().get(slot * SLOT_BYTES..)?;
            store.get(..self.row().length as usize)
        });
        let there = self.window.buf.get(at..).unwrap_or(&[]);
        held.map_or(false, |held| there.starts_with(held))
    }

    fn is_dropped_alone(&self) -> bool {
        self.outcome == Dropped(Refusal::default())
    }

    fn is_dropped_for(&self, number: u64) -> bool {
        matches!(self.outcome, Dropped(cause) if cause.number == number)
    }
}

/// A kind of call by its name.
type Kind = (&'static str, fn(&Seen) -> bool);

static OF_ADDING: [Kind; 18] = [
    ("empty-table", |s| s.is_added() && s.free.len() == SLOTS),
    ("63-others", |s| {
        s.is_added() && s.free.len() == 1 && s.named.is_empty()
    }),
    ("freed-slot", |s| {
        s.is_added() && s.named.is_empty() && s.is_free_below(SLOTS - s.free.len())
    }),
    ("replaced", |s| s.is_added() && !s.named.is_empty()),
    ("replaced-above-a-free-slot", |s| {
        s.is_added() && s.named.first().map_or(false, |slot| s.is_free_below(*slot))
    }),
    ("replaced-among-64", |s| s.is_added() && s.free.is_empty()),
    ("name-twice", |s| s.is_added() && s.named.len() > 1),
    ("name-in-a-free-row", |s| {
        s.is_added() && s.named.is_empty() && s.is_spelt
    }),
    ("other-live-word", |s| s.is_added() && s.row().live > 1),
    ("slot-63", |s| s.outcome == Added(63)),
    ("longer-store", |s| {
        s.is_added() && s.before.store().len() > STORE_BYTES
    }),
    ("16-outside", |s| s.is_refused(16) && !s.window.is_taken()),
    ("1-reversed", |s| is_reversed(s)),
    ("1-outside", |s| is_outside(s)),
    ("1-past", |s| is_past(s)),
    ("2-to-15-among-64", |s| {
        (2..=15).any(|number| s.is_refused(number)) && s.free.is_empty()
    }),
    ("21-among-64", |s| {
        s.is_refused(21) && s.free.is_empty() && s.named.is_empty()
    }),
    ("21-of-a-held-name", |s| {
        s.is_refused(21) && !s.named.is_empty()
    }),
];

static OF_RENEWING: [Kind; 20] = [
    ("lives", |s| s.outcome == Lives),
    ("dropped-alone", |s| s.is_dropped_alone()),
    ("withdrawn", |s| {
        s.is_dropped_for(2) && s.window.start == s.window.end && s.is_held_at(s.window.end)
    }),
    ("cut-off", |s| {
        s.is_dropped_for(10) && s.is_held_at(s.window.start)
    }),
    ("P-0", |s| s.is_dropped_alone() && s.row().length == 0),
    ("P-too-small", |s| {
        s.is_dropped_alone() && s.row().length != 0 && s.is_held_at(s.window.start)
    }),
    ("P-over-1024", |s| {
        s.is_dropped_alone() && s.row().length > 1_024
    }),
    ("P-over-1024-equal", |s| {
        s.is_dropped_alone() && s.row().length > 1_024 && s.is_held_at(s.window.start)
    }),
    ("twice-lives", |s| s.outcome == Lives && s.named.len() > 1),
    ("twice-dropped", |s| {
        s.is_dropped_alone() && s.named.len() > 1
    }),
    ("other-live-word-lives", |s| {
        s.outcome == Lives && s.row().live > 1
    }),
    ("other-live-word-dropped", |s| {
        s.is_dropped_alone() && s.row().live > 1
    }),
    ("slot-63-lives", |s| {
        s.outcome == Lives && s.named.first() == Some(&63)
    }),
    ("slot-63-dropped", |s| {
        s.is_dropped_alone() && s.named.first() == Some(&63)
    }),
    ("20-in-a-free-row", |s| s.is_refused(20) && s.is_spelt),
    ("20-outside", |s| s.is_refused(20) && !s.window.is_taken()),
    ("16-unknown", |s| s.is_refused(16) && s.named.is_empty()),
    ("1-reversed", |s| is_reversed(s)),
    ("1-outside", |s| is_outside(s)),
    ("1-past", |s| is_past(s)),
];

fn is_reversed(s: &Seen) -> bool {
    s.is_refused(1) && s.window.start > s.window.end
}

fn is_outside(s: &Seen) -> bool {
    s.is_refused(1) && s.window.start <= s.window.end && !s.window.is_within_buffer()
}

fn is_past(s: &Seen) -> bool {
    s.is_refused(1) && s.window.is_within_buffer()
}

#[derive(Default)]
pub struct Met {
    added: BTreeMap<&'static str, u64>,
    renewed: BTreeMap<&'static str, u64>,
    /// The reader's refusals that an entry was dropped for, and the reasons of 15.
    causes: BTreeMap<u64, u64>,
    reasons: BTreeMap<u64, u64>,
}

impl Met {
    /// Counts one of the two calls that take a window.
    pub fn count(&mut self, call: &Call, seen: &Seen) {
        let (counts, kinds) = if call.is(&RENEWAL_ADD) {
            (&mut self.added, &OF_ADDING[..])
        } else {
            (&mut self.renewed, &OF_RENEWING[..])
        };
        for (name, _) in kinds.iter().filter(|(_, is_so)| is_so(seen)) {
            *counts.entry(name).or_default() += 1;
        }
        if let Dropped(cause) = seen.outcome {
            *self.causes.entry(cause.number).or_default() += 1;
            *self.reasons.entry(cause.reason).or_default() += 1;
        }
    }

    /// Prints what was met, and answers how much was not often enough.
    pub fn report(&self) -> u64 {
        print!("{}:", RENEWAL_ADD.name());
        let mut missing = print_counts(&self.added, &OF_ADDING.map(|(name, _)| name), LEAST);
        print!("\n{}:", RENEWAL_RENEW.name());
        missing += print_counts(&self.renewed, &OF_RENEWING.map(|(name, _)| name), LEAST);
        print!("; causes");
        missing += print_counts(&self.causes, &READERS[1..], LEAST);
        print!("; reasons");
        missing += print_counts(&self.reasons, WALKS, LEAST);
        println!();
        missing
    }
}
