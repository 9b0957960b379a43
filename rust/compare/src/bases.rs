//! Counts the windows and bases that a reader is given: each kind must be met, and each of its numbers under a large base.

use crate::tally::print_counts;
use generate::random::Random;
use generate::recipe::Placed;
use std::collections::{BTreeMap, BTreeSet};

/// The least base that is called large: 32 bits can't hold it.
const LARGE: u64 = 1 << 32;

/// How many lengths a base can have in binary digits, from none to 64.
const LENGTHS: usize = 65;

/// One call in so many is made again with another base.
const REBASED: u64 = 7;

/// What "base plus window length" may come to.
const LAST: u128 = u64::MAX as u128;

/// A window and its base by what they come to together.
type Kind = (&'static str, fn(&Placed) -> bool);

static KINDS: [Kind; 9] = [
    ("base-0", |w| w.base == 0),
    ("to-2^64-1", |w| is_filled(w) && sum(w) == LAST),
    ("to-2^64", |w| is_filled(w) && sum(w) == LAST + 1),
    ("past-2^64", |w| is_filled(w) && sum(w) > LAST + 1),
    ("empty-at-2^64-1", |w| is_empty(w) && w.base == u64::MAX),
    ("reversed-large", |w| w.start > w.end && is_large(w)),
    ("reversed-at-2^64-1", |w| {
        w.start > w.end && w.base == u64::MAX
    }),
    ("outside-large", |w| {
        is_outside(w) && is_large(w) && sum(w) <= LAST
    }),
    ("outside-and-past", |w| is_outside(w) && sum(w) > LAST),
];

/// Base plus window length. With its start past its end a window has no length.
fn sum(w: &Placed) -> u128 {
    u128::from(w.base) + w.end.saturating_sub(w.start) as u128
}

fn is_filled(w: &Placed) -> bool {
    w.is_within_buffer() && w.start < w.end
}

fn is_empty(w: &Placed) -> bool {
    w.is_within_buffer() && w.start == w.end
}

fn is_outside(w: &Placed) -> bool {
    w.start <= w.end && w.end > w.buf.len()
}

fn is_large(w: &Placed) -> bool {
    w.base >= LARGE
}

#[derive(Default)]
pub struct Bases {
    kinds: BTreeMap<&'static str, u64>,
    /// The lengths of the bases.
    lengths: BTreeSet<u32>,
    /// How often each number was returned under a large base.
    large: BTreeMap<u64, u64>,
    /// How often a recording's later packet was refused with each number under a large base.
    later: BTreeMap<u64, u64>,
    /// Calls, and those of them that were made again with another base.
    calls: u64,
    rebased: u64,
}

impl Bases {
    /// Counts a call on this window, which returned this number.
    pub fn count(&mut self, window: &Placed, number: u64) {
        self.calls += 1;
        for (name, _) in KINDS.iter().filter(|(_, is_so)| is_so(window)) {
            *self.kinds.entry(name).or_default() += 1;
        }
        self.lengths.insert(u64::BITS - window.base.leading_zeros());
        if is_large(window) {
            *self.large.entry(number).or_default() += 1;
        }
    }

    /// Counts the refusal of a packet that others are ahead of.
    pub fn count_later(&mut self, window: &Placed, number: u64) {
        if is_large(window) {
            *self.later.entry(number).or_default() += 1;
        }
    }

    /// For one call in so many the same window with another base, where neither is refused.
    pub fn rebased(&mut self, window: &Placed) -> Option<Placed> {
        if self.calls % REBASED != 0 || !window.is_taken() {
            return None;
        }
        let random = &mut Random::new(self.calls);
        let there = window.clone().with_some_base(random);
        self.rebased += u64::from(there.base != window.base);
        Some(there)
    }

    /// Prints what was met, and answers how much never was; these numbers a later packet can be refused with.
    pub fn report(&self, numbers: &[u64], of_later: &[u64]) -> u64 {
        let lengths = self.lengths.len();
        print!(" bases of {} of {} lengths;", lengths, LENGTHS);
        let mut missing = (LENGTHS - lengths) as u64;
        missing += print_counts(&self.kinds, &KINDS.map(|(name, _)| name), 1);
        print!("; large");
        missing += print_counts(&self.large, numbers, 1);
        if !of_later.is_empty() {
            print!("; later");
            missing += print_counts(&self.later, of_later, 1);
        }
        println!("; made again with another base {}", self.rebased);
        missing + u64::from(self.rebased == 0)
    }
}
