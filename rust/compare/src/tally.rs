//! Counts the comparisons, prints the differences, and tells what was covered.

use crate::bases::Bases;
use crate::renewal::met::{Met, Seen};
use generate::recipe::{legal_flags, Placed, TYPES};
use std::collections::{BTreeMap, BTreeSet};
use std::fmt::{Debug, Display};
use std::process::exit;

/// A call of the C interface: its place in the tally, its name, the numbers that it can return, in lists, and the reasons that it can
/// give with 15.
pub struct Call(
    usize,
    &'static str,
    &'static [&'static [u64]],
    &'static [u64],
);

/// The reader's refusals.
pub const READERS: &[u64] = &[1, 2, 3, 4, 5, 6, 7, 8, 9, 10, 11, 12, 13, 14, 15];

/// The reasons of the block walk.
pub const WALKS: &[u64] = &[1, 2, 3, 4, 5, 6, 7];

/// The slots of a renewal table, and 64 for none.
const SLOTS: &[u64] = &[
    0, 1, 2, 3, 4, 5, 6, 7, 8, 9, 10, 11, 12, 13, 14, 15, 16, 17, 18, 19, 20, 21, 22, 23, 24, 25,
    26, 27, 28, 29, 30, 31, 32, 33, 34, 35, 36, 37, 38, 39, 40, 41, 42, 43, 44, 45, 46, 47, 48, 49,
    50, 51, 52, 53, 54, 55, 56, 57, 58, 59, 60, 61, 62, 63, 64,
];

pub static READ: Call = Call(0, "ch11_read_packet", &[&[0], READERS], WALKS);
pub static LIST: Call = Call(1, "ch11_list_messages", &[&[0], READERS, &[16]], WALKS);
pub static ONE_MESSAGE: Call = Call(2, "ch11_message", &[&[0], READERS, &[17]], WALKS);
pub static RECORDING: Call = Call(3, "ch11_read_recording", &[&[0], READERS], WALKS);
pub static WRITE: Call = Call(
    4,
    "ch11_write_packet",
    &[&[0, 5, 6, 7, 8, 9, 12, 15, 16, 17]],
    WALKS,
);
pub static OPEN: Call = Call(5, "ch11_open", &[&[0, 16, 17]], &[]);
pub static ADD: Call = Call(6, "ch11_add", &[&[0, 1, 15, 16, 17]], &[3]);
pub static CLOSE: Call = Call(7, "ch11_close", &[&[0, 1, 15]], &[7]);
pub static RENEWAL_ADD: Call = Call(
    8,
    "ch11_renewal_add",
    &[&[0], READERS, &[16, 19, 21]],
    WALKS,
);
pub static RENEWAL_RENEW: Call = Call(9, "ch11_renewal_renew", &[&[0, 1, 16, 20]], &[]);
/// This one answers a slot.
pub static RENEWAL_NEXT: Call = Call(10, "ch11_renewal_next", &[SLOTS], &[]);

static CALLS: [&Call; 11] = [
    &READ,
    &LIST,
    &ONE_MESSAGE,
    &RECORDING,
    &WRITE,
    &OPEN,
    &ADD,
    &CLOSE,
    &RENEWAL_ADD,
    &RENEWAL_RENEW,
    &RENEWAL_NEXT,
];

impl Call {
    pub fn name(&self) -> &'static str {
        self.1
    }

    pub fn is(&self, other: &Call) -> bool {
        self.0 == other.0
    }
}

/// The calls that take a window and a base, each with the numbers that it can give for a packet behind others.
static OF_WINDOWS: [(&Call, &[u64]); 4] = [
    (&READ, &[]),
    (&LIST, &[]),
    (&ONE_MESSAGE, &[]),
    (
        &RECORDING,
        &[2, 3, 4, 5, 6, 7, 8, 9, 10, 11, 12, 13, 14, 15],
    ),
];

/// Describes a call's input, where it is asked for.
type Input<'a> = &'a dyn Fn() -> String;

/// After so many differences the program stops.
const MOST_DIFFERENCES: u64 = 10;

#[derive(Default)]
pub struct Tally {
    /// How often each call returned each number.
    returned: [BTreeMap<u64, u64>; 11],
    /// How often each call gave each reason.
    reasons: [BTreeMap<u64, u64>; 11],
    /// Types and flags of the packets that the reader accepted.
    types: BTreeSet<u64>,
    flags: BTreeSet<u64>,
    /// The windows and bases that each reader was given.
    bases: [Bases; 4],
    /// What the calls of the renewal table met.
    met: Met,
    differences: u64,
}

impl Tally {
    /// Comparisons so far.
    pub fn calls(&self) -> u64 {
        self.returned.iter().flat_map(BTreeMap::values).sum()
    }

    /// Those of the renewal table among them.
    pub fn renewals(&self) -> u64 {
        let of_table = &self.returned[RENEWAL_ADD.0..];
        of_table.iter().flat_map(BTreeMap::values).sum()
    }

    /// Counts a call of the renewal table by what it met.
    pub fn renewal(&mut self, call: &Call, seen: &Seen) {
        self.met.count(call, seen);
    }

    /// Counts a call by the number that it returned, and compares its answer with the expected one.
    pub fn compare<A>(&mut self, call: &Call, input: Input, library: &(u64, A), wanted: &(u64, A))
    where
        A: PartialEq + Debug,
    {
        let Call(index, name, numbers, _) = call;
        *self.returned[*index].entry(library.0).or_default() += 1;
        if library != wanted || !numbers.concat().contains(&library.0) {
            self.differs(name, &input(), library, wanted);
        }
    }

    /// Counts a 15 by its reason, which must be one that the call can give.
    pub fn reason(&mut self, call: &Call, input: Input, reason: u64) {
        let Call(index, name, _, reasons) = call;
        *self.reasons[*index].entry(reason).or_default() += 1;
        if !reasons.contains(&reason) {
            let (given, can) = (format!("reason {}", reason), format!("{:?}", reasons));
            self.differs(name, &input(), &given, &can);
        }
    }

    /// Counts a reader's call by its window and base.
    pub fn window(&mut self, call: &Call, window: &Placed, number: u64) {
        self.bases[call.0].count(window, number);
    }

    /// Counts the refusal of a recording's packet that others are ahead of.
    pub fn later(&mut self, window: &Placed, number: u64) {
        self.bases[RECORDING.0].count_later(window, number);
    }

    /// Now and then, where the window isn't refused, the same with another base.
    pub fn rebased(&mut self, call: &Call, window: &Placed) -> Option<Placed> {
        self.bases[call.0].rebased(window)
    }

    /// Compares without counting: a property that is no call of its own.
    pub fn require<A: PartialEq + Debug>(&mut self, what: &str, input: Input, got: &A, wanted: &A) {
        if got != wanted {
            self.differs(what, &input(), got, wanted);
        }
    }

    fn differs<A: Debug>(&mut self, what: &str, input: &str, library: &A, expected: &A) {
        self.differences += 1;
        let (library, expected) = (format!("{:?}", library), format!("{:?}", expected));
        let pairs = library.bytes().zip(expected.bytes());
        let first = pairs.take_while(|(a, b)| a == b).count();
        println!("difference {} in {}", self.differences, what);
        println!("  input:    {}", input);
        println!("  library:  {}", around(&library, first));
        println!("  expected: {}", around(&expected, first));
        if self.differences == MOST_DIFFERENCES {
            println!("stopped after {} differences", MOST_DIFFERENCES);
            exit(1);
        }
    }

    /// Notes the type and flags of an accepted packet; in the end they must be those of the rules, no fewer and no others.
    pub fn accepted(&mut self, kind: u64, flags: u64) {
        self.types.insert(kind);
        self.flags.insert(flags);
    }

    /// Prints what was covered and answers whether nothing is missing and nothing differs.
    pub fn report(&self) -> bool {
        let mut missing = 0;
        for Call(index, name, numbers, reasons) in CALLS {
            let counts = &self.returned[*index];
            print!("{}: {} calls;", name, counts.values().sum::<u64>());
            missing += print_counts(counts, &numbers.concat(), 1);
            if !reasons.is_empty() {
                print!("; reasons");
                missing += print_counts(&self.reasons[*index], reasons, 1);
            }
            println!();
        }
        for (Call(index, name, numbers, _), of_later) in OF_WINDOWS {
            print!("{}:", name);
            missing += self.bases[*index].report(&numbers.concat(), of_later);
        }
        missing += self.met.report();
        let all_types = self.types == BTreeSet::from(TYPES);
        let all_flags = self.flags == legal_flags().into_iter().collect();
        let (types, flags) = (self.types.len(), self.flags.len());
        println!(
            "accepted types: {} of 35; accepted flags: {} of 144",
            types, flags
        );
        if !all_types || !all_flags {
            println!("not those of the rules: {:?} {:?}", self.types, self.flags);
        }
        println!("not met, or not often enough: {}", missing);
        let (calls, differences) = (in_thousands(self.calls()), self.differences);
        println!("compared {} calls, {} differences", calls, differences);
        missing == 0 && all_types && all_flags && differences == 0
    }
}

/// Prints how often each of these was met, and answers how many were not at least so often.
pub fn print_counts<K: Ord + Display>(counts: &BTreeMap<K, u64>, wanted: &[K], least: u64) -> u64 {
    let mut missing = 0;
    for one in wanted {
        let count = counts.get(one).unwrap_or(&0);
        print!(" {}:{}", one, count);
        missing += u64::from(*count < least);
    }
    missing
}

/// The part of a long text around its byte `first`; these texts are ASCII.
fn around(text: &str, first: usize) -> String {
    if text.len() <= 1200 {
        return text.to_string();
    }
    let from = first.saturating_sub(300);
    let to = (first + 300).min(text.len());
    format!("... (from {}) {} ...", from, &text[from..to])
}

/// A number with commas: 100,123.
fn in_thousands(number: u64) -> String {
    if number < 1000 {
        return number.to_string();
    }
    format!("{},{:03}", in_thousands(number / 1000), number % 1000)
}
