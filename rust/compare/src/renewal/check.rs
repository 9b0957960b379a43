//! The calls of the renewal table against the second program, and against what document 02 §13 says of them, on one input.

use super::kept::{describe, Kept, Name};
use super::met::{Outcome, Seen};
use super::wanted;
use crate::tally::{Call, Tally, RENEWAL_ADD, RENEWAL_NEXT, RENEWAL_RENEW};
use crate::{check, elsewhere, expected, library};
use ch11::raw::{Added, Refusal, Renewed, Table};
use generate::random::Random;
use generate::recipe::Placed;
use std::fmt::Debug;

/// One call in so many is made again with the same window elsewhere.
const REPEATED: u64 = 7;

/// A call that is lent a table and a store, and takes a recording number and a window; its base is the place in the name.
type Lent<A> = fn(&mut Table, &mut [u8], u64, &Placed) -> (u64, A);

/// One of the two calls that take a window: the library's, the second program's, what §13 says, and how its answer is read.
struct Form<A: 'static> {
    call: &'static Call,
    library: Lent<A>,
    second: Lent<A>,
    wanted: fn(&Kept, Name, &Placed) -> (A, Kept),
    /// The call's refusal, then what is named beside it.
    refusals: fn(&mut A) -> Vec<&mut Refusal>,
    outcome: fn(&A) -> Outcome,
    /// The answer of a call with this refusal: "all other results are zero".
    refused: fn(Refusal) -> A,
}

static ADDING: Form<Added> = Form {
    call: &RENEWAL_ADD,
    library: library::renewal_add,
    second: expected::renewal_add,
    wanted: wanted::added,
    refusals: |added| vec![&mut added.refusal],
    outcome: |added| match added.refusal.number {
        0 => Outcome::Added(added.slot),
        _ => Outcome::Refused(added.refusal),
    },
    refused: |refusal| Added {
        refusal,
        ..Added::default()
    },
};

static RENEWING: Form<Renewed> = Form {
    call: &RENEWAL_RENEW,
    library: library::renewal_renew,
    second: expected::renewal_renew,
    wanted: wanted::renewed,
    refusals: |renewed| vec![&mut renewed.refusal, &mut renewed.cause],
    outcome: |renewed| match (renewed.refusal.number, renewed.lives) {
        (0, 0) => Outcome::Dropped(renewed.cause),
        (0, 1) if renewed.cause == Refusal::default() => Outcome::Lives,
        _ => Outcome::Refused(renewed.refusal),
    },
    refused: |refusal| Renewed {
        refusal,
        ..Renewed::default()
    },
};

/// What a call answers, and what it leaves of a copy.
fn on_copy<A>(call: Lent<A>, kept: &Kept, name: Name, window: &Placed) -> (u64, (A, Kept)) {
    let mut kept = kept.clone();
    let (table, store) = kept.both();
    let (number, answer) = call(table, store, name.0, window);
    (number, (answer, kept))
}

/// Makes a call on table and store, which are left as the library leaves them.
fn make<A>(
    form: &Form<A>,
    tally: &mut Tally,
    kept: &mut Kept,
    recording: u64,
    window: &Placed,
) -> Outcome
where
    A: PartialEq + Debug,
{
    let (before, name) = (&*kept, (recording, window.base));
    let input = || format!("{}; {}", check::describe(window), describe(before, name));
    let answer = on_copy(form.library, before, name, window);
    let expected = on_copy(form.second, before, name, window);
    tally.compare(form.call, &input, &answer, &expected);
    let (number, (mut told, left)) = answer;
    let outcome = (form.outcome)(&told);
    let refusal = *(form.refusals)(&mut told)[0];
    check::returned(tally, form.call, &input, number, &refusal);
    if number != 0 {
        let alone = (form.refused)(refusal);
        tally.require("all other results are zero", &input, &told, &alone);
    }
    let wanted = (form.wanted)(before, name, window);
    tally.require("the answer by §13", &input, &told, &wanted.0);
    tally.require("table and store by §13", &input, &left, &wanted.1);
    tally.renewal(form.call, &Seen::new(before, name, window, outcome));
    for there in elsewhere_of(window, tally.renewals()) {
        let call = |at: &Placed| on_copy(form.library, before, name, at);
        elsewhere::equal_by(tally, window, &there, call, |by, answer| {
            let refusals = (form.refusals)(&mut answer.1 .0);
            refusals.into_iter().for_each(|refusal| by.refusal(refusal));
        });
    }
    *kept = left;
    outcome
}

/// Now and then, where the window is within its buffer, the same window in other buffers, at its own start and at another.
fn elsewhere_of(window: &Placed, calls: u64) -> Vec<Placed> {
    if !window.is_within_buffer() || calls % REPEATED != 0 {
        return Vec::new();
    }
    let random = &mut Random::new(calls);
    let starts = [window.start, random.index(40)];
    let there = |start: &usize| window.elsewhere(random, *start);
    starts.iter().map(there).collect()
}

/// Adds the packet at the window's start.
pub fn add(tally: &mut Tally, kept: &mut Kept, recording: u64, window: &Placed) -> Outcome {
    make(&ADDING, tally, kept, recording, window)
}

/// Renews the entry whose place is the window's base.
pub fn renew(tally: &mut Tally, kept: &mut Kept, recording: u64, window: &Placed) -> Outcome {
    make(&RENEWING, tally, kept, recording, window)
}

/// The lowest slot from this one on whose entry lives.
pub fn next(tally: &mut Tally, table: &Table, from: usize) -> usize {
    let slot = library::renewal_next(table, from);
    let answer = (slot as u64, ());
    let expected = (expected::renewal_next(table, from) as u64, ());
    let input = || format!("from {} of {:?}", from, table);
    tally.compare(&RENEWAL_NEXT, &input, &answer, &expected);
    let wanted = wanted::next(table, from);
    tally.require("the next live slot", &input, &slot, &wanted);
    slot
}
