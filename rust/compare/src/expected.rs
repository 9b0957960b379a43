//! The second program's answers, put into the structs of the C interface: "A refusal returns its number and place; all other results
//! are zero", save what is said there.

use ch11::raw::*;
use generate::recipe::Placed;
use second::{Draft as State, Entry as Row, Fields as Given};

/// A struct made of another's fields of the same names.
macro_rules! same {
    ($from:expr => $into:ident: $($field:ident)+) => {
        $into { $($field: $from.$field),+ }
    };
}
pub(crate) use same;

/// Hands the names of a packet's fields to a macro, behind what it is given first.
macro_rules! by_field {
    ($do:ident! $($given:tt)+) => {
        $do!($($given)+: channel version sequence flags kind rtc time)
    };
}
pub(crate) use by_field;

/// Hands the names of a table row's words to a macro, behind what it is given first.
macro_rules! by_word {
    ($do:ident! $($given:tt)+) => {
        $do!($($given)+: live recording place length channel sequence rtc)
    };
}
pub(crate) use by_word;

/// An answer without a refusal: these fields, copied from another struct; the others are zero.
macro_rules! accepted {
    ($from:expr => $into:ident: $($field:ident)+) => {
        (0, $into { $($field: $from.$field,)+ ..$into::default() })
    };
}

/// An answer with this refusal, otherwise zero.
macro_rules! refused {
    ($refusal:expr => $into:ident) => {
        (
            $refusal.number,
            $into {
                refusal: refusal($refusal),
                ..$into::default()
            },
        )
    };
}

fn refusal(from: second::Refusal) -> Refusal {
    same!(from => Refusal: number place room reason recording_place)
}

fn part(from: second::Part) -> Part {
    same!(from => Part: at length)
}

fn packet(from: second::Packet) -> (u64, Packet) {
    let (number, mut packet) =
        accepted!(from => Packet: length data_length header_sum data_sum recording_place);
    packet.fields = by_field!(same! from.fields => Fields);
    packet.header = part(from.header);
    packet.secondary = part(from.secondary);
    packet.body = part(from.body);
    packet.filler = part(from.filler);
    packet.sum = part(from.sum);
    (number, packet)
}

pub fn read_packet(w: &Placed) -> (u64, Packet) {
    match second::read_packet(&w.buf, w.start, w.end, w.base) {
        Ok(from) => packet(from),
        Err(no) => refused!(no => Packet),
    }
}

pub fn list_messages(w: &Placed, starts: &mut [u32], lengths: &mut [u32]) -> (u64, List) {
    let mut list = List::default();
    match second::list_messages(&w.buf, w.start, w.end, w.base, starts, lengths) {
        Ok(count) => list.count = count,
        Err(no) => return refused!(no => List),
    }
    (0, list)
}

pub fn message(w: &Placed, number: usize) -> (u64, Message) {
    match second::message(&w.buf, w.start, w.end, w.base, number) {
        Ok(from) => accepted!(from => Message: time id start length),
        Err(no) => refused!(no => Message),
    }
}

pub fn read_recording(w: &Placed) -> (u64, Recording) {
    let from = second::read_recording(&w.buf, w.start, w.end, w.base);
    let (_, mut recording) = accepted!(from => Recording: accepted reached recording_reached);
    recording.refusal = refusal(from.refusal);
    (from.refusal.number, recording)
}

pub fn write_packet(fields: &Fields, body: &[u8], out: &mut [u8]) -> (u64, Written) {
    let fields = by_field!(same! fields => Given);
    let mut written = Written::default();
    match second::write_packet(&fields, body, out) {
        Ok(length) => written.length = length,
        Err(no) => return refused!(no => Written),
    }
    (0, written)
}

fn state(from: Draft) -> State {
    same!(from => State: used blocks kind rule)
}

fn step((no, from): (second::Refusal, State)) -> (u64, Draft) {
    let (_, mut draft) = accepted!(from => Draft: used blocks kind rule);
    draft.refusal = refusal(no);
    (no.number, draft)
}

pub fn open(draft: Draft, buf: &mut [u8], kind: u64, rule: u64) -> (u64, Draft) {
    step(second::open(state(draft), buf, kind, rule))
}

pub fn add(draft: Draft, buf: &mut [u8], time: u64, upper: u64, bytes: &[u8]) -> (u64, Draft) {
    step(second::add(state(draft), buf, time, upper, bytes))
}

pub fn close(draft: Draft, buf: &mut [u8]) -> (u64, Draft) {
    step(second::close(state(draft), buf))
}

fn rows(table: &Table) -> [Row; SLOTS] {
    table.slots.map(|entry| by_word!(same! entry => Row))
}

/// What the second program answers on the table's rows; they are put back as it leaves them.
fn on_rows<A>(table: &mut Table, call: impl FnOnce(&mut [Row; SLOTS]) -> A) -> A {
    let mut rows = rows(table);
    let answer = call(&mut rows);
    table.slots = rows.map(|row| by_word!(same! row => Entry));
    answer
}

pub fn renewal_add(
    table: &mut Table,
    store: &mut [u8],
    recording: u64,
    w: &Placed,
) -> (u64, Added) {
    let from = on_rows(table, |rows| {
        second::renewal_add(rows, store, recording, w.base, &w.buf, w.start, w.end)
    });
    let (_, mut added) = accepted!(from => Added: slot);
    added.refusal = refusal(from.refusal);
    (from.refusal.number, added)
}

pub fn renewal_renew(
    table: &mut Table,
    store: &mut [u8],
    recording: u64,
    w: &Placed,
) -> (u64, Renewed) {
    let from = on_rows(table, |rows| {
        second::renewal_renew(rows, store, recording, w.base, &w.buf, w.start, w.end)
    });
    let renewed = Renewed {
        refusal: refusal(from.refusal),
        lives: u64::from(from.lives),
        cause: refusal(from.cause),
    };
    (from.refusal.number, renewed)
}

pub fn renewal_next(table: &Table, from: usize) -> usize {
    second::renewal_next(&rows(table), from)
}
