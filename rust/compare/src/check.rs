//! Each call of the C interface against the second program, on one input.

use crate::expected::{by_field, same};
use crate::tally::{Call, Tally, ADD, CLOSE, LIST, ONE_MESSAGE, OPEN, READ, RECORDING, WRITE};
use crate::{elsewhere, expected, library};
use ch11::raw::{Draft, Fields, List, Message, Packet, Recording, Refusal, Written};
use generate::hex;
use generate::random::Random;
use generate::recipe::{Placed, Recipe};

/// What lent lists and buffers are full of beforehand.
pub const PATTERN: u8 = 0xA5;
pub const LIST_PATTERN: u32 = 0xA5A5_A5A5;

/// Bytes or entries on both sides of what is lent, which a call must leave alone.
pub const MARGIN: usize = 4;

pub fn describe(window: &Placed) -> String {
    let (start, end, bytes) = (window.start, window.end, hex(&window.buf));
    format!("start {start} end {end} base {} of {bytes}", window.base)
}

/// A reader's refusal of this number, so many bytes behind the window's start, and for this reason.
pub fn refusal_in(window: &Placed, number: u64, inside: usize, reason: u64) -> Refusal {
    Refusal {
        number,
        place: (window.start + inside) as u64,
        reason,
        recording_place: window.base + inside as u64,
        ..Refusal::default()
    }
}

/// The number that a call returns is the one in its struct, and without a refusal there is no place, no room and no reason. 15 has a
/// reason that the call can give; "all others have reason 0".
pub fn returned(
    tally: &mut Tally,
    call: &Call,
    input: &dyn Fn() -> String,
    number: u64,
    refusal: &Refusal,
) {
    tally.require("the number returned", input, &number, &refusal.number);
    let is_none = *refusal == Refusal::default();
    tally.require("no refusal", input, &is_none, &(number == 0));
    if number == 15 {
        tally.reason(call, input, refusal.reason);
    } else {
        tally.require("no reason", input, &refusal.reason, &0);
    }
}

/// Of a reader's answer: 1 is given exactly where the window is outside its buffer or its base is refused, and a refusal's place in the
/// recording is "a base that the caller gives, plus the distance from the window's start".
fn based(
    tally: &mut Tally,
    call: &Call,
    input: &dyn Fn() -> String,
    window: &Placed,
    refusal: &Refusal,
) {
    tally.window(call, window, refusal.number);
    let is_taken = refusal.number != 1;
    tally.require("refusal 1", input, &is_taken, &window.is_taken());
    if refusal.number != 0 {
        let (place, wanted) = (refusal.recording_place, window.in_recording(refusal.place));
        tally.require("a refusal's recording place", input, &place, &wanted);
    }
}

/// The place of a reader's refusal "is the start of the packet", which is here; for 15 it is behind the header.
fn at_packet(tally: &mut Tally, input: &dyn Fn() -> String, here: u64, refusal: &Refusal) {
    let is_there = match refusal.number {
        0 => true,
        15 => refusal.place >= here + 24,
        _ => refusal.place == here,
    };
    tally.require("the start of the packet", input, &is_there, &true);
}

/// "For the writer and builder the place is 0", in the recording too: no base is given.
fn without_base(tally: &mut Tally, input: &dyn Fn() -> String, refusal: &Refusal) {
    let places = [refusal.place, refusal.recording_place];
    tally.require("no window and no place", input, &places, &[0, 0]);
}

/// "A refusal returns its number and place; all other results are zero".
macro_rules! zero_beside {
    ($tally:expr, $input:expr, $answer:expr, $type:ident) => {
        let refusal = $answer.refusal;
        let alone = $type {
            refusal,
            ..$type::default()
        };
        if refusal.number != 0 {
            $tally.require("all other results are zero", $input, &$answer, &alone);
        }
    };
}

pub fn read(tally: &mut Tally, window: &Placed) -> (u64, Packet) {
    let answer = library::read_packet(window);
    let wanted = expected::read_packet(window);
    let input = || describe(window);
    tally.compare(&READ, &input, &answer, &wanted);
    returned(tally, &READ, &input, answer.0, &answer.1.refusal);
    based(tally, &READ, &input, window, &answer.1.refusal);
    at_packet(tally, &input, window.start as u64, &answer.1.refusal);
    zero_beside!(tally, &input, answer.1, Packet);
    if answer.0 == 0 {
        tally.accepted(answer.1.fields.kind, answer.1.fields.flags);
        let place = answer.1.recording_place;
        tally.require("a packet's recording place", &input, &place, &window.base);
    }
    if let Some(there) = tally.rebased(&READ, window) {
        elsewhere::equal_packets(tally, window, &there);
    }
    answer
}

type ListCall = fn(&Placed, &mut [u32], &mut [u32]) -> (u64, List);
type ListAnswer = (u64, (List, Vec<u32>, Vec<u32>));

/// What the lister answers where lists of these lengths are lent, with the whole lists and a margin about each.
pub fn list_by(call: ListCall, window: &Placed, starts: usize, lengths: usize) -> ListAnswer {
    let mut first = vec![LIST_PATTERN; starts + 2 * MARGIN];
    let mut second = vec![LIST_PATTERN; lengths + 2 * MARGIN];
    let lent = &mut first[MARGIN..MARGIN + starts];
    let (number, list) = call(window, lent, &mut second[MARGIN..MARGIN + lengths]);
    (number, (list, first, second))
}

/// The lister, with lists of these lengths; entries past the count are untouched, and those of a refused call all are. Answers both
/// lists too.
pub fn list(
    tally: &mut Tally,
    window: &Placed,
    starts: usize,
    lengths: usize,
) -> (List, [Vec<u32>; 2]) {
    let answer = list_by(library::list_messages, window, starts, lengths);
    let wanted = list_by(expected::list_messages, window, starts, lengths);
    let input = || format!("lists of {} and {}; {}", starts, lengths, describe(window));
    tally.compare(&LIST, &input, &answer, &wanted);
    let (number, (list, first, second)) = answer;
    returned(tally, &LIST, &input, number, &list.refusal);
    based(tally, &LIST, &input, window, &list.refusal);
    at_packet(tally, &input, window.start as u64, &list.refusal);
    zero_beside!(tally, &input, list, List);
    let kept = |list_of: &[u32]| {
        let told = MARGIN..MARGIN + list.count as usize;
        let mut entries = list_of.iter().enumerate();
        entries.all(|(at, entry)| told.contains(&at) || *entry == LIST_PATTERN)
    };
    let both = (kept(&first), kept(&second));
    tally.require("entries past the count", &input, &both, &(true, true));
    if let Some(there) = tally.rebased(&LIST, window) {
        elsewhere::equal_lists(tally, window, &there, [starts, lengths]);
    }
    let lent = |list: Vec<u32>| list[MARGIN..list.len() - MARGIN].to_vec();
    (list, [lent(first), lent(second)])
}

pub fn message(tally: &mut Tally, window: &Placed, number: usize) -> (u64, Message) {
    let answer = library::message(window, number);
    let wanted = expected::message(window, number);
    let input = || format!("message {}; {}", number, describe(window));
    tally.compare(&ONE_MESSAGE, &input, &answer, &wanted);
    returned(tally, &ONE_MESSAGE, &input, answer.0, &answer.1.refusal);
    based(tally, &ONE_MESSAGE, &input, window, &answer.1.refusal);
    at_packet(tally, &input, window.start as u64, &answer.1.refusal);
    zero_beside!(tally, &input, answer.1, Message);
    if let Some(there) = tally.rebased(&ONE_MESSAGE, window) {
        elsewhere::equal_messages(tally, window, &there, number);
    }
    answer
}

pub fn recording(tally: &mut Tally, window: &Placed) -> (u64, Recording) {
    let answer = library::read_recording(window);
    let wanted = expected::read_recording(window);
    let input = || describe(window);
    tally.compare(&RECORDING, &input, &answer, &wanted);
    let (number, recording) = answer;
    returned(tally, &RECORDING, &input, number, &recording.refusal);
    based(tally, &RECORDING, &input, window, &recording.refusal);
    at_packet(tally, &input, recording.reached, &recording.refusal);
    if number != 0 && recording.accepted > 0 {
        tally.later(window, number);
    }
    let reached = recording.recording_reached;
    let wanted = window.in_recording(recording.reached);
    tally.require("the recording place reached", &input, &reached, &wanted);
    if let Some(there) = tally.rebased(&RECORDING, window) {
        elsewhere::equal_recordings(tally, window, &there);
    }
    answer
}

/// How many messages the packet at the window's start has; 0 if it is refused.
pub fn messages_in(window: &Placed) -> usize {
    expected::list_messages(window, &mut [], &mut [])
        .1
        .refusal
        .room as usize
}

/// Lists and message numbers around the count of messages; the shorter list may be either. Answers both refusals.
pub fn messages(tally: &mut Tally, random: &mut Random, window: &Placed) -> [Refusal; 2] {
    let count = messages_in(window);
    let mut around = || match random.below(5) {
        0 => count.saturating_sub(1),
        1 => random.index(4),
        2 => count + random.index(5),
        _ => count,
    };
    let (starts, lengths) = (around(), around());
    let (listed, _) = list(tally, window, starts, lengths);
    let inside = random.index(count.max(1));
    let number = random.choose(&[
        0,
        inside,
        inside,
        count.saturating_sub(1),
        count,
        usize::MAX,
        1 << 32 | inside,
    ]);
    let (_, given) = message(tally, window, number);
    [listed.refusal, given.refusal]
}

/// All four readers on one window. What the one-packet reader refuses, the others refuse alike, save "an empty window", which the
/// recording reader accepts.
pub fn window(tally: &mut Tally, random: &mut Random, window: &Placed) -> (u64, Packet) {
    let [listed, given] = messages(tally, random, window);
    let (_, recorded) = recording(tally, window);
    let (number, packet) = read(tally, window);
    let empty = number == 2 && window.start == window.end;
    let of_recording = if empty {
        Refusal::default()
    } else {
        packet.refusal
    };
    let input = || describe(window);
    if number != 0 {
        let refusals = [listed, given, recorded.refusal];
        let wanted = [packet.refusal, packet.refusal, of_recording];
        tally.require("one refusal from all readers", &input, &refusals, &wanted);
    } else {
        let accepted = [0, 16].contains(&listed.number)
            && [0, 17].contains(&given.number)
            && recorded.accepted > 0;
        tally.require("accepted by all readers", &input, &accepted, &true);
    }
    (number, packet)
}

type WriteCall = fn(&Fields, &[u8], &mut [u8]) -> (u64, Written);

/// The writer on these fields and this body, with an output of this length; the whole output is compared, with a margin, and untouched
/// behind the packet, that of a refused call all of it. Answers the packet too.
pub fn write(tally: &mut Tally, fields: &Fields, body: &[u8], room: usize) -> (Written, Vec<u8>) {
    let run = |call: WriteCall| {
        let mut out = vec![PATTERN; room + 2 * MARGIN];
        let (number, written) = call(fields, body, &mut out[MARGIN..MARGIN + room]);
        (number, (written, out))
    };
    let input = || format!("{:?} room {} body of {}", fields, room, hex(body));
    let answer = run(library::write_packet);
    tally.compare(&WRITE, &input, &answer, &run(expected::write_packet));
    let (number, (written, mut out)) = answer;
    returned(tally, &WRITE, &input, number, &written.refusal);
    without_base(tally, &input, &written.refusal);
    zero_beside!(tally, &input, written, Written);
    let packet = MARGIN..MARGIN + written.length as usize;
    let mut bytes = out.iter().enumerate();
    let kept = bytes.all(|(at, byte)| packet.contains(&at) || *byte == PATTERN);
    tally.require("output outside the packet", &input, &kept, &true);
    out.truncate(packet.end);
    (written, out.split_off(MARGIN))
}

/// The writer on a recipe's fields and body.
pub fn write_recipe(tally: &mut Tally, recipe: &Recipe, room: usize) -> u64 {
    write_refusal(tally, recipe, room).number
}

/// The same, with all of the refusal.
pub fn write_refusal(tally: &mut Tally, recipe: &Recipe, room: usize) -> Refusal {
    let (written, _) = write(tally, &fields_of(recipe), &recipe.body, room);
    written.refusal
}

pub fn fields_of(recipe: &Recipe) -> Fields {
    by_field!(same! recipe => Fields)
}

/// An accepted packet, written again from what was read, gives the same bytes; its output is its own length or longer.
pub fn write_again(tally: &mut Tally, window: &Placed, packet: &Packet, more: usize) {
    let body_at = packet.body.at as usize;
    let body = &window.buf[body_at..body_at + packet.body.length as usize];
    let length = packet.length as usize;
    let (answer, written) = write(tally, &packet.fields, body, length + more);
    let same = window.buf[window.start..window.start + length].to_vec();
    tally.require(
        "a packet written again",
        &|| describe(window),
        &(answer.refusal.number, written),
        &(0, same),
    );
}

/// One step of the builder.
#[derive(Clone, Debug)]
pub enum Step {
    Open(u64, u64),
    Add(u64, u64, Vec<u8>),
    Close,
}

type StepAnswer = (&'static Call, (u64, Draft));

fn step_of_library(draft: Draft, buf: &mut [u8], step: &Step) -> StepAnswer {
    match step {
        Step::Open(kind, rule) => (&OPEN, library::open(draft, buf, *kind, *rule)),
        Step::Add(time, upper, bytes) => (&ADD, library::add(draft, buf, *time, *upper, bytes)),
        Step::Close => (&CLOSE, library::close(draft, buf)),
    }
}

fn step_expected(draft: Draft, buf: &mut [u8], step: &Step) -> (u64, Draft) {
    match step {
        Step::Open(kind, rule) => expected::open(draft, buf, *kind, *rule),
        Step::Add(time, upper, bytes) => expected::add(draft, buf, *time, *upper, bytes),
        Step::Close => expected::close(draft, buf),
    }
}

/// One step from this state on this buffer; both are handed back as the library leaves them. The whole buffer is compared, with a
/// margin; a refused step "hands back the state it was given" and leaves the buffer untouched.
pub fn step(tally: &mut Tally, draft: Draft, buf: &[u8], step: &Step) -> (u64, Draft, Vec<u8>) {
    let whole = [&[PATTERN; MARGIN], buf, &[PATTERN; MARGIN]].concat();
    let (mut ours, mut theirs) = (whole.clone(), whole.clone());
    let lent = MARGIN..MARGIN + buf.len();
    let (call, (number, after)) = step_of_library(draft, &mut ours[lent.clone()], step);
    let wanted = step_expected(draft, &mut theirs[lent.clone()], step);
    let input = || format!("{:?} from {:?} on {}", step, draft, hex(buf));
    let answer = (number, (after, ours));
    tally.compare(call, &input, &answer, &(wanted.0, (wanted.1, theirs)));
    let (_, (_, ours)) = answer;
    returned(tally, call, &input, number, &after.refusal);
    without_base(tally, &input, &after.refusal);
    let built = ours[lent].to_vec();
    if number != 0 {
        let refusal = after.refusal;
        let given = (Draft { refusal, ..draft }, whole);
        tally.require("a refused step", &input, &(after, ours), &given);
    }
    (number, after, built)
}
