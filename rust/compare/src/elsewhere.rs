//! The library against itself: "Two calls of one reader with equal start, end and bytes between them [...] give equal answers", which
//! "now also need equal bases". With another start or base the answers are the same but for the places.

use crate::check;
use crate::library;
use crate::tally::Tally;
use ch11::raw::{Packet, Recording, Refusal};
use generate::random::Random;
use generate::recipe::Placed;
use std::fmt::Debug;

/// The same window in another buffer, at its own start and at another, now and then with another base.
pub fn equal(tally: &mut Tally, random: &mut Random, window: &Placed) {
    if !window.is_within_buffer() {
        return;
    }
    let other_start = random.index(40);
    for start in [window.start, other_start] {
        let mut there = window.elsewhere(random, start);
        if window.is_taken() && random.one_in(2) {
            there = there.with_some_base(random);
        }
        equal_packets(tally, window, &there);
        equal_lists(tally, window, &there, [random.index(12), random.index(12)]);
        equal_messages(tally, window, &there, random.index(3));
        equal_recordings(tally, window, &there);
    }
    // "For one accepted packet, the bytes behind its declared length have no say either", save that a longer window takes fewer bases.
    if let (0, packet) = library::read_packet(window) {
        let mut alone = window.clone();
        alone.end = window.start + packet.length as usize;
        let mut followed = alone.elsewhere(random, alone.start);
        followed.end = followed.buf.len();
        followed.base = followed.base.min(followed.greatest_base());
        equal_packets(tally, window, &followed);
    }
}

pub fn equal_packets(tally: &mut Tally, here: &Placed, there: &Placed) {
    equal_by(tally, here, there, library::read_packet, |by, answer| {
        by.packet(&mut answer.1)
    });
}

pub fn equal_lists(tally: &mut Tally, here: &Placed, there: &Placed, rooms: [usize; 2]) {
    let list = |at: &Placed| check::list_by(library::list_messages, at, rooms[0], rooms[1]);
    equal_by(tally, here, there, list, |by, answer| {
        by.refusal(&mut answer.1 .0.refusal)
    });
}

pub fn equal_messages(tally: &mut Tally, here: &Placed, there: &Placed, number: usize) {
    let message = |at: &Placed| library::message(at, number);
    equal_by(tally, here, there, message, |by, answer| {
        by.refusal(&mut answer.1.refusal)
    });
}

pub fn equal_recordings(tally: &mut Tally, here: &Placed, there: &Placed) {
    equal_by(tally, here, there, library::read_recording, |by, answer| {
        by.recording(&mut answer.1)
    });
}

/// What a call answers for one window, its places moved, is what it answers for the other.
pub fn equal_by<A: PartialEq + Debug>(
    tally: &mut Tally,
    here: &Placed,
    there: &Placed,
    call: impl Fn(&Placed) -> A,
    move_places: impl Fn(Move, &mut A),
) {
    let mut answer = call(here);
    let by = Move {
        in_buffer: (there.start as u64).wrapping_sub(here.start as u64),
        in_recording: there.base.wrapping_sub(here.base),
    };
    move_places(by, &mut answer);
    let input = || format!("{} AS {}", check::describe(there), check::describe(here));
    tally.require("equal answers elsewhere", &input, &call(there), &answer);
}

/// How far the places of an answer move from one window to another.
pub struct Move {
    in_buffer: u64,
    in_recording: u64,
}

impl Move {
    fn place(&self, place: &mut u64) {
        *place = place.wrapping_add(self.in_buffer);
    }

    fn recording_place(&self, place: &mut u64) {
        *place = place.wrapping_add(self.in_recording);
    }

    /// The places of a refusal move, those of none are 0.
    pub fn refusal(&self, refusal: &mut Refusal) {
        if refusal.number != 0 {
            self.place(&mut refusal.place);
            self.recording_place(&mut refusal.recording_place);
        }
    }

    /// The places of an accepted packet and its parts move, those of a refused one are 0.
    fn packet(&self, packet: &mut Packet) {
        self.refusal(&mut packet.refusal);
        if packet.refusal.number == 0 {
            self.recording_place(&mut packet.recording_place);
            let Packet {
                header,
                secondary,
                body,
                filler,
                sum,
                ..
            } = packet;
            for part in [header, secondary, body, filler, sum] {
                self.place(&mut part.at);
            }
        }
    }

    fn recording(&self, recording: &mut Recording) {
        self.refusal(&mut recording.refusal);
        self.place(&mut recording.reached);
        self.recording_place(&mut recording.recording_reached);
    }
}
