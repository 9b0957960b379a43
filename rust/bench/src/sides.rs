//! The three things that are timed on an input: the library, the same method in Rust, and a pass that only reads.
use crate::aligned::Aligned;
use crate::inputs::{Call, Input};
use crate::kept::{Kept, Step};
use crate::library;
use crate::same;
use crate::same::units::sum64;
use ch11::raw;
use std::mem::MaybeUninit;
use std::ptr::read_volatile;

#[derive(Clone, Copy, PartialEq, Eq)]
pub enum Side {
    Library,
    Rust,
    ReadOnly,
}

impl Side {
    pub fn named(name: &str) -> Option<Side> {
        match name {
            "library" => Some(Side::Library),
            "rust" => Some(Side::Rust),
            "read" => Some(Side::ReadOnly),
            _ => None,
        }
    }
}

/// What the calls on an input's first packet are lent and told: lists with room for all messages, the last message's number,
/// the packet's fields and body, an output with room for it, and for the renewal table's rows the table.
pub struct Lent<'a> {
    starts: Vec<u32>,
    lengths: Vec<u32>,
    last: usize,
    fields: raw::Fields,
    body: &'a [u8],
    out: Aligned,
    kept: Option<Kept>,
}

impl<'a> Lent<'a> {
    pub fn to(input: &'a Input) -> Lent<'a> {
        let bytes = input.bytes();
        let count = library::count_messages(bytes, 0, bytes.len());
        let mut packet = raw::Packet::default();
        library::read_packet(bytes, 0, bytes.len(), 0, &mut packet);
        Lent {
            starts: vec![0; count],
            lengths: vec![0; count],
            last: count.saturating_sub(1),
            fields: packet.fields,
            body: &bytes[packet.body.at as usize..][..packet.body.length as usize],
            out: Aligned::copy_of(&vec![0; packet.length as usize], false),
            kept: match input.call {
                Call::Renewal(step, live) => Some(Kept::holding(live, step, bytes)),
                _ => None,
            },
        }
    }

    fn kept(&mut self) -> &mut Kept {
        self.kept.as_mut().expect("a row of the renewal table")
    }
}

/// Goes over the input so many times on one side.
pub fn run(side: Side, input: &Input, lent: &mut Lent, passes: usize) {
    let calls = passes * input.calls;
    match side {
        Side::Library => run_library(input, lent, calls),
        Side::Rust => run_rust(input, lent, calls),
        Side::ReadOnly => repeat(calls, |start| keep(&sum64(&input.bytes()[start..]))),
    }
}

fn run_library(input: &Input, lent: &mut Lent, calls: usize) {
    let bytes = input.bytes();
    let end = bytes.len();
    match input.call {
        Call::ReadPacket => repeat_into(calls, |at, packet| {
            library::read_packet(bytes, at, end, at as u64, packet)
        }),
        Call::ReadRecording => repeat_into(calls, |at, recording| {
            library::read_recording(bytes, at, end, at as u64, recording)
        }),
        Call::ListMessages => repeat_into(calls, |at, list| {
            let (starts, lengths) = (&mut lent.starts, &mut lent.lengths);
            library::list_messages(bytes, at, end, at as u64, starts, lengths, list)
        }),
        Call::Message => repeat_into(calls, |at, message| {
            library::message(bytes, at, end, at as u64, lent.last + at, message)
        }),
        Call::WritePacket => {
            let out = lent.out.bytes_mut();
            repeat_into(calls, |at, written| {
                library::write_packet(&lent.fields, &lent.body[at..], out, written)
            })
        }
        Call::Renewal(step, _) => run_library_renewal(step, bytes, lent.kept(), calls),
    }
}

fn run_library_renewal(step: Step, bytes: &[u8], kept: &mut Kept, steps: usize) {
    let (mut added, mut renewed) = (raw::Added::default(), raw::Renewed::default());
    let name = kept.name;
    kept.repeat(
        step,
        steps,
        bytes.len(),
        |table, store, at, end| {
            library::renewal_add(table, store, name, bytes, at, end, &mut added);
            keep(&added)
        },
        |table, store, at, end| {
            library::renewal_renew(table, store, name, bytes, at, end, &mut renewed);
            keep(&renewed)
        },
    )
}

fn run_rust(input: &Input, lent: &mut Lent, calls: usize) {
    let bytes = input.bytes();
    let end = bytes.len();
    match input.call {
        Call::ReadPacket => repeat(calls, |at| {
            keep(&same::read_packet(bytes, at, end, at as u64))
        }),
        Call::ReadRecording => repeat(calls, |at| {
            keep(&same::read_recording(bytes, at, end, at as u64))
        }),
        Call::ListMessages => repeat(calls, |at| {
            let (starts, lengths) = (&mut lent.starts, &mut lent.lengths);
            keep(&same::list_messages(
                bytes, at, end, at as u64, starts, lengths,
            ))
        }),
        Call::Message => repeat(calls, |at| {
            keep(&same::message(bytes, at, end, at as u64, lent.last + at))
        }),
        Call::WritePacket => {
            let out = lent.out.bytes_mut();
            repeat(calls, |at| {
                keep(&same::write_packet(&lent.fields, &lent.body[at..], out))
            })
        }
        Call::Renewal(step, _) => run_rust_renewal(step, bytes, lent.kept(), calls),
    }
}

fn run_rust_renewal(step: Step, bytes: &[u8], kept: &mut Kept, steps: usize) {
    use same::renewal::{add, renew};
    let (recording, place) = kept.name;
    kept.repeat(
        step,
        steps,
        bytes.len(),
        |table, store, at, end| keep(&add(table, store, recording, place, bytes, at, end)),
        |table, store, at, end| keep(&renew(table, store, recording, place, bytes, at, end)),
    )
}

/// Repeats a call of the library, which puts its answer into a struct.
fn repeat_into<Answer: Default>(calls: usize, mut call: impl FnMut(usize, &mut Answer)) {
    let mut answer = Answer::default();
    repeat(calls, |start| {
        call(start, &mut answer);
        keep(&answer);
    });
}

/// Calls again and again with a 0 that the compiler doesn't know, for start and base.
pub fn repeat(calls: usize, mut call: impl FnMut(usize)) {
    let start = 0;
    for _ in 0..calls {
        // SAFETY: a reference is good to read.
        call(unsafe { read_volatile(&start) });
    }
}

/// Makes the compiler put a whole answer into memory.
#[inline(never)]
fn keep<Answer>(answer: &Answer) {
    let first = (answer as *const Answer).cast::<MaybeUninit<u8>>();
    // SAFETY: an answer has at least one byte, and one that is not set may be read as such.
    unsafe { read_volatile(first) };
}
