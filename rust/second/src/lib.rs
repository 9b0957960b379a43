//! A second program for the rules of document 01 and of the change request's
//! sections 2 (layout refusals say why), 9 (places in the recording) and 13
//! (the renewal table): a reader for one packet, a lister of the messages in a
//! packet, a reader for a whole recording, a body builder, a packet writer, the
//! listing and the renewal table over the reader.
//!
//! Sentences in quotation marks are those of document 01, or of the request
//! where "Request 2:", "Request 9:" or "Request 13:" stands ahead of them. The
//! request outranks document 01.
//!
//! The four calls that read take a base behind the window: the place in the
//! recording of the window's first byte. Request 9: "Recordings run to hundreds
//! of gigabytes, our windows don't." The two calls of the renewal table that
//! take a window have that base ahead of it: it is the place in the entry's
//! name. Request 13: "An entry's name is its recording number and place".

#![forbid(unsafe_code)]

mod body;
mod builder;
mod listing;
mod reader;
mod renewal;
mod rules;
mod writer;

pub use builder::{add, close, open};
pub use listing::{listing, LONGEST_INPUT};
pub use reader::{list_messages, message, read_packet, read_recording};
pub use renewal::{renewal_add, renewal_next, renewal_renew, Added, Entry, Renewed};
pub use writer::write_packet;

/// "A refusal returns its number and place; all other results are zero, save
/// that [...] 16 also gives the room needed". 15 also gives the reason: the
/// number, from 1 to 7, of the layout rule that the body breaks. Request 2:
/// "1 channel word (or under 4 bytes), 2 block cut short, 3 time, 4 length
/// zero, 5 pad not zero, 6 bytes after the counted blocks, 7 body ends where a
/// block must begin"; "all others have reason 0".
///
/// Request 9: "each refusal now carries a 64-bit place in the recording: a base
/// that the caller gives, plus the distance from the window's start". It is the
/// same byte as `place`: for a packet at the window's start the base itself,
/// save for 15. The writer's and the builder's is 0, as their place is: they
/// have no window and no base. Without a refusal there is no place: both are 0.
///
/// The renewal table adds 19, 20 and 21, at the window's start as its 16 is; the
/// room of that 16 is the 65,536 bytes of a whole store.
#[derive(Clone, Copy, Debug, PartialEq, Eq, Default)]
pub struct Refusal {
    pub number: u64,
    /// Counted from the buffer's first byte.
    pub place: u64,
    pub recording_place: u64,
    pub room: u64,
    pub reason: u64,
}

/// The fields that the reader reports and the writer takes.
/// `time` is "the secondary time (0 if absent)".
#[derive(Clone, Copy, Debug, PartialEq, Eq, Default)]
pub struct Fields {
    pub channel: u64,
    pub version: u64,
    pub sequence: u64,
    pub flags: u64,
    pub kind: u64,
    pub rtc: u64,
    pub time: u64,
}

/// The place, counted from the buffer's first byte, and the length of a part.
/// "an absent part has length 0, at the place where it would stand".
#[derive(Clone, Copy, Debug, PartialEq, Eq, Default)]
pub struct Part {
    pub at: u64,
    pub length: u64,
}

/// What an accepted packet returns.
#[derive(Clone, Copy, Debug, PartialEq, Eq, Default)]
pub struct Packet {
    pub fields: Fields,
    /// Request 9: "Each packet's record [...] now carries a 64-bit place in the
    /// recording": that of its first byte. The places of its parts stay counted
    /// from the buffer's first byte.
    pub recording_place: u64,
    /// P.
    pub length: u64,
    /// D.
    pub data_length: u64,
    /// The header sum as stored.
    pub header_sum: u64,
    /// The data sum as stored, 0 if absent.
    pub data_sum: u64,
    pub header: Part,
    pub secondary: Part,
    pub body: Part,
    pub filler: Part,
    pub sum: Part,
}

/// "one message by its number, from 0: time (0 if none is stored), ID word,
/// start and length". The start is counted from the packet's first byte.
#[derive(Clone, Copy, Debug, PartialEq, Eq, Default)]
pub struct Message {
    pub time: u64,
    pub id: u64,
    pub start: u64,
    pub length: u64,
}

/// "the number accepted, the place reached and the refusal there, or 0 at the
/// exact end".
#[derive(Clone, Copy, Debug, PartialEq, Eq, Default)]
pub struct Recording {
    pub refusal: Refusal,
    pub accepted: u64,
    /// Counted from the buffer's first byte.
    pub reached: u64,
    /// The place reached, as a place in the recording.
    pub recording_reached: u64,
}

/// The builder's state: bytes used, blocks added, type and time rule.
/// All zero is the fresh one.
#[derive(Clone, Copy, Debug, PartialEq, Eq, Default)]
pub struct Draft {
    pub used: u64,
    pub blocks: u64,
    pub kind: u64,
    pub rule: u64,
}
