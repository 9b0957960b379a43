//! The rows: what is read or written, and by which call. The library's writer makes the packets.
use crate::aligned::Aligned;
use crate::bodies::{
    carried, case_l_body, fields, full_message_body, message_body, noise, packet, small_uart_body,
};
use crate::kept::Step;
use crate::mixed::mixed;

/// The longest packet of a carried type, and the size of a recording.
const LONGEST: usize = 524_288;
const RECORDING: usize = 1 << 20;

/// Calls that make up one pass over a packet of 64 bytes.
const SMALL_CALLS: usize = 1_000;

#[derive(Clone, Copy, PartialEq, Eq)]
pub enum Call {
    ReadPacket,
    ReadRecording,
    ListMessages,
    /// The last message, by its number.
    Message,
    WritePacket,
    /// A step on a renewal table in which so many entries live.
    Renewal(Step, usize),
}

/// A row: the bytes of one packet or of a recording, the call, and how many calls make up one pass.
pub struct Input {
    pub name: &'static str,
    pub call: Call,
    pub calls: usize,
    pub packets: usize,
    bytes: Aligned,
}

impl Input {
    pub fn bytes(&self) -> &[u8] {
        self.bytes.bytes()
    }

    /// Packets that one pass goes over.
    pub fn units(&self) -> usize {
        self.calls * self.packets
    }

    /// Whether a read-only pass is a measure for the row: its call goes over all the bytes, many of them, and writes none.
    pub fn reads_through(&self) -> bool {
        let summed = self.bytes()[14] & 3 != 0;
        match self.call {
            Call::ReadRecording => true,
            Call::WritePacket => false,
            _ => self.calls == 1 && summed,
        }
    }
}

type Maker = fn(&'static str) -> Input;

/// All rows by name; an input is made when it is asked for.
pub const INPUTS: [(&str, Maker); 34] = [
    ("512K-sum8-even", |name| one(name, 1, false)),
    ("512K-sum8-odd", |name| one(name, 1, true)),
    ("512K-sum16-even", |name| one(name, 2, false)),
    ("512K-sum16-odd", |name| one(name, 2, true)),
    ("512K-sum32-even", |name| one(name, 3, false)),
    ("512K-sum32-odd", |name| one(name, 3, true)),
    ("512K-none-even", |name| one(name, 0, false)),
    ("512K-none-odd", |name| one(name, 0, true)),
    ("28-byte-none", |name| many(name, 0x00, 0x40, 0, &noise(1))),
    ("40-byte-uart", |name| {
        many(name, 0x02, 0x50, 0, &case_l_body())
    }),
    ("128-byte-second", |name| {
        many(name, 0x83, 0x40, 0x5678_0000, &noise(88))
    }),
    ("1K-sum8", |name| many(name, 0x01, 0x40, 0, &noise(999))),
    ("20-messages", |name| {
        many(name, 0x00, 0x30, 0, &message_body(20))
    }),
    ("mixed", |name| {
        let (bytes, packets) = mixed(RECORDING);
        recording(name, &bytes, packets)
    }),
    ("read-64", |name| small(name, Call::ReadPacket)),
    ("read-512K", |name| large(name, Call::ReadPacket)),
    ("list-64", |name| small(name, Call::ListMessages)),
    ("list-512K", |name| large(name, Call::ListMessages)),
    ("message-64", |name| small(name, Call::Message)),
    ("message-512K", |name| large(name, Call::Message)),
    ("write-64", |name| small(name, Call::WritePacket)),
    ("write-512K", |name| large(name, Call::WritePacket)),
    ("64-byte-none", |name| again(name, &carried(64))),
    ("add-60", |name| kept(name, 60, Step::Replace, 1)),
    ("add-64", |name| kept(name, 64, Step::Replace, 1)),
    ("add-1K", |name| kept(name, 1_024, Step::Replace, 1)),
    ("add-64-full", |name| kept(name, 64, Step::Replace, 64)),
    ("new-64", |name| kept(name, 64, Step::New, 0)),
    ("new-64-full", |name| kept(name, 64, Step::New, 63)),
    ("renew-60", |name| kept(name, 60, Step::Renew, 1)),
    ("renew-64", |name| kept(name, 64, Step::Renew, 1)),
    ("renew-1K", |name| kept(name, 1_024, Step::Renew, 1)),
    ("renew-64-full", |name| kept(name, 64, Step::Renew, 64)),
    ("drop-64", |name| kept(name, 64, Step::Drop, 0)),
];

/// One carried packet of 512 KiB with the data sum of this code (bits 1-0 of the flags).
fn one(name: &'static str, code: u8, odd: bool) -> Input {
    let sum_width = [0, 1, 2, 4][usize::from(code)];
    let bytes = packet(&fields(code, 0x09, 0), &noise(LONGEST - 24 - sum_width));
    assert_eq!(bytes.len(), LONGEST);
    Input {
        name,
        call: Call::ReadPacket,
        calls: 1,
        packets: 1,
        bytes: Aligned::copy_of(&bytes, odd),
    }
}

/// A recording that is the same packet again and again.
fn many(name: &'static str, flags: u8, kind: u8, time: u64, body: &[u8]) -> Input {
    again(name, &packet(&fields(flags, kind, time), body))
}

fn again(name: &'static str, packet: &[u8]) -> Input {
    let packets = RECORDING / packet.len();
    recording(name, &packet.repeat(packets), packets)
}

fn recording(name: &'static str, bytes: &[u8], packets: usize) -> Input {
    Input {
        name,
        call: Call::ReadRecording,
        calls: 1,
        packets,
        bytes: Aligned::copy_of(bytes, false),
    }
}

/// A UART packet of 64 bytes: two messages with times, 16-bit sum.
fn small(name: &'static str, call: Call) -> Input {
    let bytes = packet(&fields(0x02, 0x50, 0), &small_uart_body());
    assert_eq!(bytes.len(), 64);
    Input {
        name,
        call,
        calls: SMALL_CALLS,
        packets: 1,
        bytes: Aligned::copy_of(&bytes, false),
    }
}

/// A carried packet of this length without a sum, on a renewal table in which so many entries live.
fn kept(name: &'static str, length: usize, step: Step, live: usize) -> Input {
    Input {
        name,
        call: Call::Renewal(step, live),
        calls: SMALL_CALLS,
        packets: 1,
        bytes: Aligned::copy_of(&carried(length), false),
    }
}

/// A message packet of 512 KiB: messages of 64 to 200 bytes, 2 bytes of filler, 32-bit sum.
fn large(name: &'static str, call: Call) -> Input {
    let bytes = packet(
        &fields(0x03, 0x30, 0),
        &full_message_body(LONGEST - 24 - 2 - 4),
    );
    assert_eq!(bytes.len(), LONGEST);
    Input {
        name,
        call,
        calls: 1,
        packets: 1,
        bytes: Aligned::copy_of(&bytes, false),
    }
}
