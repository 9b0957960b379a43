//! The library's method in plain safe Rust: the same tests in the same order, nothing kept and nothing allocated; only a block at fault is
//! looked at again, to name the rule that it breaks, which costs a sound one nothing.
//! Its seven calls are not inlined into their callers, as the library's are not. What else is inlined the compiler chooses, as for the
//! library; with the feature `inlined` the tests that the calls share are forced into each.
mod body;
mod frame;
pub mod renewal;
mod rules;
pub mod units;
mod write;

use body::{is_opened, messages, walk_body};
use frame::{check_frame, measure, stored_sum};
use rules::has_secondary;
use units::{read16, read32, read48, read64};
pub use write::write_packet;

/// A refusal's number, its place counted from the buffer's first byte, the room needed (16; otherwise 0), the reason (15; otherwise 0), and
/// its place in the recording.
#[derive(Clone, Copy)]
pub struct Refusal {
    pub number: u8,
    pub place: usize,
    pub room: usize,
    pub reason: u8,
    pub recording_place: u64,
}

/// Where a part of a packet stands in the buffer, and how many bytes it has.
#[derive(Clone, Copy)]
pub struct Part {
    pub at: usize,
    pub length: usize,
}

/// The numbers of the two headers that are not worked out.
#[derive(Clone, Copy)]
pub struct Fields {
    pub channel: u16,
    pub version: u8,
    pub sequence: u8,
    pub flags: u8,
    pub kind: u8,
    pub rtc: u64,
    pub time: u64,
}

/// An accepted packet: its fields, P and D, both sums as stored, its place in the recording, and its five parts.
#[derive(Clone, Copy)]
pub struct Packet {
    pub fields: Fields,
    pub length: u32,
    pub data_length: u32,
    pub header_sum: u16,
    pub data_sum: u32,
    pub recording_place: u64,
    pub header: Part,
    pub secondary: Part,
    pub body: Part,
    pub filler: Part,
    pub sum: Part,
}

/// One message: its time (0 if none is stored), its ID word, and its bytes' start, counted from the packet's first byte, and number.
#[derive(Clone, Copy)]
pub struct Message {
    pub time: u64,
    pub id: u32,
    pub start: usize,
    pub length: usize,
}

/// What the reading of a recording gives, the place reached in the buffer and in the recording; no refusal at the exact end.
pub struct Recording {
    pub accepted: usize,
    pub reached: usize,
    pub recording_reached: u64,
    pub refusal: Option<Refusal>,
}

/// Reads the packet at the start of a window. The reader's refusals.
#[inline(never)]
pub fn read_packet(buffer: &[u8], start: usize, end: usize, base: u64) -> Result<Packet, Refusal> {
    let window = window_in(buffer, start, end, base)?;
    check_frame(window).map_err(|number| refuse(number, start, base))?;
    check_messages(window).map_err(|fault| fault.told(start, base))?;
    Ok(packet_in(window, start, base))
}

/// Reads the packets of a window, each at the end of the one before; the first that is refused ends the reading.
#[inline(never)]
pub fn read_recording(buffer: &[u8], start: usize, end: usize, base: u64) -> Recording {
    let window = match window_in(buffer, start, end, base) {
        Ok(window) => window,
        Err(refusal) => {
            return Recording {
                accepted: 0,
                reached: start,
                recording_reached: base,
                refusal: Some(refusal),
            }
        }
    };
    let passed = pass_packets(window);
    let distance = window.len() - passed.left;
    let (reached, recording_reached) = (start + distance, base + distance as u64);
    let tell = |fault: Fault| fault.told(reached, recording_reached);
    Recording {
        accepted: passed.accepted,
        reached,
        recording_reached,
        refusal: passed.fault.map(tell),
    }
}

/// Fills two lists with the start, counted from the packet's first byte, and the length of each message, and gives their number.
/// The reader's refusals, then 16 where there are more messages than the shorter list holds.
#[inline(never)]
pub fn list_messages(
    buffer: &[u8],
    start: usize,
    end: usize,
    base: u64,
    starts: &mut [u32],
    lengths: &mut [u32],
) -> Result<usize, Refusal> {
    let window = window_in(buffer, start, end, base)?;
    check_frame(window).map_err(|number| refuse(number, start, base))?;
    let count = check_messages(window).map_err(|fault| fault.told(start, base))?;
    if starts.len().min(lengths.len()) < count {
        return Err(Refusal {
            room: count,
            ..refuse(16, start, base)
        });
    }
    let layout = measure(window);
    let body = &window[layout.body..layout.filler];
    let entries = starts.iter_mut().zip(lengths);
    for (message, (start, length)) in messages(body, window[15]).zip(entries) {
        *start = (layout.body + message.start) as u32;
        *length = message.head.length as u32;
    }
    Ok(count)
}

/// The message of this number, from 0. The reader's refusals, then 17 where there is none.
#[inline(never)]
pub fn message(
    buffer: &[u8],
    start: usize,
    end: usize,
    base: u64,
    number: usize,
) -> Result<Message, Refusal> {
    let window = window_in(buffer, start, end, base)?;
    check_frame(window).map_err(|number| refuse(number, start, base))?;
    check_messages(window).map_err(|fault| fault.told(start, base))?;
    let layout = measure(window);
    let body = &window[layout.body..layout.filler];
    let found = messages(body, window[15])
        .nth(number)
        .ok_or(refuse(17, start, base))?;
    Ok(Message {
        time: found.head.time,
        id: found.head.id,
        start: layout.body + found.start,
        length: found.head.length,
    })
}

/// The bytes of a window, or 1 if it is outside the buffer or base plus window length passes 2^64 - 1.
fn window_in(buffer: &[u8], start: usize, end: usize, base: u64) -> Result<&[u8], Refusal> {
    match buffer.get(start..end) {
        Some(window) if base.checked_add(window.len() as u64).is_some() => Ok(window),
        _ => Err(refuse(1, start, base)),
    }
}

/// What is wrong with a packet: the refusal's number, its reason (15; otherwise 0), and how many bytes it stands behind the packet's first.
struct Fault {
    number: u8,
    reason: u8,
    inside: usize,
}

impl Fault {
    /// The refusal of a packet that stands at these places in the buffer and in the recording.
    fn told(self, place: usize, recording_place: u64) -> Refusal {
        let (place, recording_place) = (place + self.inside, recording_place + self.inside as u64);
        Refusal {
            reason: self.reason,
            ..refuse(self.number, place, recording_place)
        }
    }
}

/// Packets that were accepted one behind the other, the bytes left behind them, and what is wrong with the packet there, if any is left.
struct Passed {
    accepted: usize,
    left: usize,
    fault: Option<Fault>,
}

/// Goes over the packets of a window. It is kept out of its caller, whose start and base would be in the loop's way.
#[inline(never)]
fn pass_packets(mut rest: &[u8]) -> Passed {
    let mut accepted = 0;
    while !rest.is_empty() {
        if let Err(fault) = check_packet(rest) {
            return Passed {
                accepted,
                left: rest.len(),
                fault: Some(fault),
            };
        }
        accepted += 1;
        rest = &rest[read32(rest, 4) as usize..];
    }
    Passed {
        accepted,
        left: 0,
        fault: None,
    }
}

/// The number of messages of the packet at the window's first byte, or the first of the reader's refusals from 2 on that applies.
#[cfg_attr(feature = "inlined", inline(always))]
fn check_packet(window: &[u8]) -> Result<usize, Fault> {
    check_frame(window).map_err(|number| Fault {
        number,
        reason: 0,
        inside: 0,
    })?;
    check_messages(window)
}

/// The number of messages of a packet whose frame is sound, or 15. A type that isn't opened leaves at once.
#[cfg_attr(feature = "inlined", inline(always))]
fn check_messages(window: &[u8]) -> Result<usize, Fault> {
    let kind = window[15];
    if !is_opened(kind) {
        return Ok(0);
    }
    let layout = measure(window);
    let body = &window[layout.body..layout.filler];
    let walked = walk_body(body, kind, window[14]);
    if walked.reason != 0 {
        return Err(Fault {
            number: 15,
            reason: walked.reason,
            inside: layout.body + walked.number,
        });
    }
    Ok(walked.number)
}

fn refuse(number: u8, place: usize, recording_place: u64) -> Refusal {
    Refusal {
        number,
        place,
        room: 0,
        reason: 0,
        recording_place,
    }
}

/// The record of a packet that passed all tests.
fn packet_in(window: &[u8], start: usize, base: u64) -> Packet {
    let layout = measure(window);
    let part = |from: usize, to: usize| Part {
        at: start + from,
        length: to - from,
    };
    Packet {
        fields: fields_in(window),
        length: layout.length as u32,
        data_length: (layout.filler - layout.body) as u32,
        header_sum: read16(window, 22),
        data_sum: stored_sum(&window[..layout.length], window[14]),
        recording_place: base,
        header: part(0, 24),
        secondary: part(24, layout.body),
        body: part(layout.body, layout.filler),
        filler: part(layout.filler, layout.sum),
        sum: part(layout.sum, layout.length),
    }
}

fn fields_in(window: &[u8]) -> Fields {
    let flags = window[14];
    Fields {
        channel: read16(window, 2),
        version: window[12],
        sequence: window[13],
        flags,
        kind: window[15],
        rtc: read48(window, 16),
        time: if has_secondary(flags) {
            read64(window, 24)
        } else {
            0
        },
    }
}
