//! Packets: reading one, reading all of a recording, writing one.

use crate::raw;
use crate::refusal::{refused, unless_refused, Refusal};
use std::iter::FusedIterator;
use std::ops::Range;

/// What a packet's headers say, save what the writer works out: lengths, filler and sums.
#[derive(Clone, Copy, Debug, Default, PartialEq, Eq, Hash)]
pub struct Fields {
    /// Channel; 0 only with types 0x01 and 0x04.
    pub channel: u16,
    /// Data type version, 1 to 9.
    pub version: u8,
    /// Sequence number.
    pub sequence: u8,
    /// Bit 7: a secondary header is there. Bit 6: message times are absolute (needs bit 7).
    /// Bits 5 and 4: carried. Bits 3-2, time format: 00 Chapter 4, 01 IEEE 1588, 10 extended
    /// counter, 11 reserved. Bits 1-0, data sum: none, 8, 16 or 32 bits.
    pub flags: u8,
    /// Data type; 35 of the 256 are defined.
    pub kind: u8,
    /// Relative time counter, below 2^48.
    pub rtc: u64,
    /// Secondary time, high long word × 2^32 + low; 0 without a secondary header. Chapter 4: the
    /// low 16 bits are zero. IEEE 1588: seconds and nanoseconds. Extended counter: any.
    pub time: u64,
}

/// A part of a packet. `&buf[part.range()]` is its bytes.
#[derive(Clone, Copy, Debug, Default, PartialEq, Eq, Hash)]
pub struct Part {
    /// Its first byte, counted from the buffer's first byte.
    pub at: usize,
    /// Its length; 0 if it is absent, and `at` is then the place where it would stand.
    pub length: usize,
}

impl Part {
    /// The part's bytes in the buffer that the packet was read from.
    pub fn range(self) -> Range<usize> {
        self.at..self.at + self.length
    }
}

/// An accepted packet.
#[derive(Clone, Copy, Debug, PartialEq, Eq, Hash)]
pub struct Packet {
    /// What the headers say; with the body, [`write_packet`] writes the packet again from this.
    pub fields: Fields,
    /// Packet length: the five parts together.
    pub length: usize,
    /// Data length: the body.
    pub data_length: usize,
    /// Header sum as stored.
    pub header_sum: u16,
    /// Data sum as stored; 0 without one.
    pub data_sum: u32,
    /// The packet's first byte, counted from the recording's first byte: the base given.
    pub recording_place: u64,
    /// Primary header; `header.at` is the packet's first byte, counted from the buffer's.
    pub header: Part,
    /// Secondary header.
    pub secondary: Part,
    /// Body.
    pub body: Part,
    /// Filler.
    pub filler: Part,
    /// Data sum.
    pub sum: Part,
}

/// The packet in a result of the library. Each number fits: it was read from a field of its width.
fn packet_of(packet: &raw::Packet) -> Packet {
    let part = |part: raw::Part| Part {
        at: part.at as usize,
        length: part.length as usize,
    };
    let fields = Fields {
        channel: packet.fields.channel as u16,
        version: packet.fields.version as u8,
        sequence: packet.fields.sequence as u8,
        flags: packet.fields.flags as u8,
        kind: packet.fields.kind as u8,
        rtc: packet.fields.rtc,
        time: packet.fields.time,
    };
    Packet {
        fields,
        length: packet.length as usize,
        data_length: packet.data_length as usize,
        header_sum: packet.header_sum as u16,
        data_sum: packet.data_sum as u32,
        recording_place: packet.recording_place,
        header: part(packet.header),
        secondary: part(packet.secondary),
        body: part(packet.body),
        filler: part(packet.filler),
        sum: part(packet.sum),
    }
}

/// Reads the packet at the start of the window `buf[start..end]`; the window may go on behind it.
/// `base` is where the window starts in the recording.
pub fn read_packet(buf: &[u8], start: usize, end: usize, base: u64) -> Result<Packet, Refusal> {
    let mut packet = raw::Packet::default();
    // SAFETY: the pointer and length are those of `buf`; `packet` is our own. Any start, end and
    // base do.
    unsafe { raw::ch11_read_packet(buf.as_ptr(), buf.len(), start, end, base, &mut packet) };
    unless_refused(packet.refusal, packet_of(&packet))
}

/// The packets of the window `buf[start..end]`, each at the end of the one before. The first refusal
/// is the last item; without one the packets fill the window exactly. An empty window has none.
/// `base` is where the window starts in the recording; it moves on with the packets.
pub fn packets(buf: &[u8], start: usize, end: usize, base: u64) -> Packets<'_> {
    Packets {
        buf,
        at: start,
        end,
        base,
        ended: false,
    }
}

/// The iterator that [`packets`] gives.
#[derive(Clone, Debug)]
pub struct Packets<'a> {
    buf: &'a [u8],
    /// Where the next packet begins.
    at: usize,
    end: usize,
    /// Where it begins in the recording.
    base: u64,
    /// A refusal was handed out.
    ended: bool,
}

impl Iterator for Packets<'_> {
    type Item = Result<Packet, Refusal>;

    fn next(&mut self) -> Option<Self::Item> {
        let exact_end = self.at == self.end && self.end <= self.buf.len();
        if self.ended || exact_end {
            return None;
        }
        let item = read_packet(self.buf, self.at, self.end, self.base);
        match &item {
            Ok(packet) => {
                self.at += packet.length;
                self.base += packet.length as u64;
            }
            Err(_) => self.ended = true,
        }
        Some(item)
    }
}

impl FusedIterator for Packets<'_> {}

/// What [`read_recording`] answers.
#[derive(Clone, Copy, Debug, PartialEq, Eq, Hash)]
pub struct Recording {
    /// Packets accepted, also with a refusal.
    pub accepted: usize,
    /// The place reached: the first byte of the refused packet, or the window's end.
    pub reached: usize,
    /// The same byte as `reached`, counted from the recording's first byte: the base of a window that
    /// is to read on from there.
    pub recording_reached: u64,
    /// The refusal that ended the reading; `None` at the exact end.
    pub refusal: Option<Refusal>,
}

impl Recording {
    /// Whether more bytes behind the window could change this answer: at its exact end, or where its
    /// refusal [waits](Refusal::waits). A recording of any size is read by windows that each begin at the
    /// place reached, with `recording_reached` as base, and are longer where the one before accepted
    /// nothing, until one doesn't wait or nothing more comes: the packets and the last refusal are those
    /// of one reading of the whole.
    pub fn waits(&self) -> bool {
        self.refusal.map_or(true, |refusal| refusal.waits())
    }
}

/// Reads all packets of the window `buf[start..end]`, as [`packets`] does, and says how far it came.
/// `base` is where the window starts in the recording.
pub fn read_recording(buf: &[u8], start: usize, end: usize, base: u64) -> Recording {
    let mut recording = raw::Recording::default();
    // SAFETY: the pointer and length are those of `buf`; `recording` is our own. Any start, end and
    // base do.
    unsafe { raw::ch11_read_recording(buf.as_ptr(), buf.len(), start, end, base, &mut recording) };
    Recording {
        accepted: recording.accepted as usize,
        reached: recording.reached as usize,
        recording_reached: recording.recording_reached,
        refusal: refused(recording.refusal),
    }
}

/// Writes the packet of these fields and this body at the first byte of `out` and gives its length;
/// lengths, filler and sums are worked out. Bytes behind the packet are untouched, and so is all of
/// `out` at a refusal. With too small an `out` (an empty one too) [`Refusal::room`] is the length.
pub fn write_packet(fields: &Fields, body: &[u8], out: &mut [u8]) -> Result<usize, Refusal> {
    let fields = raw::Fields {
        channel: fields.channel.into(),
        version: fields.version.into(),
        sequence: fields.sequence.into(),
        flags: fields.flags.into(),
        kind: fields.kind.into(),
        rtc: fields.rtc,
        time: fields.time,
    };
    let (body_at, body_len) = (body.as_ptr(), body.len());
    let (out_at, out_len) = (out.as_mut_ptr(), out.len());
    let mut written = raw::Written::default();
    // SAFETY: the pointers and lengths are those of `body` and `out`, which can't overlap as `out` is
    // borrowed alone; `fields` and `written` are our own.
    unsafe { raw::ch11_write_packet(&fields, body_at, body_len, out_at, out_len, &mut written) };
    unless_refused(written.refusal, written.length as usize)
}
