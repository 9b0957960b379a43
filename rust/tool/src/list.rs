//! `ch11 list`: the listing program's lines for a recording of any size, or the same as JSON.

use crate::failure::Failure;
use crate::progress::Progress;
use crate::reading::{read_on, Answer, Stop};
use crate::windows::{Window, Windows};
use crate::words;
use ch11::Packet;
use serde::Serialize;
use std::io::{self, Write};

/// Which packets are shown, and how.
#[derive(Clone, Debug, Default)]
pub struct Shown {
    /// Only these channels; all where there are none here.
    pub channels: Vec<u16>,
    /// Only these types; all where there are none here.
    pub kinds: Vec<u8>,
    /// As one JSON object a line.
    pub json: bool,
}

impl Shown {
    fn has(&self, packet: &Packet) -> bool {
        let (channel, kind) = (packet.fields.channel, packet.fields.kind);
        (self.channels.is_empty() || self.channels.contains(&channel))
            && (self.kinds.is_empty() || self.kinds.contains(&kind))
    }
}

/// The lines of a packet, in their order.
#[derive(Serialize)]
struct PacketLines {
    packet: u64,
    at: u64,
    length: usize,
    channel: u16,
    #[serde(rename = "type")]
    kind: u8,
    version: u8,
    sequence: u8,
    flags: u8,
    rtc: u64,
    time: u64,
    body: usize,
    filler: usize,
    sum: u32,
    messages: usize,
}

impl PacketLines {
    fn new(number: u64, packet: &Packet, messages: usize) -> PacketLines {
        let fields = &packet.fields;
        PacketLines {
            packet: number,
            at: packet.recording_place,
            length: packet.length,
            channel: fields.channel,
            kind: fields.kind,
            version: fields.version,
            sequence: fields.sequence,
            flags: fields.flags,
            rtc: fields.rtc,
            time: fields.time,
            body: packet.body.length,
            filler: packet.filler.length,
            sum: packet.data_sum,
            messages,
        }
    }

    fn write(&self, out: &mut impl Write) -> io::Result<()> {
        writeln!(out, "packet={}\nat={}", self.packet, self.at)?;
        writeln!(out, "length={}\nchannel={}", self.length, self.channel)?;
        writeln!(out, "type={}\nversion={}", self.kind, self.version)?;
        writeln!(out, "sequence={}\nflags={}", self.sequence, self.flags)?;
        writeln!(out, "rtc={}\ntime={}", self.rtc, self.time)?;
        writeln!(out, "body={}\nfiller={}", self.body, self.filler)?;
        writeln!(out, "sum={}\nmessages={}", self.sum, self.messages)
    }
}

/// The last lines. A refusal's words, place and reason are in the JSON object alone.
#[derive(Serialize)]
struct EndLines {
    packets: u64,
    bytes: u64,
    answer: u64,
    #[serde(flatten)]
    refusal: Option<RefusalKeys>,
}

#[derive(Serialize)]
struct RefusalKeys {
    reason: u64,
    place: u64,
    words: String,
}

impl EndLines {
    fn new(packets: u64, answer: &Answer) -> EndLines {
        let refusal = answer.refusal.as_ref();
        EndLines {
            packets,
            bytes: answer.bytes,
            answer: refusal.map_or(0, |refusal| refusal.number.value()),
            refusal: refusal.map(|refusal| RefusalKeys {
                reason: refusal.reason.map_or(0, |reason| reason.value()),
                place: refusal.recording_place,
                words: words::words(answer, refusal),
            }),
        }
    }

    fn write(&self, out: &mut impl Write) -> io::Result<()> {
        let EndLines { packets, bytes, .. } = self;
        writeln!(
            out,
            "packets={packets}\nbytes={bytes}\nanswer={}",
            self.answer
        )
    }
}

fn write_json(out: &mut impl Write, lines: &impl Serialize) -> io::Result<()> {
    serde_json::to_writer(&mut *out, lines)?;
    out.write_all(b"\n")
}

/// Lists packets as they are read.
struct Lister<'a, W> {
    shown: &'a Shown,
    out: &'a mut W,
    packets: u64,
}

impl<W: Write> Lister<'_, W> {
    /// Lists the packets of a window, and writes all lines out: more bytes may be long in coming.
    fn window(&mut self, window: Window<'_>) -> Result<Stop, Failure> {
        let (mut reached, mut refusal) = (window.start, None);
        for packet in ch11::packets(window.buf, window.start, window.end, window.base) {
            match packet {
                Ok(packet) => {
                    self.packet(window, &packet)?;
                    reached += packet.length;
                }
                Err(refused) => refusal = Some(refused),
            }
        }
        self.out.flush().map_err(Failure::Output)?;
        Ok(Stop { reached, refusal })
    }

    fn packet(&mut self, window: Window<'_>, packet: &Packet) -> Result<(), Failure> {
        let number = self.packets;
        self.packets += 1;
        if !self.shown.has(packet) {
            return Ok(());
        }
        let lines = PacketLines::new(number, packet, message_count(window, packet));
        self.put(&lines, PacketLines::write)
    }

    /// Writes these lines, or their JSON object.
    fn put<L: Serialize>(
        &mut self,
        lines: &L,
        write: impl Fn(&L, &mut W) -> io::Result<()>,
    ) -> Result<(), Failure> {
        let written = if self.shown.json {
            write_json(self.out, lines)
        } else {
            write(lines, self.out)
        };
        written.map_err(Failure::Output)
    }

    fn end(&mut self, answer: &Answer) -> Result<(), Failure> {
        let lines = EndLines::new(self.packets, answer);
        self.put(&lines, EndLines::write)?;
        self.out.flush().map_err(Failure::Output)
    }
}

/// How many messages a packet of a window has; only opened types have any.
fn message_count(window: Window<'_>, packet: &Packet) -> usize {
    if !matches!(packet.fields.kind, ch11::MESSAGE | ch11::UART) {
        return 0;
    }
    let (at, end) = (packet.header.at, window.end);
    // The packet was accepted, so that counting isn't refused.
    ch11::message_count(window.buf, at, end, packet.recording_place).unwrap_or(0)
}

/// Lists a recording up to its end or the first refusal.
pub fn list<W: Write>(
    windows: &mut Windows,
    progress: &mut Progress,
    shown: &Shown,
    out: &mut W,
) -> Result<Answer, Failure> {
    let mut lister = Lister {
        shown,
        out,
        packets: 0,
    };
    let answer = read_on(windows, progress, |window| lister.window(window))?;
    lister.end(&answer)?;
    Ok(answer)
}
