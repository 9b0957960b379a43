//! `ch11 messages`: the messages of the packet at a place of the recording.

use crate::dump::dump;
use crate::failure::Failure;
use crate::reading::Answer;
use crate::times::{form, readable};
use crate::windows::{Window, Windows};
use crate::words::counted;
use ch11::{Packet, Refusal, MESSAGE, UART};
use std::io::{self, Write};

/// One message of a packet.
#[derive(Clone, Copy, Debug, PartialEq, Eq)]
pub struct Message<'a> {
    /// Its time; `None` where none is stored.
    pub time: Option<u64>,
    /// Its ID word, reserved bits as read.
    pub id: u32,
    /// The place of its first byte, counted from the packet's first byte.
    pub start: usize,
    pub bytes: &'a [u8],
}

/// Shows the messages of the packet at the windows' start; the answer where it is refused.
pub fn messages<W: Write>(windows: &mut Windows, out: &mut W) -> Result<Option<Answer>, Failure> {
    loop {
        let window = windows.window();
        match read(window) {
            Ok((packet, found)) => {
                let shown = show(out, &packet, &found).and_then(|()| out.flush());
                return shown.map(|()| None).map_err(Failure::Output);
            }
            Err(refusal) => {
                let answer = Answer::at(window, Some(refusal));
                if !answer.may_change(windows)? {
                    return Ok(Some(answer));
                }
            }
        }
    }
}

/// The packet at a window's start and its messages.
fn read(window: Window<'_>) -> Result<(Packet, Vec<Message<'_>>), Refusal> {
    let packet = ch11::read_packet(window.buf, window.start, window.end, window.base)?;
    Ok((packet, messages_of(window, &packet)?))
}

/// The messages of an accepted packet at a window's start. The library lists their places once; time and ID word stand ahead of each.
pub fn messages_of<'a>(window: Window<'a>, packet: &Packet) -> Result<Vec<Message<'a>>, Refusal> {
    let Window {
        buf,
        start,
        end,
        base,
    } = window;
    let count = ch11::message_count(buf, start, end, base)?;
    let (mut starts, mut lengths) = (vec![0; count], vec![0; count]);
    ch11::list_messages(buf, start, end, base, &mut starts, &mut lengths)?;
    let bytes = &buf[start..start + packet.length];
    let timed = has_times(packet, &buf[packet.body.range()]);
    let spans = starts.into_iter().zip(lengths);
    Ok(spans
        .map(|(start, length)| message(bytes, timed, start as usize, length as usize))
        .collect())
}

/// The message whose bytes start at this place of the packet.
fn message(packet: &[u8], timed: bool, start: usize, length: usize) -> Message<'_> {
    let (ahead, rest) = packet.split_at(start);
    Message {
        time: timed.then(|| number(&ahead[start - 12..start - 4])),
        id: number(&ahead[start - 4..]) as u32,
        start,
        bytes: &rest[..length],
    }
}

/// Whether a time is stored with each message: always in type 0x30, in 0x50 if bit 31 of the body's channel word is set.
fn has_times(packet: &Packet, body: &[u8]) -> bool {
    match packet.fields.kind {
        UART => body.get(3).map_or(false, |byte| byte & 0x80 != 0),
        kind => kind == MESSAGE,
    }
}

/// A number, low byte first.
fn number(bytes: &[u8]) -> u64 {
    let fold = |number, byte: &u8| number << 8 | u64::from(*byte);
    bytes.iter().rev().fold(0, fold)
}

/// A head line, then a block for each message.
fn show(out: &mut impl Write, packet: &Packet, found: &[Message<'_>]) -> io::Result<()> {
    let (place, channel, kind) = (
        packet.recording_place,
        packet.fields.channel,
        packet.fields.kind,
    );
    write!(out, "packet at {place}: channel {channel}, ")?;
    if !matches!(kind, MESSAGE | UART) {
        return writeln!(out, "type {kind:#04x} is not opened: no messages");
    }
    let count = counted(found.len() as u64, "message");
    writeln!(out, "type {kind:#04x}, {count}")?;
    for (number, message) in found.iter().enumerate() {
        show_message(out, number, message, packet.fields.flags)?;
    }
    Ok(())
}

fn show_message(
    out: &mut impl Write,
    number: usize,
    message: &Message<'_>,
    flags: u8,
) -> io::Result<()> {
    let time = match message.time {
        Some(time) => readable(form(flags), time),
        None => "none".to_owned(),
    };
    let length = counted(message.bytes.len() as u64, "byte");
    writeln!(out)?;
    writeln!(out, "message {number}: {length}")?;
    writeln!(out, "time: {time}")?;
    writeln!(out, "ID word: {:#010x}", message.id)?;
    dump(out, message.bytes)
}
