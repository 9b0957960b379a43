//! The reader for one packet, the lister, the call for one message and the
//! reader for a whole recording.

use crate::body::{read_body, Fault};
use crate::rules::*;
use crate::{Fields, Message, Packet, Part, Recording, Refusal};

/// One byte's place, counted both ways: from the buffer's first byte, and in
/// the recording. Request 9: "a base that the caller gives, plus the distance
/// from the window's start".
#[derive(Clone, Copy, Debug)]
struct Place {
    in_buffer: usize,
    in_recording: u64,
}

/// The place of the window's start, at distance 0: in the recording it is the
/// base itself. No sum is made, so that any start and any base have one.
fn window_start(start: usize, base: u64) -> Place {
    Place {
        in_buffer: start,
        in_recording: base,
    }
}

/// The place so many bytes further on, counted both ways. It is at most the end
/// of a good window, whose base plus length does not pass 2^64 - 1: neither sum
/// is too big.
fn moved_on(place: Place, distance: usize) -> Place {
    Place {
        in_buffer: place.in_buffer + distance,
        in_recording: place.in_recording + distance as u64,
    }
}

/// The refusal with this number. Its place is "the start of the packet", save
/// for 15. That is the window's start, for each cause of 1 too, even where
/// there is no byte.
fn refuse(number: u64, place: Place) -> Refusal {
    Refusal {
        number,
        place: place.in_buffer as u64,
        recording_place: place.in_recording,
        room: 0,
        reason: NO_REASON,
    }
}

/// 15 for a body that starts at this place: "for 15 the channel word or the
/// first byte of the block at fault (or of the bytes left over, or where a
/// missing block should begin)".
fn refuse_body(body_place: Place, fault: Fault) -> Refusal {
    Refusal {
        reason: fault.reason,
        ..refuse(WRONG_BODY, moved_on(body_place, fault.at))
    }
}

/// "A window is a buffer, a start and a filled end, with start <= end <= buffer
/// length." Request 9: "1 also where base plus window length would pass
/// 2^64 - 1, tested together with 1's other causes." A window whose start is
/// past its end has no length, and is refused for that alone.
fn window_is_good(buf: &[u8], start: usize, end: usize, base: u64) -> bool {
    start <= end && end <= buf.len() && base.checked_add((end - start) as u64).is_some()
}

/// Reads the packet at the window's start.
pub fn read_packet(buf: &[u8], start: usize, end: usize, base: u64) -> Result<Packet, Refusal> {
    match read_with_messages(buf, start, end, base) {
        Ok((packet, _)) => Ok(packet),
        Err(refusal) => Err(refusal),
    }
}

/// The reader's tests in the order of the table, "Tested from the top". An
/// accepted packet comes with its messages, none for a type that isn't opened.
pub(crate) fn read_with_messages(
    buf: &[u8],
    start: usize,
    end: usize,
    base: u64,
) -> Result<(Packet, Vec<Message>), Refusal> {
    let place = window_start(start, base);
    // 1: "the window [...] is outside its buffer"; Request 9: "1 also where base
    // plus window length would pass 2^64 - 1"
    if !window_is_good(buf, start, end, base) {
        return Err(refuse(OUTSIDE_BUFFER, place));
    }
    let window = &buf[start..end];

    // 2: "fewer than 24 bytes in the window"
    if (window.len() as u64) < HEADER_LENGTH {
        return Err(refuse(FEWER_THAN_24, place));
    }

    let channel = number_at(window, 2, 2);
    let length = number_at(window, 4, 4);
    let data_length = number_at(window, 8, 4);
    let version = number_at(window, 12, 1);
    let sequence = number_at(window, 13, 1);
    let flags = number_at(window, 14, 1);
    let kind = number_at(window, 15, 1);
    let rtc = number_at(window, 16, 6);
    let header_sum = number_at(window, 22, 2);

    // 3: "wrong sync"
    if window[0..2] != SYNC {
        return Err(refuse(WRONG_SYNC, place));
    }
    // 4: "wrong header sum"; "the sum of the eleven 16-bit words ahead of it"
    if header_sum != sum_of_words(&window[0..22]) {
        return Err(refuse(WRONG_HEADER_SUM, place));
    }
    // 5: "version"
    if !version_is_good(version) {
        return Err(refuse(WRONG_VERSION, place));
    }
    // 6: "reserved type"
    if !type_is_defined(kind) {
        return Err(refuse(RESERVED_TYPE, place));
    }
    // 7: "flags: reserved time format, or bit 6 without bit 7"
    if !flags_are_good(flags) {
        return Err(refuse(WRONG_FLAGS, place));
    }
    // 8: "channel 0 with another type"
    if !channel_is_good(channel, kind) {
        return Err(refuse(CHANNEL_ZERO, place));
    }
    // 9: "any length rule above"
    if !lengths_are_good(kind, flags, length, data_length) {
        return Err(refuse(WRONG_LENGTH, place));
    }
    // 10: "P exceeds the bytes in the window"
    if length > window.len() as u64 {
        return Err(refuse(EXCEEDS_WINDOW, place));
    }

    // From here on only the P bytes of the packet are looked at: "the bytes
    // behind its declared length have no say either".
    let packet_bytes = &window[0..length as usize];
    let secondary_at = HEADER_LENGTH as usize;
    let body_at = secondary_at + secondary_length(flags) as usize;
    let filler_at = body_at + data_length as usize;
    let sum_at = filler_at + filler_length(flags, data_length) as usize;

    let mut time = 0;
    if has_secondary(flags) {
        let secondary = &packet_bytes[secondary_at..body_at];
        // 11: "wrong secondary sum"; "a 2-byte sum of the five 16-bit words
        // before it"
        if number_at(secondary, 10, 2) != sum_of_words(&secondary[0..10]) {
            return Err(refuse(WRONG_SECONDARY_SUM, place));
        }
        // 12: "secondary reserved bytes or time"
        if number_at(secondary, 8, 2) != 0 {
            return Err(refuse(WRONG_SECONDARY, place));
        }
        // "Low long word of the time, high long word": together one
        // little-endian number of 8 bytes.
        time = number_at(secondary, 0, 8);
        if !time_is_good(secondary_rule(flags), time) {
            return Err(refuse(WRONG_SECONDARY, place));
        }
    }

    // 13: "wrong data sum"; it "fills the last 1, 2 or 4 bytes of the packet".
    // Without a sum both numbers are 0.
    let stored_data_sum = number_at(packet_bytes, sum_at, sum_width(flags) as usize);
    if stored_data_sum != data_sum(flags, &packet_bytes[body_at..sum_at]) {
        return Err(refuse(WRONG_DATA_SUM, place));
    }
    // 14: "filler not zero"
    if packet_bytes[filler_at..sum_at]
        .iter()
        .any(|byte| *byte != 0)
    {
        return Err(refuse(FILLER_NOT_ZERO, place));
    }
    // 15: "opened body breaks its layout"; its place is the fault's own.
    // Request 2: "Have the block walk name the rule broken"
    let body = &packet_bytes[body_at..filler_at];
    let blocks = match read_body(kind, message_rule(flags), body) {
        Ok(blocks) => blocks,
        Err(fault) => return Err(refuse_body(moved_on(place, body_at), fault)),
    };

    let mut messages = Vec::with_capacity(blocks.len());
    for block in blocks {
        messages.push(Message {
            time: block.time,
            id: block.id,
            start: (body_at + block.start) as u64,
            length: block.length as u64,
        });
    }

    // The parts "together make up P": each begins where the one before ends.
    let packet = Packet {
        fields: Fields {
            channel,
            version,
            sequence,
            flags,
            kind,
            rtc,
            time,
        },
        recording_place: place.in_recording,
        length,
        data_length,
        header_sum,
        data_sum: stored_data_sum,
        header: part(start, 0, secondary_at),
        secondary: part(start, secondary_at, body_at),
        body: part(start, body_at, filler_at),
        filler: part(start, filler_at, sum_at),
        sum: part(start, sum_at, packet_bytes.len()),
    };
    Ok((packet, messages))
}

/// The part of a packet from `from` to `to`, both counted from the packet's
/// first byte; its place is counted from the buffer's first byte.
fn part(start: usize, from: usize, to: usize) -> Part {
    Part {
        at: (start + from) as u64,
        length: (to - from) as u64,
    }
}

/// "After the reader's tests it fills two lent lists of 32-bit numbers, the
/// start and length of each message's n bytes, counted from the packet's first
/// byte." Request 2: "Lister, recording reader, builder and writer pass it on."
/// The base moves no entry: Request 9 names "Each packet's record and each
/// refusal" alone.
pub fn list_messages(
    buf: &[u8],
    start: usize,
    end: usize,
    base: u64,
    starts: &mut [u32],
    lengths: &mut [u32],
) -> Result<u64, Refusal> {
    let messages = match read_with_messages(buf, start, end, base) {
        Ok((_, messages)) => messages,
        Err(refusal) => return Err(refusal),
    };
    // "16 exactly when there are more messages than the shorter list holds."
    if messages.len() > starts.len() || messages.len() > lengths.len() {
        return Err(Refusal {
            room: messages.len() as u64,
            ..refuse(NO_ROOM, window_start(start, base))
        });
    }
    // "Entries past the count are untouched." Starts and lengths are below
    // 524,288, the longest packet of an opened type.
    for (i, message) in messages.iter().enumerate() {
        starts[i] = message.start as u32;
        lengths[i] = message.length as u32;
    }
    Ok(messages.len() as u64)
}

/// "A second call gives one message by its number, from 0". Its start is moved
/// by the base as little as the lister's entries are.
pub fn message(
    buf: &[u8],
    start: usize,
    end: usize,
    base: u64,
    number: usize,
) -> Result<Message, Refusal> {
    let messages = match read_with_messages(buf, start, end, base) {
        Ok((_, messages)) => messages,
        Err(refusal) => return Err(refusal),
    };
    // "17, at the packet's start, after the reader's tests"
    if number >= messages.len() {
        return Err(refuse(OUT_OF_RANGE, window_start(start, base)));
    }
    Ok(messages[number])
}

/// The answer of a reading that ended at this place. "The answer, never zeroed":
/// both ways of counting it hold the place reached.
fn ended(refusal: Refusal, accepted: u64, reached: Place) -> Recording {
    Recording {
        refusal,
        accepted,
        reached: reached.in_buffer as u64,
        recording_reached: reached.in_recording,
    }
}

/// "Packets are read from the start, each at the end of the one before, and the
/// first packet that is refused ends the reading." The refusal is handed on
/// whole, its reason and its place in the recording too.
pub fn read_recording(buf: &[u8], start: usize, end: usize, base: u64) -> Recording {
    let mut place = window_start(start, base);
    // 1 comes first; a window that is refused has no exact end to reach, and no
    // packet of it is read.
    if !window_is_good(buf, start, end, base) {
        return ended(refuse(OUTSIDE_BUFFER, place), 0, place);
    }
    let mut accepted = 0;
    // "0 at the exact end (an empty window: none, 0)"
    while place.in_buffer != end {
        // Request 9: "in "handed out" the one-packet reader's base is moved on
        // by the distance from the window's start". That base plus what is left
        // of the window is the sum already tested: 1 is not given here.
        match read_packet(buf, place.in_buffer, end, place.in_recording) {
            Ok(packet) => {
                accepted += 1;
                place = moved_on(place, packet.length as usize);
            }
            Err(refusal) => return ended(refusal, accepted, place),
        }
    }
    ended(Refusal::default(), accepted, place)
}
