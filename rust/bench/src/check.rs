//! Both sides must give the same answers before anything is timed.
use crate::as_raw;
use crate::check_renewal;
use crate::inputs::{Call, Input};
use crate::library;
use crate::same;
use ch11::{raw, Number, Reason};
use std::sync::atomic::{AtomicU32, Ordering};

/// The refusals that came up, and the reasons of 15, a bit for each number.
static SEEN: AtomicU32 = AtomicU32::new(0);
static REASONS_SEEN: AtomicU32 = AtomicU32::new(0);

/// The longest packet that is checked with each of its bytes spoilt, and with each two of its body.
const SPOILT: usize = 2_048;
const SPOILT_TWICE: usize = 64;

/// What stands in lists and outputs beforehand.
pub const UNTOUCHED: u8 = 0xA5;

/// The base of most windows: 500 GB into a recording.
pub const FAR: u64 = 500_000_000_000;

/// Compares the row's call on its packet, or a recording's answer and all calls on its packets, and then spoilt copies of the first
/// packet if it is short. The renewal table's rows have checks of their own.
pub fn check(input: &Input) {
    let bytes = input.bytes();
    if let Call::Renewal(..) = input.call {
        return check_renewal::check(bytes);
    }
    compare(input.call, bytes, 0, bytes.len(), FAR);
    if input.call == Call::ReadRecording {
        check_recording(input);
    }
    let first = compare_packet(bytes, 0, bytes.len(), FAR).length as usize;
    if first <= SPOILT {
        check_spoilt(input.call, &bytes[..first]);
    }
    if first <= SPOILT_TWICE {
        check_spoilt_twice(input.call, &bytes[..first]);
    }
}

/// Ends the run unless each refusal and each reason that has a name came up in the checks before.
pub fn all_refusals_seen() {
    let seen = SEEN.load(Ordering::Relaxed);
    let has_name = |number: &u64| Number::from_value(*number) != Number::Other(*number);
    for number in (1..u32::BITS.into()).filter(has_name) {
        assert!(seen >> number & 1 == 1, "refusal {} came up", number);
    }
    let seen = REASONS_SEEN.load(Ordering::Relaxed);
    let has_name = |reason: &u64| Reason::from_value(*reason) != Reason::Other(*reason);
    for reason in (1..u32::BITS.into()).filter(has_name) {
        assert!(seen >> reason & 1 == 1, "reason {} came up", reason);
    }
}

/// Notes the refusal of an answer that both sides gave, and its reason.
pub fn note(refusal: &raw::Refusal) {
    SEEN.fetch_or(1 << refusal.number, Ordering::Relaxed);
    REASONS_SEEN.fetch_or(1 << refusal.reason, Ordering::Relaxed);
}

/// Every packet of a recording; one that is the same as the packet before it is only read.
fn check_recording(input: &Input) {
    let bytes = input.bytes();
    let mut packets = 0;
    let mut at = 0;
    let mut previous = &bytes[..0];
    while at < bytes.len() {
        let base = FAR + at as u64;
        let length = compare_packet(bytes, at, bytes.len(), base).length as usize;
        let packet = &bytes[at..at + length];
        if packet != previous {
            compare(Call::ListMessages, packet, 0, length, base);
            compare(Call::Message, packet, 0, length, base);
            compare(Call::WritePacket, packet, 0, length, base);
        }
        previous = packet;
        packets += 1;
        at += length;
    }
    assert_eq!(packets, input.packets, "{}", input.name);
}

/// Every shorter window, and every byte of the packet spoilt, with sums that are wrong then and with sums put right.
fn check_spoilt(call: Call, packet: &[u8]) {
    for end in 0..packet.len() + 2 {
        compare_bases(call, packet, 0, end);
        compare_bases(call, packet, end, packet.len());
    }
    for at in 0..packet.len() {
        for bits in [0x01, 0x04, 0x40, 0x80, 0xFF] {
            let mut spoilt = packet.to_vec();
            spoilt[at] ^= bits;
            compare(call, &spoilt, 0, packet.len(), FAR);
            put_sums_right(&mut spoilt);
            compare(call, &spoilt, 0, packet.len(), FAR);
        }
    }
    if call == Call::WritePacket {
        compare_fields(packet);
    }
}

/// Each two bytes of the body spoilt, with sums put right: blocks that break several rules, and several blocks at fault. 2 and 5, the
/// lengths of the messages, make a length of 0.
fn check_spoilt_twice(call: Call, packet: &[u8]) {
    let end = body_at(packet) + body_in(packet).len();
    for first in body_at(packet)..end {
        for second in first + 1..end {
            for (bits, others) in [(2, 0xFF), (0xFF, 2), (5, 0xFF), (0xFF, 5), (0xFF, 0xFF)] {
                let mut spoilt = packet.to_vec();
                spoilt[first] ^= bits;
                spoilt[second] ^= others;
                put_sums_right(&mut spoilt);
                compare(call, &spoilt, 0, packet.len(), FAR);
            }
        }
    }
}

/// The same window with bases on both sides of the greatest that it takes.
fn compare_bases(call: Call, bytes: &[u8], start: usize, end: usize) {
    let greatest = u64::MAX - end.saturating_sub(start) as u64;
    for base in [0, FAR, greatest, greatest.saturating_add(1), u64::MAX] {
        compare(call, bytes, start, end, base);
    }
}

/// Compares what a row's call answers on a window; the writer is given what stands in the window, if that has a header.
fn compare(call: Call, bytes: &[u8], start: usize, end: usize, base: u64) {
    match call {
        Call::ReadPacket => {
            compare_packet(bytes, start, end, base);
        }
        Call::ReadRecording => {
            compare_packet(bytes, start, end, base);
            compare_recording(bytes, start, end, base);
        }
        Call::ListMessages => compare_lists(bytes, start, end, base),
        Call::Message => compare_messages(bytes, start, end, base),
        Call::WritePacket => {
            if let Some(packet) = bytes.get(start..end).filter(|packet| packet.len() >= 24) {
                compare_outputs(&fields_in(packet), body_in(packet));
            }
        }
        Call::Renewal(..) => unreachable!("check_renewal compares it"),
    }
}

fn compare_packet(bytes: &[u8], start: usize, end: usize, base: u64) -> raw::Packet {
    let mut packet = raw::Packet::default();
    library::read_packet(bytes, start, end, base, &mut packet);
    let answer = as_raw::packet(same::read_packet(bytes, start, end, base));
    assert_eq!(packet, answer, "window {start} to {end}, base {base}");
    note(&packet.refusal);
    packet
}

fn compare_recording(bytes: &[u8], start: usize, end: usize, base: u64) {
    let mut recording = raw::Recording::default();
    library::read_recording(bytes, start, end, base, &mut recording);
    let answer = as_raw::recording(same::read_recording(bytes, start, end, base));
    assert_eq!(recording, answer, "window {start} to {end}, base {base}");
    note(&recording.refusal);
}

/// Lists with room for all messages, with more, and too short ones.
fn compare_lists(bytes: &[u8], start: usize, end: usize, base: u64) {
    let count = library::count_messages(bytes, start, end);
    compare_list(bytes, start, end, base, [count, count]);
    compare_list(bytes, start, end, base, [count + 2, count + 3]);
    if count > 0 {
        compare_list(bytes, start, end, base, [count - 1, count]);
        compare_list(bytes, start, end, base, [count, count - 1]);
    }
}

/// The answer and the lists; entries past the count are untouched.
fn compare_list(bytes: &[u8], start: usize, end: usize, base: u64, rooms: [usize; 2]) {
    let lists = || rooms.map(|room| vec![u32::from(UNTOUCHED); room]);
    let ([mut starts, mut lengths], mut list) = (lists(), raw::List::default());
    library::list_messages(
        bytes,
        start,
        end,
        base,
        &mut starts,
        &mut lengths,
        &mut list,
    );
    let [mut same_starts, mut same_lengths] = lists();
    let (first, second) = (&mut same_starts, &mut same_lengths);
    let answer = as_raw::list(same::list_messages(bytes, start, end, base, first, second));
    assert_eq!(list, answer, "window {start} to {end}, base {base}");
    note(&list.refusal);
    assert_eq!(starts, same_starts);
    assert_eq!(lengths, same_lengths);
    for behind in [starts, lengths] {
        let count = list.count as usize;
        assert!(behind[count..]
            .iter()
            .all(|&entry| entry == u32::from(UNTOUCHED)));
    }
}

/// Each message, and one past the last.
fn compare_messages(bytes: &[u8], start: usize, end: usize, base: u64) {
    for number in 0..library::count_messages(bytes, start, end) + 1 {
        let mut message = raw::Message::default();
        library::message(bytes, start, end, base, number, &mut message);
        let answer = as_raw::message(same::message(bytes, start, end, base, number));
        assert_eq!(
            message, answer,
            "message {number} of {start} to {end}, base {base}"
        );
        note(&message.refusal);
    }
}

/// The writer's answer to each value of each field, others as in the packet, in range and out of it.
fn compare_fields(packet: &[u8]) {
    let places: [fn(&mut raw::Fields) -> &mut u64; 7] = [
        |fields| &mut fields.channel,
        |fields| &mut fields.version,
        |fields| &mut fields.sequence,
        |fields| &mut fields.flags,
        |fields| &mut fields.kind,
        |fields| &mut fields.rtc,
        |fields| &mut fields.time,
    ];
    let wide = [65_535, 65_536, (1 << 48) - 1, 1 << 48, u64::MAX];
    for place in places {
        for value in (0..=300).chain(wide) {
            let mut fields = fields_in(packet);
            *place(&mut fields) = value;
            compare_outputs(&fields, body_in(packet));
        }
    }
}

/// Outputs with no room, with too little, with just enough and with more.
fn compare_outputs(fields: &raw::Fields, body: &[u8]) {
    let room = compare_output(fields, body, 0).refusal.room as usize;
    if room > 0 {
        compare_output(fields, body, room - 1);
        compare_output(fields, body, room);
        compare_output(fields, body, room + 9);
    }
}

/// The answer and the output; bytes behind the packet are untouched.
fn compare_output(fields: &raw::Fields, body: &[u8], room: usize) -> raw::Written {
    let (mut out, mut written) = (vec![UNTOUCHED; room], raw::Written::default());
    library::write_packet(fields, body, &mut out, &mut written);
    let mut same_out = vec![UNTOUCHED; room];
    let answer = as_raw::written(same::write_packet(fields, body, &mut same_out));
    assert_eq!(written, answer, "{:?}", fields);
    note(&written.refusal);
    assert!(out == same_out, "the output for {:?}", fields);
    assert!(out[written.length as usize..]
        .iter()
        .all(|&byte| byte == UNTOUCHED));
    written
}

/// The number in so many bytes from `at` on, without those that aren't there.
fn number_at(bytes: &[u8], at: usize, width: usize) -> u64 {
    let unit = bytes.iter().skip(at).take(width).rev();
    unit.fold(0, |number, &byte| number << 8 | u64::from(byte))
}

/// What the headers say, right or wrong.
fn fields_in(packet: &[u8]) -> raw::Fields {
    raw::Fields {
        channel: number_at(packet, 2, 2),
        version: number_at(packet, 12, 1),
        sequence: number_at(packet, 13, 1),
        flags: number_at(packet, 14, 1),
        kind: number_at(packet, 15, 1),
        rtc: number_at(packet, 16, 6),
        time: if has_secondary(packet) {
            number_at(packet, 24, 8)
        } else {
            0
        },
    }
}

/// As much of the body as there is.
fn body_in(packet: &[u8]) -> &[u8] {
    let data = packet.get(body_at(packet)..).unwrap_or(&[]);
    let length = number_at(packet, 8, 4) as usize;
    &data[..length.min(data.len())]
}

fn has_secondary(packet: &[u8]) -> bool {
    packet[14] & 0x80 != 0
}

fn body_at(packet: &[u8]) -> usize {
    if has_secondary(packet) {
        36
    } else {
        24
    }
}

/// Writes the header sum, the secondary sum and the data sum that the bytes call for.
pub fn put_sums_right(packet: &mut [u8]) {
    put_sum(packet, 0, 22, 2);
    if has_secondary(packet) {
        put_sum(packet, 24, 34, 2);
    }
    let width = [0, 1, 2, 4][usize::from(packet[14] & 3)];
    put_sum(packet, body_at(packet), packet.len() - width, width);
}

/// Puts the sum of the units from `from` to `to` down at `to`.
fn put_sum(packet: &mut [u8], from: usize, to: usize, width: usize) {
    if width == 0 || to < from || packet.len() < to + width {
        return;
    }
    let mut sum = 0_u64;
    for at in (from..=to - width).step_by(width) {
        sum = sum.wrapping_add(number_at(packet, at, width));
    }
    packet[to..to + width].copy_from_slice(&sum.to_le_bytes()[..width]);
}
