//! Places in the recording. Request 9: "Each packet's record and each refusal
//! now carries a 64-bit place in the recording: a base that the caller gives,
//! plus the distance from the window's start." Both sides of each line, for
//! every call. Windows start 7 bytes into their buffers, so that no place in
//! the recording is by chance a place in the buffer.

mod common;

use common::{by_hand, mend_header, CASE_L};
use second::*;

/// The bytes ahead of the first packet, and behind the window.
const AHEAD: usize = 7;
const BEHIND: usize = 5;

/// "Recordings run to hundreds of gigabytes".
const FAR: u64 = 700_000_000_000;

/// 2^64 - 1, the last place that there is.
const LAST: u64 = 18_446_744_073_709_551_615;

/// Bases that no window of these tests passes 2^64 - 1 with. 7 and 87 are the
/// places in the buffer of the packets read.
const BASES: [u64; 8] = [0, 1, 7, 87, 0xFFFF_FFFF, 0x1_0000_0000, FAR, LAST - 1_000];

/// A refusal with its place in the buffer and its place in the recording.
fn refusal(number: u64, place: u64, recording_place: u64) -> Refusal {
    Refusal {
        number,
        place,
        recording_place,
        room: 0,
        reason: 0,
    }
}

fn recording(refusal: Refusal, accepted: u64, reached: u64, recording_reached: u64) -> Recording {
    Recording {
        refusal,
        accepted,
        reached,
        recording_reached,
    }
}

/// Nothing refused: number and both places are 0.
fn none() -> Refusal {
    refusal(0, 0, 0)
}

/// A buffer with these packets, other bytes ahead of them and behind them; the
/// window's end, which is theirs.
fn buffer_of(packets: &[&[u8]]) -> (Vec<u8>, usize) {
    let mut buffer = vec![0x25; AHEAD];
    for packet in packets {
        buffer.extend_from_slice(packet);
    }
    let end = buffer.len();
    buffer.extend_from_slice(&[0xEB; BEHIND]);
    (buffer, end)
}

/// The three calls for one packet give this refusal, and no list is written.
fn one_packet_calls(buf: &[u8], start: usize, end: usize, base: u64, wanted: Refusal) {
    assert_eq!(read_packet(buf, start, end, base), Err(wanted));
    let mut starts = [99; 3];
    let mut lengths = [98; 3];
    let listed = list_messages(buf, start, end, base, &mut starts, &mut lengths);
    assert_eq!(listed, Err(wanted));
    assert_eq!((starts, lengths), ([99; 3], [98; 3]));
    // 16 and 17 come behind the reader's tests.
    let listed = list_messages(buf, start, end, base, &mut [], &mut []);
    assert_eq!(listed, Err(wanted));
    assert_eq!(message(buf, start, end, base, 0), Err(wanted));
    assert_eq!(message(buf, start, end, base, usize::MAX), Err(wanted));
}

/// All four calls that read give this refusal at the window's start.
fn all_readers(buf: &[u8], start: usize, end: usize, base: u64, wanted: Refusal) {
    one_packet_calls(buf, start, end, base, wanted);
    let answer = recording(wanted, 0, start as u64, base);
    assert_eq!(read_recording(buf, start, end, base), answer);
}

/// All four calls give 1 for this window and base: "the start of the packet"
/// is the window's start, at distance 0.
fn window_refused(buf: &[u8], start: usize, end: usize, base: u64) {
    all_readers(buf, start, end, base, refusal(1, start as u64, base));
}

/// All four calls refuse this packet, so many bytes from its start: alone, and
/// behind two L in one window. With every base, up to the last that the window
/// allows; with the next one they give 1.
fn refused(packet: &[u8], distance: u64, number: u64, reason: u64) {
    let (buffer, end) = buffer_of(&[&CASE_L, &CASE_L, packet]);
    let length = packet.len() as u64;
    let wanted = |base: u64| Refusal {
        reason,
        ..refusal(number, 87 + distance, base + distance)
    };
    for base in BASES.iter().copied().chain([LAST - length]) {
        all_readers(&buffer, 87, end, base, wanted(base));
    }
    window_refused(&buffer, 87, end, LAST - length + 1);

    for base in BASES.iter().copied().chain([LAST - 80 - length]) {
        let answer = recording(wanted(base + 80), 2, 87, base + 80);
        assert_eq!(read_recording(&buffer, AHEAD, end, base), answer);
    }
    window_refused(&buffer, AHEAD, end, LAST - 80 - length + 1);
}

/// A UART packet with a secondary header (36 + 5 bytes and 3 of filler) whose
/// body is at fault, under each test that comes ahead of 15.
fn spoilt_packet() -> Vec<u8> {
    by_hand(0x50, 0xC4, &[0, 0, 0, 0, 0])
}

/// The same with one byte changed, and the header sum put right if asked.
fn spoilt_at(at: usize, value: u8, mend: bool) -> Vec<u8> {
    let mut packet = spoilt_packet();
    packet[at] = value;
    if mend {
        mend_header(&mut packet);
    }
    packet
}

#[test]
fn accepted_packet_is_at_the_base() {
    let (buffer, end) = buffer_of(&[&CASE_L]);
    let at_base_0 = read_packet(&buffer, AHEAD, end, 0).unwrap();
    assert_eq!(at_base_0.recording_place, 0);
    for base in BASES {
        let packet = read_packet(&buffer, AHEAD, end, base).unwrap();
        // The distance is 0, wherever the window starts in its buffer.
        assert_eq!(packet.recording_place, base);
        let alone = read_packet(&CASE_L, 0, 40, base).unwrap();
        assert_eq!(alone.recording_place, base);
        // Nothing else of the packet's record depends on the base.
        let moved = Packet {
            recording_place: base,
            ..at_base_0
        };
        assert_eq!(packet, moved);
        // "The place, counted from the buffer's first byte": 7 and 7 + 24 + 12.
        assert_eq!(packet.header.at, 7);
        assert_eq!(packet.filler.at, 43);
    }
}

#[test]
fn refusals_3_to_14_are_at_the_packets_start() {
    // At, value, and whether the header sum is then put right; the number.
    let spoils = [
        (0, 0x24, false, 3),
        (13, 1, false, 4),
        (12, 10, true, 5),
        (15, 0x05, true, 6),
        (14, 0xCC, true, 7),
        (2, 0, true, 8),
        (4, 40, true, 9),
        (4, 48, true, 9),
        (34, 1, false, 11),
        (41, 1, false, 14),
    ];
    for (at, value, mend, number) in spoils {
        refused(&spoilt_at(at, value, mend), 0, number, 0);
    }
    // 10: the last byte is missing.
    refused(&spoilt_packet()[..43], 0, 10, 0);
    // 12: reserved bytes and sum both 1.
    let mut packet = spoilt_at(32, 1, false);
    packet[34] = 1;
    refused(&packet, 0, 12, 0);
    // 13: an 8-bit sum. The sum of body and filler is 0.
    let mut packet = spoilt_at(14, 0xC5, true);
    refused(&packet, 40, 15, 2);
    packet[43] = 1;
    refused(&packet, 0, 13, 0);
}

#[test]
fn refusal_2_is_at_the_packets_start() {
    for length in [1, 2, 22, 23] {
        refused(&CASE_L[..length], 0, 2, 0);
    }
    // 24 bytes are a header: P exceeds the window.
    refused(&CASE_L[..24], 0, 10, 0);
    refused(&CASE_L[..39], 0, 10, 0);
}

#[test]
fn refusal_15_is_at_its_own_place() {
    // The channel word, 24 bytes into the packet: under 4 bytes, and wrong.
    refused(&by_hand(0x50, 0, &[0, 0, 0]), 24, 15, 1);
    refused(&by_hand(0x50, 0, &[1, 0, 0, 0]), 24, 15, 1);
    // The first block, 4 bytes on: cut short, and of length zero.
    refused(&by_hand(0x50, 0, &[0, 0, 0, 0, 1]), 28, 15, 2);
    refused(&by_hand(0x50, 0, &[0, 0, 0, 0, 0, 0, 0, 0]), 28, 15, 4);
    // The second block, 6 bytes on: its pad is not zero.
    let body = [0, 0, 0, 0, 1, 0, 0, 0, 7, 0, 1, 0, 0, 0, 7, 1];
    refused(&by_hand(0x50, 0, &body), 34, 15, 5);
    // 0x30, counter 1: a time of 2^48, then bytes after the counted block.
    let late = [1, 0, 0, 0, 0, 0, 0, 0, 0, 0, 1, 0, 2, 0, 0, 0, 7, 7];
    refused(&by_hand(0x30, 0, &late), 28, 15, 3);
    let over = [1, 0, 0, 0, 0, 0, 0, 0, 0, 0, 0, 0, 2, 0, 0, 0, 7, 7, 0];
    refused(&by_hand(0x30, 0, &over), 42, 15, 6);
    // Counter 2: the body ends where the second block must begin.
    let under = [2, 0, 0, 0, 0, 0, 0, 0, 0, 0, 0, 0, 2, 0, 0, 0, 7, 7];
    refused(&by_hand(0x30, 0, &under), 42, 15, 7);
    // The secondary header counts in the distance.
    refused(&by_hand(0x50, 0x80, &[0, 0, 0]), 36, 15, 1);
    refused(&spoilt_packet(), 40, 15, 2);
}

#[test]
fn refusal_15_at_the_last_place_there_is() {
    // A UART body of the channel word alone: the missing block should begin at
    // the packet's end, 24 + 4, which is the window's end too.
    let packet = by_hand(0x50, 0, &[0, 0, 0, 0]);
    assert_eq!(packet.len(), 28);
    refused(&packet, 28, 15, 7);
    let (buffer, end) = buffer_of(&[&packet]);
    let wanted = Refusal {
        reason: 7,
        ..refusal(15, 35, LAST)
    };
    all_readers(&buffer, AHEAD, end, LAST - 28, wanted);
    window_refused(&buffer, AHEAD, end, LAST - 27);
}

#[test]
fn refusals_16_and_17_are_at_the_packets_start() {
    let (buffer, end) = buffer_of(&[&CASE_L]);
    for base in BASES.iter().copied().chain([LAST - 40]) {
        // L has one message.
        let room = Refusal {
            room: 1,
            ..refusal(16, 7, base)
        };
        let listed = list_messages(&buffer, AHEAD, end, base, &mut [], &mut [98]);
        assert_eq!(listed, Err(room));
        let listed = list_messages(&buffer, AHEAD, end, base, &mut [99], &mut []);
        assert_eq!(listed, Err(room));
        let beyond = message(&buffer, AHEAD, end, base, 1);
        assert_eq!(beyond, Err(refusal(17, 7, base)));
    }
}

#[test]
fn lists_and_messages_are_not_moved() {
    // "counted from the packet's first byte": 24 + 4 + 4.
    let (buffer, end) = buffer_of(&[&CASE_L]);
    let only = Message {
        time: 0,
        id: 3,
        start: 32,
        length: 3,
    };
    for base in BASES.iter().copied().chain([LAST - 40]) {
        let mut starts = [99; 2];
        let mut lengths = [98; 2];
        let listed = list_messages(&buffer, AHEAD, end, base, &mut starts, &mut lengths);
        assert_eq!(listed, Ok(1));
        assert_eq!((starts, lengths), ([32, 99], [3, 98]));
        assert_eq!(message(&buffer, AHEAD, end, base, 0), Ok(only));
    }
}

#[test]
fn base_plus_window_length_up_to_2_64_minus_1() {
    let (buffer, end) = buffer_of(&[&CASE_L]);
    // 2^64 - 1 - 40: the sum is exactly 2^64 - 1.
    let base = 18_446_744_073_709_551_575;
    let packet = read_packet(&buffer, AHEAD, end, base).unwrap();
    assert_eq!(packet.recording_place, base);
    let listed = list_messages(&buffer, AHEAD, end, base, &mut [0], &mut [0]);
    assert_eq!(listed, Ok(1));
    assert!(message(&buffer, AHEAD, end, base, 0).is_ok());
    let answer = recording(none(), 1, 47, LAST);
    assert_eq!(read_recording(&buffer, AHEAD, end, base), answer);
    // One more: the sum is exactly 2^64.
    window_refused(&buffer, AHEAD, end, 18_446_744_073_709_551_576);
    window_refused(&buffer, AHEAD, end, LAST - 1);
    window_refused(&buffer, AHEAD, end, LAST);
}

#[test]
fn the_window_is_what_counts() {
    // Not the packet: with one byte behind L the window is 41 bytes long.
    let (buffer, end) = buffer_of(&[&CASE_L, &[0]]);
    assert!(read_packet(&buffer, AHEAD, end, LAST - 41).is_ok());
    window_refused(&buffer, AHEAD, end, LAST - 40);
    assert!(read_packet(&buffer, AHEAD, end - 1, LAST - 40).is_ok());
    // The recording reader too: its first packet alone would pass.
    let two_at_the_end = refusal(2, 47, LAST - 1);
    let answer = recording(two_at_the_end, 1, 47, LAST - 1);
    assert_eq!(read_recording(&buffer, AHEAD, end, LAST - 41), answer);
    // Not the buffer, and not the places in it: base plus end and base plus
    // buffer length are past 2^64 - 1 here.
    let mut long = vec![0; 1_000];
    long.extend_from_slice(&CASE_L);
    long.extend_from_slice(&[0; 1_000]);
    assert!(read_packet(&long, 1_000, 1_040, LAST - 40).is_ok());
    let answer = recording(none(), 1, 1_040, LAST);
    assert_eq!(read_recording(&long, 1_000, 1_040, LAST - 40), answer);
    window_refused(&long, 1_000, 1_040, LAST - 39);
}

#[test]
fn empty_windows_take_any_base() {
    // The sum is the base: at most 2^64 - 1.
    for base in BASES.iter().copied().chain([LAST - 1, LAST]) {
        for start in [0, AHEAD, 40] {
            let place = start as u64;
            one_packet_calls(&CASE_L, start, start, base, refusal(2, place, base));
            // "an empty window: none, 0"
            let answer = recording(none(), 0, place, base);
            assert_eq!(read_recording(&CASE_L, start, start, base), answer);
        }
        one_packet_calls(&[], 0, 0, base, refusal(2, 0, base));
        let answer = recording(none(), 0, 0, base);
        assert_eq!(read_recording(&[], 0, 0, base), answer);
    }
    // One byte: no more.
    all_readers(&CASE_L, 39, 40, LAST - 1, refusal(2, 39, LAST - 1));
    window_refused(&CASE_L, 39, 40, LAST);
    // Behind the buffer an empty window is refused as ever.
    window_refused(&CASE_L, 41, 41, 0);
    window_refused(&CASE_L, 41, 41, LAST);
}

#[test]
fn refusal_1_for_the_base_comes_first() {
    // "tested together with 1's other causes": ahead of 2, 3, 10, 16 and 17.
    for length in [1, 23, 24, 39, 40] {
        window_refused(&CASE_L, 0, length, LAST);
        window_refused(&CASE_L, 0, length, LAST - length as u64 + 1);
    }
    window_refused(&[0; 40], 0, 40, LAST - 39);
    // A recording that could stop at its first byte is refused as a whole.
    let (buffer, end) = buffer_of(&[&[0; 24], &CASE_L]);
    all_readers(&buffer, AHEAD, end, LAST - 64, refusal(3, 7, LAST - 64));
    window_refused(&buffer, AHEAD, end, LAST - 63);
}

#[test]
fn other_causes_of_1_with_any_base() {
    // A good base doesn't help, and a base that is too high makes no other
    // number. Start past end, by one and by all; end past the buffer; both.
    let far = usize::MAX;
    let windows = [
        (8, 7),
        (40, 0),
        (41, 40),
        (far, 0),
        (far, 40),
        (far, far - 1),
        (0, 41),
        (40, 41),
        (0, far),
        (41, 41),
        (far, far),
    ];
    for (start, end) in windows {
        for base in BASES.iter().copied().chain([LAST - 40, LAST - 39, LAST]) {
            window_refused(&CASE_L, start, end, base);
        }
    }
}

#[test]
fn recordings_end_at_both_places() {
    let carried = by_hand(0x38, 0, &[9]);
    let (buffer, end) = buffer_of(&[&CASE_L, &carried, &CASE_L]);
    // 7 + 40 + 28 + 40.
    assert_eq!(end, 115);
    let whole = recording(none(), 3, 115, FAR + 108);
    assert_eq!(read_recording(&buffer, AHEAD, end, FAR), whole);
    // One byte less: stopped at the third packet, with 10; at the second; and
    // at the first.
    let third = recording(refusal(10, 75, FAR + 68), 2, 75, FAR + 68);
    assert_eq!(read_recording(&buffer, AHEAD, end - 1, FAR), third);
    let second = recording(refusal(10, 47, FAR + 40), 1, 47, FAR + 40);
    assert_eq!(read_recording(&buffer, AHEAD, 74, FAR), second);
    let first = recording(refusal(10, 7, FAR), 0, 7, FAR);
    assert_eq!(read_recording(&buffer, AHEAD, 46, FAR), first);
    // One byte more: there is no fourth packet.
    let fourth = recording(refusal(2, 115, FAR + 108), 3, 115, FAR + 108);
    assert_eq!(read_recording(&buffer, AHEAD, end + 1, FAR), fourth);
    // Refusal 15 is further on than the place reached: 24 + 4 bytes.
    let no_block = by_hand(0x50, 0, &[0, 0, 0, 0]);
    let (buffer, end) = buffer_of(&[&CASE_L, &no_block, &CASE_L]);
    let fault = Refusal {
        reason: 7,
        ..refusal(15, 75, FAR + 68)
    };
    let answer = recording(fault, 1, 47, FAR + 40);
    assert_eq!(read_recording(&buffer, AHEAD, end, FAR), answer);
}

/// Walks the one-packet reader over a window, its base moved on by the distance
/// from the window's start, and answers as the recording reader must.
fn hand_out(buf: &[u8], start: usize, end: usize, base: u64) -> Recording {
    let mut accepted = 0;
    let mut distance = 0;
    loop {
        let place = start + distance;
        let moved = base + distance as u64;
        if place == end {
            return recording(none(), accepted, place as u64, moved);
        }
        match read_packet(buf, place, end, moved) {
            Ok(packet) => {
                assert_eq!(packet.recording_place, moved);
                assert_eq!(packet.header.at, place as u64);
                accepted += 1;
                distance += packet.length as usize;
            }
            Err(refusal) => return recording(refusal, accepted, place as u64, moved),
        }
    }
}

#[test]
fn handed_out_with_the_base_moved_on() {
    let carried = by_hand(0x38, 0, &[9]);
    let no_block = by_hand(0x50, 0, &[0, 0, 0, 0]);
    let (buffer, last) = buffer_of(&[&CASE_L, &carried, &CASE_L, &no_block]);
    for end in AHEAD..=last {
        let length = (end - AHEAD) as u64;
        for base in [0, FAR, LAST - length] {
            let answer = read_recording(&buffer, AHEAD, end, base);
            assert_eq!(answer, hand_out(&buffer, AHEAD, end, base));
            // One distance covered, counted both ways.
            let covered = answer.reached - AHEAD as u64;
            assert_eq!(answer.recording_reached - base, covered);
        }
    }
}

#[test]
fn windows_one_behind_the_other() {
    // A recording of five packets in windows of 50 bytes, each with the place
    // reached as its base: the same places as in one window.
    let recorded = CASE_L.repeat(5);
    let mut base = 0;
    for number in 0..5 {
        let from = base as usize;
        let window = &recorded[from..recorded.len().min(from + 50)];
        let packet = read_packet(window, 0, window.len(), base).unwrap();
        assert_eq!(packet.recording_place, number * 40);
        let answer = read_recording(window, 0, window.len(), base);
        let stop = match number {
            4 => none(),
            _ => refusal(2, 40, number * 40 + 40),
        };
        assert_eq!(answer, recording(stop, 1, 40, number * 40 + 40));
        base = answer.recording_reached;
    }
    let whole = recording(none(), 5, 200, 200);
    assert_eq!(read_recording(&recorded, 0, 200, 0), whole);
    assert_eq!(base, 200);
}

#[test]
fn equal_answers_need_equal_bases() {
    // Start, end and the bytes between are equal; all other bytes differ.
    let (buffer, end) = buffer_of(&[&CASE_L, &spoilt_packet()]);
    let mut other = vec![0; buffer.len() + 100];
    other[AHEAD..end].copy_from_slice(&buffer[AHEAD..end]);
    for start in [AHEAD, 47] {
        for base in BASES {
            let answer = read_packet(&buffer, start, end, base);
            assert_eq!(read_packet(&other, start, end, base), answer);
            assert_ne!(read_packet(&other, start, end, base + 1), answer);
            let answer = read_recording(&buffer, start, end, base);
            assert_eq!(read_recording(&other, start, end, base), answer);
            assert_ne!(read_recording(&other, start, end, base + 1), answer);
        }
    }
}

#[test]
fn writer_has_no_place_in_the_recording() {
    let good = Fields {
        channel: 1,
        version: 6,
        sequence: 0,
        flags: 0x84,
        kind: 0x50,
        rtc: 0,
        time: 0,
    };
    let body = [0, 0, 0, 0, 2, 0, 0, 0, 7, 7];
    let mut spoilt = [good; 6];
    spoilt[0].rtc = 1 << 48;
    spoilt[1].version = 0;
    spoilt[2].kind = 0x05;
    spoilt[3].flags = 0x8C;
    spoilt[4].channel = 0;
    spoilt[5].time = 1_000_000_000;
    let mut out = [0xAA; 64];
    for (fields, number) in spoilt.iter().zip([17, 5, 6, 7, 8, 12]) {
        let written = write_packet(fields, &body, &mut out);
        assert_eq!(written, Err(refusal(number, 0, 0)));
    }
    let written = write_packet(&good, &[], &mut out);
    assert_eq!(written, Err(refusal(9, 0, 0)));
    // The second block is cut short; its place is 0 too.
    let cut = Refusal {
        reason: 2,
        ..refusal(15, 0, 0)
    };
    let longer = [0, 0, 0, 0, 2, 0, 0, 0, 7, 7, 1];
    assert_eq!(write_packet(&good, &longer, &mut out), Err(cut));
    // 36 + 10 and 2 of filler.
    let room = Refusal {
        room: 48,
        ..refusal(16, 0, 0)
    };
    assert_eq!(write_packet(&good, &body, &mut out[..47]), Err(room));
    assert_eq!(write_packet(&good, &body, &mut out), Ok(48));
}

#[test]
fn builder_has_no_place_in_the_recording() {
    let fresh = Draft::default();
    let mut buf = [0xAA; 20];
    let step = open(fresh, &mut buf, 0x38, 1);
    assert_eq!(step, (refusal(17, 0, 0), fresh));
    let room = |room: u64| Refusal {
        room,
        ..refusal(16, 0, 0)
    };
    assert_eq!(open(fresh, &mut buf[..3], 0x30, 1), (room(4), fresh));
    // 1, for a used count of 0.
    assert_eq!(add(fresh, &mut buf, 0, 0, &[7]).0, refusal(1, 0, 0));
    assert_eq!(close(fresh, &mut buf).0, refusal(1, 0, 0));

    let (answer, opened) = open(fresh, &mut buf, 0x30, 1);
    assert_eq!(answer, none());
    let layout = |reason: u64| Refusal {
        reason,
        ..refusal(15, 0, 0)
    };
    assert_eq!(close(opened, &mut buf), (layout(7), opened));
    assert_eq!(add(opened, &mut buf, 0, 0, &[]).0, refusal(17, 0, 0));
    // 4 + 8 + 4 + 2.
    let (answer, one) = add(opened, &mut buf, 0, 0, &[7, 7]);
    assert_eq!((answer, one.used), (none(), 18));
    assert_eq!(add(one, &mut buf, 1 << 48, 0, &[7]), (layout(3), one));
    assert_eq!(add(one, &mut buf, 0, 0, &[7]), (room(32), one));
    assert_eq!(close(one, &mut buf), (none(), one));
}

#[test]
fn listing_gives_places_in_the_recording() {
    // Standard input has base 0: 0, 40 and 40 + 28, and 108 bytes in all.
    let mut input = CASE_L.to_vec();
    input.extend_from_slice(&by_hand(0x38, 0, &[9]));
    input.extend_from_slice(&CASE_L);
    let lines_l = "length=40\nchannel=1\ntype=80\nversion=6\nsequence=0\nflags=2\nrtc=1\n\
                   time=0\nbody=12\nfiller=2\nsum=17031\nmessages=1\n";
    let lines_carried = "length=28\nchannel=1\ntype=56\nversion=6\nsequence=0\nflags=0\n\
                         rtc=0\ntime=0\nbody=1\nfiller=3\nsum=0\nmessages=0\n";
    let two = format!("packet=0\nat=0\n{lines_l}packet=1\nat=40\n{lines_carried}");
    let three = format!("{two}packet=2\nat=68\n{lines_l}packets=3\nbytes=108\nanswer=0\n");
    assert_eq!(String::from_utf8(listing(&input)).unwrap(), three);
    // The last byte missing: two packets, and 10 at the third.
    let cut = format!("{two}packets=2\nbytes=68\nanswer=10\n");
    assert_eq!(String::from_utf8(listing(&input[..107])).unwrap(), cut);
    // Refusal 15 doesn't move the place reached.
    let mut input = CASE_L.to_vec();
    input.extend_from_slice(&by_hand(0x50, 0, &[0, 0, 0, 0]));
    let fault = format!("packet=0\nat=0\n{lines_l}packets=1\nbytes=40\nanswer=15\n");
    assert_eq!(String::from_utf8(listing(&input)).unwrap(), fault);
}
