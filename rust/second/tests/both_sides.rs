//! Case L and the lines of "Both sides of the line", with the places of
//! refusals and the lists. The base is the window's start throughout: each
//! buffer is the recording from its first byte on, and both places of a refusal
//! are one number.

mod common;

use common::{by_hand, mend_header, CASE_L};
use second::*;

const LISTING_L: &str = "packet=0\nat=0\nlength=40\nchannel=1\ntype=80\nversion=6\nsequence=0\n\
flags=2\nrtc=1\ntime=0\nbody=12\nfiller=2\nsum=17031\nmessages=1\npackets=1\nbytes=40\nanswer=0\n";

/// A refusal other than 15, or none. Request 2: "all others have reason 0".
fn refusal(number: u64, place: u64, room: u64) -> Refusal {
    Refusal {
        number,
        place,
        recording_place: place,
        room,
        reason: 0,
    }
}

/// Refusal 15.
fn layout(place: u64, reason: u64) -> Refusal {
    Refusal {
        number: 15,
        place,
        recording_place: place,
        room: 0,
        reason,
    }
}

fn part(at: u64, length: u64) -> Part {
    Part { at, length }
}

fn fields_l() -> Fields {
    Fields {
        channel: 1,
        version: 6,
        sequence: 0,
        flags: 2,
        kind: 0x50,
        rtc: 1,
        time: 0,
    }
}

fn read(bytes: &[u8]) -> Result<Packet, Refusal> {
    read_packet(bytes, 0, bytes.len(), 0)
}

fn write(fields: &Fields, body: &[u8]) -> Vec<u8> {
    let mut out = vec![0xAA; body.len() + 64];
    let length = write_packet(fields, body, &mut out).unwrap() as usize;
    assert!(out[length..].iter().all(|byte| *byte == 0xAA));
    out.truncate(length);
    out
}

#[test]
fn case_l_is_accepted() {
    let packet = read(&CASE_L).unwrap();
    assert_eq!(packet.fields, fields_l());
    assert_eq!(packet.length, 40);
    assert_eq!(packet.data_length, 12);
    assert_eq!(packet.header_sum, 0x3B63);
    assert_eq!(packet.data_sum, 17031);
    assert_eq!(packet.header, part(0, 24));
    assert_eq!(packet.secondary, part(24, 0));
    assert_eq!(packet.body, part(24, 12));
    assert_eq!(packet.filler, part(36, 2));
    assert_eq!(packet.sum, part(38, 2));
    assert_eq!(write(&fields_l(), &CASE_L[24..36]), CASE_L);
}

#[test]
fn case_l_is_listed() {
    assert_eq!(listing(&CASE_L), LISTING_L.as_bytes());
    assert_eq!(listing(&[]), b"packets=0\nbytes=0\nanswer=0\n");
    assert_eq!(listing(&[0; 65_536]), b"packets=0\nbytes=0\nanswer=3\n");
    assert_eq!(listing(&[0; 65_537]), b"answer=1\n");
}

#[test]
fn case_l_cut_short() {
    assert_eq!(read(&CASE_L[..39]), Err(refusal(10, 0, 0)));
    assert_eq!(read_packet(&CASE_L, 0, 39, 0), Err(refusal(10, 0, 0)));
    assert_eq!(read(&CASE_L[..23]), Err(refusal(2, 0, 0)));
    assert_eq!(read(&[]), Err(refusal(2, 0, 0)));
    assert_eq!(read_packet(&CASE_L, 40, 40, 40), Err(refusal(2, 40, 0)));
}

#[test]
fn windows_outside_the_buffer() {
    assert_eq!(read_packet(&CASE_L, 0, 41, 0), Err(refusal(1, 0, 0)));
    assert_eq!(read_packet(&CASE_L, 2, 1, 2), Err(refusal(1, 2, 0)));
    let far = usize::MAX;
    assert_eq!(
        read_packet(&CASE_L, far, far, far as u64),
        Err(refusal(1, far as u64, 0))
    );
    assert_eq!(
        message(&CASE_L, far, 0, far as u64, far),
        Err(refusal(1, far as u64, 0))
    );
    let recording = read_recording(&CASE_L, 41, 41, 41);
    assert_eq!(recording.refusal, refusal(1, 41, 0));
    assert_eq!(recording.accepted, 0);
    assert_eq!(recording.reached, 41);
    assert_eq!(recording.recording_reached, 41);
}

#[test]
fn case_l_spoilt() {
    let mut spoilt = CASE_L;
    spoilt[0] = 0x24;
    assert_eq!(read(&spoilt), Err(refusal(3, 0, 0)));
    let mut spoilt = CASE_L;
    spoilt[13] = 1;
    assert_eq!(read(&spoilt), Err(refusal(4, 0, 0)));
    let mut spoilt = CASE_L;
    spoilt[32] = 0x40;
    assert_eq!(read(&spoilt), Err(refusal(13, 0, 0)));
}

#[test]
fn header_rules_in_their_order() {
    // Each line spoils one field more, from the bottom of the table upwards.
    let mut spoilt = CASE_L;
    let spoils = [
        (8, 13, 9),
        (2, 0, 8),
        (14, 0x0C, 7),
        (15, 0x05, 6),
        (12, 10, 5),
    ];
    for (at, value, number) in spoils {
        spoilt[at] = value;
        mend_header(&mut spoilt);
        // 13 bytes of data still make P 40: only 9 needs a wrong length.
        if number == 9 {
            spoilt[4] = 44;
            mend_header(&mut spoilt);
        }
        assert_eq!(read(&spoilt), Err(refusal(number, 0, 0)));
    }
    let mut spoilt = CASE_L;
    spoilt[14] = 0x42;
    mend_header(&mut spoilt);
    assert_eq!(read(&spoilt), Err(refusal(7, 0, 0)));
}

#[test]
fn defined_types_are_35() {
    let mut defined = 0;
    for kind in 0..=255 {
        let packet = by_hand(kind, 0, &[0, 0, 0, 0, 1, 0, 0, 0, 7, 0]);
        match read(&packet) {
            Ok(_) => defined += 1,
            Err(refusal) => {
                if refusal.number == 15 {
                    defined += 1;
                } else {
                    assert_eq!(refusal.number, 6);
                }
            }
        }
    }
    assert_eq!(defined, 35);
}

#[test]
fn sums_of_three_widths() {
    let body = &CASE_L[24..36];
    let cases = [
        (1, 3, 0xC9, 40, 1),
        (3, 0, 0x0043_4244, 40, 4),
        (0, 0, 0, 36, 0),
    ];
    for (flags, filler, sum, length, width) in cases {
        let mut fields = fields_l();
        fields.flags = flags;
        let bytes = write(&fields, body);
        let packet = read(&bytes).unwrap();
        assert_eq!(packet.filler.length, filler);
        assert_eq!(packet.data_sum, sum);
        assert_eq!(packet.length, length);
        assert_eq!(packet.sum, part(length - width, width));
    }
}

#[test]
fn filler_that_is_not_zero() {
    let mut spoilt = CASE_L;
    spoilt[36] = 1;
    assert_eq!(read(&spoilt), Err(refusal(13, 0, 0)));
    spoilt[38] = spoilt[38].wrapping_add(1);
    assert_eq!(read(&spoilt), Err(refusal(14, 0, 0)));
}

#[test]
fn secondary_times() {
    let body = &CASE_L[24..36];
    let mut fields = fields_l();
    fields.flags = 0x86;
    fields.time = (1 << 32) + 2;
    let mut bytes = write(&fields, body);
    assert_eq!(bytes[34..36], [3, 0]);
    let packet = read(&bytes).unwrap();
    assert_eq!(packet.fields, fields);
    assert_eq!(packet.secondary, part(24, 12));
    assert_eq!(packet.body, part(36, 12));

    bytes[34] = 4;
    assert_eq!(read(&bytes), Err(refusal(11, 0, 0)));
    bytes[32] = 1;
    assert_eq!(read(&bytes), Err(refusal(12, 0, 0)));

    fields.time = 999_999_999;
    assert_eq!(read(&write(&fields, body)).unwrap().fields, fields);
    fields.time = 1_000_000_000;
    let mut out = [0xAA; 64];
    assert_eq!(
        write_packet(&fields, body, &mut out),
        Err(refusal(12, 0, 0))
    );
    assert_eq!(out, [0xAA; 64]);
    // The same time under the extended counter, then called IEEE 1588.
    fields.flags = 0x8A;
    let mut bytes = write(&fields, body);
    assert!(read(&bytes).is_ok());
    bytes[14] = 0x86;
    mend_header(&mut bytes);
    assert_eq!(read(&bytes), Err(refusal(12, 0, 0)));
    // Chapter 4: the low 16 bits are zero.
    fields.flags = 0x82;
    fields.time = 0x1_0000;
    assert!(read(&write(&fields, body)).is_ok());
    fields.time = 0x1_8000;
    assert_eq!(
        write_packet(&fields, body, &mut out),
        Err(refusal(12, 0, 0))
    );
}

#[test]
fn longest_packets() {
    for (kind, longest) in [(0x38, 524_288), (0x01, 134_217_728)] {
        let mut fields = fields_l();
        fields.flags = 0;
        fields.kind = kind;
        let body = vec![0x5A; longest - 24 + 1];
        let mut packet = write(&fields, &body[1..]);
        assert_eq!(packet.len(), longest);
        assert_eq!(read(&packet).unwrap().length, longest as u64);
        assert_eq!(write_packet(&fields, &body, &mut []), Err(refusal(9, 0, 0)));

        packet.extend_from_slice(&[0; 4]);
        packet[4..8].copy_from_slice(&(longest as u32 + 4).to_le_bytes());
        packet[8..12].copy_from_slice(&(longest as u32 + 4 - 24).to_le_bytes());
        mend_header(&mut packet);
        assert_eq!(read(&packet), Err(refusal(9, 0, 0)));
    }
}

#[test]
fn shortest_packets() {
    let packet = by_hand(0x38, 0, &[9]);
    assert_eq!(packet.len(), 28);
    assert_eq!(read(&packet).unwrap().filler, part(25, 3));
    assert_eq!(read(&by_hand(0x38, 0, &[])), Err(refusal(9, 0, 0)));
    let mut fields = fields_l();
    fields.kind = 0x38;
    assert_eq!(
        write_packet(&fields, &[], &mut [0; 64]),
        Err(refusal(9, 0, 0))
    );
}

#[test]
fn data_length_near_2_32() {
    let mut packet = by_hand(0x38, 0, &[1, 2, 3, 4]);
    packet[8..12].copy_from_slice(&0xFFFF_FFF0u32.to_le_bytes());
    packet[4..8].copy_from_slice(&8u32.to_le_bytes());
    mend_header(&mut packet);
    assert_eq!(read(&packet), Err(refusal(9, 0, 0)));
}

#[test]
fn uart_faults() {
    // The channel word alone: four bytes into the body.
    assert_eq!(read(&by_hand(0x50, 0, &[0, 0, 0, 0])), Err(layout(28, 7)));
    // Less than a channel word, and reserved bits in it.
    assert_eq!(read(&by_hand(0x50, 0, &[0, 0, 0])), Err(layout(24, 1)));
    assert_eq!(
        read(&by_hand(0x50, 0, &[0, 0, 0, 0x40, 2, 0, 0, 0, 7, 7])),
        Err(layout(24, 1))
    );
    // n = 0; n past the end; the pad byte missing; the pad byte not zero.
    let faults: [(&[u8], u64); 4] = [
        (&[0, 0, 0, 0], 4),
        (&[3, 0, 0, 0, 7, 7], 2),
        (&[3, 0, 0, 0, 7, 7, 7], 2),
        (&[3, 0, 0, 0, 7, 7, 7, 1], 5),
    ];
    for (fault, reason) in faults {
        let mut body = vec![0, 0, 0, 0, 1, 0, 0, 0x40, 7, 0];
        body.extend_from_slice(fault);
        assert_eq!(read(&by_hand(0x50, 0, &body)), Err(layout(34, reason)));
    }
    // A time of 2^48 with flag bit 6 clear.
    let body = [0, 0, 0, 0x80, 0, 0, 0, 0, 0, 0, 1, 0, 2, 0, 0, 0, 7, 7];
    assert_eq!(read(&by_hand(0x50, 0, &body)), Err(layout(28, 3)));
}

#[test]
fn message_faults() {
    let block = [1, 0, 0, 0, 0, 0, 0, 0, 2, 0, 0, 0, 7, 7];
    // Channel word and number of blocks in the body; then the place at fault
    // and the reason, or 0 and 0 if there is none.
    let cases: [(u32, usize, u64, u64); 16] = [
        (0x0_0000, 1, 24, 1),
        (0x0_0001, 0, 28, 7),
        (0x0_0001, 1, 0, 0),
        (0x0_0001, 2, 42, 6),
        (0x0_0002, 1, 42, 7),
        (0x0_0002, 2, 0, 0),
        (0x1_0000, 1, 24, 1),
        (0x1_0001, 1, 0, 0),
        (0x1_0001, 2, 42, 6),
        (0x1_0002, 1, 24, 1),
        (0x2_0001, 1, 24, 1),
        (0x2_0002, 1, 0, 0),
        (0x2_0002, 2, 42, 6),
        (0x3_FFFF, 1, 0, 0),
        (0x3_0001, 1, 24, 1),
        (0x4_0001, 1, 24, 1),
    ];
    for (channel_word, blocks, place, reason) in cases {
        let mut body = channel_word.to_le_bytes().to_vec();
        for _ in 0..blocks {
            body.extend_from_slice(&block);
        }
        let mut buffer = vec![0x25; 5];
        buffer.extend_from_slice(&by_hand(0x30, 0, &body));
        let answer = read_packet(&buffer, 5, buffer.len(), 5);
        if place == 0 {
            assert!(answer.is_ok());
        } else {
            assert_eq!(answer, Err(layout(place + 5, reason)));
        }
    }
}

#[test]
fn lists_and_messages() {
    let body = [0, 0, 0, 0, 1, 0, 0, 0x40, 7, 0, 2, 0, 0, 0, 8, 9];
    let mut buffer = vec![0; 3];
    buffer.extend_from_slice(&by_hand(0x50, 0, &body));
    let end = buffer.len();
    let mut starts = [99; 3];
    let mut lengths = [98; 4];
    assert_eq!(
        list_messages(&buffer, 3, end, 3, &mut starts, &mut lengths),
        Ok(2)
    );
    assert_eq!(starts, [32, 38, 99]);
    assert_eq!(lengths, [1, 2, 98, 98]);

    let mut short = [97; 1];
    assert_eq!(
        list_messages(&buffer, 3, end, 3, &mut short, &mut lengths),
        Err(refusal(16, 3, 2))
    );
    assert_eq!(short, [97]);
    assert_eq!(lengths, [1, 2, 98, 98]);

    let first = Message {
        time: 0,
        id: 0x4000_0001,
        start: 32,
        length: 1,
    };
    assert_eq!(message(&buffer, 3, end, 3, 0), Ok(first));
    assert_eq!(message(&buffer, 3, end, 3, 1).unwrap().start, 38);
    assert_eq!(message(&buffer, 3, end, 3, 2), Err(refusal(17, 3, 0)));
    assert_eq!(
        message(&buffer, 3, end, 3, usize::MAX),
        Err(refusal(17, 3, 0))
    );

    // A type that isn't opened.
    let carried = by_hand(0x38, 0, &body);
    assert_eq!(
        list_messages(&carried, 0, carried.len(), 0, &mut [], &mut []),
        Ok(0)
    );
    assert_eq!(
        message(&carried, 0, carried.len(), 0, 0),
        Err(refusal(17, 0, 0))
    );
}

#[test]
fn recordings() {
    let mut buffer = CASE_L.to_vec();
    buffer.extend_from_slice(&CASE_L);
    let whole = Recording {
        refusal: refusal(0, 0, 0),
        accepted: 2,
        reached: 80,
        recording_reached: 80,
    };
    assert_eq!(read_recording(&buffer, 0, 80, 0), whole);
    let cut = Recording {
        refusal: refusal(10, 40, 0),
        accepted: 1,
        reached: 40,
        recording_reached: 40,
    };
    assert_eq!(read_recording(&buffer, 0, 79, 0), cut);
    let empty = Recording {
        refusal: refusal(0, 0, 0),
        accepted: 0,
        reached: 80,
        recording_reached: 80,
    };
    assert_eq!(read_recording(&buffer, 80, 80, 80), empty);
    let second_alone = Recording {
        refusal: refusal(0, 0, 0),
        accepted: 1,
        reached: 80,
        recording_reached: 80,
    };
    assert_eq!(read_recording(&buffer, 40, 80, 40), second_alone);
}

#[test]
fn writer_refusals() {
    let body = &CASE_L[24..36];
    let mut out = [0xAA; 39];
    let room = write_packet(&fields_l(), body, &mut out);
    assert_eq!(room, Err(refusal(16, 0, 40)));
    // Without its pad byte L's block is cut short.
    assert_eq!(
        write_packet(&fields_l(), &body[..11], &mut out),
        Err(layout(0, 2))
    );

    // Each line spoils one field more, from the bottom of the table upwards.
    let mut fields = fields_l();
    fields.channel = 0;
    assert_eq!(write_packet(&fields, &[], &mut out), Err(refusal(8, 0, 0)));
    fields.flags = 0x40;
    assert_eq!(write_packet(&fields, &[], &mut out), Err(refusal(7, 0, 0)));
    fields.kind = 0x7B;
    assert_eq!(write_packet(&fields, &[], &mut out), Err(refusal(6, 0, 0)));
    fields.version = 0;
    assert_eq!(write_packet(&fields, &[], &mut out), Err(refusal(5, 0, 0)));
    fields.time = 1;
    assert_eq!(write_packet(&fields, &[], &mut out), Err(refusal(17, 0, 0)));

    let mut wide = [fields_l(); 7];
    wide[0].channel = 0x1_0000;
    wide[1].version = 0x106;
    wide[2].sequence = 0x100;
    wide[3].flags = 0x102;
    wide[4].kind = 0x150;
    wide[5].rtc = 1 << 48;
    wide[6].time = 1;
    for fields in wide {
        assert_eq!(
            write_packet(&fields, body, &mut out),
            Err(refusal(17, 0, 0))
        );
    }
    assert_eq!(out, [0xAA; 39]);
}
