//! What the safe calls promise beyond the values that `case_l.rs` checks.

mod cases;

use cases::{carried, faulty, recording, shown};
use cases::{FAULTY_AT, FAULTY_BASE, FILLED, HEADER, L, L_BASE, M, M_AT, M_BASE};
use ch11::{
    Draft, Entry, Fields, Number, Packet, Reason, Recording, Refusal, RenewalTable, Renewed,
};
use ch11::{TimeRule, MESSAGE, UART};
use std::fmt::Debug;

/// A refusal at these places in the buffer and in the recording; from the writer and the builder
/// both are 0.
fn refusal(number: Number, place: usize, recording_place: u64) -> Refusal {
    Refusal {
        number,
        place,
        room: 0,
        reason: None,
        recording_place,
    }
}

/// There is no room for so many.
fn no_room(place: usize, recording_place: u64, room: usize) -> Refusal {
    Refusal {
        room,
        ..refusal(Number::Room, place, recording_place)
    }
}

/// An opened body breaks its layout there, for this reason.
fn fault(place: usize, recording_place: u64, reason: Reason) -> Refusal {
    Refusal {
        reason: Some(reason),
        ..refusal(Number::Layout, place, recording_place)
    }
}

/// Every call on this window is refused so, as the packet at its start is.
#[track_caller]
fn all_refuse(buf: &[u8], start: usize, end: usize, base: u64, refused: Refusal) {
    assert_eq!(ch11::read_packet(buf, start, end, base), Err(refused));
    let items: Vec<_> = ch11::packets(buf, start, end, base).collect();
    assert_eq!(items, [Err(refused)]);
    let count = ch11::message_count(buf, start, end, base);
    assert_eq!(count, Err(refused));
    let messages = ch11::messages(buf, start, end, base);
    assert_eq!(messages.err(), Some(refused));
    let (mut starts, mut lengths) = ([7; 3], [9; 3]);
    let count = ch11::list_messages(buf, start, end, base, &mut starts, &mut lengths);
    assert_eq!((count, starts, lengths), (Err(refused), [7; 3], [9; 3]));
    assert_eq!(ch11::message(buf, start, end, base, 0), Err(refused));
    let want = Recording {
        accepted: 0,
        reached: start,
        recording_reached: base,
        refusal: Some(refused),
    };
    assert_eq!(ch11::read_recording(buf, start, end, base), want);
}

#[test]
fn every_field_of_a_packet() {
    let buf = recording();
    let packet = ch11::read_packet(&buf, M_AT, FILLED, M_BASE).unwrap();
    let as_told = |case| shown(case, &mut |word| word);
    let refusal = format!("refusal: {}, ", as_told("none"));
    let want = as_told("packet_m").replace(&refusal, "");
    assert_eq!(format!("{packet:?}"), want);
    assert_eq!(buf[packet.body.range()], M[36..74]);

    let mut out = [0; 80];
    let body = &buf[packet.body.range()];
    assert_eq!(ch11::write_packet(&packet.fields, body, &mut out), Ok(80));
    assert_eq!(out, M);
}

#[test]
fn window_outside_the_buffer() {
    let outside = [
        (50, 60),
        (0, 41),
        (41, 41),
        (2, 1),
        (usize::MAX, usize::MAX),
        (0, usize::MAX),
    ];
    for (start, end) in outside {
        for base in [0, M_BASE, u64::MAX] {
            let refused = refusal(Number::State, start, base);
            all_refuse(&L, start, end, base, refused);
        }
    }
}

#[test]
fn packets_end_at_the_exact_end() {
    let buf = recording();
    let mut packets = ch11::packets(&buf, M_AT, FILLED, M_BASE);
    let starts: Vec<_> = packets
        .by_ref()
        .map(|packet| packet.unwrap().header.at)
        .collect();
    assert_eq!(starts, [100, 180, 220]);
    assert!(packets.next().is_none());

    for at in [0, 40] {
        assert!(ch11::packets(&L, at, at, M_BASE).next().is_none());
    }
    assert!(ch11::packets(&[], 0, 0, M_BASE).next().is_none());
}

#[test]
fn packets_end_at_the_first_refusal() {
    let buf = recording();
    let mut packets = ch11::packets(&buf, M_AT, buf.len(), M_BASE);
    assert_eq!(packets.by_ref().take(3).filter(Result::is_ok).count(), 3);
    let wrong = refusal(Number::DataSum, 260, M_BASE + 160);
    assert_eq!(packets.next(), Some(Err(wrong)));
    assert!(packets.next().is_none() && packets.next().is_none());

    let last = ch11::packets(&buf, M_AT, FILLED - 1, M_BASE).last();
    let cut = refusal(Number::Cut, 220, M_BASE + 120);
    assert_eq!(last, Some(Err(cut)));
}

#[test]
fn recording_and_packets_agree() {
    let buf = recording();
    for end in M_AT..=buf.len() {
        let items: Vec<_> = ch11::packets(&buf, M_AT, end, M_BASE).collect();
        let accepted = items.iter().flatten().count();
        let covered: usize = items.iter().flatten().map(|packet| packet.length).sum();
        let refusal = items.last().and_then(|item| item.err());
        let want = Recording {
            accepted,
            reached: M_AT + covered,
            recording_reached: M_BASE + covered as u64,
            refusal,
        };
        assert_eq!(ch11::read_recording(&buf, M_AT, end, M_BASE), want);
    }
}

#[test]
fn leftovers_are_not_seen() {
    let (mut buf, clean) = ([L, L].concat(), L);
    buf[40..].fill(0x25);
    assert_eq!(
        ch11::read_packet(&buf, 0, 40, L_BASE),
        ch11::read_packet(&clean, 0, 40, L_BASE)
    );
    assert_eq!(
        ch11::read_recording(&buf, 0, 40, L_BASE),
        ch11::read_recording(&clean, 0, 40, L_BASE)
    );
    assert_eq!(ch11::packets(&buf, 0, 40, L_BASE).count(), 1);
    all_refuse(&buf, 0, 39, L_BASE, refusal(Number::Cut, 0, L_BASE));
}

#[test]
fn messages_of_a_packet() {
    let buf = recording();
    let messages = ch11::messages(&buf, M_AT, FILLED, M_BASE).unwrap();
    assert_eq!(messages.len(), 2);
    assert_eq!(messages.collect::<Vec<_>>(), [&b"abc"[..], b"vwxyz"]);
    assert_eq!(ch11::message_count(&buf, M_AT, FILLED, M_BASE), Ok(2));

    let last = ch11::message(&buf, M_AT, FILLED, M_BASE, 1).unwrap();
    assert_eq!((last.time, last.id), (0x11_0000_0021, 0x9876_0005));
    assert_eq!((last.start, last.bytes), (68, &b"vwxyz"[..]));
    let none = ch11::message(&buf, M_AT, FILLED, M_BASE, 2);
    assert_eq!(none, Err(refusal(Number::Range, 100, M_BASE)));

    let (mut starts, mut lengths) = ([7; 3], [9; 2]);
    let count = ch11::list_messages(&buf, M_AT, FILLED, M_BASE, &mut starts, &mut lengths);
    assert_eq!((count, starts, lengths), (Ok(2), [52, 68, 7], [3, 5]));
    let short = &mut lengths[..1];
    let count = ch11::list_messages(&buf, M_AT, FILLED, M_BASE, &mut starts, short);
    assert_eq!(count, Err(no_room(100, M_BASE, 2)));
}

#[test]
fn type_that_is_not_opened() {
    let fields = Fields {
        channel: 3,
        version: 1,
        kind: 0x40,
        ..Fields::default()
    };
    let mut out = [0; 28];
    assert_eq!(ch11::write_packet(&fields, b"body", &mut out), Ok(28));
    assert_eq!(ch11::message_count(&out, 0, 28, M_BASE), Ok(0));
    assert_eq!(ch11::messages(&out, 0, 28, M_BASE).unwrap().next(), None);
    let none = ch11::message(&out, 0, 28, M_BASE, 0);
    assert_eq!(none, Err(refusal(Number::Range, 0, M_BASE)));
}

#[test]
fn writer_refusals() {
    let write = |fields: Fields, body: &[u8], room: usize| {
        let mut out = vec![0xEE; room];
        let refused = ch11::write_packet(&fields, body, &mut out).unwrap_err();
        assert_eq!(out, vec![0xEE; room]);
        refused
    };
    let body = &M[36..74];
    let fields = ch11::read_packet(&M, 0, 80, M_BASE).unwrap().fields;
    let (mut late, mut new) = (fields, fields);
    (late.rtc, new.version) = (1 << 48, 10);
    assert_eq!(write(late, body, 80), refusal(Number::Range, 0, 0));
    assert_eq!(write(new, body, 80), refusal(Number::Version, 0, 0));
    let cut = fault(0, 0, Reason::CutShort);
    assert_eq!(write(fields, &body[..37], 80), cut);
    assert_eq!(write(fields, &[], 80), refusal(Number::Length, 0, 0));
    assert_eq!(write(fields, body, 0), no_room(0, 0, 80));
}

#[test]
fn body_built_in_a_growing_buffer() {
    let mut buf = vec![0; 20];
    let draft = Draft::new()
        .open(&mut buf, MESSAGE, TimeRule::Ieee1588)
        .unwrap();
    let draft = draft.add(&mut buf, 0x10_0000_0020, 0xABCD, b"abc").unwrap();
    let denied = draft
        .add(&mut buf, 0x11_0000_0021, 0x9876, b"vwxyz")
        .unwrap_err();
    assert_eq!(denied.refusal, no_room(0, 0, 38));
    assert_eq!((denied.draft.used(), denied.draft.blocks()), (20, 1));

    buf.resize(denied.refusal.room, 0);
    let draft = denied
        .draft
        .add(&mut buf, 0x11_0000_0021, 0x9876, b"vwxyz")
        .unwrap();
    assert_eq!((draft.used(), draft.blocks()), (38, 2));
    assert_eq!(draft.close(&mut buf), Ok(38));
    assert_eq!(buf, M[36..74]);
}

#[test]
fn refused_steps_hand_back_the_state() {
    let mut buf = [0; 12];
    let denied = Draft::new()
        .open(&mut buf, MESSAGE, TimeRule::None)
        .unwrap_err();
    assert_eq!(
        (denied.refusal.number, &denied.draft),
        (Number::Range, &Draft::new())
    );
    let draft = denied.draft.open(&mut buf, UART, TimeRule::None).unwrap();
    let denied = draft.close(&mut buf).unwrap_err();
    assert_eq!(
        (denied.refusal, denied.draft.used()),
        (fault(0, 0, Reason::Missing), 4)
    );
    let denied = denied.draft.add(&mut buf, 1, 0, b"ABC").unwrap_err();
    assert_eq!(
        (denied.refusal, denied.draft.used()),
        (refusal(Number::Range, 0, 0), 4)
    );
    let draft = denied.draft.add(&mut buf, 0, 0, b"ABC").unwrap();
    assert_eq!(draft.close(&mut buf), Ok(12));
    assert_eq!(buf, L[24..36]);
}

#[test]
fn time_rules() {
    let add = |rule, time| {
        let mut buf = [0; 32];
        let draft = Draft::new().open(&mut buf, UART, rule).unwrap();
        draft
            .add(&mut buf, time, 0, b"a")
            .map_err(|denied| denied.refusal)
            .err()
    };
    let layout = Some(fault(0, 0, Reason::Time));
    assert_eq!(
        (
            add(TimeRule::Counter, (1 << 48) - 1),
            add(TimeRule::Counter, 1 << 48)
        ),
        (None, layout)
    );
    assert_eq!(
        (add(TimeRule::Chapter4, 1 << 16), add(TimeRule::Chapter4, 1)),
        (None, layout)
    );
    let in_form = (
        add(TimeRule::Ieee1588, 999_999_999),
        add(TimeRule::Ieee1588, 1_000_000_000),
    );
    assert_eq!(in_form, (None, layout));
    assert_eq!(
        (add(TimeRule::Extended, u64::MAX), add(TimeRule::None, 0)),
        (None, None)
    );
}

/// A fault is told by every reader as the one-packet reader tells it.
#[test]
fn reasons_passed_on() {
    let buf = faulty();
    let told = fault(68, FAULTY_BASE + 68, Reason::Pad);
    all_refuse(&buf, FAULTY_AT, 80, FAULTY_BASE + 40, told);
    let mut packets = ch11::packets(&buf, 0, 80, FAULTY_BASE);
    assert_eq!(packets.nth(1), Some(Err(told)));
    let read = ch11::read_recording(&buf, 0, 80, FAULTY_BASE);
    assert_eq!(read.refusal, Some(told));
}

/// Where the packets of a window stand in the recording, and behind them where the refusal does.
fn recording_places(buf: &[u8], start: usize, end: usize, base: u64) -> Vec<u64> {
    let place = |item: Result<Packet, Refusal>| match item {
        Ok(packet) => packet.recording_place,
        Err(refusal) => refusal.recording_place,
    };
    ch11::packets(buf, start, end, base).map(place).collect()
}

#[test]
fn packets_move_the_base_on() {
    let buf = recording();
    let places = recording_places(&buf, M_AT, 300, M_BASE);
    assert_eq!(places, [0, 80, 120, 160].map(|passed| M_BASE + passed));
    assert_eq!(recording_places(&buf, 180, FILLED, 9), [9, 49]);
    let places = recording_places(&faulty(), 0, 80, FAULTY_BASE);
    assert_eq!(places, [5000, 5068]);
    // The last packet ends at the last place that there is.
    let places = recording_places(&buf, M_AT, FILLED, u64::MAX - 160);
    assert_eq!(places, [160, 80, 40].map(|left| u64::MAX - left));
}

/// A recording of which each buffer holds a piece, the second from where the first was left.
/// Wherever the first ends, the two are read as the whole is.
#[test]
fn reading_on_in_another_buffer() {
    let whole = [&recording()[M_AT..FILLED], &faulty()[FAULTY_AT..]].concat();
    let want = ch11::read_recording(&whole, 0, 200, M_BASE);
    let places = recording_places(&whole, 0, 200, M_BASE);
    // The block at fault stands 28 bytes into its packet.
    let passed = [0, 80, 120, 160 + 28];
    assert_eq!(places, passed.map(|passed| M_BASE + passed));
    for filled in 0..=200 {
        let first = ch11::read_recording(&whole[..filled], 0, filled, M_BASE);
        let base = first.recording_reached;
        let ahead = [0xEE; 7];
        let buf = [&ahead, &whole[(base - M_BASE) as usize..]].concat();
        let second = ch11::read_recording(&buf, 7, buf.len(), base);
        assert_eq!(first.accepted + second.accepted, want.accepted);
        assert_eq!(second.recording_reached, want.recording_reached);
        let place = |read: Recording| read.refusal.map(|refusal| refusal.recording_place);
        assert_eq!(place(second), place(want));

        let mut found = recording_places(&whole[..filled], 0, filled, M_BASE);
        found.truncate(first.accepted);
        found.extend(recording_places(&buf, 7, buf.len(), base));
        assert_eq!(found, places);
    }
}

/// What every call answers on a window, with its places in the recording less the base.
fn answers(buf: &[u8], start: usize, end: usize, base: u64) -> impl PartialEq + Debug + '_ {
    let told = |refusal: Refusal| Refusal {
        recording_place: refusal.recording_place - base,
        ..refusal
    };
    let read = |packet: Packet| Packet {
        recording_place: packet.recording_place - base,
        ..packet
    };
    let packet = ch11::read_packet(buf, start, end, base);
    let packets = ch11::packets(buf, start, end, base);
    let packets: Vec<_> = packets.map(|item| item.map(read).map_err(told)).collect();
    let count = ch11::message_count(buf, start, end, base).map_err(told);
    let messages = ch11::messages(buf, start, end, base).map(Vec::from_iter);
    let (mut starts, mut lengths) = ([7; 2], [9; 1]);
    let listed = ch11::list_messages(buf, start, end, base, &mut starts, &mut lengths);
    let message = ch11::message(buf, start, end, base, 1).map_err(told);
    let recording = ch11::read_recording(buf, start, end, base);
    let recording = Recording {
        recording_reached: recording.recording_reached - base,
        refusal: recording.refusal.map(told),
        ..recording
    };
    let lists = (listed.map_err(told), starts, lengths);
    let one = (packet.map(read).map_err(told), count, message);
    (one, packets, messages.map_err(told), lists, recording)
}

/// Every window of so many bytes from some starts on.
fn windows(len: usize) -> impl Iterator<Item = (usize, usize)> {
    let starts = [0, 40, M_AT, 180, FILLED, 300].into_iter();
    starts.flat_map(move |start| (start..=len).map(move |end| (start, end)))
}

/// The highest base that a window may have.
fn highest_base(start: usize, end: usize) -> u64 {
    u64::MAX - (end - start) as u64
}

#[test]
fn the_base_moves_recording_places_alone() {
    for buf in [recording(), faulty(), Vec::new()] {
        for (start, end) in windows(buf.len()) {
            let at_0 = answers(&buf, start, end, 0);
            let highest = highest_base(start, end);
            for base in [1, (1 << 32) - 50, M_BASE, 1 << 63, highest] {
                let moved = answers(&buf, start, end, base);
                assert_eq!(moved, at_0, "window {start} to {end}, base {base}");
            }
        }
    }
}

/// Every call says 1, and the base.
#[test]
fn base_above_the_highest() {
    for buf in [recording(), faulty()] {
        for (start, end) in windows(buf.len()).filter(|(start, end)| start < end) {
            for base in [highest_base(start, end) + 1, u64::MAX] {
                let refused = refusal(Number::State, start, base);
                all_refuse(&buf, start, end, base, refused);
            }
        }
    }
}

/// An empty window may stand behind the last byte that a recording can have.
#[test]
fn empty_window_at_the_highest_base() {
    for (buf, at) in [(&L[..], 0), (&L, 40), (&[], 0)] {
        let want = Recording {
            accepted: 0,
            reached: at,
            recording_reached: u64::MAX,
            refusal: None,
        };
        assert_eq!(ch11::read_recording(buf, at, at, u64::MAX), want);
        assert!(ch11::packets(buf, at, at, u64::MAX).next().is_none());
        let short = refusal(Number::Short, at, u64::MAX);
        assert_eq!(ch11::read_packet(buf, at, at, u64::MAX), Err(short));
        assert_eq!(ch11::message_count(buf, at, at, u64::MAX), Err(short));
        assert_eq!(ch11::message(buf, at, at, u64::MAX, 0), Err(short));
    }
}

/// Two recordings of which packets are kept.
const FIRST: u64 = 7;
const SECOND: u64 = 0xFEDC_BA98_7654_3210;

/// The entry of L under this name.
fn entry_of_l(slot: usize, recording: u64, place: u64) -> Entry<'static> {
    Entry {
        slot,
        recording,
        place,
        channel: 1,
        sequence: 0,
        rtc: 1,
        bytes: &L,
    }
}

const ENTRY_OF_M: Entry<'_> = Entry {
    slot: 1,
    recording: SECOND,
    place: M_BASE,
    channel: 0x1234,
    sequence: 0xC9,
    rtc: 0x0A0B_0C0D_0E0F,
    bytes: &M,
};

/// L, M, and an L where `faulty()` has the one at fault now.
fn kept() -> RenewalTable {
    let (mut table, buf) = (RenewalTable::new(), recording());
    assert_eq!(table.add(FIRST, L_BASE, &L, 0, 40), Ok(0));
    assert_eq!(table.add(SECOND, M_BASE, &buf, M_AT, FILLED), Ok(1));
    assert_eq!(table.add(FIRST, FAULTY_BASE + 40, &buf, 180, 300), Ok(2));
    table
}

/// The entries of `kept()`.
fn entries_kept() -> [Entry<'static>; 3] {
    let last = entry_of_l(2, FIRST, FAULTY_BASE + 40);
    [entry_of_l(0, FIRST, L_BASE), ENTRY_OF_M, last]
}

#[track_caller]
fn has(table: &RenewalTable, want: &[Entry]) {
    assert_eq!(table.entries().collect::<Vec<_>>(), want);
}

#[test]
fn entries_of_a_table() {
    let (mut table, want) = (kept(), entries_kept());
    has(&table, &want);
    assert!(table.into_iter().eq(want));
    assert_eq!(format!("{table:?}"), format!("{want:?}"));
    let mut entries = table.entries();
    assert_eq!(entries.next(), Some(want[0]));
    assert_eq!(entries.clone().count(), 2);
    assert_eq!(entries.by_ref().last(), Some(want[2]));
    assert!(entries.next().is_none() && entries.next().is_none());

    let dropped = table.renew(SECOND, M_BASE, &L, 0, 40);
    assert_eq!(dropped, Ok(Renewed::Dropped(None)));
    has(&table, &[want[0], want[2]]);
    for empty in [RenewalTable::new(), RenewalTable::default()] {
        assert!(empty.into_iter().next().is_none());
        assert_eq!(format!("{empty:?}"), "[]");
    }
}

#[test]
fn entry_replaced_in_its_own_slot() {
    let (mut table, want) = (kept(), entries_kept());
    let other = table.clone();
    let dropped = table.renew(FIRST, L_BASE, &L, 0, 23);
    let short = refusal(Number::Short, 0, L_BASE);
    assert_eq!(dropped, Ok(Renewed::Dropped(Some(short))));
    assert_eq!(table.add(SECOND, M_BASE, &L, 0, 40), Ok(1));
    has(&table, &[entry_of_l(1, SECOND, M_BASE), want[2]]);
    // The slot that is free is taken by the next name.
    assert_eq!(table.add(SECOND, L_BASE, &L, 0, 40), Ok(0));
    let (first, second) = (entry_of_l(0, SECOND, L_BASE), entry_of_l(1, SECOND, M_BASE));
    has(&table, &[first, second, want[2]]);
    has(&other, &want);
}

#[test]
fn entries_renewed() {
    let (mut table, want) = (kept(), entries_kept());
    let buf = recording();
    for _ in 0..2 {
        let lives = table.renew(SECOND, M_BASE, &buf, M_AT, FILLED);
        assert_eq!(lives, Ok(Renewed::Lives));
    }
    let unknown = refusal(Number::NoEntry, M_AT, M_BASE);
    assert_eq!(table.renew(FIRST, M_BASE, &buf, M_AT, 301), Err(unknown));
    let outside = refusal(Number::State, M_AT, L_BASE);
    assert_eq!(table.renew(FIRST, L_BASE, &buf, M_AT, 301), Err(outside));
    has(&table, &want);

    let told = fault(68, FAULTY_BASE + 68, Reason::Pad);
    let dropped = table.renew(FIRST, FAULTY_BASE + 40, &faulty(), FAULTY_AT, 80);
    assert_eq!(dropped, Ok(Renewed::Dropped(Some(told))));
    has(&table, &want[..2]);
    let gone = table.renew(FIRST, FAULTY_BASE + 40, &L, 0, 40);
    let unknown = refusal(Number::NoEntry, 0, FAULTY_BASE + 40);
    assert_eq!(gone, Err(unknown));
}

/// A window's packet is kept or refused as the reader has it.
#[test]
fn adding_goes_by_the_reader() {
    for buf in [recording(), faulty()] {
        for (start, end) in windows(buf.len() + 1) {
            for base in [M_BASE, highest_base(start, end)] {
                let mut table = RenewalTable::new();
                let added = table.add(FIRST, base, &buf, start, end);
                let read = ch11::read_packet(&buf, start, end, base);
                assert_eq!(added, read.map(|_| 0));
                let want = read.map(|packet| Entry {
                    slot: 0,
                    recording: FIRST,
                    place: base,
                    channel: packet.fields.channel,
                    sequence: packet.fields.sequence,
                    rtc: packet.fields.rtc,
                    bytes: &buf[start..start + packet.length],
                });
                assert!(table.entries().eq(want), "window {start} to {end}");
            }
        }
    }
}

/// An entry lives on where the reader accepts the packet that it holds, and no other.
#[test]
fn renewing_goes_by_the_reader() {
    let base = M_BASE + 80;
    let mut table = kept();
    for buf in [recording(), faulty()] {
        for (start, end) in windows(buf.len() + 1) {
            assert_eq!(table.add(SECOND, base, &L, 0, 40), Ok(3));
            let want = match ch11::read_packet(&buf, start, end, base) {
                Ok(packet) if buf[start..start + packet.length] == L => Ok(Renewed::Lives),
                Ok(_) => Ok(Renewed::Dropped(None)),
                Err(outside) if outside.number == Number::State => Err(outside),
                Err(refused) => Ok(Renewed::Dropped(Some(refused))),
            };
            assert_eq!(table.renew(SECOND, base, &buf, start, end), want);
            let left = !matches!(want, Ok(Renewed::Dropped(_)));
            let entry = left.then(|| entry_of_l(3, SECOND, base));
            assert!(table.entries().eq(entries_kept().into_iter().chain(entry)));
        }
    }
}

#[test]
fn table_that_is_full() {
    let (mut table, buf, long) = (RenewalTable::default(), recording(), carried(1028));
    for slot in 0..64 {
        let place = M_BASE + slot as u64;
        assert_eq!(table.add(FIRST, place, &buf, 180, FILLED), Ok(slot));
    }
    let before = format!("{table:?}");
    let full = refusal(Number::Full, 180, M_BASE);
    assert_eq!(table.add(SECOND, M_BASE, &buf, 180, FILLED), Err(full));
    let too_long = refusal(Number::Long, 0, M_BASE);
    assert_eq!(table.add(SECOND, M_BASE, &long, 0, 1028), Err(too_long));
    assert_eq!(format!("{table:?}"), before);

    // The longest packet that a slot takes, in the last slot.
    let longest = carried(1024);
    assert_eq!(table.add(FIRST, M_BASE + 63, &longest, 0, 1024), Ok(63));
    assert_eq!(
        table.entries().last().map(|last| last.bytes),
        Some(&longest[..])
    );
    for gone in [9, 5] {
        let dropped = table.renew(FIRST, M_BASE + gone, &longest, 0, 1024);
        assert_eq!(dropped, Ok(Renewed::Dropped(None)));
    }
    assert_eq!(table.entries().count(), 62);
    assert_eq!(table.add(SECOND, M_BASE, &buf, 180, FILLED), Ok(5));
    assert_eq!(table.add(SECOND, L_BASE, &L, 0, 40), Ok(9));
}

/// The names and numbers in one of the header's lists, whose names begin so: behind that of 0, up to its end.
fn header_list(prefix: &str) -> Vec<(String, u64)> {
    let (_, list) = HEADER
        .split_once(&format!("    {prefix}NONE = 0,"))
        .unwrap();
    let entries = list.split("};").next().unwrap().split(prefix).skip(1);
    let named = entries.map(|entry| {
        let (name, rest) = entry.split_once(" = ").unwrap();
        let digits = rest.split(|c: char| !c.is_ascii_digit()).next().unwrap();
        (name.replace('_', ""), digits.parse().unwrap())
    });
    named.collect()
}

#[test]
fn numbers_and_words() {
    // The header's lists: `CH11_DATA_SUM = 13` there is `DataSum` here.
    let numbers = header_list("CH11_");
    assert_eq!(numbers.len(), 20);
    for (name, value) in numbers {
        let number = Number::from_value(value);
        assert_eq!(number.value(), value);
        assert_eq!(format!("{number:?}").to_uppercase(), name);
    }
    let reasons = header_list("CH11_REASON_");
    assert_eq!(reasons.len(), 7);
    for (name, value) in reasons {
        let reason = Reason::from_value(value);
        assert_eq!(reason.value(), value);
        assert_eq!(format!("{reason:?}").to_uppercase(), name);
    }
    assert_eq!((Number::State.value(), Number::DataSum.value()), (1, 13));
    assert_eq!((Number::Room.value(), Number::Range.value()), (16, 17));
    assert_eq!((Number::Full.value(), Number::Long.value()), (19, 21));
    assert_eq!((Reason::Time.value(), Reason::Missing.value()), (3, 7));
    assert_eq!(Number::from_value(99), Number::Other(99));
    assert_eq!(Reason::from_value(99), Reason::Other(99));

    let denied = Draft::new().close(&mut []).unwrap_err();
    assert_eq!(denied.to_string(), denied.refusal.to_string());
    let boxed: Box<dyn std::error::Error> = Box::new(denied);
    assert!(boxed.to_string().starts_with("1 at 0: "));
}

/// What a refusal shows of itself: the place in the recording where it is another number than the
/// place in the buffer.
#[test]
fn words_of_a_refusal() {
    for (refusal, words) in [
        (refusal(Number::DataSum, 40, 40), "13 at 40: wrong data sum"),
        (
            refusal(Number::DataSum, 40, 0),
            "13 at 40 (0 in the recording): wrong data sum",
        ),
        (
            no_room(0, 0, 80),
            "16 at 0: no room in a list, output or store (80 needed)",
        ),
        (
            no_room(100, M_BASE, 2),
            "16 at 100 (700000000000 in the recording): no room in a list, output or store (2 needed)",
        ),
        (
            fault(68, 68, Reason::Missing),
            "15 at 68: body breaks its layout: body ends where a block must begin",
        ),
        (
            fault(68, 5068, Reason::Pad),
            "15 at 68 (5068 in the recording): body breaks its layout: pad not zero",
        ),
        (
            refusal(Number::Short, 0, u64::MAX),
            "2 at 0 (18446744073709551615 in the recording): fewer than 24 bytes in the window",
        ),
    ] {
        assert_eq!(refusal.to_string(), words);
    }
}

#[test]
fn words_of_the_tables_refusals() {
    for (refusal, words) in [
        (
            refusal(Number::Full, 180, 180),
            "19 at 180: 64 other entries live",
        ),
        (
            refusal(Number::NoEntry, 0, 5000),
            "20 at 0 (5000 in the recording): no such entry",
        ),
        (
            refusal(Number::Long, 7, 7),
            "21 at 7: packet over 1,024 bytes",
        ),
    ] {
        assert_eq!(refusal.to_string(), words);
    }
}

/// More bytes behind a window can change 2, 10 and the exact end, and nothing else.
#[test]
fn what_waits() {
    let buf = recording();
    for end in M_AT..=buf.len() {
        let read = ch11::read_recording(&buf, M_AT, end, M_BASE);
        let waits = match read.refusal.map(|refusal| refusal.number) {
            None => [100, 180, 220, FILLED].contains(&end),
            Some(Number::Short) => end - read.reached < 24,
            Some(Number::Cut) => end - read.reached >= 24,
            Some(number) => {
                assert_eq!((end, number), (buf.len(), Number::DataSum));
                false
            }
        };
        assert_eq!(read.waits(), waits, "{end}");
        let refused = ch11::read_packet(&buf, read.reached, end, read.recording_reached).err();
        assert_eq!(
            refused.map(|refusal| refusal.waits()),
            Some(end < buf.len()),
            "{end}"
        );
    }
    for number in (1..=21).map(Number::from_value) {
        let waits = matches!(number.value(), 2 | 10);
        assert_eq!(refusal(number, 0, 0).waits(), waits, "{number}");
    }
}
