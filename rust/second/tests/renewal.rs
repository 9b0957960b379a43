//! The renewal table. Request 13: "holds up to 64 entries: recording number,
//! place, P, channel, sequence, RTC and the packet's bytes in a lent store of
//! fixed slots of 1,024 bytes". Both sides of each line. Windows start 7 bytes
//! into their buffers, so that no place in the recording is by chance a place in
//! the buffer.

mod common;

use common::{by_hand, mend_header, CASE_L};
use second::*;

type Table = [Entry; 64];

/// The bytes ahead of the packet, and behind the window.
const AHEAD: usize = 7;
const BEHIND: usize = 5;

/// "Recordings run to hundreds of gigabytes".
const FAR: u64 = 700_000_000_000;

/// 2^64 - 1, the last place that there is.
const LAST: u64 = 18_446_744_073_709_551_615;

/// Any number but 0 in `live` is an entry that lives.
const LIVING: [u64; 5] = [1, 2, 256, 1 << 32, LAST];

/// A refusal other than 15 and 16, or none, with its place in the buffer and its
/// place in the recording.
fn refusal(number: u64, place: u64, recording_place: u64) -> Refusal {
    Refusal {
        number,
        place,
        recording_place,
        room: 0,
        reason: 0,
    }
}

/// Nothing refused.
fn none() -> Refusal {
    refusal(0, 0, 0)
}

/// 16, which "also gives the room needed".
fn no_store(place: u64, recording_place: u64) -> Refusal {
    Refusal {
        room: 65_536,
        ..refusal(16, place, recording_place)
    }
}

fn added(slot: u64) -> Added {
    Added {
        refusal: none(),
        slot,
    }
}

fn lives_on() -> Renewed {
    Renewed {
        refusal: none(),
        lives: true,
        cause: none(),
    }
}

fn dropped(cause: Refusal) -> Renewed {
    Renewed {
        refusal: none(),
        lives: false,
        cause,
    }
}

fn fresh() -> Table {
    [Entry::default(); 64]
}

/// A store of this length in which neighbouring bytes and slots differ.
fn store_of(length: usize) -> Vec<u8> {
    (0..length).map(|i| (i % 251) as u8 | 0x80).collect()
}

fn store() -> Vec<u8> {
    store_of(65_536)
}

/// A packet of a carried type with no sum: any body makes a packet that is
/// accepted. P is 24 and the body's length, to a multiple of 4.
fn carried(body: &[u8]) -> Vec<u8> {
    by_hand(0x38, 0, body)
}

/// A carried packet with this P, each body byte `fill`.
fn packet_of(length: usize, fill: u8) -> Vec<u8> {
    let packet = carried(&vec![fill; length - 24]);
    assert_eq!(packet.len(), length);
    packet
}

/// The same packet with other fields of the entry.
fn with_fields(packet: &[u8], channel: u16, sequence: u8, rtc: u64) -> Vec<u8> {
    let mut packet = packet.to_vec();
    packet[2..4].copy_from_slice(&channel.to_le_bytes());
    packet[13] = sequence;
    packet[16..22].copy_from_slice(&rtc.to_le_bytes()[..6]);
    mend_header(&mut packet);
    packet
}

/// A buffer with these bytes, others ahead of them and behind them; the
/// window's end, which is theirs.
fn buffer_of(bytes: &[u8]) -> (Vec<u8>, usize) {
    let mut buffer = vec![0x25; AHEAD];
    buffer.extend_from_slice(bytes);
    let end = buffer.len();
    buffer.extend_from_slice(&[0xEB; BEHIND]);
    (buffer, end)
}

/// Adds the packet, in a window that ends where it does.
fn add_it(table: &mut Table, store: &mut [u8], recording: u64, place: u64, packet: &[u8]) -> Added {
    let (buf, end) = buffer_of(packet);
    renewal_add(table, store, recording, place, &buf, AHEAD, end)
}

/// Renews with a window of just these bytes.
fn renew_it(table: &mut Table, store: &[u8], recording: u64, place: u64, bytes: &[u8]) -> Renewed {
    let (buf, end) = buffer_of(bytes);
    renewal_renew(table, store, recording, place, &buf, AHEAD, end)
}

/// Adding is refused. Request 13: "all leaving table and store as they were".
fn add_refused(table: &Table, store: &[u8], name: (u64, u64), bytes: &[u8], wanted: Refusal) {
    let (buf, end) = buffer_of(bytes);
    add_refused_in(table, store, name, (&buf, AHEAD, end), wanted);
}

fn add_refused_in(
    table: &Table,
    store: &[u8],
    name: (u64, u64),
    window: (&[u8], usize, usize),
    wanted: Refusal,
) {
    let mut table_after = *table;
    let mut store_after = store.to_vec();
    let (buf, start, end) = window;
    let answer = renewal_add(
        &mut table_after,
        &mut store_after,
        name.0,
        name.1,
        buf,
        start,
        end,
    );
    let refused = Added {
        refusal: wanted,
        slot: 0,
    };
    assert_eq!(answer, refused);
    assert_eq!(table_after, *table);
    assert_eq!(store_after, store);
}

/// Renewing is refused, and leaves the table as it was.
fn renew_refused(table: &Table, store: &[u8], name: (u64, u64), bytes: &[u8], wanted: Refusal) {
    let (buf, end) = buffer_of(bytes);
    renew_refused_in(table, store, name, (&buf, AHEAD, end), wanted);
}

fn renew_refused_in(
    table: &Table,
    store: &[u8],
    name: (u64, u64),
    window: (&[u8], usize, usize),
    wanted: Refusal,
) {
    let mut table_after = *table;
    let (buf, start, end) = window;
    let answer = renewal_renew(&mut table_after, store, name.0, name.1, buf, start, end);
    let refused = Renewed {
        refusal: wanted,
        lives: false,
        cause: none(),
    };
    assert_eq!(answer, refused);
    assert_eq!(table_after, *table);
}

/// The entry lives on, and nothing in the table changes.
fn renew_lives(table: &Table, store: &[u8], name: (u64, u64), bytes: &[u8]) {
    let mut table_after = *table;
    let answer = renew_it(&mut table_after, store, name.0, name.1, bytes);
    assert_eq!(answer, lives_on());
    assert_eq!(table_after, *table);
}

/// The entry in this slot is dropped: its row is all zero, all others stay.
fn renew_drops(
    table: &Table,
    store: &[u8],
    slot: usize,
    name: (u64, u64),
    bytes: &[u8],
    cause: Refusal,
) {
    let mut table_after = *table;
    let answer = renew_it(&mut table_after, store, name.0, name.1, bytes);
    assert_eq!(answer, dropped(cause));
    let mut wanted = *table;
    wanted[slot] = Entry::default();
    assert_eq!(table_after, wanted);
    assert_ne!(table_after, *table);
}

/// A full table: the entry in slot k has the name (k, 1,000 k) and a packet of
/// 28 + 4 (k modulo 4) bytes.
fn full() -> (Table, Vec<u8>) {
    let mut table = fresh();
    let mut store = store();
    for k in 0..64 {
        let answer = add_it(&mut table, &mut store, k, 1_000 * k, &filling(k));
        assert_eq!(answer, added(k));
    }
    (table, store)
}

/// The packet that `full` has in slot k.
fn filling(k: u64) -> Vec<u8> {
    let packet = packet_of(28 + 4 * (k as usize % 4), k as u8);
    with_fields(&packet, k as u16 + 1, k as u8, 7 * k)
}

/// A table with one entry in slot 0: L, under the name (5, FAR).
fn with_l() -> (Table, Vec<u8>) {
    let mut table = fresh();
    let mut store = store();
    let answer = add_it(&mut table, &mut store, 5, FAR, &CASE_L);
    assert_eq!(answer, added(0));
    (table, store)
}

const NAME_L: (u64, u64) = (5, FAR);

#[test]
fn entry_holds_what_the_packet_says() {
    let (table, after) = with_l();
    let mut wanted = fresh();
    wanted[0] = Entry {
        live: 1,
        recording: 5,
        place: FAR,
        length: 40,
        channel: 1,
        sequence: 0,
        rtc: 1,
    };
    assert_eq!(table, wanted);
    // Request 13: "Adding writes the packet's own bytes only".
    assert_eq!(after[..40], CASE_L);
    assert_eq!(after[40..], store()[40..]);
}

#[test]
fn entry_holds_the_largest_numbers() {
    let packet = with_fields(&packet_of(32, 9), 0xFFFF, 255, (1 << 48) - 1);
    let mut table = fresh();
    let mut store = store();
    // Base plus window length is exactly 2^64 - 1.
    let answer = add_it(&mut table, &mut store, LAST, LAST - 32, &packet);
    assert_eq!(answer, added(0));
    let wanted = Entry {
        live: 1,
        recording: LAST,
        place: LAST - 32,
        length: 32,
        channel: 65_535,
        sequence: 255,
        rtc: 281_474_976_710_655,
    };
    assert_eq!(table[0], wanted);
    renew_lives(&table, &store, (LAST, LAST - 32), &packet);
    // One more is refused as by the reader.
    let name = (LAST, LAST - 31);
    add_refused(&table, &store, name, &packet, refusal(1, 7, LAST - 31));
}

#[test]
fn fresh_table_is_filled_from_the_front() {
    let (table, after) = full();
    let mut wanted = store();
    for k in 0..64 {
        let packet = filling(k);
        let entry = Entry {
            live: 1,
            recording: k,
            place: 1_000 * k,
            length: packet.len() as u64,
            channel: k + 1,
            sequence: k,
            rtc: 7 * k,
        };
        assert_eq!(table[k as usize], entry);
        let at = 1_024 * k as usize;
        wanted[at..at + packet.len()].copy_from_slice(&packet);
    }
    // All bytes behind each packet stay as they were.
    assert_eq!(after, wanted);
    for k in 0..64 {
        renew_lives(&table, &after, (k, 1_000 * k), &filling(k));
    }
}

#[test]
fn sixty_three_and_sixty_four_other_entries() {
    let (table, store) = full();
    // 64 live: any other name is refused.
    for name in [(0, 1), (64, 64_000), (1, 0), (LAST, 0), (0, FAR)] {
        add_refused(&table, &store, name, &CASE_L, refusal(19, 7, name.1));
    }
    // 63 live: the free slot is taken, wherever it is, whatever else its row
    // says.
    for slot in [0, 1, 31, 62, 63] {
        for row in [Entry::default(), free_row(0, 0), free_row(LAST, LAST)] {
            let mut table = table;
            let mut after = store.clone();
            table[slot] = row;
            let mut wanted = table;
            let answer = add_it(&mut table, &mut after, 5, FAR, &CASE_L);
            assert_eq!(answer, added(slot as u64));
            wanted[slot] = with_l().0[0];
            assert_eq!(table, wanted);
            let at = slot * 1_024;
            assert_eq!(after[..at], store[..at]);
            assert_eq!(after[at..at + 40], CASE_L);
            assert_eq!(after[at + 40..], store[at + 40..]);
            // Now 64 live.
            add_refused(&table, &after, (5, 0), &CASE_L, refusal(19, 7, 0));
        }
    }
}

/// A free slot whose other words are forged.
fn free_row(recording: u64, place: u64) -> Entry {
    Entry {
        live: 0,
        recording,
        place,
        length: LAST,
        channel: 3,
        sequence: 4,
        rtc: 5,
    }
}

#[test]
fn every_number_but_0_lives() {
    let (table, store) = full();
    for live in LIVING {
        // 64 live, each with this number.
        let mut forged = table;
        for row in &mut forged {
            row.live = live;
        }
        add_refused(&forged, &store, NAME_L, &CASE_L, refusal(19, 7, FAR));
        assert_eq!(renewal_next(&forged, 0), 0);
        assert_eq!(renewal_next(&forged, 63), 63);
        renew_lives(&forged, &store, (9, 9_000), &filling(9));
        renew_drops(&forged, &store, 9, (9, 9_000), &CASE_L, none());
        // Replacing puts down 1.
        let mut after = store.clone();
        let mut wanted = forged;
        wanted[9] = table[9];
        let answer = add_it(&mut forged, &mut after, 9, 9_000, &filling(9));
        assert_eq!(answer, added(9));
        assert_eq!(forged, wanted);
        assert_eq!(after, store);
    }
}

#[test]
fn a_name_held_is_replaced_in_a_full_table() {
    let (table, store) = full();
    for k in [0, 1, 40, 63] {
        let mut table_after = table;
        let mut store_after = store.clone();
        let name = 1_000 * k as u64;
        let answer = add_it(&mut table_after, &mut store_after, k as u64, name, &CASE_L);
        assert_eq!(answer, added(k as u64));
        let mut wanted = table;
        wanted[k] = Entry {
            live: 1,
            recording: k as u64,
            place: name,
            length: 40,
            channel: 1,
            sequence: 0,
            rtc: 1,
        };
        assert_eq!(table_after, wanted);
        let at = 1_024 * k;
        assert_eq!(store_after[..at], store[..at]);
        assert_eq!(store_after[at..at + 40], CASE_L);
        assert_eq!(store_after[at + 40..], store[at + 40..]);
    }
}

#[test]
fn a_name_is_both_numbers() {
    let mut table = fresh();
    let mut store = store();
    // Each differs from the others in one half, or has them exchanged.
    let names = [
        (1, 2),
        (1, 3),
        (2, 2),
        (2, 1),
        (1, 2 + (1 << 32)),
        (1 + (1 << 32), 2),
        (0, 0),
        (0, 3),
        (3, 0),
    ];
    for (slot, name) in names.iter().enumerate() {
        renew_refused(&table, &store, *name, &CASE_L, refusal(20, 7, name.1));
        let packet = packet_of(28, slot as u8);
        let answer = add_it(&mut table, &mut store, name.0, name.1, &packet);
        assert_eq!(answer, added(slot as u64));
    }
    for (slot, name) in names.iter().enumerate() {
        let packet = packet_of(28, slot as u8);
        renew_lives(&table, &store, *name, &packet);
        renew_drops(&table, &store, slot, *name, &CASE_L, none());
        let mut table = table;
        let mut store = store.clone();
        let answer = add_it(&mut table, &mut store, name.0, name.1, &CASE_L);
        assert_eq!(answer, added(slot as u64));
    }
}

#[test]
fn replaced_in_its_own_slot_while_a_lower_one_is_free() {
    let (mut table, mut store) = full();
    for slot in [0, 3, 9] {
        table[slot] = Entry::default();
    }
    let mut wanted = table;
    let kept = store.clone();
    let answer = add_it(&mut table, &mut store, 10, 10_000, &CASE_L);
    assert_eq!(answer, added(10));
    wanted[10] = Entry {
        live: 1,
        recording: 10,
        place: 10_000,
        length: 40,
        channel: 1,
        sequence: 0,
        rtc: 1,
    };
    assert_eq!(table, wanted);
    assert_eq!(store[..10_240], kept[..10_240]);
    assert_eq!(store[10_240..10_280], CASE_L);
    assert_eq!(store[10_280..], kept[10_280..]);
}

#[test]
fn a_shorter_packet_leaves_the_bytes_behind_it() {
    let mut table = fresh();
    let mut store = store();
    let long = packet_of(1_024, 0x11);
    let short = packet_of(28, 0x22);
    assert_eq!(add_it(&mut table, &mut store, 1, 2, &long), added(0));
    assert_eq!(add_it(&mut table, &mut store, 1, 2, &short), added(0));
    assert_eq!(table[0].length, 28);
    assert_eq!(store[..28], short);
    assert_eq!(store[28..1_024], long[28..]);
    assert_eq!(store[1_024..], store_of(65_536)[1_024..]);
    renew_lives(&table, &store, (1, 2), &short);
    renew_drops(&table, &store, 0, (1, 2), &long, none());
}

#[test]
fn freed_slots_are_taken_again_lowest_first() {
    let (mut table, mut store) = full();
    for k in [50, 7, 63, 0, 20] {
        let answer = renew_it(&mut table, &store, k, 1_000 * k, &CASE_L);
        assert_eq!(answer, dropped(none()));
    }
    for (number, slot) in [0, 7, 20, 50, 63].into_iter().enumerate() {
        let place = FAR + number as u64;
        let answer = add_it(&mut table, &mut store, 99, place, &CASE_L);
        assert_eq!(answer, added(slot));
    }
    add_refused(&table, &store, (99, 0), &CASE_L, refusal(19, 7, 0));
    // One freed and taken, then another: not the next behind it.
    for slot in [33, 12, 33] {
        let row = table[slot];
        let answer = renew_it(&mut table, &store, row.recording, row.place, &[]);
        assert_eq!(answer, dropped(refusal(2, 7, row.place)));
        let answer = add_it(&mut table, &mut store, row.recording, row.place, &CASE_L);
        assert_eq!(answer, added(slot as u64));
    }
}

#[test]
fn a_free_slot_has_no_name() {
    let (_, store) = with_l();
    // The name stands in a row that is free: no such entry, and not its slot.
    let mut table = fresh();
    table[3] = free_row(5, FAR);
    renew_refused(&table, &store, NAME_L, &CASE_L, refusal(20, 7, FAR));
    let mut after = store.clone();
    let answer = add_it(&mut table, &mut after, 5, FAR, &CASE_L);
    assert_eq!(answer, added(0));
    assert_eq!(table[3], free_row(5, FAR));
    // Behind it in a row that lives: that one counts.
    let (mut table, store) = full();
    table[3] = free_row(20, 20_000);
    renew_lives(&table, &store, (20, 20_000), &filling(20));
    renew_drops(&table, &store, 20, (20, 20_000), &CASE_L, none());
    let mut after = store.clone();
    let answer = add_it(&mut table, &mut after, 20, 20_000, &CASE_L);
    assert_eq!(answer, added(20));
    // A fresh table holds no name, not (0, 0) either.
    renew_refused(&fresh(), &store, (0, 0), &CASE_L, refusal(20, 7, 0));
}

#[test]
fn of_a_name_held_twice_the_lowest_slot_counts() {
    let (table, store) = full();
    let mut twice = table;
    for slot in [30, 12, 63] {
        twice[slot].recording = 12;
        twice[slot].place = 12_000;
    }
    // The bytes of slot 12 keep it alive, those of slot 30 do not.
    renew_lives(&twice, &store, (12, 12_000), &filling(12));
    renew_drops(&twice, &store, 12, (12, 12_000), &filling(30), none());
    let mut table = twice;
    for slot in [12, 30, 63] {
        let answer = renew_it(&mut table, &store, 12, 12_000, &CASE_L);
        assert_eq!(answer, dropped(none()));
        twice[slot] = Entry::default();
        assert_eq!(table, twice);
    }
    renew_refused(
        &table,
        &store,
        (12, 12_000),
        &CASE_L,
        refusal(20, 7, 12_000),
    );
}

#[test]
fn adding_a_name_held_twice() {
    // 64 rows live and two have the name: 63 others, of which one has it too.
    let (table, store) = full();
    let mut twice = table;
    twice[30].recording = 12;
    twice[30].place = 12_000;
    let mut table_after = twice;
    let mut store_after = store.clone();
    let answer = add_it(&mut table_after, &mut store_after, 12, 12_000, &filling(5));
    assert_eq!(answer, added(12));
    let mut wanted = twice;
    wanted[12] = Entry {
        recording: 12,
        place: 12_000,
        ..table[5]
    };
    assert_eq!(table_after, wanted);
    assert_eq!(store_after[..12_288], store[..12_288]);
    assert_eq!(store_after[13_312..], store[13_312..]);
    // A table that holds one name in all its slots.
    let mut same = [table[7]; 64];
    let answer = add_it(&mut same, &mut store_after, 7, 7_000, &filling(5));
    assert_eq!(answer, added(0));
    assert_eq!(same[0].length, 32);
    assert_eq!(same[1..], [table[7]; 63]);
    add_refused(&same, &store, (7, 7_001), &CASE_L, refusal(19, 7, 7_001));
}

#[test]
fn packets_of_1_024_and_1_028_bytes() {
    let (table, store) = full();
    let longest = packet_of(1_024, 0x77);
    for slot in [0, 33, 63] {
        let mut table = table;
        let mut after = store.clone();
        table[slot] = Entry::default();
        let answer = add_it(&mut table, &mut after, 5, FAR, &longest);
        assert_eq!(answer, added(slot as u64));
        assert_eq!(table[slot].length, 1_024);
        let at = slot * 1_024;
        assert_eq!(after[..at], store[..at]);
        assert_eq!(after[at..at + 1_024], longest);
        assert_eq!(after[at + 1_024..], store[at + 1_024..]);
        renew_lives(&table, &after, NAME_L, &longest);
    }
    // One byte of body more: P is 1,028, for each of the next four bodies.
    let (table, store) = with_l();
    for body in 1_001..=1_004 {
        let over = carried(&vec![0x77; body]);
        assert_eq!(over.len(), 1_028);
        add_refused(&table, &store, (1, 2), &over, refusal(21, 7, 2));
        // A name already held: its entry stays.
        add_refused(&table, &store, NAME_L, &over, refusal(21, 7, FAR));
    }
    for length in [1_028, 2_048, 65_536, 65_564, 524_288] {
        let over = packet_of(length, 0x77);
        add_refused(&table, &store, (1, 2), &over, refusal(21, 7, 2));
    }
}

#[test]
fn the_packet_counts_and_not_the_window() {
    // 1,024 bytes, and a second packet behind them in the window.
    let longest = packet_of(1_024, 0x77);
    let mut both = longest.clone();
    both.extend_from_slice(&packet_of(1_028, 0x66));
    let mut table = fresh();
    let mut after = store();
    assert_eq!(add_it(&mut table, &mut after, 5, FAR, &both), added(0));
    assert_eq!(after[..1_024], longest);
    assert_eq!(after[1_024..], store()[1_024..]);
    renew_lives(&table, &after, NAME_L, &both);
    renew_lives(&table, &after, NAME_L, &longest);
}

#[test]
fn stores_of_65_535_and_65_536_bytes() {
    let (table, whole) = with_l();
    for length in [0, 1, 40, 1_024, 65_535] {
        let short = &whole[..length];
        add_refused(&table, short, (1, 2), &CASE_L, no_store(7, 2));
        add_refused(&table, short, NAME_L, &CASE_L, no_store(7, FAR));
        renew_refused(&table, short, NAME_L, &CASE_L, no_store(7, FAR));
        renew_refused(&table, short, NAME_L, &[0; 40], no_store(7, FAR));
    }
    for length in [65_536, 65_537, 66_560, 100_000] {
        let (table, _) = with_l();
        let mut long = store_of(length);
        long[..40].copy_from_slice(&CASE_L);
        renew_lives(&table, &long, NAME_L, &CASE_L);
        renew_drops(&table, &long, 0, NAME_L, &[0; 40], refusal(3, 7, FAR));
        // The last slot is the store's bytes from 63 x 1,024 on, in each.
        let mut table = full().0;
        let packet = packet_of(1_024, 0x77);
        let mut after = long.clone();
        let answer = add_it(&mut table, &mut after, 63, 63_000, &packet);
        assert_eq!(answer, added(63));
        assert_eq!(after[..64_512], long[..64_512]);
        assert_eq!(after[64_512..65_536], packet);
        assert_eq!(after[65_536..], long[65_536..]);
        // A longer store has no slot 64.
        add_refused(&table, &after, (1, 2), &CASE_L, refusal(19, 7, 2));
    }
}

#[test]
fn refusals_16_come_first() {
    let (table, store) = full();
    let short = &store[..65_535];
    let far = usize::MAX;
    // Ahead of 1, 2, 3, 21, 19 and 20. The place is the window's start, even
    // where there is no byte.
    let over = packet_of(1_028, 1);
    let windows: [(&[u8], usize, usize); 6] = [
        (&CASE_L, 41, 41),
        (&CASE_L, 2, 1),
        (&CASE_L, far, far),
        (&[], 0, 0),
        (&[0; 40], 0, 40),
        (&over, 0, 1_028),
    ];
    for window in windows {
        for name in [(0, 0), (1, 2), (LAST, LAST)] {
            let wanted = no_store(window.1 as u64, name.1);
            add_refused_in(&table, short, name, window, wanted);
            renew_refused_in(&table, short, name, window, wanted);
            add_refused_in(&fresh(), &[], name, window, wanted);
            renew_refused_in(&fresh(), &[], name, window, wanted);
        }
    }
}

/// A UART packet with a secondary header (36 + 5 bytes and 3 of filler) whose
/// body is at fault, under each test that comes ahead of 15.
fn spoilt_packet() -> Vec<u8> {
    by_hand(0x50, 0xC4, &[0, 0, 0, 0, 0])
}

/// Packets that the reader refuses, each with its refusal by a window that
/// starts 7 bytes into its buffer: the numbers from 2 to 15, all reasons.
fn refused_packets(place: u64) -> Vec<(Vec<u8>, Refusal)> {
    let mut packets = Vec::new();
    // At, value, and whether the header sum is then put right; the number.
    let spoils = [
        (0, 0x24, false, 3),
        (13, 1, false, 4),
        (12, 10, true, 5),
        (15, 0x05, true, 6),
        (14, 0xCC, true, 7),
        (2, 0, true, 8),
        (4, 40, true, 9),
        (34, 1, false, 11),
        (41, 1, false, 14),
    ];
    for (at, value, mend, number) in spoils {
        let mut packet = spoilt_packet();
        packet[at] = value;
        if mend {
            mend_header(&mut packet);
        }
        packets.push((packet, refusal(number, 7, place)));
    }
    packets.push((Vec::new(), refusal(2, 7, place)));
    packets.push((CASE_L[..23].to_vec(), refusal(2, 7, place)));
    packets.push((CASE_L[..24].to_vec(), refusal(10, 7, place)));
    packets.push((CASE_L[..39].to_vec(), refusal(10, 7, place)));
    // 12: reserved bytes and sum both 1.
    let mut packet = spoilt_packet();
    packet[32] = 1;
    packet[34] = 1;
    packets.push((packet, refusal(12, 7, place)));
    // 13: one byte of L's text.
    let mut packet = CASE_L.to_vec();
    packet[32] = 0x40;
    packets.push((packet, refusal(13, 7, place)));
    packets.extend(wrong_bodies(place));
    packets
}

/// The same for 15, with its own place and reason.
fn wrong_bodies(place: u64) -> Vec<(Vec<u8>, Refusal)> {
    // Type, body, distance from the packet's start, reason.
    let bodies: [(u8, &[u8], u64, u64); 7] = [
        (0x50, &[1, 0, 0, 0], 24, 1),
        (0x50, &[0, 0, 0, 0, 1], 28, 2),
        (
            0x30,
            &[1, 0, 0, 0, 0, 0, 0, 0, 0, 0, 1, 0, 2, 0, 0, 0, 7, 7],
            28,
            3,
        ),
        (0x50, &[0, 0, 0, 0, 0, 0, 0, 0], 28, 4),
        (
            0x50,
            &[0, 0, 0, 0, 1, 0, 0, 0, 7, 0, 1, 0, 0, 0, 7, 1],
            34,
            5,
        ),
        (
            0x30,
            &[1, 0, 0, 0, 0, 0, 0, 0, 0, 0, 0, 0, 2, 0, 0, 0, 7, 7, 0],
            42,
            6,
        ),
        (0x50, &[0, 0, 0, 0], 28, 7),
    ];
    let mut packets = Vec::new();
    for (kind, body, distance, reason) in bodies {
        let wanted = Refusal {
            reason,
            ..refusal(15, 7 + distance, place + distance)
        };
        packets.push((by_hand(kind, 0, body), wanted));
    }
    packets
}

#[test]
fn adding_gives_the_readers_refusals() {
    let (with_l, store) = with_l();
    let full = full().0;
    for place in [0, 7, FAR, LAST - 100] {
        for (packet, wanted) in refused_packets(place) {
            // Ahead of 19, and for a name already held.
            add_refused(&fresh(), &store, (5, place), &packet, wanted);
            add_refused(&with_l, &store, (5, place), &packet, wanted);
            add_refused(&full, &store, (99, place), &packet, wanted);
        }
    }
}

#[test]
fn adding_in_the_order_of_its_refusals() {
    let (table, store) = full();
    // 21 ahead of 19.
    let over = packet_of(1_028, 1);
    add_refused(&table, &store, (99, 2), &over, refusal(21, 7, 2));
    // The reader's ahead of 21: P is 1,028, and one of the 3 bytes of filler is
    // not zero; then P past the window; then a window outside its buffer.
    let mut spoilt = carried(&[1; 1_001]);
    assert_eq!(spoilt.len(), 1_028);
    spoilt[1_026] = 1;
    add_refused(&table, &store, (99, 2), &spoilt, refusal(14, 7, 2));
    add_refused(&table, &store, (99, 2), &over[..1_027], refusal(10, 7, 2));
    let outside = (&over[..], 0, 1_029);
    add_refused_in(&table, &store, (99, 2), outside, refusal(1, 0, 2));
    // 19 last.
    add_refused(&table, &store, (99, 2), &CASE_L, refusal(19, 7, 2));
}

/// Windows of L's 40 bytes that are refused with 1, with any place; and places
/// that a good window of all 40 bytes is refused with.
fn outside() -> Vec<(usize, usize, u64)> {
    let far = usize::MAX;
    let windows = [
        (8, 7),
        (40, 0),
        (far, 0),
        (far, far - 1),
        (0, 41),
        (0, far),
        (41, 41),
        (far, far),
    ];
    let mut cases = Vec::new();
    for (start, end) in windows {
        for place in [0, 7, FAR, LAST - 40, LAST] {
            cases.push((start, end, place));
        }
    }
    for place in [LAST - 39, LAST - 1, LAST] {
        cases.push((0, 40, place));
    }
    cases
}

#[test]
fn refusal_1_leaves_the_entry() {
    for (start, end, place) in outside() {
        let store = with_l().1;
        let wanted = refusal(1, start as u64, place);
        let window = (&CASE_L[..], start, end);
        add_refused_in(&fresh(), &store, (5, place), window, wanted);
        add_refused_in(&full().0, &store, (99, place), window, wanted);
        // The entry's name has this place; the bytes would keep it alive.
        let mut table = fresh();
        table[0] = Entry {
            place,
            ..with_l().0[0]
        };
        add_refused_in(&table, &store, (5, place), window, wanted);
        renew_refused_in(&table, &store, (5, place), window, wanted);
        // A forged P doesn't change that: the refusal leaves the table.
        for length in [0, 1_025, LAST] {
            table[0].length = length;
            renew_refused_in(&table, &store, (5, place), window, wanted);
        }
        // "20 no such entry, then 1".
        let wanted = refusal(20, start as u64, place);
        renew_refused_in(&table, &store, (6, place), window, wanted);
        renew_refused_in(&fresh(), &store, (5, place), window, wanted);
    }
}

#[test]
fn renewal_at_the_last_places_there_are() {
    // Base plus window length is 2^64 - 1: accepted, or dropped.
    let (mut table, store) = with_l();
    table[0].place = LAST - 40;
    renew_lives(&table, &store, (5, LAST - 40), &CASE_L);
    let cause = refusal(3, 7, LAST - 40);
    renew_drops(&table, &store, 0, (5, LAST - 40), &[0; 40], cause);
    // An empty window takes any base, and has no packet.
    table[0].place = LAST;
    renew_drops(&table, &store, 0, (5, LAST), &[], refusal(2, 7, LAST));
    renew_refused(&table, &store, (5, LAST), &[0], refusal(1, 7, LAST));
}

#[test]
fn no_such_entry() {
    let (table, store) = with_l();
    let names = [
        (5, FAR + 1),
        (5, FAR - 1),
        (5, 0),
        (4, FAR),
        (6, FAR),
        (0, 0),
        (FAR, 5),
        (LAST, FAR),
    ];
    for name in names {
        // Ahead of all that the reader says, 2 and 3 too.
        for bytes in [&CASE_L[..], &[], &[0; 40]] {
            renew_refused(&table, &store, name, bytes, refusal(20, 7, name.1));
        }
    }
}

#[test]
fn bytes_outside_the_packet_have_no_say() {
    let (table, store) = with_l();
    renew_lives(&table, &store, NAME_L, &CASE_L);
    // Behind it in the window,
    for behind in 1..50 {
        let mut bytes = CASE_L.to_vec();
        bytes.extend(vec![behind; behind as usize]);
        renew_lives(&table, &store, NAME_L, &bytes);
    }
    // in the buffer, wherever the window starts,
    for start in [0, 1, 7, 40, 3_000] {
        let mut buf = vec![0x25; start];
        buf.extend_from_slice(&CASE_L);
        buf.extend_from_slice(&[0xEB; 9]);
        let mut table = table;
        let answer = renewal_renew(&mut table, &store, 5, FAR, &buf, start, start + 40);
        assert_eq!(answer, lives_on());
    }
    // and in the store.
    let mut other = vec![0; 70_000];
    other[..40].copy_from_slice(&CASE_L);
    renew_lives(&table, &other, NAME_L, &CASE_L);
}

#[test]
fn each_byte_of_the_packet_is_compared() {
    // All 1,024 bytes of it, in the first slot, in one within and in the last.
    let (filled, filled_store) = full();
    let packet = packet_of(1_024, 0x77);
    for slot in [0, 33, 63] {
        let mut table = filled;
        let mut store = filled_store.clone();
        table[slot] = Entry::default();
        let answer = add_it(&mut table, &mut store, 5, FAR, &packet);
        assert_eq!(answer, added(slot as u64));
        // In the header the reader refuses it; in the body it is accepted.
        for at in 0..1_024 {
            let mut changed = packet.clone();
            changed[at] ^= 1;
            let cause = match at {
                0..=1 => refusal(3, 7, FAR),
                2..=23 => refusal(4, 7, FAR),
                _ => none(),
            };
            renew_drops(&table, &store, slot, NAME_L, &changed, cause);
        }
        // And each byte held; the bytes of the slots beside it have no say.
        for at in 0..1_024 {
            let mut forged = store.clone();
            forged[slot * 1_024 + at] ^= 0x80;
            renew_drops(&table, &forged, slot, NAME_L, &packet, none());
        }
        let mut forged = vec![0; 65_536];
        forged[slot * 1_024..slot * 1_024 + 1_024].copy_from_slice(&packet);
        renew_lives(&table, &forged, NAME_L, &packet);
    }
}

#[test]
fn another_packet_that_is_accepted() {
    let (table, store) = with_l();
    // The sequence number, the channel and the RTC, header sum put right.
    let others = [
        with_fields(&CASE_L, 1, 1, 1),
        with_fields(&CASE_L, 2, 0, 1),
        with_fields(&CASE_L, 1, 0, 2),
        packet_of(28, 9),
        packet_of(40, 9),
        packet_of(1_024, 9),
        packet_of(1_028, 9),
        packet_of(524_288, 9),
    ];
    for other in &others {
        renew_drops(&table, &store, 0, NAME_L, other, none());
    }
}

#[test]
fn packet_withdrawn_at_the_store() {
    let (table, store) = with_l();
    // Zeros, other bytes and a packet moved by one byte in its place.
    let mut moved = vec![0x25];
    moved.extend_from_slice(&CASE_L);
    let number_3 = refusal(3, 7, FAR);
    for bytes in [&[0; 40][..], &[0xFF; 100], &moved, &CASE_L[1..]] {
        renew_drops(&table, &store, 0, NAME_L, bytes, number_3);
    }
    // "gone after one renewal of its entry": even if it stands there again.
    let mut table = table;
    let answer = renew_it(&mut table, &store, 5, FAR, &[0; 40]);
    assert_eq!(answer, dropped(number_3));
    assert_eq!(table, fresh());
    renew_refused(&table, &store, NAME_L, &CASE_L, refusal(20, 7, FAR));
    assert_eq!(renewal_next(&table, 0), 64);
}

#[test]
fn packet_that_still_stands_behind_the_filled_end() {
    let (table, store) = with_l();
    let (buf, end) = buffer_of(&CASE_L);
    // Every end up to the packet's own: the bytes are there, the window not.
    for filled in AHEAD..=end {
        let mut after = table;
        let answer = renewal_renew(&mut after, &store, 5, FAR, &buf, AHEAD, filled);
        let number = match filled - AHEAD {
            0..=23 => 2,
            24..=39 => 10,
            _ => 0,
        };
        if number == 0 {
            assert_eq!(answer, lives_on());
            assert_eq!(after, table);
        } else {
            assert_eq!(answer, dropped(refusal(number, 7, FAR)));
            assert_eq!(after, fresh());
        }
        // Nor is it added.
        if number != 0 {
            let window = (&buf[..], AHEAD, filled);
            let wanted = refusal(number, 7, FAR);
            add_refused_in(&table, &store, NAME_L, window, wanted);
        }
    }
}

#[test]
fn the_readers_refusals_are_named_beside() {
    let (table, store) = full();
    for place in [0, 7, FAR, LAST - 100] {
        for slot in [0, 17, 63] {
            let mut table = table;
            table[slot].recording = 99;
            table[slot].place = place;
            for (packet, cause) in refused_packets(place) {
                renew_drops(&table, &store, slot, (99, place), &packet, cause);
            }
        }
    }
}

#[test]
fn held_bytes_that_the_reader_refuses() {
    // Request 13: "accepted and equals the held bytes". Equal is not enough.
    let (mut table, mut store) = full();
    for (packet, cause) in refused_packets(FAR) {
        let length = packet.len();
        store[17 * 1_024..17 * 1_024 + length].copy_from_slice(&packet);
        table[17] = Entry {
            live: 1,
            recording: 5,
            place: FAR,
            length: length as u64,
            ..Entry::default()
        };
        renew_drops(&table, &store, 17, NAME_L, &packet, cause);
    }
}

/// Every P but the packet's own: below it, above it, and the same in its low 16
/// or 32 bits.
const FORGED_LENGTHS: [u64; 17] = [
    0,
    1,
    4,
    24,
    28,
    1_020,
    1_023,
    1_025,
    1_028,
    2_048,
    65_536,
    65_537,
    1_024 + (1 << 16),
    1_024 + (1 << 32),
    1 << 63,
    LAST - 1_023,
    LAST,
];

#[test]
fn forged_lengths() {
    let packet = packet_of(1_024, 0x77);
    for slot in [0, 33, 63] {
        let (mut table, mut store) = full();
        let at = slot * 1_024;
        store[at..at + 1_024].copy_from_slice(&packet);
        table[slot].recording = 5;
        table[slot].place = FAR;
        table[slot].length = 1_024;
        renew_lives(&table, &store, NAME_L, &packet);
        for length in FORGED_LENGTHS {
            table[slot].length = length;
            renew_drops(&table, &store, slot, NAME_L, &packet, none());
            // The reader's refusal is named, whatever P is.
            let cause = refusal(3, 7, FAR);
            renew_drops(&table, &store, slot, NAME_L, &[0; 40], cause);
            renew_drops(&table, &store, slot, NAME_L, &[], refusal(2, 7, FAR));
            // Replacing puts it right.
            let mut table = table;
            let mut after = store.clone();
            let answer = add_it(&mut table, &mut after, 5, FAR, &packet);
            assert_eq!(answer, added(slot as u64));
            assert_eq!(table[slot].length, 1_024);
            assert_eq!(after, store);
        }
    }
}

#[test]
fn forged_length_over_two_slots() {
    // Packets over 1,024 bytes stand in the store whole, over the slots behind;
    // at the last slot in a longer store.
    for slot in [0, 33, 63] {
        for length in [1_028, 1_100, 2_048, 4_096] {
            let packet = packet_of(length, 0x77);
            let mut store = store_of(70_000);
            let at = slot * 1_024;
            store[at..at + length].copy_from_slice(&packet);
            let mut table = fresh();
            table[slot] = Entry {
                live: 1,
                recording: 5,
                place: FAR,
                length: length as u64,
                channel: 1,
                sequence: 0,
                rtc: 0,
            };
            renew_drops(&table, &store, slot, NAME_L, &packet, none());
        }
    }
}

#[test]
fn forged_fields_are_not_compared() {
    // Request 13: "The entry lives on exactly when the packet at the window's
    // start is accepted and equals the held bytes"; its row stays as it was.
    let (mut table, store) = with_l();
    table[0].channel = LAST;
    table[0].sequence = 256;
    table[0].rtc = 1 << 48;
    renew_lives(&table, &store, NAME_L, &CASE_L);
    // The row says what the packet says, and the bytes held are others.
    let (table, mut store) = with_l();
    let other = with_fields(&CASE_L, 9, 9, 9);
    store[..40].copy_from_slice(&other);
    renew_lives(&table, &store, NAME_L, &other);
    renew_drops(&table, &store, 0, NAME_L, &CASE_L, none());
}

#[test]
fn next_entry_that_lives() {
    let none_lives = [free_row(1, 2); 64];
    let (all_live, _) = full();
    for from in 0..64 {
        assert_eq!(renewal_next(&none_lives, from), 64);
        assert_eq!(renewal_next(&all_live, from), from);
    }
    let far = usize::MAX;
    for from in [64, 65, 1 << 20, far - 1, far] {
        assert_eq!(renewal_next(&none_lives, from), 64);
        assert_eq!(renewal_next(&all_live, from), 64);
    }
    for live in LIVING {
        for slot in 0..64 {
            let mut table = none_lives;
            table[slot].live = live;
            for from in 0..70 {
                let wanted = if from <= slot { slot } else { 64 };
                assert_eq!(renewal_next(&table, from), wanted);
            }
        }
    }
    // Two: the lower one first.
    let mut table = none_lives;
    table[5].live = 1;
    table[40].live = LAST;
    assert_eq!(renewal_next(&table, 0), 5);
    assert_eq!(renewal_next(&table, 5), 5);
    assert_eq!(renewal_next(&table, 6), 40);
    assert_eq!(renewal_next(&table, 41), 64);
}

#[test]
fn a_recording_renewed_from_entry_to_entry() {
    // Six packets, each at the end of the one before; then two are withdrawn.
    let mut recorded = Vec::new();
    let mut table = fresh();
    let mut store = store();
    for k in 0..6 {
        let at = recorded.len();
        recorded.extend_from_slice(&filling(k));
        let end = recorded.len();
        let place = FAR + at as u64;
        let answer = renewal_add(&mut table, &mut store, 8, place, &recorded, at, end);
        assert_eq!(answer, added(k));
    }
    let second = (table[1].place - FAR) as usize;
    recorded[second] = 0;
    // The filled end is ahead of the last packet's own.
    let end = recorded.len() - 1;
    let mut alive = Vec::new();
    let mut slot = renewal_next(&table, 0);
    while slot < 64 {
        let place = table[slot].place;
        let at = (place - FAR) as usize;
        let answer = renewal_renew(&mut table, &store, 8, place, &recorded, at, end);
        match slot {
            1 => assert_eq!(answer, dropped(refusal(3, at as u64, place))),
            5 => assert_eq!(answer, dropped(refusal(10, at as u64, place))),
            _ => assert_eq!(answer, lives_on()),
        }
        if answer.lives {
            alive.push(slot);
        }
        slot = renewal_next(&table, slot + 1);
    }
    assert_eq!(alive, [0, 2, 3, 4]);
    assert_eq!(renewal_next(&table, 5), 64);
    assert_eq!(table[1], Entry::default());
    assert_eq!(table[5], Entry::default());
}

/// The next number of a row of numbers that are the same in each run.
fn draw(state: &mut u64, from: &[u64]) -> u64 {
    *state = state
        .wrapping_mul(6_364_136_223_846_793_005)
        .wrapping_add(1_442_695_040_888_963_407);
    from[(*state >> 33) as usize % from.len()]
}

/// A forged row: each word one of a few numbers.
fn forged_row(state: &mut u64) -> Entry {
    Entry {
        live: draw(state, &[0, 1, 1, 1, 1, 1, 2, LAST]),
        recording: draw(state, &[0, 1, 2, 3, LAST]),
        place: draw(state, &[0, 1, 40, FAR, LAST - 40, LAST]),
        length: draw(state, &[0, 28, 40, 40, 40, 1_024, 1_025, LAST]),
        channel: draw(state, &[0, 1, LAST]),
        sequence: draw(state, &[0, 1, LAST]),
        rtc: draw(state, &[0, 1, LAST]),
    }
}

/// What the paper says of adding, row by row: the slot, or the number.
fn slot_due(table: &Table, name: (u64, u64)) -> Result<usize, u64> {
    let mut due = Err(19);
    // From the last row to the first: the lowest slot is met last.
    for (slot, row) in table.iter().enumerate().rev() {
        if row.live == 0 {
            due = Ok(slot);
        }
    }
    for (slot, row) in table.iter().enumerate().rev() {
        if row.live != 0 && (row.recording, row.place) == name {
            due = Ok(slot);
        }
    }
    due
}

#[test]
fn forged_tables_are_answered() {
    let mut state = 13;
    let mut outcomes = [0; 5];
    for _ in 0..3_000 {
        let mut table = fresh();
        for row in &mut table {
            *row = forged_row(&mut state);
        }
        // One in two has no free slot.
        if draw(&mut state, &[0, 1]) == 0 {
            for row in &mut table {
                row.live = row.live.max(1);
            }
        }
        let named = forged_row(&mut state);
        let name = (draw(&mut state, &[named.recording, 77]), named.place);
        let mut store = store();
        for slot in 0..64 {
            let held = draw(&mut state, &[0, 1]) == 0;
            let first = if held { 0x25 } else { 0 };
            store[slot * 1_024..slot * 1_024 + 40].copy_from_slice(&CASE_L);
            store[slot * 1_024] = first;
        }
        outcomes[add_by_the_paper(&table, &store, name)] += 1;
        outcomes[renew_by_the_paper(&table, &store, name)] += 1;
    }
    // All of them: added, not added; not renewed, lives on, dropped.
    assert!(outcomes.iter().all(|count| *count > 100), "{outcomes:?}");
}

/// Adds L to a forged table. Answers 0 if it was added, 1 for a refusal.
fn add_by_the_paper(table: &Table, store: &[u8], name: (u64, u64)) -> usize {
    if name.1 > LAST - 40 {
        add_refused(table, store, name, &CASE_L, refusal(1, 7, name.1));
        return 1;
    }
    let slot = match slot_due(table, name) {
        Ok(slot) => slot,
        Err(number) => {
            add_refused(table, store, name, &CASE_L, refusal(number, 7, name.1));
            return 1;
        }
    };
    let mut after = *table;
    let mut store_after = store.to_vec();
    let answer = add_it(&mut after, &mut store_after, name.0, name.1, &CASE_L);
    assert_eq!(answer, added(slot as u64));
    let mut wanted = *table;
    wanted[slot] = Entry {
        recording: name.0,
        place: name.1,
        ..with_l().0[0]
    };
    assert_eq!(after, wanted);
    let mut store_wanted = store.to_vec();
    store_wanted[slot * 1_024..slot * 1_024 + 40].copy_from_slice(&CASE_L);
    assert_eq!(store_after, store_wanted);
    0
}

/// Renews an entry of a forged table with L. Answers 2 for a refusal, 3 if the
/// entry lives on, 4 if it is dropped.
fn renew_by_the_paper(table: &Table, store: &[u8], name: (u64, u64)) -> usize {
    let held = (0..64).find(|slot| {
        let row = table[*slot];
        row.live != 0 && row.recording == name.0 && row.place == name.1
    });
    let slot = match held {
        Some(slot) => slot,
        None => {
            renew_refused(table, store, name, &CASE_L, refusal(20, 7, name.1));
            return 2;
        }
    };
    if name.1 > LAST - 40 {
        renew_refused(table, store, name, &CASE_L, refusal(1, 7, name.1));
        return 2;
    }
    let equal = store[slot * 1_024..slot * 1_024 + 40] == CASE_L;
    if table[slot].length == 40 && equal {
        renew_lives(table, store, name, &CASE_L);
        return 3;
    }
    renew_drops(table, store, slot, name, &CASE_L, none());
    4
}
