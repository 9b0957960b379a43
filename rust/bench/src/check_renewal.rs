//! Both sides' renewal tables must agree: every answer, the table and the store.
use crate::as_raw;
use crate::bodies::{self, carried, Noise};
use crate::check::{note, put_sums_right, FAR, UNTOUCHED};
use crate::library;
use crate::same::renewal::{add, renew};
use ch11::raw::{self, Entry, Table, SLOTS, SLOT_BYTES, STORE_BYTES};

/// The recording's number in the names that the calls are given.
const RECORDING: u64 = 7;

/// Bytes that the stores have behind their slots.
const BEHIND: usize = 100;

/// The longest packet of which each byte is spoilt.
const SPOILT: usize = 64;

/// A window, and its place in the recording.
#[derive(Clone, Copy)]
struct Window<'a> {
    bytes: &'a [u8],
    start: usize,
    end: usize,
    place: u64,
}

impl Window<'_> {
    fn whole(bytes: &[u8]) -> Window<'_> {
        Window {
            bytes,
            start: 0,
            end: bytes.len(),
            place: FAR,
        }
    }
}

/// Table and store of the library, then those of the Rust side.
struct Both {
    tables: [Table; 2],
    stores: [Vec<u8>; 2],
    /// How much of the stores is lent.
    room: usize,
}

impl Both {
    /// Empty tables, and stores that have this packet in each slot.
    fn holding(packet: &[u8]) -> Both {
        let mut store = vec![UNTOUCHED; STORE_BYTES + BEHIND];
        for slot in store.chunks_exact_mut(SLOT_BYTES) {
            slot[..packet.len()].copy_from_slice(packet);
        }
        Both {
            tables: [Table::default(); 2],
            room: store.len(),
            stores: [store.clone(), store],
        }
    }

    fn add(&mut self, window: Window) -> raw::Added {
        let Window {
            bytes,
            start,
            end,
            place,
        } = window;
        let mut added = raw::Added::default();
        let [table, same_table] = &mut self.tables;
        let [store, same_store] = &mut self.stores;
        let (store, same_store) = (&mut store[..self.room], &mut same_store[..self.room]);
        let name = (RECORDING, place);
        library::renewal_add(table, store, name, bytes, start, end, &mut added);
        let answer = add(same_table, same_store, RECORDING, place, bytes, start, end);
        assert_eq!(
            added,
            as_raw::added(answer),
            "window {start} to {end}, place {place}"
        );
        note(&added.refusal);
        self.agree();
        added
    }

    fn renew(&mut self, window: Window) -> raw::Renewed {
        let Window {
            bytes,
            start,
            end,
            place,
        } = window;
        let mut renewed = raw::Renewed::default();
        let [table, same_table] = &mut self.tables;
        let [store, same_store] = &self.stores;
        let (store, same_store) = (&store[..self.room], &same_store[..self.room]);
        let name = (RECORDING, place);
        library::renewal_renew(table, store, name, bytes, start, end, &mut renewed);
        let answer = renew(same_table, same_store, RECORDING, place, bytes, start, end);
        assert_eq!(
            renewed,
            as_raw::renewed(answer),
            "window {start} to {end}, place {place}"
        );
        note(&renewed.refusal);
        note(&renewed.cause);
        self.agree();
        renewed
    }

    fn agree(&self) {
        assert!(self.tables[0] == self.tables[1], "the tables");
        assert!(self.stores[0] == self.stores[1], "the stores");
    }
}

/// The packet, shorter windows and spoilt copies of it; each byte is spoilt if the packet is short.
pub fn check(packet: &[u8]) {
    for table in forged_tables(packet.len() as u64, FAR) {
        for end in [0, packet.len()] {
            let whole = Window::whole(packet);
            compare(packet, &table, Window { end, ..whole });
        }
    }
    let last = packet.len() - 1;
    let places =
        (0..=last).filter(|&at| last < SPOILT || at < SPOILT || at % 61 == 0 || at == last);
    for at in places {
        check_bases(packet, 0, at);
        check_bases(packet, at, last + 1);
        check_bases(packet, at, last + 2);
        for bits in [0x01, 0x04, 0x40, 0x80, 0xFF] {
            check_byte(packet, at, bits);
        }
    }
}

/// What the rows' packets don't bring up: an opened body, packets around 1,024 bytes, small stores, and tables that many calls have made.
pub fn check_others() {
    let opened = bodies::packet(&bodies::fields(0x02, 0x50, 0), &bodies::small_uart_body());
    check(&opened);
    for length in [SLOT_BYTES - 4, SLOT_BYTES, SLOT_BYTES + 4] {
        let packet = carried(length);
        for table in forged_tables(length as u64, FAR) {
            compare(&opened, &table, Window::whole(&packet));
        }
    }
    for room in [0, STORE_BYTES - 1, STORE_BYTES] {
        let mut both = Both::holding(&opened);
        both.room = room;
        both.add(Window::whole(&opened));
        both.renew(Window::whole(&opened));
    }
    check_over_long();
    check_sequence();
}

/// Forged entries of a packet that passes its slot, with its bytes in the store from there on.
fn check_over_long() {
    let packet = carried(SLOT_BYTES + 4);
    for slot in [0, SLOTS - 1] {
        let mut both = Both::holding(&[]);
        for (table, store) in both.tables.iter_mut().zip(&mut both.stores) {
            table.slots[slot] = entry(packet.len() as u64, FAR);
            store[slot * SLOT_BYTES..][..packet.len()].copy_from_slice(&packet);
        }
        both.renew(Window::whole(&packet));
    }
}

/// A byte spoilt, with sums that are wrong then and with sums put right.
fn check_byte(packet: &[u8], at: usize, bits: u8) {
    let mut spoilt = packet.to_vec();
    spoilt[at] ^= bits;
    for table in usual_tables(packet.len() as u64, FAR) {
        compare(packet, &table, Window::whole(&spoilt));
    }
    put_sums_right(&mut spoilt);
    for table in usual_tables(packet.len() as u64, FAR) {
        compare(packet, &table, Window::whole(&spoilt));
    }
}

/// The window with places on both sides of the greatest that it takes.
fn check_bases(packet: &[u8], start: usize, end: usize) {
    let greatest = u64::MAX - end.saturating_sub(start) as u64;
    for place in [0, FAR, greatest, greatest.saturating_add(1)] {
        let window = Window {
            bytes: packet,
            start,
            end,
            place,
        };
        for table in usual_tables(packet.len() as u64, place) {
            compare(packet, &table, window);
        }
    }
}

/// Renews by a window, adds it, and renews the new entry by it and by the packet that stood in its slot before.
fn compare(packet: &[u8], table: &Table, window: Window) {
    let mut both = Both::holding(packet);
    both.tables = [*table; 2];
    both.renew(window);
    both.tables = [*table; 2];
    both.add(window);
    both.renew(window);
    both.renew(Window {
        place: window.place,
        ..Window::whole(packet)
    });
}

/// Full of other names, with the name in the last slot, and empty.
fn usual_tables(length: u64, place: u64) -> [Table; 3] {
    let mut held = full_table(length, place);
    held.slots[SLOTS - 1] = entry(length, place);
    [full_table(length, place), held, Table::default()]
}

/// The usual tables; a free slot below the name's and behind it, with its name; the name twice; and lengths and numbers that no call
/// puts down.
fn forged_tables(length: u64, place: u64) -> Vec<Table> {
    let name = entry(length, place);
    let free = Entry { live: 0, ..name };
    let forged = |length, live| Entry {
        live,
        length,
        channel: u64::MAX,
        sequence: u64::MAX,
        rtc: u64::MAX,
        ..name
    };
    let mut tables = usual_tables(length, place).to_vec();
    let slots = [
        (5, free, name),
        (5, name, free),
        (0, name, name),
        (5, name, forged(0, u64::MAX)),
    ];
    for (low, entry_low, entry_last) in slots {
        let mut table = full_table(length, place);
        table.slots[low] = entry_low;
        table.slots[SLOTS - 1] = entry_last;
        tables.push(table);
    }
    for length in [0, length - 4, length, length + 4, 1_024, 1_025, u64::MAX] {
        let mut table = full_table(length, place);
        table.slots[SLOTS - 1] = forged(length, 1 << 63);
        tables.push(table);
    }
    tables
}

/// 64 entries of other names: the same recording at other places, and another recording at the same.
fn full_table(length: u64, place: u64) -> Table {
    let mut table = Table::default();
    for (slot, other) in (1..).zip(&mut table.slots) {
        *other = match slot % 2 {
            0 => entry(length, place.wrapping_add(slot)),
            _ => Entry {
                recording: RECORDING + slot,
                ..entry(length, place)
            },
        };
    }
    table
}

fn entry(length: u64, place: u64) -> Entry {
    Entry {
        live: 1,
        recording: RECORDING,
        place,
        length,
        ..Entry::default()
    }
}

/// Calls without a pattern, of 80 names and 3 packets, on a table that the calls before have made.
fn check_sequence() {
    let packets = [28, 64, 1_024].map(carried);
    let mut noise = Noise::new();
    let mut both = Both::holding(&[]);
    let (mut full, mut lived) = (0, 0);
    for _ in 0..2_000 {
        let packet = &packets[noise.below(packets.len())];
        let window = Window {
            place: noise.below(80) as u64,
            ..Window::whole(packet)
        };
        match noise.below(4) {
            0 => lived += both.renew(window).lives,
            1 if noise.below(8) == 0 => drop(both.renew(Window { end: 0, ..window })),
            _ => full += u64::from(both.add(window).refusal.number == 19),
        }
    }
    assert!(full > 0 && lived > 0, "a full table, and entries that live");
}
