//! A renewal table and its store, as they are lent to a call.

use crate::check::{MARGIN, PATTERN};
use crate::expected::by_word;
use ch11::raw::{Entry, Table, SLOTS, SLOT_BYTES};
use generate::hex;
use std::fmt;
use std::ops::Range;

/// Recording number and place: "An entry's name is its recording number and place".
pub type Name = (u64, u64);

#[derive(Clone, PartialEq)]
pub struct Kept {
    pub table: Table,
    /// The store, with a margin on each side that a call must leave alone.
    whole: Vec<u8>,
}

/// Where a slot is in the store: "fixed slots of 1,024 bytes".
pub fn slot_bytes(slot: usize) -> Range<usize> {
    slot * SLOT_BYTES..(slot + 1) * SLOT_BYTES
}

/// "recording number, place, P, channel, sequence, RTC", as the header of a packet has them: channel at byte 2, P at 4, sequence at 13,
/// RTC at 16, low byte first.
pub fn entry_of((recording, place): Name, packet: &[u8]) -> Entry {
    let field = |at: usize, width: usize| {
        let bytes = packet[at..at + width].iter().rev();
        bytes.fold(0, |number, byte| number << 8 | u64::from(*byte))
    };
    Entry {
        live: 1,
        recording,
        place,
        length: field(4, 4),
        channel: field(2, 2),
        sequence: field(13, 1),
        rtc: field(16, 6),
    }
}

impl Kept {
    /// An empty table, and a store of so many bytes.
    pub fn new(length: usize) -> Kept {
        Kept {
            table: Table::default(),
            whole: vec![PATTERN; length + 2 * MARGIN],
        }
    }

    fn lent(&self) -> Range<usize> {
        MARGIN..self.whole.len() - MARGIN
    }

    pub fn store(&self) -> &[u8] {
        &self.whole[self.lent()]
    }

    pub fn store_mut(&mut self) -> &mut [u8] {
        let lent = self.lent();
        &mut self.whole[lent]
    }

    /// The table, and the store without its margins.
    pub fn both(&mut self) -> (&mut Table, &mut [u8]) {
        let lent = self.lent();
        (&mut self.table, &mut self.whole[lent])
    }

    /// Puts bytes down from a slot's first byte on, as far as the store goes.
    pub fn fill(&mut self, slot: usize, bytes: &[u8]) {
        let behind = self.store_mut()[slot_bytes(slot).start..].iter_mut();
        behind.zip(bytes).for_each(|(there, byte)| *there = *byte);
    }

    /// Puts an entry of this name and packet into a slot by hand.
    pub fn put(&mut self, slot: usize, name: Name, packet: &[u8]) {
        self.table.slots[slot] = entry_of(name, packet);
        self.fill(slot, packet);
    }

    /// The slots whose rows are so, from the lowest.
    pub fn slots(&self, is_so: impl Fn(&Entry) -> bool) -> Vec<usize> {
        let rows = self.table.slots.iter().enumerate();
        rows.filter(|(_, row)| is_so(row))
            .map(|(slot, _)| slot)
            .collect()
    }

    /// The slots of the entries that live under this name.
    pub fn named(&self, (recording, place): Name) -> Vec<usize> {
        self.slots(|row| row.live != 0 && (row.recording, row.place) == (recording, place))
    }

    /// The slots without an entry.
    pub fn free(&self) -> Vec<usize> {
        self.slots(|row| row.live == 0)
    }

    pub fn live_count(&self) -> usize {
        SLOTS - self.free().len()
    }
}

/// The rows that aren't all zero, word by word, and the store; a long store is cut around what differs where it is printed.
impl fmt::Debug for Kept {
    fn fmt(&self, f: &mut fmt::Formatter<'_>) -> fmt::Result {
        macro_rules! words {
            ($row:expr => $name:ident: $($word:ident)+) => { [$($row.$word),+] };
        }
        for (slot, row) in self.table.slots.iter().enumerate() {
            if *row != Entry::default() {
                write!(f, "row {} {:?}, ", slot, by_word!(words! row => Entry))?;
            }
        }
        write!(f, "store {:?}", self.whole)
    }
}

/// What a call was lent, for whoever reads a difference: the rows, and what the name's slots hold.
pub fn describe(kept: &Kept, name: Name) -> String {
    let mut rows = format!("{:?}", kept);
    rows.truncate(rows.find("store").unwrap_or(0));
    let slots = kept.named(name);
    let held = slots.iter().filter_map(|slot| {
        let bytes = kept.store().get(slot_bytes(*slot))?;
        Some(format!("slot {} holds {}; ", slot, hex(bytes)))
    });
    let held: String = held.collect();
    let length = kept.store().len();
    format!("name {name:?}; {rows}{held}store of {length} bytes")
}
