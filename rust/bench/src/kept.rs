//! The rows of the renewal table: the table and the store that they are lent, and what they do with them.
use crate::aligned::Aligned;
use crate::library;
use crate::sides::repeat;
use ch11::raw;

/// The recording that all packets are kept from, and the place of the first.
const RECORDING: u64 = 7;
const FIRST: u64 = 500_000_000_000;

/// What a row does again and again. The table is the same after each.
#[derive(Clone, Copy, PartialEq, Eq)]
pub enum Step {
    /// Adds the name of the last live entry once more, which replaces it.
    Replace,
    /// Adds a name that isn't held, and its slot is freed again.
    New,
    /// Renews the last live entry.
    Renew,
    /// Adds a name that isn't held, and renews it when nothing is filled: the entry is dropped.
    Drop,
}

/// A table and a store, the name that the calls are given, and the slot that it has or gets.
pub struct Kept {
    table: raw::Table,
    store: Aligned,
    pub name: (u64, u64),
    slot: usize,
}

impl Kept {
    /// So many live entries, from the first slot on, each of this packet at a place of its own.
    pub fn holding(live: usize, step: Step, packet: &[u8]) -> Kept {
        let mut table = raw::Table::default();
        let mut store = Aligned::copy_of(&[0; raw::STORE_BYTES], false);
        let name_of = |slot: usize| (RECORDING, FIRST + (slot * packet.len()) as u64);
        for slot in 0..live {
            let mut added = raw::Added::default();
            let store = store.bytes_mut();
            let end = packet.len();
            library::renewal_add(&mut table, store, name_of(slot), packet, 0, end, &mut added);
            assert_eq!(added.slot, slot as u64, "the packet is added");
        }
        let slot = match step {
            Step::Replace | Step::Renew => live - 1,
            Step::New | Step::Drop => live,
        };
        Kept {
            table,
            store,
            name: name_of(slot),
            slot,
        }
    }

    /// Takes a step again and again, by one side's two calls; these are given table, store and window.
    pub fn repeat(
        &mut self,
        step: Step,
        steps: usize,
        end: usize,
        mut add: impl FnMut(&mut raw::Table, &mut [u8], usize, usize),
        mut renew: impl FnMut(&mut raw::Table, &[u8], usize, usize),
    ) {
        let (table, store) = (&mut self.table, self.store.bytes_mut());
        let slot = self.slot;
        match step {
            Step::Replace => repeat(steps, |at| add(table, store, at, end)),
            Step::New => repeat(steps, |at| {
                add(table, store, at, end);
                table.slots[slot].live = 0;
            }),
            Step::Renew => repeat(steps, |at| renew(table, store, at, end)),
            Step::Drop => repeat(steps, |at| {
                add(table, store, at, end);
                renew(table, store, at, at);
            }),
        }
    }
}
