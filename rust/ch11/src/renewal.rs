//! The renewal table.

use crate::raw;
use crate::refusal::{refused, unless_refused, Refusal};
use std::fmt;
use std::iter::FusedIterator;

/// Packets that are kept, up to 64 of up to 1,024 bytes each, and renewed as long as the recording
/// still has them. An entry's name is the number of its recording, which the caller gives out, and the
/// packet's place there. Table and store are the value's own, about 68 KiB on the heap.
///
/// ```
/// use ch11::{RenewalTable, Renewed};
///
/// # fn main() -> Result<(), ch11::Refusal> {
/// let packet = b"\x25\xEB\x01\0\x28\0\0\0\x0C\0\0\0\x06\0\x02\x50\x01\0\0\0\0\0\x63\x3B\
///                \0\0\0\0\x03\0\0\0ABC\0\0\0\x87\x42";
/// let mut table = RenewalTable::new();
/// // Recording 7 has the packet at its byte 5,000: it is read from a window, and kept.
/// table.add(7, 5000, packet, 0, 40)?;
/// assert_eq!(table.renew(7, 5000, packet, 0, 40)?, Renewed::Lives);
/// // The lab has withdrawn it: nothing is filled now. The buffer still holds it, behind the fill.
/// assert!(matches!(table.renew(7, 5000, packet, 0, 0)?, Renewed::Dropped(Some(_))));
/// assert_eq!(table.entries().count(), 0);
/// # Ok(())
/// # }
/// ```
#[derive(Clone)]
pub struct RenewalTable {
    table: Box<raw::Table>,
    store: Box<[u8]>,
}

/// What became of an entry that was renewed.
#[derive(Clone, Copy, Debug, PartialEq, Eq, Hash)]
pub enum Renewed {
    /// The packet at the window's start is accepted and equals the held bytes.
    Lives,
    /// It is not: the entry is gone. With the reader's refusal; `None` where it accepts another packet.
    Dropped(Option<Refusal>),
}

/// An entry that lives.
#[derive(Clone, Copy, Debug, PartialEq, Eq, Hash)]
pub struct Entry<'a> {
    /// Its slot, 0 to 63.
    pub slot: usize,
    /// Its name: the recording's number,
    pub recording: u64,
    /// and the packet's place, counted from the recording's first byte.
    pub place: u64,
    /// The packet's channel.
    pub channel: u16,
    /// The packet's sequence number.
    pub sequence: u8,
    /// The packet's relative time counter.
    pub rtc: u64,
    /// The packet's bytes, all of them.
    pub bytes: &'a [u8],
}

impl RenewalTable {
    /// A table without entries.
    pub fn new() -> RenewalTable {
        RenewalTable {
            table: Box::default(),
            store: vec![0; raw::STORE_BYTES].into_boxed_slice(),
        }
    }

    /// Adds the packet at the start of the window `buf[start..end]`, which starts at `place` of this
    /// recording, and gives its slot: the name's own if the name is held already, else the lowest free
    /// one. The reader's refusals, then [`Number::Long`](crate::Number::Long) for a packet over 1,024
    /// bytes, then [`Number::Full`](crate::Number::Full) where 64 other entries live; a refusal changes
    /// nothing.
    pub fn add(
        &mut self,
        recording: u64,
        place: u64,
        buf: &[u8],
        start: usize,
        end: usize,
    ) -> Result<usize, Refusal> {
        let mut added = raw::Added::default();
        let (store_at, store_len) = (self.store.as_mut_ptr(), self.store.len());
        let (buf_at, buf_len) = (buf.as_ptr(), buf.len());
        // SAFETY: the pointers and lengths are those of table, store and `buf`; the first two are borrowed
        // alone, and so can't overlap it; `added` is our own. Any recording, place, start and end do.
        unsafe {
            raw::ch11_renewal_add(
                &mut *self.table,
                store_at,
                store_len,
                recording,
                place,
                buf_at,
                buf_len,
                start,
                end,
                &mut added,
            )
        };
        unless_refused(added.refusal, added.slot as usize)
    }

    /// Renews the entry of this name by the window `buf[start..end]`, as the recording has it now from
    /// `place` on. It lives on exactly when the packet at the window's start is accepted and equals the
    /// held bytes, and is dropped otherwise. [`Number::NoEntry`](crate::Number::NoEntry) where there is
    /// none, then [`Number::State`](crate::Number::State) for the window; a refusal changes nothing.
    pub fn renew(
        &mut self,
        recording: u64,
        place: u64,
        buf: &[u8],
        start: usize,
        end: usize,
    ) -> Result<Renewed, Refusal> {
        let mut renewed = raw::Renewed::default();
        let (store_at, store_len) = (self.store.as_ptr(), self.store.len());
        let (buf_at, buf_len) = (buf.as_ptr(), buf.len());
        // SAFETY: as in `add`; the store is read only.
        unsafe {
            raw::ch11_renewal_renew(
                &mut *self.table,
                store_at,
                store_len,
                recording,
                place,
                buf_at,
                buf_len,
                start,
                end,
                &mut renewed,
            )
        };
        let became = match renewed.lives {
            0 => Renewed::Dropped(refused(renewed.cause)),
            _ => Renewed::Lives,
        };
        unless_refused(renewed.refusal, became)
    }

    /// The entries that live, in the order of their slots.
    pub fn entries(&self) -> Entries<'_> {
        Entries { of: self, slot: 0 }
    }
}

impl Default for RenewalTable {
    fn default() -> RenewalTable {
        RenewalTable::new()
    }
}

impl fmt::Debug for RenewalTable {
    fn fmt(&self, f: &mut fmt::Formatter<'_>) -> fmt::Result {
        f.debug_list().entries(self.entries()).finish()
    }
}

impl<'a> IntoIterator for &'a RenewalTable {
    type Item = Entry<'a>;
    type IntoIter = Entries<'a>;

    fn into_iter(self) -> Entries<'a> {
        self.entries()
    }
}

/// The iterator that [`RenewalTable::entries`] gives.
#[derive(Clone, Debug)]
pub struct Entries<'a> {
    of: &'a RenewalTable,
    /// The next entry is looked for from this slot on.
    slot: usize,
}

impl<'a> Iterator for Entries<'a> {
    type Item = Entry<'a>;

    fn next(&mut self) -> Option<Entry<'a>> {
        // SAFETY: the pointer is that of a table, lent for reading. Any slot does.
        let slot = unsafe { raw::ch11_renewal_next(&*self.of.table, self.slot) };
        self.slot = slot.saturating_add(1);
        // Each number fits: the library wrote it there from a field of its width.
        let entry = self.of.table.slots.get(slot)?;
        let held = slot * raw::SLOT_BYTES;
        Some(Entry {
            slot,
            recording: entry.recording,
            place: entry.place,
            channel: entry.channel as u16,
            sequence: entry.sequence as u8,
            rtc: entry.rtc,
            bytes: &self.of.store[held..held + entry.length as usize],
        })
    }
}

impl FusedIterator for Entries<'_> {}
