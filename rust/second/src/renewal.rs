//! The renewal table. Request 13: "The product on the whiteboard, a crate over
//! the reader, holds up to 64 entries: recording number, place, P, channel,
//! sequence, RTC and the packet's bytes in a lent store of fixed slots of 1,024
//! bytes."
//!
//! Row k of the table and slot k of the store belong together: slot k is the
//! store's bytes from k x 1,024 on. Tables and stores may be forged; neither is
//! believed in anything that was not tested in the same call.

use crate::reader::read_packet;
use crate::rules::*;
use crate::{Packet, Refusal};

/// Request 13: "holds up to 64 entries".
const SLOTS: usize = 64;

/// Request 13: "fixed slots of 1,024 bytes".
const SLOT_LENGTH: usize = 1_024;

/// Request 13: "16 first, for a store under 65,536 bytes". That is 64 slots of
/// 1,024 bytes each.
const STORE_LENGTH: usize = 65_536;

/// A row of the table: one slot. `live`: 0 is a free slot, any other number is
/// an entry that lives (tables may be forged). The other words of a free slot
/// say nothing.
#[derive(Clone, Copy, Debug, PartialEq, Eq, Default)]
pub struct Entry {
    pub live: u64,
    /// Request 13: "An entry's name is its recording number and place".
    pub recording: u64,
    /// The place in the recording of the packet's first byte.
    pub place: u64,
    /// P.
    pub length: u64,
    pub channel: u64,
    pub sequence: u64,
    pub rtc: u64,
}

/// What adding answers: the slot that the entry was put into. "A refusal returns
/// its number and place; all other results are zero".
#[derive(Clone, Copy, Debug, PartialEq, Eq, Default)]
pub struct Added {
    pub refusal: Refusal,
    pub slot: u64,
}

/// What renewing answers. An entry that is dropped is no refusal of the call:
/// `lives` is false then, and `cause` is the reader's refusal. Request 13: "The
/// reader's other refusals drop the entry and are named beside it." It is all
/// zero if there is none.
#[derive(Clone, Copy, Debug, PartialEq, Eq, Default)]
pub struct Renewed {
    pub refusal: Refusal,
    pub lives: bool,
    pub cause: Refusal,
}

/// The refusal with this number. Its place is "the start of the packet": the
/// window's start, which in the recording is the place that the call was given.
fn refuse(number: u64, start: usize, place: u64) -> Refusal {
    Refusal {
        number,
        place: start as u64,
        recording_place: place,
        room: 0,
        reason: NO_REASON,
    }
}

/// Request 13: "16 first, for a store under 65,536 bytes". "16 also gives the
/// room needed": the whole store, in bytes.
fn refuse_store(start: usize, place: u64) -> Refusal {
    Refusal {
        room: STORE_LENGTH as u64,
        ..refuse(NO_ROOM, start, place)
    }
}

/// Whether there is an entry in this slot.
fn lives(entry: &Entry) -> bool {
    entry.live != 0
}

/// The slot of the entry with this name. Request 13: "Of a name held twice in a
/// forged table the lowest slot counts."
fn held_slot(table: &[Entry; SLOTS], recording: u64, place: u64) -> Option<usize> {
    table
        .iter()
        .position(|entry| lives(entry) && entry.recording == recording && entry.place == place)
}

/// Request 13: "Freed slots are taken again, lowest first." There is none where
/// 64 entries live.
fn free_slot(table: &[Entry; SLOTS]) -> Option<usize> {
    table.iter().position(|entry| !lives(entry))
}

/// The slot that an entry with this name goes into. Request 13: "adding a name
/// already held replaces it in its own slot". There is none "exactly when 64
/// other entries live": a name that is held is itself one of the 64.
fn slot_to_take(table: &[Entry; SLOTS], recording: u64, place: u64) -> Option<usize> {
    match held_slot(table, recording, place) {
        Some(slot) => Some(slot),
        None => free_slot(table),
    }
}

/// The tests of adding, behind that of the store: the packet, and the slot that
/// it goes into.
fn packet_and_slot(
    table: &[Entry; SLOTS],
    recording: u64,
    place: u64,
    buf: &[u8],
    start: usize,
    end: usize,
) -> Result<(Packet, usize), Refusal> {
    // Request 13: "adding, then the reader's,"
    let packet = read_packet(buf, start, end, place)?;
    // "21 packet over 1,024 bytes,"
    if packet.length > SLOT_LENGTH as u64 {
        return Err(refuse(PACKET_TOO_LONG, start, place));
    }
    // "19 exactly when 64 other entries live"
    match slot_to_take(table, recording, place) {
        Some(slot) => Ok((packet, slot)),
        None => Err(refuse(TABLE_FULL, start, place)),
    }
}

/// Adds the packet at the window's start, whose place in the recording is
/// `place`. Request 13: "Refusals, all leaving table and store as they were".
pub fn renewal_add(
    table: &mut [Entry; SLOTS],
    store: &mut [u8],
    recording: u64,
    place: u64,
    buf: &[u8],
    start: usize,
    end: usize,
) -> Added {
    // Request 13: "16 first, for a store under 65,536 bytes"
    if store.len() < STORE_LENGTH {
        return not_added(refuse_store(start, place));
    }
    let (packet, slot) = match packet_and_slot(table, recording, place, buf, start, end) {
        Ok(found) => found,
        Err(refusal) => return not_added(refusal),
    };
    // Request 13: "Adding writes the packet's own bytes only". They are at most
    // 1,024, and the reader found them all in the window.
    let length = packet.length as usize;
    let slot_at = slot * SLOT_LENGTH;
    store[slot_at..slot_at + length].copy_from_slice(&buf[start..start + length]);
    table[slot] = entry_of(recording, place, &packet);
    Added {
        refusal: Refusal::default(),
        slot: slot as u64,
    }
}

/// Adding that is refused.
fn not_added(refusal: Refusal) -> Added {
    Added { refusal, slot: 0 }
}

/// Request 13: "recording number, place, P, channel, sequence, RTC".
fn entry_of(recording: u64, place: u64, packet: &Packet) -> Entry {
    Entry {
        live: 1,
        recording,
        place,
        length: packet.length,
        channel: packet.fields.channel,
        sequence: packet.fields.sequence,
        rtc: packet.fields.rtc,
    }
}

/// Renews the entry with this name. Request 13: "Renewal names an entry and a
/// window as the store filled it now." The store is lent for reading alone:
/// "Adding writes the packet's own bytes only, renewal none."
pub fn renewal_renew(
    table: &mut [Entry; SLOTS],
    store: &[u8],
    recording: u64,
    place: u64,
    buf: &[u8],
    start: usize,
    end: usize,
) -> Renewed {
    // Request 13: "16 first, for a store under 65,536 bytes"
    if store.len() < STORE_LENGTH {
        return not_renewed(refuse_store(start, place));
    }
    // "renewing, then 20 no such entry,"
    let slot = match held_slot(table, recording, place) {
        Some(slot) => slot,
        None => return not_renewed(refuse(NO_SUCH_ENTRY, start, place)),
    };
    let packet = match read_packet(buf, start, end, place) {
        Ok(packet) => packet,
        // "then 1."
        Err(refusal) if refusal.number == OUTSIDE_BUFFER => return not_renewed(refusal),
        // "The reader's other refusals drop the entry and are named beside it."
        Err(refusal) => return drop_entry(table, slot, refusal),
    };
    // "The entry lives on exactly when the packet at the window's start is
    // accepted and equals the held bytes; otherwise it is dropped in that same
    // call". The packet's own bytes are compared, none behind them.
    let packet_bytes = &buf[start..start + packet.length as usize];
    if held_bytes(&table[slot], store, slot) != Some(packet_bytes) {
        return drop_entry(table, slot, Refusal::default());
    }
    lives_on()
}

/// The entry lives on: its row stays as it was, word for word.
fn lives_on() -> Renewed {
    Renewed {
        refusal: Refusal::default(),
        lives: true,
        cause: Refusal::default(),
    }
}

/// Renewing that is refused.
fn not_renewed(refusal: Refusal) -> Renewed {
    Renewed {
        refusal,
        lives: false,
        cause: Refusal::default(),
    }
}

/// The P bytes that the entry in this slot holds. Request 13: "a forged entry
/// whose P passes 1,024 is dropped too": it holds none, whatever stands in the
/// slots behind its own.
fn held_bytes<'a>(entry: &Entry, store: &'a [u8], slot: usize) -> Option<&'a [u8]> {
    if entry.length > SLOT_LENGTH as u64 {
        return None;
    }
    let slot_at = slot * SLOT_LENGTH;
    Some(&store[slot_at..slot_at + entry.length as usize])
}

/// The entry is dropped: its row is all zero, a free slot. Of a name held twice
/// the other entry stays.
fn drop_entry(table: &mut [Entry; SLOTS], slot: usize, cause: Refusal) -> Renewed {
    table[slot] = Entry::default();
    Renewed {
        refusal: Refusal::default(),
        lives: false,
        cause,
    }
}

/// The lowest slot at or behind `from` whose entry lives; 64 if there is none,
/// for any `from`.
pub fn renewal_next(table: &[Entry; SLOTS], from: usize) -> usize {
    (from..SLOTS)
        .find(|slot| lives(&table[*slot]))
        .unwrap_or(SLOTS)
}
