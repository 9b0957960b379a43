//! What document 02 §13 says of a call, by the table and store before it. What "the reader" says of a window is the library's own, which
//! is compared by itself.

use super::kept::{slot_bytes, Kept, Name};
use crate::check::refusal_in;
use crate::library;
use ch11::raw::{Added, Entry, Refusal, Renewed, Table, SLOTS, SLOT_BYTES, STORE_BYTES};
use generate::recipe::Placed;

/// The first of these tests that applies, in the order of the paper; its refusal is at the window's start.
fn first(window: &Placed, tests: &[(u64, bool)]) -> Option<Refusal> {
    let (number, _) = tests.iter().find(|(_, applies)| *applies)?;
    let room = if *number == 16 { STORE_BYTES as u64 } else { 0 };
    Some(Refusal {
        room,
        ..refusal_in(window, *number, 0, 0)
    })
}

/// The packet at the window's start, where the reader accepts it, or its refusal.
fn packet_at(window: &Placed) -> Result<&[u8], Refusal> {
    match library::read_packet(window).1 {
        packet if packet.refusal.number == 0 => {
            Ok(&window.buf[window.start..window.start + packet.length as usize])
        }
        packet => Err(packet.refusal),
    }
}

/// "16 first, for a store under 65,536 bytes; adding, then the reader's, 21 packet over 1,024 bytes, 19 exactly when 64 other entries
/// live". The entry goes into its own slot, or into the lowest free one.
pub fn added(before: &Kept, name: Name, window: &Placed) -> (Added, Kept) {
    let mut after = before.clone();
    let packet = packet_at(window);
    let others = before.slots(|row| row.live != 0 && (row.recording, row.place) != name);
    let (is_small, length) = (is_small(before), packet.map_or(0, |packet| packet.len()));
    let behind = [(21, length > SLOT_BYTES), (19, others.len() == SLOTS)];
    let refusal = first(window, &[(16, is_small)])
        .or(packet.err())
        .or(first(window, &behind));
    let mut answer = Added::default();
    match (refusal, packet) {
        (None, Ok(packet)) => {
            let slots = [before.named(name), before.free()].concat();
            after.put(slots[0], name, packet);
            answer.slot = slots[0] as u64;
        }
        (refusal, _) => answer.refusal = refusal.unwrap_or_default(),
    }
    (answer, after)
}

fn is_small(kept: &Kept) -> bool {
    kept.store().len() < STORE_BYTES
}

/// "16 first [...]; renewing, then 20 no such entry, then 1. The reader's other refusals drop the entry and are named beside it." No byte of
/// the store is written.
pub fn renewed(before: &Kept, name: Name, window: &Placed) -> (Renewed, Kept) {
    let (mut answer, mut after) = (Renewed::default(), before.clone());
    let slots = before.named(name);
    let tests = [
        (16, is_small(before)),
        (20, slots.is_empty()),
        (1, !window.is_taken()),
    ];
    if let Some(refusal) = first(window, &tests) {
        answer.refusal = refusal;
        return (answer, after);
    }
    match packet_at(window) {
        Ok(packet) if is_held(before, slots[0], packet) => answer.lives = 1,
        packet => {
            answer.cause = packet.err().unwrap_or_default();
            after.table.slots[slots[0]] = Entry::default();
        }
    }
    (answer, after)
}

/// Whether these are "the held bytes" of a slot's entry: as many as its P, which does not pass 1,024, and byte for byte.
fn is_held(kept: &Kept, slot: usize, packet: &[u8]) -> bool {
    let length = kept.table.slots[slot].length;
    let held = &kept.store()[slot_bytes(slot)];
    length == packet.len() as u64 && held.get(..packet.len()) == Some(packet)
}

/// The lowest live slot from this one on, or 64.
pub fn next(table: &Table, from: usize) -> usize {
    let is_live = |slot: &usize| *slot >= from && table.slots[*slot].live != 0;
    (0..SLOTS).filter(is_live).min().unwrap_or(SLOTS)
}
