//! The renewal table, lent as the library takes it, and the packets' bytes in a lent store.
use super::units::{put, read16, read32, read48};
use super::{check_packet, refuse, window_in, Refusal};
use ch11::raw::{Entry, Table, SLOT_BYTES, STORE_BYTES};

/// What becomes of an entry: it lives on, or it is dropped, with the reader's refusal if that is why.
pub enum Renewed {
    Lives,
    Dropped(Option<Refusal>),
}

/// Adds the packet at the start of a window, which is at this place of the recording, and gives its slot: the name's own, or the lowest
/// free one. 16, the reader's refusals, 21, then 19.
#[inline(never)]
pub fn add(
    table: &mut Table,
    store: &mut [u8],
    recording: u64,
    place: u64,
    buffer: &[u8],
    start: usize,
    end: usize,
) -> Result<usize, Refusal> {
    check_store(store, start, place)?;
    let window = window_in(buffer, start, end, place)?;
    check_packet(window).map_err(|fault| fault.told(start, place))?;
    let packet = own_bytes(window);
    if packet.len() > SLOT_BYTES {
        return Err(refuse(21, start, place));
    }
    let slot = slot_of(table, recording, place)
        .or_else(|| table.slots.iter().position(|entry| entry.live == 0))
        .ok_or_else(|| refuse(19, start, place))?;
    put(store, slot * SLOT_BYTES, packet);
    table.slots[slot] = entry_of(packet, recording, place);
    Ok(slot)
}

/// Renews the entry of this name by the packet at the start of a window. 16, 20, then 1; the reader's other refusals drop the entry.
#[inline(never)]
pub fn renew(
    table: &mut Table,
    store: &[u8],
    recording: u64,
    place: u64,
    buffer: &[u8],
    start: usize,
    end: usize,
) -> Result<Renewed, Refusal> {
    check_store(store, start, place)?;
    let slot = slot_of(table, recording, place).ok_or_else(|| refuse(20, start, place))?;
    let window = window_in(buffer, start, end, place)?;
    let cause = match check_packet(window) {
        Ok(_) if held_bytes(table, store, slot) == Some(own_bytes(window)) => {
            return Ok(Renewed::Lives)
        }
        Ok(_) => None,
        Err(fault) => Some(fault.told(start, place)),
    };
    table.slots[slot] = Entry::default();
    Ok(Renewed::Dropped(cause))
}

/// 16, with the whole store as the room needed.
fn check_store(store: &[u8], start: usize, place: u64) -> Result<(), Refusal> {
    if store.len() < STORE_BYTES {
        return Err(Refusal {
            room: STORE_BYTES,
            ..refuse(16, start, place)
        });
    }
    Ok(())
}

/// The bytes of the packet at the window's first byte.
fn own_bytes(window: &[u8]) -> &[u8] {
    &window[..read32(window, 4) as usize]
}

/// The lowest slot whose entry has this name and lives.
fn slot_of(table: &Table, recording: u64, place: u64) -> Option<usize> {
    table
        .slots
        .iter()
        .position(|entry| entry.live != 0 && entry.recording == recording && entry.place == place)
}

/// The bytes that the entry of a slot holds, or nothing if its P doesn't fit the slot.
fn held_bytes<'a>(table: &Table, store: &'a [u8], slot: usize) -> Option<&'a [u8]> {
    let length = table.slots[slot].length as usize;
    store[slot * SLOT_BYTES..][..SLOT_BYTES].get(..length)
}

fn entry_of(packet: &[u8], recording: u64, place: u64) -> Entry {
    Entry {
        live: 1,
        recording,
        place,
        length: packet.len() as u64,
        channel: u64::from(read16(packet, 2)),
        sequence: u64::from(packet[13]),
        rtc: read48(packet, 16),
    }
}
