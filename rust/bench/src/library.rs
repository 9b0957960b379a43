//! The library's calls by their C interface, on slices.
use ch11::raw;

pub fn read_packet(bytes: &[u8], start: usize, end: usize, base: u64, packet: &mut raw::Packet) {
    // SAFETY: the pointers are good for their lengths and don't overlap.
    unsafe { raw::ch11_read_packet(bytes.as_ptr(), bytes.len(), start, end, base, packet) };
}

pub fn read_recording(
    bytes: &[u8],
    start: usize,
    end: usize,
    base: u64,
    recording: &mut raw::Recording,
) {
    // SAFETY: the pointers are good for their lengths and don't overlap.
    unsafe { raw::ch11_read_recording(bytes.as_ptr(), bytes.len(), start, end, base, recording) };
}

pub fn list_messages(
    bytes: &[u8],
    start: usize,
    end: usize,
    base: u64,
    starts: &mut [u32],
    lengths: &mut [u32],
    list: &mut raw::List,
) {
    // SAFETY: the pointers are good for their lengths and don't overlap.
    unsafe {
        raw::ch11_list_messages(
            bytes.as_ptr(),
            bytes.len(),
            start,
            end,
            base,
            starts.as_mut_ptr(),
            starts.len(),
            lengths.as_mut_ptr(),
            lengths.len(),
            list,
        )
    };
}

pub fn message(
    bytes: &[u8],
    start: usize,
    end: usize,
    base: u64,
    number: usize,
    message: &mut raw::Message,
) {
    // SAFETY: the pointers are good for their lengths and don't overlap.
    unsafe {
        raw::ch11_message(
            bytes.as_ptr(),
            bytes.len(),
            start,
            end,
            base,
            number,
            message,
        )
    };
}

pub fn write_packet(fields: &raw::Fields, body: &[u8], out: &mut [u8], written: &mut raw::Written) {
    // SAFETY: the pointers are good for their lengths and don't overlap.
    unsafe {
        raw::ch11_write_packet(
            fields,
            body.as_ptr(),
            body.len(),
            out.as_mut_ptr(),
            out.len(),
            written,
        )
    };
}

pub fn renewal_add(
    table: &mut raw::Table,
    store: &mut [u8],
    (recording, place): (u64, u64),
    bytes: &[u8],
    start: usize,
    end: usize,
    added: &mut raw::Added,
) {
    // SAFETY: the pointers are good for their lengths and don't overlap.
    unsafe {
        raw::ch11_renewal_add(
            table,
            store.as_mut_ptr(),
            store.len(),
            recording,
            place,
            bytes.as_ptr(),
            bytes.len(),
            start,
            end,
            added,
        )
    };
}

pub fn renewal_renew(
    table: &mut raw::Table,
    store: &[u8],
    (recording, place): (u64, u64),
    bytes: &[u8],
    start: usize,
    end: usize,
    renewed: &mut raw::Renewed,
) {
    // SAFETY: the pointers are good for their lengths and don't overlap.
    unsafe {
        raw::ch11_renewal_renew(
            table,
            store.as_ptr(),
            store.len(),
            recording,
            place,
            bytes.as_ptr(),
            bytes.len(),
            start,
            end,
            renewed,
        )
    };
}

/// The number of messages in the packet at the start of a window; 0 if it is refused.
pub fn count_messages(bytes: &[u8], start: usize, end: usize) -> usize {
    let mut list = raw::List::default();
    list_messages(bytes, start, end, 0, &mut [], &mut [], &mut list);
    list.refusal.room as usize
}
