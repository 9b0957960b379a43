//! The calls of the C interface, safe to call: the only unsafe code here. Each result is lent full of garbage, so that a field that
//! isn't written shows.

use ch11::raw::*;
use generate::recipe::Placed;
use std::mem::MaybeUninit;

/// A result struct of the interface, every byte 0x5A. These structs are made of 64-bit numbers only, so that any bytes are a value.
fn garbage<T: Copy + Default>() -> T {
    let mut result = MaybeUninit::<T>::uninit();
    unsafe {
        result.as_mut_ptr().write_bytes(0x5A, 1);
        result.assume_init()
    }
}

/// Makes a call whose result comes last. Pointers are those of slices given with their lengths, and of structs.
macro_rules! call {
    ($call:ident: $($argument:expr),+) => {{
        let mut result = garbage();
        let returned = unsafe { $call($($argument),+, &mut result) };
        (returned, result)
    }};
}

pub fn read_packet(w: &Placed) -> (u64, Packet) {
    call!(ch11_read_packet: w.buf.as_ptr(), w.buf.len(), w.start, w.end, w.base)
}

pub fn list_messages(w: &Placed, starts: &mut [u32], lengths: &mut [u32]) -> (u64, List) {
    let (first, second) = (starts.as_mut_ptr(), lengths.as_mut_ptr());
    call!(ch11_list_messages: w.buf.as_ptr(), w.buf.len(), w.start, w.end, w.base, first, starts.len(), second, lengths.len())
}

pub fn message(w: &Placed, number: usize) -> (u64, Message) {
    call!(ch11_message: w.buf.as_ptr(), w.buf.len(), w.start, w.end, w.base, number)
}

pub fn read_recording(w: &Placed) -> (u64, Recording) {
    call!(ch11_read_recording: w.buf.as_ptr(), w.buf.len(), w.start, w.end, w.base)
}

pub fn write_packet(fields: &Fields, body: &[u8], out: &mut [u8]) -> (u64, Written) {
    call!(ch11_write_packet: fields, body.as_ptr(), body.len(), out.as_mut_ptr(), out.len())
}

/// A state with garbage for the refusal of the step before.
pub fn draft(used: u64, blocks: u64, kind: u64, rule: u64) -> Draft {
    let refusal = garbage();
    Draft {
        refusal,
        used,
        blocks,
        kind,
        rule,
    }
}

pub fn open(mut draft: Draft, buf: &mut [u8], kind: u64, rule: u64) -> (u64, Draft) {
    let returned = unsafe { ch11_open(&mut draft, buf.as_mut_ptr(), buf.len(), kind, rule) };
    (returned, draft)
}

pub fn add(mut draft: Draft, buf: &mut [u8], time: u64, upper: u64, bytes: &[u8]) -> (u64, Draft) {
    let (start, length, from) = (buf.as_mut_ptr(), buf.len(), bytes.as_ptr());
    let returned = unsafe { ch11_add(&mut draft, start, length, time, upper, from, bytes.len()) };
    (returned, draft)
}

pub fn close(mut draft: Draft, buf: &mut [u8]) -> (u64, Draft) {
    let returned = unsafe { ch11_close(&mut draft, buf.as_mut_ptr(), buf.len()) };
    (returned, draft)
}

/// The table and the store are lent as they are; the place in the name is the window's base.
pub fn renewal_add(
    table: &mut Table,
    store: &mut [u8],
    recording: u64,
    w: &Placed,
) -> (u64, Added) {
    let (at, length) = (store.as_mut_ptr(), store.len());
    call!(ch11_renewal_add: table, at, length, recording, w.base, w.buf.as_ptr(), w.buf.len(), w.start, w.end)
}

/// The store is lent to be read alone; it could be written to, so that a byte that is written shows.
pub fn renewal_renew(
    table: &mut Table,
    store: &mut [u8],
    recording: u64,
    w: &Placed,
) -> (u64, Renewed) {
    let (at, length) = (store.as_mut_ptr(), store.len());
    call!(ch11_renewal_renew: table, at, length, recording, w.base, w.buf.as_ptr(), w.buf.len(), w.start, w.end)
}

pub fn renewal_next(table: &Table, from: usize) -> usize {
    unsafe { ch11_renewal_next(table, from) }
}
