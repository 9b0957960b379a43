//! Little-endian numbers in byte slices, and sums of units.
use std::iter::Zip;
use std::ops::Range;
use std::slice::ChunksExact;

pub fn read16(bytes: &[u8], at: usize) -> u16 {
    u16::from_le_bytes(bytes[at..at + 2].try_into().unwrap())
}

pub fn read32(bytes: &[u8], at: usize) -> u32 {
    u32::from_le_bytes(bytes[at..at + 4].try_into().unwrap())
}

pub fn read48(bytes: &[u8], at: usize) -> u64 {
    u64::from(read32(bytes, at)) | u64::from(read16(bytes, at + 4)) << 32
}

pub fn read64(bytes: &[u8], at: usize) -> u64 {
    u64::from_le_bytes(bytes[at..at + 8].try_into().unwrap())
}

/// Puts bytes down from `at` on.
pub fn put(bytes: &mut [u8], at: usize, source: &[u8]) {
    bytes[at..at + source.len()].copy_from_slice(source);
}

pub fn all_zero(bytes: &[u8]) -> bool {
    bytes.iter().all(|&byte| byte == 0)
}

/// The sum of the bytes, modulo 2^8.
pub fn sum8(bytes: &[u8]) -> u8 {
    bytes.iter().fold(0, |sum, &unit| sum.wrapping_add(unit))
}

/// The sum of the words of a header, modulo 2^16.
pub fn header_sum(words: &[u8]) -> u16 {
    words.chunks_exact(2).fold(0, |sum, word| {
        sum.wrapping_add(u16::from_le_bytes(word.try_into().unwrap()))
    })
}

/// The sum of the whole units of 2 bytes, modulo 2^16.
pub fn sum16(bytes: &[u8]) -> u16 {
    counted(bytes.chunks_exact(2)).fold(0, |sum, (_, unit)| {
        sum.wrapping_add(u16::from_le_bytes(unit.try_into().unwrap()))
    })
}

/// The sum of the whole units of 4 bytes, modulo 2^32.
pub fn sum32(bytes: &[u8]) -> u32 {
    counted(bytes.chunks_exact(4)).fold(0, |sum, (_, unit)| {
        sum.wrapping_add(u32::from_le_bytes(unit.try_into().unwrap()))
    })
}

/// The sum of the whole units of 8 bytes, modulo 2^64.
pub fn sum64(bytes: &[u8]) -> u64 {
    counted(bytes.chunks_exact(8)).fold(0, |sum, (_, unit)| {
        sum.wrapping_add(u64::from_le_bytes(unit.try_into().unwrap()))
    })
}

/// Each unit with its number: Rust 1.63 makes vector code of such a loop, and of one over the units alone it does not.
fn counted(units: ChunksExact<u8>) -> Zip<Range<usize>, ChunksExact<u8>> {
    (0..units.len()).zip(units)
}
