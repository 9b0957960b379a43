//! Headers, lengths, sums and filler: refusals 2 to 14, each given by its number.
use super::rules::{body_at, check_values, has_secondary, sum_width, TimeRule, Values};
use super::units::{all_zero, header_sum, read16, read32, read64, sum16, sum32, sum8};

pub const SYNC: [u8; 2] = [0x25, 0xEB];

/// Where body, filler and sum begin, counted from the packet's first byte, and its length.
#[derive(Clone, Copy)]
pub struct Layout {
    pub body: usize,
    pub filler: usize,
    pub sum: usize,
    pub length: usize,
}

/// The layout that a header says.
pub fn measure(head: &[u8]) -> Layout {
    let flags = head[14];
    let length = read32(head, 4) as usize;
    let body = body_at(flags);
    Layout {
        body,
        filler: body + read32(head, 8) as usize,
        sum: length - sum_width(flags),
        length,
    }
}

/// The first of 2 to 14 that applies.
#[cfg_attr(feature = "inlined", inline(always))]
pub fn check_frame(window: &[u8]) -> Result<(), u8> {
    let head = check_head(window)?;
    check_header_values(head)?;
    let layout = measure(head);
    let packet = window.get(..layout.length).ok_or(10)?;
    let flags = head[14];
    if has_secondary(flags) {
        check_secondary(&packet[24..36], flags)?;
    }
    check_trailer(packet, flags, &layout)
}

/// 2 to 4, or the primary header.
fn check_head(window: &[u8]) -> Result<&[u8; 24], u8> {
    let head: &[u8; 24] = window.get(..24).ok_or(2)?.try_into().unwrap();
    if head[..2] != SYNC {
        return Err(3);
    }
    if header_sum(&head[..22]) != read16(head, 22) {
        return Err(4);
    }
    Ok(head)
}

/// 5 to 9.
fn check_header_values(head: &[u8; 24]) -> Result<(), u8> {
    check_values(&Values {
        channel: read16(head, 2),
        version: head[12],
        flags: head[14],
        kind: head[15],
        length: u64::from(read32(head, 4)),
        data_length: u64::from(read32(head, 8)),
    })
}

/// 11 and 12.
fn check_secondary(secondary: &[u8], flags: u8) -> Result<(), u8> {
    if header_sum(&secondary[..10]) != read16(secondary, 10) {
        return Err(11);
    }
    if read16(secondary, 8) != 0 || !TimeRule::absolute(flags).admits(read64(secondary, 0)) {
        return Err(12);
    }
    Ok(())
}

/// 13 and 14.
fn check_trailer(packet: &[u8], flags: u8, layout: &Layout) -> Result<(), u8> {
    let summed = &packet[layout.body..layout.sum];
    if data_sum(summed, flags) != stored_sum(packet, flags) {
        return Err(13);
    }
    if !all_zero(&packet[layout.filler..layout.sum]) {
        return Err(14);
    }
    Ok(())
}

/// The sum of body and filler, of the width that the flags say; 0 if there is none.
pub fn data_sum(summed: &[u8], flags: u8) -> u32 {
    match flags & 3 {
        0 => 0,
        1 => u32::from(sum8(summed)),
        2 => u32::from(sum16(summed)),
        _ => sum32(summed),
    }
}

/// The data sum as stored, the last bytes of the packet; 0 if there is none.
pub fn stored_sum(packet: &[u8], flags: u8) -> u32 {
    let last_four = read32(packet, packet.len() - 4);
    (u64::from(last_four) >> (32 - 8 * sum_width(flags))) as u32
}
