//! Packets that the tests share.

/// Case L.
pub const CASE_L: [u8; 40] = [
    0x25, 0xEB, 0x01, 0x00, 0x28, 0x00, 0x00, 0x00, 0x0C, 0x00, 0x00, 0x00, 0x06, 0x00, 0x02, 0x50,
    0x01, 0x00, 0x00, 0x00, 0x00, 0x00, 0x63, 0x3B, 0x00, 0x00, 0x00, 0x00, 0x03, 0x00, 0x00, 0x00,
    0x41, 0x42, 0x43, 0x00, 0x00, 0x00, 0x87, 0x42,
];

/// Puts the right header sum into a packet.
pub fn mend_header(packet: &mut [u8]) {
    let mut sum: u16 = 0;
    for i in 0..11 {
        sum = sum.wrapping_add(u16::from_le_bytes([packet[2 * i], packet[2 * i + 1]]));
    }
    packet[22..24].copy_from_slice(&sum.to_le_bytes());
}

/// A packet with these bytes as its body and no sum, written by hand. A
/// secondary header is all zeros, which every time format allows.
pub fn by_hand(kind: u8, flags: u8, body: &[u8]) -> Vec<u8> {
    let mut packet = vec![0; body_at(flags)];
    packet[0] = 0x25;
    packet[1] = 0xEB;
    packet[2] = 1;
    packet[8..12].copy_from_slice(&(body.len() as u32).to_le_bytes());
    packet[12] = 6;
    packet[14] = flags;
    packet[15] = kind;
    packet.extend_from_slice(body);
    while packet.len() % 4 != 0 {
        packet.push(0);
    }
    let length = packet.len() as u32;
    packet[4..8].copy_from_slice(&length.to_le_bytes());
    mend_header(&mut packet);
    packet
}

/// Where the body starts, counted from the packet's first byte.
pub fn body_at(flags: u8) -> usize {
    if flags & 0x80 != 0 {
        36
    } else {
        24
    }
}
