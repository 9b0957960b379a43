//! Bodies, and the packets that the library's writer makes of them.
use crate::library;
use ch11::raw;

/// Numbers without a pattern, the same in every run.
pub struct Noise {
    state: u64,
}

impl Noise {
    pub fn new() -> Noise {
        Noise {
            state: 0x2545_F491_4F6C_DD1D,
        }
    }

    pub fn next(&mut self) -> u64 {
        self.state ^= self.state << 13;
        self.state ^= self.state >> 7;
        self.state ^= self.state << 17;
        self.state
    }

    /// A number below the limit.
    pub fn below(&mut self, limit: usize) -> usize {
        (self.next() >> 32) as usize % limit
    }

    pub fn bytes(&mut self, length: usize) -> Vec<u8> {
        (0..length).map(|_| (self.next() >> 32) as u8).collect()
    }
}

/// Bytes without a pattern.
pub fn noise(length: usize) -> Vec<u8> {
    Noise::new().bytes(length)
}

/// The fields that the packets of the inputs have in common.
pub fn fields(flags: u8, kind: u8, time: u64) -> raw::Fields {
    raw::Fields {
        channel: 1,
        version: 6,
        flags: u64::from(flags),
        kind: u64::from(kind),
        rtc: 0x1234_5678_9ABC,
        time,
        ..raw::Fields::default()
    }
}

/// The packet of these fields and this body.
pub fn packet(fields: &raw::Fields, body: &[u8]) -> Vec<u8> {
    let mut out = vec![0; body.len() + 44];
    let mut written = raw::Written::default();
    library::write_packet(fields, body, &mut out, &mut written);
    assert_eq!(written.refusal.number, 0, "the packet is written");
    out.truncate(written.length as usize);
    out
}

/// A carried packet of this length, type 0x40, without a sum.
pub fn carried(length: usize) -> Vec<u8> {
    let carried = packet(&fields(0x00, 0x40, 0), &noise(length - 24));
    assert_eq!(carried.len(), length);
    carried
}

/// Adds a block to an opened body: its time stamp (if it has one), its ID word and its bytes.
pub fn add_block(body: &mut Vec<u8>, time: Option<u64>, bytes: &[u8]) {
    if let Some(time) = time {
        body.extend(time.to_le_bytes());
    }
    body.extend((bytes.len() as u32).to_le_bytes());
    body.extend(bytes);
    body.resize(body.len() + bytes.len() % 2, 0);
}

/// The body of case L: one message of 3 bytes, no times.
pub fn case_l_body() -> Vec<u8> {
    vec![0, 0, 0, 0, 3, 0, 0, 0, 0x41, 0x42, 0x43, 0]
}

/// A 0x30 body of this many messages of 1 to 64 bytes, odd and even.
pub fn message_body(messages: usize) -> Vec<u8> {
    let mut body = (messages as u32).to_le_bytes().to_vec();
    for number in 0..messages {
        let bytes = noise(1 + number * 29 % 64);
        add_block(&mut body, Some(1_000 * number as u64), &bytes);
    }
    body
}

/// A 0x50 body of 36 bytes: two messages with times, of 5 and 2 bytes.
pub fn small_uart_body() -> Vec<u8> {
    let mut body = 0x8000_0000_u32.to_le_bytes().to_vec();
    add_block(&mut body, Some(1_000), &noise(5));
    add_block(&mut body, Some(2_000), &noise(2));
    body
}

/// A 0x30 body of this length (an even one) full of messages of 64 to 200 bytes, odd and even.
pub fn full_message_body(length: usize) -> Vec<u8> {
    const HEAD: usize = 12;
    let mut noise = Noise::new();
    let mut body = vec![0; 4];
    let mut messages = 0_u32;
    while body.len() < length {
        let left = length - body.len();
        let bytes = match left {
            // The last two share what is left.
            213..=424 => left / 4 * 2 - HEAD,
            0..=212 => left - HEAD,
            _ => 64 + noise.below(137),
        };
        let bytes = noise.bytes(bytes);
        add_block(&mut body, Some(1_000 * u64::from(messages)), &bytes);
        messages += 1;
    }
    body[..4].copy_from_slice(&messages.to_le_bytes());
    body
}
