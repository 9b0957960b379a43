//! A packet as its parts, each of which can be bent on its own; sums and lengths are right unless they are bent themselves.

use crate::opened::{Fault, Opened, MESSAGE, UART};
use crate::random::Random;

/// "Defined types: [...] That is 35"
pub const TYPES: [u64; 35] = [
    0x00, 0x01, 0x02, 0x03, 0x04, 0x09, 0x0A, 0x11, 0x12, 0x19, 0x1A, 0x21, 0x29, 0x30, 0x38, 0x40,
    0x41, 0x42, 0x43, 0x44, 0x48, 0x49, 0x4A, 0x50, 0x58, 0x59, 0x60, 0x68, 0x69, 0x70, 0x71, 0x72,
    0x78, 0x79, 0x7A,
];

/// "Case L, input in hex"
pub const CASE_L: [u8; 40] = [
    0x25, 0xEB, 0x01, 0x00, 0x28, 0x00, 0x00, 0x00, 0x0C, 0x00, 0x00, 0x00, 0x06, 0x00, 0x02, 0x50,
    0x01, 0x00, 0x00, 0x00, 0x00, 0x00, 0x63, 0x3B, 0x00, 0x00, 0x00, 0x00, 0x03, 0x00, 0x00, 0x00,
    0x41, 0x42, 0x43, 0x00, 0x00, 0x00, 0x87, 0x42,
];

/// "1,000,000,000" nanoseconds are one second.
const SECOND: u64 = 1_000_000_000;

/// Bends a window: start, end and buffer length to start and end.
pub type BendWindow = fn(usize, usize, usize) -> (usize, usize);

/// Gives a base by the greatest one that is not refused.
pub type ChooseBase = fn(u64) -> u64;

#[derive(Clone, Debug, Default)]
pub struct Recipe {
    pub sync: u64,
    pub channel: u64,
    pub version: u64,
    pub sequence: u64,
    pub flags: u64,
    pub kind: u64,
    pub rtc: u64,
    pub time: u64,
    /// P and D as they are put down, where they aren't the right ones.
    pub length: Option<u64>,
    pub data_length: Option<u64>,
    /// What is added to each right sum.
    pub header_sum_off: u64,
    pub secondary_sum_off: u64,
    pub data_sum_off: u64,
    /// The secondary header's reserved bytes.
    pub reserved: u64,
    pub body: Vec<u8>,
    pub filler: [u8; 3],
    /// The body's fault of layout, where it has one.
    pub fault: Fault,
    /// How many of the packet's bytes are in the window, where not all.
    pub kept: Option<fn(usize) -> usize>,
    pub window: Option<BendWindow>,
    /// The window's base, where it isn't any that is not refused.
    pub base: Option<ChooseBase>,
    /// The output lent to the writer, where it isn't P.
    pub output: Option<fn(usize) -> usize>,
}

/// A buffer with a window in it, and the window's base: where it starts in the recording.
#[derive(Clone, Debug)]
pub struct Placed {
    pub buf: Vec<u8>,
    pub start: usize,
    pub end: usize,
    pub base: u64,
}

/// Puts a little-endian number of `width` bytes behind the others.
pub fn put(bytes: &mut Vec<u8>, width: usize, number: u64) {
    bytes.extend_from_slice(&number.to_le_bytes()[..width]);
}

/// The sum of little-endian units of `width` bytes; its lowest `width` bytes are the sum "modulo 2 to that width".
fn sum_of_units(bytes: &[u8], width: usize) -> u64 {
    let number = |unit: &[u8]| {
        unit.iter()
            .rev()
            .fold(0, |n, byte| n << 8 | u64::from(*byte))
    };
    bytes.chunks(width).map(number).fold(0, u64::wrapping_add)
}

/// "bits 1-0 data sum (none, 8, 16, 32 bits)", in bytes.
pub fn sum_width(flags: u64) -> usize {
    [0, 1, 2, 4][(flags & 3) as usize]
}

/// Whether no rule refuses these flags: bit 6 only with bit 7, no time format 11.
fn are_legal(flags: &u64) -> bool {
    flags & 0x0C != 0x0C && flags & 0xC0 != 0x40
}

/// The flags that no rule refuses.
pub fn legal_flags() -> Vec<u64> {
    (0..256).filter(are_legal).collect()
}

/// The time rule of the secondary header: 2 Chapter 4, 3 IEEE 1588, 4 extended counter.
pub fn secondary_rule(flags: u64) -> u64 {
    2 + (flags >> 2 & 3)
}

/// "flag bit 6 clear means a value below 2^48 [rule 1]; set means the secondary time rule of the same format"
pub fn message_rule(flags: u64) -> u64 {
    if flags & 0x40 == 0 {
        1
    } else {
        secondary_rule(flags)
    }
}

/// A time that the rule accepts; 0 where none is stored (rule 0).
pub fn time_in_form(random: &mut Random, rule: u64) -> u64 {
    let wide = random.wide();
    let some = random.below(SECOND);
    match rule {
        0 => 0,
        1 => wide & 0xFFFF_FFFF_FFFF,
        2 => wide & !0xFFFF,
        3 => wide >> 32 << 32 | random.choose(&[0, 2, SECOND - 1, some]),
        _ => wide,
    }
}

/// A time that the rule refuses; for rules 1 to 3, since rule 4 accepts any.
pub fn time_out_of_form(random: &mut Random, rule: u64) -> u64 {
    let wide = random.wide();
    let bit = random.below(16);
    match rule {
        1 => random.choose(&[1 << 48, wide | 1 << (48 + bit)]),
        2 => wide & !0xFFFF | 1 << bit,
        3 => wide >> 32 << 32 | random.choose(&[SECOND, 0xFFFF_FFFF, SECOND + (wide & 0xFFFF)]),
        _ => panic!("rule {} has no form", rule),
    }
}

/// A time to try the builder's test with: out of form under rules 1 to 3; else not zero, which rule 0 refuses and rule 4 accepts.
pub fn time_to_try(random: &mut Random, rule: u64) -> u64 {
    match rule {
        1..=3 => time_out_of_form(random, rule),
        _ => random.wide().max(1),
    }
}

/// The time rule of an opened body under these flags; in 0x50 now and then none.
pub fn some_rule(random: &mut Random, kind: u64, flags: u64) -> u64 {
    if kind == UART && random.one_in(2) {
        0
    } else {
        message_rule(flags)
    }
}

impl Recipe {
    /// A sound packet of this type and these flags.
    pub fn sound(random: &mut Random, kind: u64, flags: u64) -> Recipe {
        let any_channel = 1 + random.below(65_535);
        let lowest = if kind == 0x01 || kind == 0x04 { 0 } else { 1 };
        let time = time_in_form(random, secondary_rule(flags));
        let mut recipe = Recipe {
            sync: 0xEB25,
            channel: random.choose(&[lowest, 1, 0xFFFF, 0x0100, any_channel]),
            version: 1 + random.below(9),
            sequence: random.below(256),
            flags,
            kind,
            rtc: random.wide() & 0xFFFF_FFFF_FFFF,
            time: if flags & 0x80 == 0 { 0 } else { time },
            ..Recipe::default()
        };
        recipe.give_sound_body(random);
        recipe
    }

    /// A sound packet of any type; most are of the opened ones.
    pub fn any(random: &mut Random) -> Recipe {
        let carried = random.choose(&TYPES);
        let kind = random.choose(&[MESSAGE, UART, carried]);
        let flags = random.choose(&legal_flags());
        Recipe::sound(random, kind, flags)
    }

    fn give_sound_body(&mut self, random: &mut Random) {
        if self.kind == MESSAGE || self.kind == UART {
            let rule = some_rule(random, self.kind, self.flags);
            let many = 1 + random.index(20);
            let count = random.choose(&[1, 1, 2, 3, many]);
            self.body = Opened::sound(random, self.kind, rule, count).bytes();
        } else {
            let most = random.choose(&[4, 8, 40, 40, 400]);
            let length = 1 + random.index(most);
            self.body = random.bytes(length);
        }
    }

    /// The number that the first of the rules of version, type and flags gives; 0 where none is broken.
    pub fn refused_field(&self) -> u64 {
        if !(1..=9).contains(&self.version) {
            5
        } else if !TYPES.contains(&self.kind) {
            6
        } else if !are_legal(&self.flags) {
            7
        } else {
            0
        }
    }

    /// The number for this packet with one unit changed and nothing else, by where that is; none is known of a body without data sum.
    pub fn number_for_change(&self, at: usize) -> Option<u64> {
        match at {
            0..=1 => Some(3),
            2..=23 => Some(4),
            _ if at < self.body_at() => Some(11),
            _ if self.flags & 3 != 0 => Some(13),
            _ => None,
        }
    }

    /// A refusal's distance from the packet's start, and its reason: those of the body's fault for 15, else none.
    pub fn fault_of(&self, number: u64) -> (usize, u64) {
        if number == 15 {
            (self.body_at() + self.fault.at, self.fault.reason)
        } else {
            (0, 0)
        }
    }

    /// Where the body starts in the packet.
    pub fn body_at(&self) -> usize {
        self.overhead() - sum_width(self.flags)
    }

    /// P without body and filler.
    pub fn overhead(&self) -> usize {
        let secondary = if self.flags & 0x80 == 0 { 0 } else { 12 };
        24 + secondary + sum_width(self.flags)
    }

    /// "Filler is the 0 to 3 bytes that make P a multiple of 4."
    pub fn filler_length(&self) -> usize {
        (4 - (self.overhead() + self.body.len()) % 4) % 4
    }

    /// "P = 24, plus 12 if bit 7 is set, plus D, plus filler, plus the sum's width in bytes."
    pub fn right_length(&self) -> usize {
        self.overhead() + self.body.len() + self.filler_length()
    }

    fn put_header(&self, bytes: &mut Vec<u8>) {
        let right_length = self.right_length() as u64;
        put(bytes, 2, self.sync);
        put(bytes, 2, self.channel);
        put(bytes, 4, self.length.unwrap_or(right_length));
        put(bytes, 4, self.data_length.unwrap_or(self.body.len() as u64));
        put(bytes, 1, self.version);
        put(bytes, 1, self.sequence);
        put(bytes, 1, self.flags);
        put(bytes, 1, self.kind);
        put(bytes, 6, self.rtc);
        let sum = sum_of_units(&bytes[..22], 2);
        put(bytes, 2, sum.wrapping_add(self.header_sum_off));
    }

    /// The whole packet.
    pub fn bytes(&self) -> Vec<u8> {
        let mut bytes = Vec::with_capacity(self.right_length());
        self.put_header(&mut bytes);
        if self.flags & 0x80 != 0 {
            put(&mut bytes, 8, self.time);
            put(&mut bytes, 2, self.reserved);
            let sum = sum_of_units(&bytes[24..34], 2);
            put(&mut bytes, 2, sum.wrapping_add(self.secondary_sum_off));
        }
        let body_at = bytes.len();
        bytes.extend_from_slice(&self.body);
        bytes.extend_from_slice(&self.filler[..self.filler_length()]);
        let width = sum_width(self.flags);
        if width > 0 {
            let sum = sum_of_units(&bytes[body_at..], width);
            put(&mut bytes, width, sum.wrapping_add(self.data_sum_off));
        }
        bytes
    }

    /// The packet somewhere in a buffer and in a recording, its window bent as the recipe says. Behind a packet that is cut stands its rest.
    pub fn placed(&self, random: &mut Random) -> Placed {
        let packet = self.bytes();
        let start = random.index(10);
        let mut buf = random.bytes(start);
        buf.extend_from_slice(&packet);
        let mut end = buf.len();
        if let Some(kept) = self.kept {
            end = start + kept(packet.len());
        } else if random.one_in(2) {
            buf.extend(leftovers(random));
            end = buf.len();
        }
        buf.extend(leftovers(random));
        let bend = self.window.unwrap_or(|start, end, _| (start, end));
        let (start, end) = bend(start, end, buf.len());
        let mut window = Placed::new(buf, start, end, 0).with_some_base(random);
        if let Some(choose) = self.base {
            window.base = choose(window.greatest_base());
        }
        window
    }

    /// The length of the output lent to the writer.
    pub fn output_length(&self) -> usize {
        self.output.unwrap_or(|length| length)(self.right_length())
    }
}

/// Bytes from an earlier use of the buffer: none, a whole packet, or any.
pub fn leftovers(random: &mut Random) -> Vec<u8> {
    match random.below(4) {
        0 => Vec::new(),
        1 => CASE_L.to_vec(),
        _ => {
            let count = 1 + random.index(30);
            random.bytes(count)
        }
    }
}

impl Placed {
    pub fn new(buf: Vec<u8>, start: usize, end: usize, base: u64) -> Placed {
        Placed {
            buf,
            start,
            end,
            base,
        }
    }

    /// A window over the whole of a buffer, at the recording's first byte.
    pub fn whole(buf: Vec<u8>) -> Placed {
        let end = buf.len();
        Placed::new(buf, 0, end, 0)
    }

    /// The same window with a base of any size that is not refused, often the greatest.
    pub fn with_some_base(mut self, random: &mut Random) -> Placed {
        self.base = random.wide().min(self.greatest_base());
        self
    }

    /// The same window in another buffer, at this start, with other bytes ahead of it and behind it.
    pub fn elsewhere(&self, random: &mut Random, start: usize) -> Placed {
        let mut buf = random.bytes(start);
        buf.extend_from_slice(&self.buf[self.start..self.end]);
        let end = buf.len();
        buf.extend(leftovers(random));
        Placed::new(buf, start, end, self.base)
    }

    /// The window with these bytes put in at its start.
    pub fn behind(&self, bytes: &[u8]) -> Placed {
        let mut longer = self.clone();
        longer.buf.splice(self.start..self.start, bytes.to_vec());
        longer.end += bytes.len();
        longer
    }

    pub fn is_within_buffer(&self) -> bool {
        self.start <= self.end && self.end <= self.buf.len()
    }

    /// "1 also where base plus window length would pass 2^64 - 1": the greatest base that is not refused. A window whose start is past its
    /// end has no length.
    pub fn greatest_base(&self) -> u64 {
        u64::MAX - self.end.saturating_sub(self.start) as u64
    }

    /// Whether none of 1's causes applies.
    pub fn is_taken(&self) -> bool {
        self.is_within_buffer() && self.base <= self.greatest_base()
    }

    /// The place in the recording of a place in the buffer: "a base that the caller gives, plus the distance from the window's start".
    pub fn in_recording(&self, place: u64) -> u64 {
        let distance = place.wrapping_sub(self.start as u64);
        self.base.wrapping_add(distance)
    }
}
