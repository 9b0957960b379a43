//! Bodies of the two opened types, block by block, so that each rule of their layout can be broken on its own.

use crate::random::Random;
use crate::recipe::{put, time_in_form, time_out_of_form};

pub const MESSAGE: u64 = 0x30;
pub const UART: u64 = 0x50;

/// "a time stamp of 8 bytes [...], an ID word of 4, then n bytes, then one zero pad byte if n is odd"
#[derive(Clone, Debug)]
pub struct Block {
    pub time: u64,
    pub upper: u64,
    pub n: u64,
    pub bytes: Vec<u8>,
    pub pad: Vec<u8>,
}

/// Where a body breaks its layout, counted from its first byte, and by which rule: "1 channel word (or under 4 bytes), 2 block cut short,
/// 3 time, 4 length zero, 5 pad not zero, 6 bytes after the counted blocks, 7 body ends where a block must begin".
#[derive(Clone, Copy, Debug, Default, PartialEq, Eq)]
pub struct Fault {
    pub at: usize,
    pub reason: u64,
}

/// How one block breaks the layout, in none, one or several ways.
#[derive(Clone, Copy, Debug, Default)]
pub struct Flaws {
    /// n, which may be 0.
    pub n: usize,
    /// Its time is out of form, where a time is stored that has one.
    pub mistimed: bool,
    /// Its pad, where n is odd.
    pub pad: u8,
    /// The bytes that are missing at its end, which is then the body's; up to the whole block.
    pub missing: usize,
}

#[derive(Clone, Debug)]
pub struct Opened {
    pub kind: u64,
    pub channel_word: u64,
    pub stamped: bool,
    pub blocks: Vec<Block>,
    /// Bytes behind the last block.
    pub leftover: Vec<u8>,
    /// Bytes taken off the end.
    pub cut: usize,
}

impl Block {
    pub fn sound(random: &mut Random, rule: u64, n: usize) -> Block {
        Block {
            time: time_in_form(random, rule),
            upper: random.choose(&[0, 0x4000, 0x8000, 0xFFFF, 0x1234]),
            n: n as u64,
            bytes: random.bytes(n),
            pad: vec![0; n % 2],
        }
    }
}

impl Flaws {
    /// None, one or several, by chance.
    pub fn some(random: &mut Random) -> Flaws {
        let missing = 1 + random.index(4);
        Flaws {
            n: random.choose(&[0, 1, 2, 3]),
            mistimed: random.one_in(2),
            pad: random.choose(&[0, 1, 0x80, 0xFF]),
            missing: random.choose(&[0, 0, missing]),
        }
    }
}

/// A message length: mostly small, odd and even; "1 to 65,535".
pub fn some_n(random: &mut Random) -> usize {
    match random.below(1000) {
        0 => random.choose(&[65_535, 65_534, 256, 4096]),
        1..=30 => 100 + random.index(300),
        31..=500 => 1 + random.index(3),
        _ => 1 + random.index(14),
    }
}

/// A sound channel word for so many blocks; in 0x30 of any type and counter that suits them.
fn sound_channel_word(random: &mut Random, kind: u64, stamped: bool, count: u64) -> u64 {
    if kind == UART {
        return if stamped { 0x8000_0000 } else { 0 };
    }
    let message_type = if count == 1 { random.below(4) } else { 0 };
    let counter = match message_type {
        0 | 1 => count,
        _ => random.choose(&[2, 3, 255, 256, 65_535]),
    };
    message_type << 16 | counter
}

impl Opened {
    /// A sound body of so many blocks under this time rule; rule 0 stores no times.
    pub fn sound(random: &mut Random, kind: u64, rule: u64, count: usize) -> Opened {
        let stamped = rule != 0;
        let blocks = (0..count)
            .map(|_| {
                let n = some_n(random);
                Block::sound(random, rule, n)
            })
            .collect();
        Opened {
            kind,
            channel_word: sound_channel_word(random, kind, stamped, count as u64),
            stamped,
            blocks,
            leftover: Vec::new(),
            cut: 0,
        }
    }

    /// Where the block of this number starts, or would start, in the body.
    pub fn block_at(&self, number: usize) -> usize {
        let head = if self.stamped { 12 } else { 4 };
        let whole = |block: &Block| head + block.bytes.len() + block.pad.len();
        4 + self.blocks[..number].iter().map(whole).sum::<usize>()
    }

    /// The block of this number breaks this rule.
    pub fn fault_in(&self, number: usize, reason: u64) -> Fault {
        let at = self.block_at(number);
        Fault { at, reason }
    }

    /// A count of blocks that isn't theirs: the block of this number is missing, or left over.
    pub fn miscounted(&self, number: usize) -> Fault {
        self.fault_in(number, if number < self.blocks.len() { 6 } else { 7 })
    }

    /// Gives a block of this body, which is under this time rule, these flaws, and answers the fault: "For a block that breaks several, the
    /// lowest number from 2 to 5 wins." A block that is missing whole, behind others, is no fault in 0x50.
    pub fn flaw(
        &mut self,
        random: &mut Random,
        rule: u64,
        number: usize,
        flaws: Flaws,
    ) -> Option<Fault> {
        let mut block = Block::sound(random, rule, flaws.n);
        let mistimed = flaws.mistimed && (1..=3).contains(&rule);
        if mistimed {
            block.time = time_out_of_form(random, rule);
        }
        block.pad.fill(flaws.pad);
        self.blocks[number] = block;
        let size = self.block_at(number + 1) - self.block_at(number);
        if flaws.missing > 0 {
            self.blocks.truncate(number + 1);
            self.cut = flaws.missing;
        }
        let rules = [
            (flaws.missing == size, 7),
            (flaws.missing > 0, 2),
            (mistimed, 3),
            (flaws.n == 0, 4),
            (flaws.n % 2 == 1 && flaws.pad != 0, 5),
        ];
        let (_, reason) = rules.iter().find(|(is_broken, _)| *is_broken)?;
        let at_end = *reason == 7 && self.kind == UART && number > 0;
        Some(self.fault_in(number, *reason)).filter(|_| !at_end)
    }

    /// The fault of a 0x30 body of which the channel word, the count of blocks or an n of 0 may be at fault; nothing where it is sound.
    /// The channel word is looked at first, then the blocks from the first.
    pub fn message_fault(&self) -> Option<Fault> {
        let counter = self.channel_word & 0xFFFF;
        let (word_is_sound, wanted) = match self.channel_word >> 16 {
            0 => (counter >= 1, counter as usize),
            1 => (counter == 1, 1),
            2 | 3 => (counter >= 2, 1),
            _ => (false, 0),
        };
        if !word_is_sound {
            return Some(Fault { at: 0, reason: 1 });
        }
        let count = self.blocks.len();
        let empty = self.blocks.iter().position(|block| block.n == 0);
        match empty {
            Some(number) if number < wanted => Some(self.fault_in(number, 4)),
            _ if wanted != count => Some(self.miscounted(wanted.min(count))),
            _ => None,
        }
    }

    pub fn bytes(&self) -> Vec<u8> {
        let mut body = Vec::new();
        put(&mut body, 4, self.channel_word);
        for block in &self.blocks {
            if self.stamped {
                put(&mut body, 8, block.time);
            }
            put(&mut body, 2, block.n);
            put(&mut body, 2, block.upper);
            body.extend_from_slice(&block.bytes);
            body.extend_from_slice(&block.pad);
        }
        body.extend_from_slice(&self.leftover);
        body.truncate(body.len() - self.cut);
        body
    }
}
