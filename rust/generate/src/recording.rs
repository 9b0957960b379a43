//! Runs of packets, sound and damaged, and packets with chance faults under right sums.

use crate::causes::{causes, with_faults, Cause};
use crate::opened::{Block, Flaws, Opened, MESSAGE, UART};
use crate::random::Random;
use crate::recipe::{some_rule, Recipe, CASE_L, TYPES};

/// A packet with chance values in some of its parts, all sums right.
pub fn chance_recipe(random: &mut Random) -> Recipe {
    let mut recipe = Recipe::any(random);
    let odds = random.choose(&[2, 6, 12]);
    for part in 0..12 {
        if random.one_in(odds) {
            bend_by_chance(&mut recipe, random, part);
        }
    }
    recipe
}

/// Gives one part of a packet a chance value.
fn bend_by_chance(recipe: &mut Recipe, random: &mut Random, part: u64) {
    match part {
        0 => recipe.channel = random.choose(&[0, 1, 0xFFFF]),
        1 => recipe.version = random.below(12),
        2 => recipe.flags = random.below(256),
        3 => recipe.kind = random.below(128),
        4 => recipe.rtc = random.wide() & 0xFFFF_FFFF_FFFF,
        5 => recipe.time = random.wide(),
        6 => recipe.length = Some(chance_length(random, recipe.right_length() as u64)),
        7 => recipe.data_length = Some(chance_length(random, recipe.body.len() as u64)),
        8 => recipe.reserved = random.choose(&[0, 0, 1, 0x100]),
        9 => recipe.filler[random.index(3)] = random.bits() as u8,
        10 => recipe.body = chance_body(random, &recipe.body),
        _ if recipe.kind == MESSAGE || recipe.kind == UART => {
            recipe.body = flawed_body(random, recipe.kind, recipe.flags);
        }
        _ => {}
    }
}

/// An opened body of which one or two blocks have flaws.
fn flawed_body(random: &mut Random, kind: u64, flags: u64) -> Vec<u8> {
    let rule = some_rule(random, kind, flags);
    let count = 1 + random.index(4);
    let mut body = Opened::sound(random, kind, rule, count);
    for _ in 0..1 + random.below(2) {
        let (number, flaws) = (random.index(body.blocks.len()), Flaws::some(random));
        body.flaw(random, rule, number, flaws);
    }
    body.bytes()
}

/// A length at, near or far from the right one.
fn chance_length(random: &mut Random, right: u64) -> u64 {
    let near = (right + random.below(9)).saturating_sub(4);
    let wide = random.wide() & 0xFFFF_FFFF;
    let highest = u64::from(u32::MAX) - random.below(64);
    random.choose(&[right, near, near, wide, highest])
}

/// A body with a bit changed, with bytes taken off or put on, or of chance bytes, all of them or a few.
fn chance_body(random: &mut Random, body: &[u8]) -> Vec<u8> {
    let mut bent = body.to_vec();
    let at = random.index(body.len().max(1));
    let chance = random.bytes(1 + at % 60);
    match random.below(6) {
        0 => bent.truncate(at),
        1 => bent.extend(vec![0; 1 + at % 13]),
        2 => bent = chance,
        3 => {
            let few = |byte: &u8| if byte % 3 == 0 { byte % 4 } else { 0 };
            bent = chance.iter().map(few).collect();
        }
        _ => bent[at] ^= 1 << random.below(8),
    }
    bent
}

/// Some small packets: each sum width, with and without a secondary header, opened and carried.
pub fn small_packets(random: &mut Random) -> Vec<Recipe> {
    let flags = [0x00, 0x01, 0x82, 0xC7, 0x8B, 0x03, 0xC2];
    let kinds = [MESSAGE, UART, MESSAGE, UART, 0x11, UART, MESSAGE];
    let mut packets = Vec::new();
    while packets.len() < flags.len() {
        let recipe = Recipe::sound(random, kinds[packets.len()], flags[packets.len()]);
        if (20..60).contains(&recipe.body.len()) {
            packets.push(recipe);
        }
    }
    packets
}

/// Some faults of the table, none to two.
pub fn some_faults(random: &mut Random, all: &[Cause]) -> Vec<Cause> {
    (0..random.below(3)).map(|_| random.choose(all)).collect()
}

/// The packets of a recording, with damage in none, one or some of them, and up to 23 bytes left over.
pub fn recording(random: &mut Random, most_packets: usize) -> Vec<u8> {
    let count = random.index(most_packets + 1);
    let faulty = random.index(2 * count + 1);
    let mut bytes = Vec::new();
    for number in 0..count {
        if number == faulty {
            bytes.extend(damaged_packet(random));
        } else {
            bytes.extend(Recipe::any(random).bytes());
        }
    }
    match random.below(6) {
        0 => {
            let leftover = 1 + random.index(23);
            bytes.extend(random.bytes(leftover));
        }
        1 => bytes.truncate(random.index(bytes.len() + 1)),
        2 => bytes.extend_from_slice(&CASE_L[..1 + random.index(39)]),
        _ => {}
    }
    bytes
}

/// A packet with faults of the table, with chance faults, or with a byte changed and no sum made right again.
fn damaged_packet(random: &mut Random) -> Vec<u8> {
    match random.below(3) {
        0 => {
            let faults = some_faults(random, &causes(false));
            with_faults(random, &faults).0.bytes()
        }
        1 => chance_recipe(random).bytes(),
        _ => {
            let mut bytes = Recipe::any(random).bytes();
            let at = random.index(bytes.len());
            bytes[at] ^= 1 << random.below(8);
            bytes
        }
    }
}

/// A packet of exactly this length (a multiple of 4, at least 28) of a carried type, without sum.
pub fn packet_of_length(random: &mut Random, length: usize) -> Vec<u8> {
    let mut recipe = Recipe::sound(random, TYPES[0], 0);
    recipe.body = random.bytes(length - 24);
    recipe.bytes()
}

/// A packet of this opened type with as many messages of one byte as this many bytes hold; without times in 0x50.
pub fn many_messages(random: &mut Random, kind: u64, flags: u64, length: usize) -> Recipe {
    let mut recipe = Recipe::sound(random, kind, flags);
    let rule = if kind == UART { 0 } else { 1 };
    let block_length = if kind == UART { 6 } else { 14 };
    let count = (length - recipe.overhead() - 4) / block_length;
    let mut body = Opened::sound(random, kind, rule, 2);
    body.blocks = (0..count).map(|_| Block::sound(random, rule, 1)).collect();
    if kind == MESSAGE {
        body.channel_word = count as u64;
    }
    recipe.body = body.bytes();
    recipe
}

/// The most bytes that the listing reads.
pub const LONGEST_INPUT: usize = 65_536;

/// An input for the listing. The first twelve are set; the others are recordings by chance.
pub fn listing_input(random: &mut Random, number: u64) -> Vec<u8> {
    let minimal = |random: &mut Random, count: usize| -> Vec<u8> {
        let packets = (0..count).map(|_| packet_of_length(random, 28));
        packets.flatten().collect()
    };
    let mut input = match number {
        0 => Vec::new(),
        1..=3 => CASE_L.to_vec(),
        4..=6 => minimal(random, 2_339),
        7 | 8 => many_messages(random, UART, 0x00, LONGEST_INPUT).bytes(),
        9 => many_messages(random, UART, 0x02, LONGEST_INPUT).bytes(),
        10 => minimal(random, 2_340),
        11 => random.bytes(200_000),
        _ => {
            let most = random.choose(&[3, 12, 12, 40, 400]);
            recording(random, most)
        }
    };
    match number {
        2 => input.push(0),
        3 => input.truncate(39),
        4 | 5 => {
            let rest = LONGEST_INPUT - input.len();
            input.extend(packet_of_length(random, rest));
            input.extend(vec![0; number as usize - 4]);
        }
        7 | 8 => input.resize(LONGEST_INPUT + number as usize - 7, 0),
        6 | 9 => {
            let at = input.len() - 20;
            input[at] ^= 1;
        }
        11 => {}
        _ => input.truncate(LONGEST_INPUT),
    }
    input
}
