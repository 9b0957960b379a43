//! Opened bodies, gone through one by one: bent ones under right sums, channel words and pad bytes at fault, lists and message numbers.

use crate::check;
use crate::tally::Tally;
use ch11::raw::{Packet, Refusal};
use generate::opened::{Block, Fault, Opened, MESSAGE, UART};
use generate::random::Random;
use generate::recipe::{Placed, Recipe};
use generate::recording::small_packets;

pub fn all(tally: &mut Tally, random: &mut Random) {
    bent_bodies(tally, random);
    message_channel_words(tally, random);
    uart_channel_words(tally, random);
    pad_bits(tally, random);
    lists(tally, random);
}

/// Bodies read and written under right sums: each byte of small ones changed, small ones of every length, and messages of the
/// greatest n with a byte taken off, put on, or in the place of the pad.
fn bent_bodies(tally: &mut Tally, random: &mut Random) {
    for recipe in small_packets(random) {
        let body = &recipe.body;
        bent_body(tally, random, &recipe, [&body[..], &[0; 11]].concat());
        for at in 0..body.len() {
            bent_body(tally, random, &recipe, body[..at].to_vec());
            bent_body(tally, random, &recipe, [&body[..], &body[..at]].concat());
            for pattern in [0x01, 0x80, 0xFF] {
                let mut changed = body.clone();
                changed[at] ^= pattern;
                bent_body(tally, random, &recipe, changed);
            }
        }
    }
    for (kind, rule, n) in [(MESSAGE, 1, 65_535), (UART, 0, 65_535), (UART, 1, 65_534)] {
        let recipe = Recipe::sound(random, kind, 0x02);
        let mut opened = Opened::sound(random, kind, rule, 1);
        opened.blocks = vec![Block::sound(random, rule, n)];
        let (body, last) = (opened.bytes(), opened.bytes().len() - 1);
        let ended = [&body[..last], &[0xFF]].concat();
        let longer = [&body[..], &[0]].concat();
        for bent in [body[..last].to_vec(), ended, longer, body] {
            bent_body(tally, random, &recipe, bent);
        }
    }
}

fn bent_body(tally: &mut Tally, random: &mut Random, recipe: &Recipe, body: Vec<u8>) {
    let bent = Recipe {
        body,
        ..recipe.clone()
    };
    let window = bent.placed(random);
    check::read(tally, &window);
    check::messages(tally, random, &window);
    check::write_recipe(tally, &bent, bent.right_length());
}

/// 0x30: each type, each reserved bit and counters at the limits, ahead of a first block that is sound or not: the channel word's fault
/// comes before the block's.
fn message_channel_words(tally: &mut Tally, random: &mut Random) {
    let counters = [
        0, 1, 2, 3, 255, 256, 257, 32_767, 32_768, 32_769, 65_534, 65_535,
    ];
    let reserved = (18..32).map(|bit| 1 << bit);
    for upper in (0..4).map(|kind| kind << 16).chain(reserved) {
        for counter in counters {
            for n in [1, 0] {
                let count = 1 + random.index(2);
                let mut opened = Opened::sound(random, MESSAGE, 1, count);
                opened.channel_word = upper | counter;
                opened.blocks[0] = Block::sound(random, 1, 1);
                opened.blocks[0].n = n;
                let wanted = opened.message_fault();
                opened_body(tally, random, 1, &opened, wanted);
            }
        }
    }
}

/// "0x50: bits 30-0 of the channel word are zero": each of them alone, with and without times.
fn uart_channel_words(tally: &mut Tally, random: &mut Random) {
    for rule in [0, 1] {
        for bit in 0..31 {
            let mut opened = Opened::sound(random, UART, rule, 1);
            opened.channel_word |= 1 << bit;
            let fault = Fault { at: 0, reason: 1 };
            opened_body(tally, random, rule, &opened, Some(fault));
        }
    }
}

/// "then one zero pad byte if n is odd": each bit of it alone.
fn pad_bits(tally: &mut Tally, random: &mut Random) {
    for (kind, rule) in [(MESSAGE, 1), (UART, 0), (UART, 1)] {
        for bit in 0..8 {
            let mut opened = Opened::sound(random, kind, rule, 1);
            opened.blocks = vec![Block::sound(random, rule, 3)];
            opened.blocks[0].pad = vec![1 << bit];
            let fault = opened.fault_in(0, 5);
            opened_body(tally, random, rule, &opened, Some(fault));
        }
    }
}

/// All readers and the writer on a packet of this body under this time rule, which has this fault of layout or none.
fn opened_body(
    tally: &mut Tally,
    random: &mut Random,
    rule: u64,
    opened: &Opened,
    fault: Option<Fault>,
) {
    let (recipe, window) = packet_of(random, rule, opened);
    let (_, packet) = check::window(tally, random, &window);
    held_to(tally, &recipe, &window, &packet, fault);
}

/// A packet of this body, under flags that have this time rule, and the window that it is placed in.
pub fn packet_of(random: &mut Random, rule: u64, opened: &Opened) -> (Recipe, Placed) {
    let flags = if rule < 2 { 0 } else { 0xC0 | (rule - 2) << 2 };
    let mut recipe = Recipe::sound(random, opened.kind, flags);
    recipe.body = opened.bytes();
    let window = recipe.placed(random);
    (recipe, window)
}

/// What the reader answers, and what the writer does, has this fault of layout or none: its number, places and reason.
pub fn held_to(
    tally: &mut Tally,
    recipe: &Recipe,
    window: &Placed,
    packet: &Packet,
    fault: Option<Fault>,
) {
    let wanted = fault.map_or(Refusal::default(), |fault| {
        check::refusal_in(window, 15, recipe.body_at() + fault.at, fault.reason)
    });
    let input = || check::describe(window);
    tally.require("an opened body", &input, &packet.refusal, &wanted);
    let written = check::write_refusal(tally, recipe, recipe.right_length());
    let answer = (written.number, written.reason);
    let wanted = (wanted.number, wanted.reason);
    tally.require("an opened body", &input, &answer, &wanted);
}

/// Every pair of list lengths below 6, and every message number below 6.
fn lists(tally: &mut Tally, random: &mut Random) {
    for _ in 0..12 {
        let window = Recipe::any(random).placed(random);
        for starts in 0..6 {
            for lengths in 0..6 {
                check::list(tally, &window, starts, lengths);
            }
            check::message(tally, &window, starts);
        }
    }
}
