//! Long inputs: recordings of many packets, packets of many messages, long sums, the longest packets, and long bodies in the builder.

use crate::check::{self, Step};
use crate::library;
use crate::tally::Tally;
use generate::opened::{MESSAGE, UART};
use generate::random::Random;
use generate::recipe::{Placed, Recipe};
use generate::recording::{many_messages, packet_of_length};

pub fn all(tally: &mut Tally, random: &mut Random) {
    many_packets(tally, random);
    many_blocks(tally, random);
    long_sums(tally, random);
    longest(tally, random);
    long_drafts(tally);
}

/// A recording of more packets than 16 bits count, whole and with its last byte missing, up to the last place; then past it.
fn many_packets(tally: &mut Tally, random: &mut Random) {
    let packets = (0..70_000).flat_map(|_| packet_of_length(random, 28));
    let mut window = Placed::whole(packets.collect());
    window.base = window.greatest_base();
    for (number, accepted) in [(0, 70_000), (10, 69_999)] {
        let (returned, recording) = check::recording(tally, &window);
        let reached = (recording.reached, recording.recording_reached);
        let answer = (returned, recording.accepted, reached);
        let length = 28 * accepted;
        let wanted = (number, accepted, (length, window.base + length));
        tally.require("70,000 packets", &String::new, &answer, &wanted);
        window.end -= 1;
    }
    window.base = window.greatest_base() + 1;
    check::recording(tally, &window);
}

/// Packets of many messages: lists that just hold them or just don't, and messages by number.
fn many_blocks(tally: &mut Tally, random: &mut Random) {
    for (kind, length) in [(UART, 524_288), (MESSAGE, 524_288), (MESSAGE, 4_000)] {
        let window = many_messages(random, kind, 0x02, length).placed(random);
        let (number, _) = check::window(tally, random, &window);
        tally.require("many messages", &String::new, &number, &0);
        let count = check::messages_in(&window);
        let last = count.saturating_sub(1);
        for (starts, lengths) in [(count, count), (count, last), (count + 1, count)] {
            check::list(tally, &window, starts, lengths);
        }
        for number in [0, last.min(65_535), last, count] {
            check::message(tally, &window, number);
        }
    }
}

/// Long bodies under each data sum, read and written: above 524,288 in type 0x01, and of the greatest P of the others.
fn long_sums(tally: &mut Tally, random: &mut Random) {
    for flags in [0x80, 0x01, 0x82, 0x03] {
        for kind in [0x00, 0x01] {
            let mut recipe = Recipe::sound(random, kind, flags);
            let greatest = 524_288 - recipe.overhead();
            let length = if kind == 0x01 { 1_000_001 } else { greatest };
            recipe.body = random.bytes(length);
            let window = recipe.placed(random);
            let (number, packet) = check::window(tally, random, &window);
            tally.require("a long body", &String::new, &number, &0);
            if number == 0 {
                check::write_again(tally, &window, &packet, 3);
            }
        }
    }
}

/// "type 0x01 goes to 134,217,728": read under each data sum; written, and one byte more refused, where there is no room.
fn longest(tally: &mut Tally, random: &mut Random) {
    for flags in 1..4 {
        let mut recipe = Recipe::sound(random, 0x01, flags);
        recipe.body = vec![0xA7; 134_217_728 - recipe.overhead()];
        let mut window = Placed::whole(recipe.bytes()).with_some_base(random);
        let (whole, _) = check::read(tally, &window);
        window.end -= 1;
        let (cut, _) = check::read(tally, &window);
        let written = check::write_recipe(tally, &recipe, 0);
        recipe.body.push(0);
        let longer = check::write_recipe(tally, &recipe, 0);
        let numbers = [whole, cut, written, longer];
        tally.require("P of 134,217,728", &String::new, &numbers, &[0, 10, 16, 9]);
    }
}

/// Adding to and closing bodies "at any size": around and above what a packet of an opened type can hold.
fn long_drafts(tally: &mut Tally) {
    let buf = vec![0x5A; 1_000_100];
    let add = Step::Add(0, 0xFFFF, vec![7; 65]);
    for used in [524_284, 524_288, 600_001, 1_000_000] {
        for (kind, rule, blocks, number) in [
            (MESSAGE, 1, 65_534, 0),
            (MESSAGE, 4, 65_535, 17),
            (UART, 0, 65_535, 0),
        ] {
            let draft = library::draft(used, blocks, kind, rule);
            let (added, _, _) = check::step(tally, draft, &buf, &add);
            let (closed, _, _) = check::step(tally, draft, &buf, &Step::Close);
            let input = || format!("{:?}", draft);
            tally.require("a long body", &input, &[added, closed], &[number, 0]);
        }
    }
}
