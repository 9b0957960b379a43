//! The inputs that are gone through one by one, for the readers and the writer: every type and flags value, every cause and pair of
//! causes, every alteration and cut of small packets, and the fields whose rules are at their limits.

use crate::tally::Tally;
use crate::{bodies, building, cases, check, elsewhere, flaws, large, renewal};
use ch11::raw::{Recording, Refusal};
use generate::causes::{causes, with_faults, Cause};
use generate::opened::{MESSAGE, UART};
use generate::random::Random;
use generate::recipe::{legal_flags, sum_width, Placed, Recipe, CASE_L, TYPES};
use generate::recording::small_packets;

type Part = fn(&mut Tally, &mut Random);

pub fn all(tally: &mut Tally, random: &mut Random) {
    let parts: [Part; 17] = [
        cases::all,
        windows,
        types_and_flags,
        field_values,
        channel_0,
        header_sums,
        reserved_bits,
        faults,
        filler_bits,
        sum_before_filler,
        alterations,
        cuts,
        bodies::all,
        flaws::all,
        building::all,
        large::all,
        renewal::all,
    ];
    for part in parts {
        part(tally, random);
    }
}

/// Starts and ends in and about a buffer, and near 2^64, with bases on both sides of the greatest.
fn windows(tally: &mut Tally, random: &mut Random) {
    let near = [0, 1, 16, 17, 39, 40, 41, 64, 1 << 32];
    let high = [1 << 63, usize::MAX - 23, usize::MAX - 1, usize::MAX];
    for start in near.iter().chain(&high) {
        for end in near.iter().chain(&high) {
            let mut window = Placed::new(CASE_L.to_vec(), *start, *end, 0);
            let (greatest, any) = (window.greatest_base(), random.wide());
            for base in [0, any, greatest, greatest.saturating_add(1), u64::MAX] {
                window.base = base;
                check::window(tally, random, &window);
            }
        }
    }
}

/// Each type under each legal flags value is accepted, and written again gives the same bytes.
fn types_and_flags(tally: &mut Tally, random: &mut Random) {
    for flags in legal_flags() {
        for kind in TYPES {
            let window = Recipe::sound(random, kind, flags).placed(random);
            let (number, packet) = check::read(tally, &window);
            tally.require("a sound packet", &|| format!("{:?}", window), &number, &0);
            check::write_again(tally, &window, &packet, random.index(3));
            if kind == MESSAGE || kind == UART {
                check::messages(tally, random, &window);
            }
        }
    }
}

/// Each value of version, flags and type, read and written: one that is refused gets its rule's number, one that isn't gets none of
/// these rules' numbers.
fn field_values(tally: &mut Tally, random: &mut Random) {
    for value in 0..256 {
        for field in 0..3 {
            let mut recipe = Recipe::any(random);
            *[&mut recipe.version, &mut recipe.flags, &mut recipe.kind][field] = value;
            if recipe.flags & 0x80 == 0 {
                recipe.time = 0;
            }
            let (read, _) = check::read(tally, &recipe.placed(random));
            let written = check::write_recipe(tally, &recipe, recipe.right_length());
            let of_these = |number| if (5..=7).contains(&number) { number } else { 0 };
            let numbers = [of_these(read), of_these(written)];
            let wanted = [recipe.refused_field(); 2];
            let input = || format!("{:?}", recipe);
            tally.require("version, type and flags", &input, &numbers, &wanted);
        }
    }
}

/// "Channel 0 only with types 0x01 and 0x04": each type, read and written.
fn channel_0(tally: &mut Tally, random: &mut Random) {
    for kind in TYPES {
        let mut recipe = Recipe::sound(random, kind, 0x80);
        recipe.channel = 0;
        let (read, _) = check::read(tally, &recipe.placed(random));
        let written = check::write_recipe(tally, &recipe, recipe.right_length());
        let number = if kind == 0x01 || kind == 0x04 { 0 } else { 8 };
        let input = || format!("type {}", kind);
        tally.require("channel 0", &input, &[read, written], &[number; 2]);
    }
}

/// Header sums of 0 and 65,535, made by the RTC's lowest word.
fn header_sums(tally: &mut Tally, random: &mut Random) {
    for wanted in [0, 0xFFFF] {
        let mut recipe = Recipe::sound(random, 0x11, 0);
        recipe.rtc &= !0xFFFF;
        let bytes = recipe.bytes();
        let sum = u64::from(bytes[22]) | u64::from(bytes[23]) << 8;
        recipe.rtc |= (0x1_0000 + wanted - sum) & 0xFFFF;
        let window = recipe.placed(random);
        let (number, packet) = check::window(tally, random, &window);
        let answer = (number, packet.header_sum);
        tally.require("modulo 65,536", &String::new, &answer, &(0, wanted));
    }
}

/// "2 reserved bytes (zero)": each bit of them alone.
fn reserved_bits(tally: &mut Tally, random: &mut Random) {
    for bit in 0..16 {
        let mut recipe = Recipe::sound(random, 0x02, 0x80);
        recipe.reserved = 1 << bit;
        let (number, _) = check::read(tally, &recipe.placed(random));
        let input = || format!("bit {}", bit);
        tally.require("2 reserved bytes (zero)", &input, &number, &12);
    }
}

/// Each cause on its own, some times over, and each pair of causes, for the readers and for the writer.
fn faults(tally: &mut Tally, random: &mut Random) {
    for (all, faulty) in [
        (causes(false), faulty_window as Faulty),
        (causes(true), faulty_input),
    ] {
        for (number, first) in all.iter().enumerate() {
            for _ in 0..3 {
                faulty(tally, random, &[*first]);
            }
            for second in &all[number + 1..] {
                faulty(tally, random, &[*first, *second]);
            }
        }
    }
}

type Faulty = fn(&mut Tally, &mut Random, &[Cause]);

fn rules_of(faults: &[Cause]) -> String {
    faults
        .iter()
        .map(|cause| cause.rule)
        .collect::<Vec<_>>()
        .join(" AND ")
}

/// A packet with these faults at once: the one that is tested first is given, at "the start of the packet, for 15 the channel word or
/// the first byte of the block at fault", with its reason.
fn faulty_window(tally: &mut Tally, random: &mut Random, faults: &[Cause]) {
    let (recipe, number) = with_faults(random, faults);
    let window = recipe.placed(random);
    let (inside, reason) = recipe.fault_of(number);
    let wanted = check::refusal_in(&window, number, inside, reason);
    let (_, packet) = check::window(tally, random, &window);
    let rules = || rules_of(faults);
    tally.require("a refusal by rule", &rules, &packet.refusal, &wanted);
    if faults.len() == 1 {
        elsewhere::equal(tally, random, &window);
        faulty_packet_behind(tally, random, &window, &wanted);
    }
}

/// The same packet behind sound ones, under a base by chance and under the greatest: the recording reader stops there, its refusal so much
/// further on.
fn faulty_packet_behind(tally: &mut Tally, random: &mut Random, alone: &Placed, refusal: &Refusal) {
    if refusal.number == 1 || alone.start == alone.end {
        return;
    }
    let count = 1 + random.index(3);
    let packets = (0..count).flat_map(|_| Recipe::any(random).bytes());
    let packets: Vec<u8> = packets.collect();
    let mut window = alone.behind(&packets).with_some_base(random);
    let reached = (window.start + packets.len()) as u64;
    let inside = packets.len() + refusal.place as usize - alone.start;
    for base in [window.base, window.greatest_base()] {
        window.base = base;
        let wanted = Recording {
            refusal: check::refusal_in(&window, refusal.number, inside, refusal.reason),
            accepted: count as u64,
            reached,
            recording_reached: window.in_recording(reached),
        };
        let (_, recording) = check::recording(tally, &window);
        let input = || check::describe(&window);
        tally.require("a later packet's refusal", &input, &recording, &wanted);
    }
}

/// A writer's input with these faults at once.
fn faulty_input(tally: &mut Tally, random: &mut Random, faults: &[Cause]) {
    let (recipe, number) = with_faults(random, faults);
    let reason = if number == 15 { recipe.fault.reason } else { 0 };
    let refusal = check::write_refusal(tally, &recipe, recipe.output_length());
    tally.require(
        "the writer's number and reason by rule",
        &|| rules_of(faults),
        &(refusal.number, refusal.reason),
        &(number, reason),
    );
}

/// "Filler bytes are zero": each bit of each byte alone, for each data sum and length of filler.
fn filler_bits(tally: &mut Tally, random: &mut Random) {
    for flags in 0..4 {
        for length in 5..9 {
            let mut recipe = Recipe::sound(random, 0x11, flags);
            recipe.body = random.bytes(length);
            for bit in 0..8 * recipe.filler_length() {
                recipe.filler = [0; 3];
                recipe.filler[bit / 8] = 1 << (bit % 8);
                let (number, _) = check::read(tally, &recipe.placed(random));
                let input = || format!("bit {}", bit);
                tally.require("Filler bytes are zero.", &input, &number, &14);
            }
        }
    }
}

/// 13 before 14, and both before 15, in each type under each data sum and length of filler: the filler's last byte isn't zero, then the
/// sum is wrong too.
fn sum_before_filler(tally: &mut Tally, random: &mut Random) {
    for kind in TYPES {
        for flags in 1..4 {
            for length in 5..9 {
                let mut recipe = Recipe::sound(random, kind, flags);
                recipe.body = random.bytes(length);
                let filler = recipe.filler_length();
                if filler > 0 {
                    recipe.filler[filler - 1] = 1;
                    let (number, _) = check::read(tally, &recipe.placed(random));
                    tally.require("Filler bytes are zero.", &String::new, &number, &14);
                }
                recipe.data_sum_off = 1;
                let (number, _) = check::read(tally, &recipe.placed(random));
                tally.require("wrong data sum", &String::new, &number, &13);
            }
        }
    }
}

/// Every unit of small packets changed, each bit alone and several bits: the headers' words, and the data sum's units from the body's
/// first byte.
fn alterations(tally: &mut Tally, random: &mut Random) {
    for recipe in small_packets(random) {
        let (packet, body_at) = (recipe.bytes(), recipe.body_at());
        let width = sum_width(recipe.flags).max(1);
        let words = (0..body_at).step_by(2).map(|at| (at, 2));
        let units = (body_at..packet.len()).step_by(width).map(|at| (at, width));
        for (at, width) in words.chain(units) {
            let some_bits = 1 + random.below((1 << (8 * width)) - 1);
            let single_bits = (0..8 * width).map(|bit| 1 << bit);
            for bits in single_bits.chain([some_bits]) {
                let mut altered = packet.clone();
                for (byte, changed) in altered[at..].iter_mut().zip(u64::to_le_bytes(bits)) {
                    *byte ^= changed;
                }
                altered_packet(tally, random, altered, recipe.number_for_change(at));
            }
        }
    }
}

/// All readers on a packet with a changed unit: it is refused with this number, where one is known, at its start.
fn altered_packet(tally: &mut Tally, random: &mut Random, altered: Vec<u8>, number: Option<u64>) {
    let window = Placed::whole(altered).with_some_base(random);
    let (_, packet) = check::window(tally, random, &window);
    if let Some(number) = number {
        let wanted = check::refusal_in(&window, number, 0, 0);
        let input = || check::describe(&window);
        tally.require("a changed unit", &input, &packet.refusal, &wanted);
    }
}

/// Small packets cut at every length, with their rest behind the filled end.
fn cuts(tally: &mut Tally, random: &mut Random) {
    for recipe in small_packets(random) {
        let mut window = Placed::whole(recipe.bytes());
        while window.end > 0 {
            window.end -= 1;
            window = window.with_some_base(random);
            check::window(tally, random, &window);
        }
    }
}
