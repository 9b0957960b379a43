//! Rounds by chance: each makes one input and compares the calls on it.

use crate::building::{KINDS, RULES};
use crate::check::{self, Step};
use crate::expected::by_field;
use crate::renewal::runs;
use crate::tally::Tally;
use crate::{elsewhere, library};
use ch11::raw::Draft;
use generate::causes::{causes, with_faults};
use generate::opened::{some_n, MESSAGE, UART};
use generate::random::Random;
use generate::recipe::{time_in_form, time_to_try, Placed, Recipe};
use generate::recording::{chance_recipe, packet_of_length, recording, some_faults};

pub fn round(tally: &mut Tally, random: &mut Random) {
    match random.below(16) {
        0..=1 => packet(tally, random, Recipe::any),
        2..=3 => packet(tally, random, |random| {
            let faults = some_faults(random, &causes(false));
            with_faults(random, &faults).0
        }),
        4..=7 => packet(tally, random, chance_recipe),
        8 => altered(tally, random),
        9 => windows(tally, random),
        10..=11 => recordings(tally, random),
        12..=13 => writer(tally, random),
        14 if random.one_in(100) => large(tally, random),
        15 if random.one_in(6) => runs::short(tally, random),
        _ => builder(tally, random),
    }
}

/// All readers on a window; what is accepted is written again; now and then the window is moved.
fn readers(tally: &mut Tally, random: &mut Random, window: &Placed) {
    let (number, packet) = check::window(tally, random, window);
    if number == 0 {
        check::write_again(tally, window, &packet, random.index(9));
    }
    if random.one_in(4) {
        elsewhere::equal(tally, random, window);
    }
}

fn packet(tally: &mut Tally, random: &mut Random, make: fn(&mut Random) -> Recipe) {
    let window = make(random).placed(random);
    readers(tally, random, &window);
}

/// A sound packet with some bytes changed and no sum made right again.
fn altered(tally: &mut Tally, random: &mut Random) {
    let mut window = Recipe::any(random).placed(random);
    for _ in 0..1 + random.below(2) {
        let at = random.index(window.buf.len());
        window.buf[at] = random.bits() as u8;
    }
    readers(tally, random, &window);
}

/// A window of any start, end and base, also outside its buffer, also past the last place of a recording.
fn windows(tally: &mut Tally, random: &mut Random) {
    let mut window = Recipe::any(random).placed(random);
    let mut near = |place: usize| match random.below(4) {
        0 => place.wrapping_add(random.index(5)).wrapping_sub(2),
        1 => random.index(window.buf.len() + 4),
        2 => random.wide() as usize,
        _ => place,
    };
    (window.start, window.end) = (near(window.start), near(window.end));
    let (greatest, any) = (window.greatest_base(), random.wide());
    window.base = random.choose(&[greatest, greatest.saturating_add(1), any.min(greatest), any]);
    readers(tally, random, &window);
}

/// A recording somewhere in a buffer, read as a whole and packet by packet.
fn recordings(tally: &mut Tally, random: &mut Random) {
    let most = random.choose(&[1, 4, 10, 36]);
    let packets = recording(random, most);
    let start = random.index(7);
    let window = Placed::whole(packets).elsewhere(random, start);
    let mut window = window.with_some_base(random);
    let (_, whole) = check::recording(tally, &window);
    if random.one_in(4) {
        elsewhere::equal(tally, random, &window);
    }
    // "the one-packet reader's base is moved on by the distance from the window's start"
    let mut handed_out = 0;
    while let (0, packet) = check::window(tally, random, &window) {
        window.start += packet.length as usize;
        window.base += packet.length;
        handed_out += 1;
    }
    let reached = [handed_out, window.start as u64, window.base];
    let told = [whole.accepted, whole.reached, whole.recording_reached];
    let input = || check::describe(&window);
    tally.require("Handed out", &input, &told, &reached);
}

/// A struct's fields, to be changed.
macro_rules! each {
    ($from:ident: $($field:ident)+) => { [$(&mut $from.$field),+] };
}

/// The writer on sound and faulty fields and bodies, with outputs around what is needed.
fn writer(tally: &mut Tally, random: &mut Random) {
    let faults = some_faults(random, &causes(true));
    let mut recipe = with_faults(random, &faults).0;
    if random.one_in(3) {
        recipe = chance_recipe(random);
    }
    let mut fields = check::fields_of(&recipe);
    if random.one_in(4) {
        let all = by_field!(each! fields);
        *all[random.index(all.len())] = random.wide();
    }
    let length = recipe.right_length();
    let less = random.index(length);
    let rooms = [length, length, length + 1 + less % 40, length - 1, less, 0];
    for _ in 0..3 {
        check::write(tally, &fields, &recipe.body, random.choose(&rooms));
    }
}

/// A packet of up to the longest length.
fn large(tally: &mut Tally, random: &mut Random) {
    let length = 28 + 4 * random.index(131_066);
    let mut window = Placed::whole(packet_of_length(random, length)).with_some_base(random);
    window.end -= random.index(2);
    readers(tally, random, &window);
}

/// A state with one or two fields forged.
fn forged(random: &mut Random, state: Draft, length: usize) -> Draft {
    let mut forged = library::draft(state.used, state.blocks, state.kind, state.rule);
    let wide = random.wide();
    let length = length as u64;
    for _ in 0..1 + random.below(2) {
        match random.below(4) {
            0 => forged.used = random.choose(&[0, 3, 4, 5, 16, length, length + 1, wide]),
            1 => forged.blocks = random.choose(&[0, 65_534, 65_535, 65_536, u64::MAX, wide]),
            2 => forged.kind = random.choose(&KINDS),
            _ => forged.rule = random.choose(&RULES),
        }
    }
    forged
}

/// A block as it is given to the builder.
struct Given {
    time: u64,
    upper: u64,
    bytes: Vec<u8>,
}

/// Time, ID word and bytes of a message.
type MessageRead = (u64, u64, Vec<u8>);

impl Given {
    /// The message that the block is read as.
    fn as_read(&self) -> MessageRead {
        let id = self.upper << 16 | self.bytes.len() as u64;
        (self.time, id, self.bytes.clone())
    }
}

/// A block to add: mostly a good one for the rule.
fn some_block(random: &mut Random, rule: u64) -> Given {
    let (good, bad) = (time_in_form(random, rule), time_to_try(random, rule));
    let n = some_n(random);
    let n = random.choose(&[n, n, n, n, n, n, n, 0]);
    Given {
        time: random.choose(&[good, good, good, good, good, good, bad]),
        upper: random.choose(&[0, 1, 0x4000, 0x8000, 0xFFFF, 0xABCD, 0, 0x1_0000]),
        bytes: random.bytes(n),
    }
}

/// A walk of opening, adding and closing, in which a state is forged now and then; a body closed without that is written and read.
fn builder(tally: &mut Tally, random: &mut Random) {
    let kind = random.choose(&[MESSAGE, UART]);
    let lowest = if kind == MESSAGE { 1 } else { 0 };
    let rule = lowest + random.below(5 - lowest);
    let room = random.choose(&[3, 4, 30, 100, 400]) + random.index(40);
    let buf = random.bytes(room);
    let (draft, open) = (library::draft(0, 0, 0, 0), Step::Open(kind, rule));
    let (_, mut draft, mut buf) = check::step(tally, draft, &buf, &open);
    let forging = random.one_in(2);
    let mut added = Vec::new();
    for _ in 0..random.below(9) {
        if forging && random.one_in(3) {
            draft = forged(random, draft, buf.len());
        }
        let block = some_block(random, draft.rule);
        let add = Step::Add(block.time, block.upper, block.bytes.clone());
        let (number, after, changed) = check::step(tally, draft, &buf, &add);
        (draft, buf) = (after, changed);
        if number == 0 {
            added.push(block);
        }
    }
    let (number, draft, buf) = check::step(tally, draft, &buf, &Step::Close);
    if number == 0 && !forging {
        built(tally, random, &draft, &buf[..draft.used as usize], &added);
    }
}

/// A body that was built is accepted by the writer, and "reads back [...] as the blocks added".
fn built(tally: &mut Tally, random: &mut Random, draft: &Draft, body: &[u8], added: &[Given]) {
    let format = draft.rule.saturating_sub(2) << 2;
    let flags = if draft.rule < 2 { 0 } else { 0xC0 | format } | random.below(4);
    let mut recipe = Recipe::sound(random, draft.kind, flags);
    recipe.body = body.to_vec();
    let written = check::write_recipe(tally, &recipe, recipe.right_length());
    tally.require("a body built", &|| format!("{:?}", draft), &written, &0);
    let window = recipe.placed(random);
    readers(tally, random, &window);
    let read = messages_read(tally, &window, added.len() + 1);
    let wanted: Vec<_> = added.iter().map(Given::as_read).collect();
    let input = || check::describe(&window);
    tally.require("the blocks added", &input, &read, &wanted);
}

/// Each message of a packet by its number, up to so many.
fn messages_read(tally: &mut Tally, window: &Placed, most: usize) -> Vec<MessageRead> {
    let mut read = Vec::new();
    for number in 0..most {
        if let (0, message) = check::message(tally, window, number) {
            let bytes = &window.buf[window.start + message.start as usize..];
            let bytes = bytes[..message.length as usize].to_vec();
            read.push((message.time, message.id, bytes));
        }
    }
    read
}
