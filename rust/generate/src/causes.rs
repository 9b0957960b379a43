//! The causes of each refusal, one by one: each makes a sound recipe faulty by the rule it quotes, and by no rule that is tested earlier.

use crate::opened::{Block, Fault, Flaws, Opened, MESSAGE, UART};
use crate::random::Random;
use crate::recipe::{some_rule, sum_width, time_out_of_form, ChooseBase, Recipe, TYPES};

type Apply = fn(&mut Recipe, &mut Random);

/// Which calls a rule's causes concern.
#[derive(Clone, Copy, PartialEq, Eq)]
enum Calls {
    Readers,
    Writer,
    Both,
}
use Calls::{Both, Readers, Writer};

/// One way to break a rule.
#[derive(Clone, Copy)]
pub struct Cause {
    pub number: u64,
    pub rule: &'static str,
    apply: Apply,
}

/// The number of a refusal, the calls that give it for these causes, the rule, and the ways to break it.
struct Rule(u64, Calls, &'static str, &'static [Apply]);

// A line for each cause, in the order of the tests, save that the writer makes those of 17 first; `x` is the source of chance.
#[rustfmt::skip]
static RULES: &[Rule] = &[
    Rule(1, Readers, "with start <= end <= buffer length", &[
        |r, _| r.window = Some(|start, _, _| (start + 1, start)),
        |r, _| r.window = Some(|_, end, _| (end + 1, end)),
        |r, _| r.window = Some(|start, _, length| (start, length + 1)),
        |r, _| r.window = Some(|_, _, length| (length + 1, length + 1)),
        |r, _| r.window = Some(|start, _, _| (start, usize::MAX)),
        |r, _| r.window = Some(|_, end, _| (usize::MAX, end)),
        |r, _| r.window = Some(|_, _, _| (usize::MAX, usize::MAX)),
        |r, _| r.window = Some(|_, _, _| (usize::MAX - 23, usize::MAX)),
    ]),
    Rule(1, Readers, "1 also where base plus window length would pass 2^64 - 1", &[
        |r, _| give_refused_base(r, |greatest| greatest.saturating_add(1)),
        |r, _| give_refused_base(r, |greatest| u64::MAX - (u64::MAX - greatest) / 2),
        |r, _| give_refused_base(r, |_| u64::MAX),
    ]),
    Rule(2, Readers, "fewer than 24 bytes in the window", &[
        |r, _| r.kept = Some(|_| 23),
        |r, _| r.kept = Some(|_| 12),
        |r, _| r.kept = Some(|_| 0),
    ]),
    Rule(3, Readers, "the sync bytes are 25 EB in that order", &[
        |r, _| r.sync = 0xEB24,
        |r, _| r.sync = 0x6B25,
        |r, _| r.sync = 0x25EB,
        |r, _| r.sync = 0,
    ]),
    Rule(4, Readers, "the sum of the eleven 16-bit words ahead of it, modulo 65,536", &[
        |r, _| r.header_sum_off = 1,
        |r, _| r.header_sum_off = 0x8000,
        |r, _| r.header_sum_off = 0x1_0000 - r.sync, // the ten words behind the sync
        |r, x| r.header_sum_off = 1 + x.below(0xFFFF),
    ]),
    Rule(5, Both, "Version is 0x01 to 0x09.", &[
        |r, _| r.version = 0,
        |r, _| r.version = 10,
        |r, x| r.version = 10 + x.below(246),
    ]),
    Rule(6, Both, "That is 35; all others are reserved.", &[
        |r, _| r.kind = 0x05,
        |r, _| r.kind = 0x7B,
        |r, _| r.kind = 0xB0,
        |r, x| r.kind = some_reserved_type(x),
    ]),
    Rule(7, Both, "11 reserved, refused even where bit 7 is 0", &[
        |r, _| r.flags |= 0x8C,
        |r, _| without_secondary(r, 0x0C, 0),
    ]),
    Rule(7, Both, "bit 6 message times are absolute (bit 7 must then be 1)", &[|r, _| without_secondary(r, 0x40, 0)]),
    Rule(8, Both, "Channel 0 only with types 0x01 and 0x04.", &[|r, x| channel_0(r, x)]),
    Rule(9, Readers, "P is a multiple of 4", &[
        |r, x| r.length = Some(r.right_length() as u64 + 1 + x.below(3)),
        |r, x| r.length = Some(r.right_length() as u64 - 1 - x.below(3)),
    ]),
    Rule(9, Readers, "at most 524,288, or 134,217,728 for type 0x01", &[
        |r, _| declare(r, 0x00, 524_292),
        |r, _| declare(r, 0x01, 134_217_732),
        |r, _| declare(r, 0x01, 0xFFFF_FFFC),
    ]),
    Rule(9, Writer, "at most 524,288", &[|r, _| r.body = vec![0; body_for(with_limit_of(r, 0x00), 524_289)]]),
    Rule(9, Both, "D is at least 1.", &[|r, _| r.body = Vec::new()]),
    Rule(9, Readers, "P = 24, plus 12 if bit 7 is set, plus D, plus filler, plus the sum's width in bytes.", &[
        |r, _| r.length = Some(r.right_length() as u64 + 4),
        |r, _| r.length = Some(r.right_length() as u64 - 4),
        |r, _| r.length = Some(0),
        |r, _| r.data_length = Some(0),
        |r, _| r.data_length = Some(r.body.len() as u64 + 12),
        |r, _| r.data_length = Some(r.body.len() as u64 + 0x1_0000),
        |r, _| r.data_length = Some(r.body.len() as u64 + 0x8000_0000),
    ]),
    Rule(9, Readers, "D near 2^32 wraps to a small, plausible P.", &[
        |r, x| wrap(r, x),
        |r, x| wrap(with_secondary(r), x),
        |r, x| wrap(without_secondary_and_sum(r), x),
    ]),
    Rule(10, Readers, "P exceeds the bytes in the window", &[
        |r, _| r.kept = Some(|length| (length - 1).max(24)),
        |r, _| r.kept = Some(|length| 24 + (length - 24) / 2),
        |r, _| r.kept = Some(|_| 24),
    ]),
    Rule(11, Readers, "a 2-byte sum of the five 16-bit words before it, modulo 65,536", &[
        |r, _| with_secondary(r).secondary_sum_off = 1,
        |r, _| with_secondary(r).secondary_sum_off = 0xFF00,
        |r, x| with_secondary(r).secondary_sum_off = 1 + x.below(0xFFFF),
    ]),
    Rule(12, Readers, "2 reserved bytes (zero)", &[
        |r, _| with_secondary(r).reserved = 0x0001,
        |r, _| with_secondary(r).reserved = 0x8000,
    ]),
    Rule(12, Both, "Chapter 4 time: the low 16 bits are zero", &[
        |r, x| with_format(r, 0).time = time_out_of_form(x, 2),
        |r, _| with_format(r, 0).time = 0x0100,
    ]),
    Rule(12, Both, "IEEE 1588: high is seconds, low is nanoseconds below 1,000,000,000.", &[
        |r, x| with_format(r, 1).time = time_out_of_form(x, 3),
        |r, _| with_format(r, 1).time = 1_000_000_000,
    ]),
    Rule(13, Readers, "The data sum adds body and filler in units of its own width", &[
        |r, x| bend_data_sum(r, x, |_| 1),
        |r, x| bend_data_sum(r, x, |width| 1 << (8 * width - 1)),
        |r, x| bend_data_sum(r, x, |width| (1 << (8 * width)) - 1),
    ]),
    Rule(14, Readers, "Filler bytes are zero.", &[
        |r, _| bend_filler(r, |_| 0, 0x01),
        |r, _| bend_filler(r, |length| length - 1, 0x80),
        |r, _| bend_filler(r, |length| length / 2, 0xFF),
    ]),
    Rule(15, Both, "start with a 4-byte channel word", &[
        |r, x| open(r, x, EITHER, 1, |body, x| body.keep(1 + x.index(3), WORD)),
    ]),
    Rule(15, Both, "0x30: bits 31-18 of the channel word are zero.", &[
        |r, x| open(r, x, MESSAGE, 1, |body, _| body.word(body.channel_word | 1 << 18)),
        |r, x| open(r, x, MESSAGE, 1, |body, _| body.word(body.channel_word | 1 << 31)),
        |r, x| open(r, x, MESSAGE, 1, |body, x| body.word(body.channel_word | 1 << (18 + x.below(14)))),
    ]),
    Rule(15, Both, "Type (bits 17-16) 00: the counter (bits 15-0) is the number of blocks, at least 1.", &[
        |r, x| open(r, x, MESSAGE, 0, |body, _| body.word(0)),
        |r, x| open(r, x, MESSAGE, 1, |body, _| body.word(0)),
        |r, x| open(r, x, MESSAGE, 0, |body, _| body.counts(1, 0)),
        |r, x| open(r, x, MESSAGE, 1, |body, _| body.counts(2, 1)),
        |r, x| open(r, x, MESSAGE, 3, |body, _| body.counts(4, 3)),
        |r, x| open(r, x, MESSAGE, 2, |body, _| body.counts(65_535, 2)),
        |r, x| open(r, x, MESSAGE, 3, |body, _| body.counts(2, 2)),
        |r, x| open(r, x, MESSAGE, 2, |body, _| body.counts(1, 1)),
        |r, x| open(r, x, MESSAGE, 2, |body, _| body.leave_over(1)),
        |r, x| open(r, x, MESSAGE, 3, |body, _| body.leave_over(12)),
    ]),
    Rule(15, Both, "Type 01: one block, counter 1.", &[
        |r, x| open(r, x, MESSAGE, 1, |body, _| body.word(0x1_0000)),
        |r, x| open(r, x, MESSAGE, 1, |body, _| body.word(0x1_0002)),
        |r, x| open(r, x, MESSAGE, 2, |body, _| body.counts(0x1_0001, 1)),
        |r, x| open(r, x, MESSAGE, 0, |body, _| body.counts(0x1_0001, 0)),
        |r, x| open(r, x, MESSAGE, 1, |body, _| body.leave_over(2)),
    ]),
    Rule(15, Both, "Types 10 and 11: one block, counter at least 2.", &[
        |r, x| open(r, x, MESSAGE, 1, |body, _| body.word(0x2_0000)),
        |r, x| open(r, x, MESSAGE, 1, |body, _| body.word(0x2_0001)),
        |r, x| open(r, x, MESSAGE, 1, |body, _| body.word(0x3_0000)),
        |r, x| open(r, x, MESSAGE, 1, |body, _| body.word(0x3_0001)),
        |r, x| open(r, x, MESSAGE, 2, |body, _| body.counts(0x2_0002, 1)),
        |r, x| open(r, x, MESSAGE, 2, |body, _| body.counts(0x3_FFFF, 1)),
    ]),
    Rule(15, Both, "0x50: bits 30-0 of the channel word are zero.", &[
        |r, x| open(r, x, UART, 1, |body, _| body.word(body.channel_word | 1)),
        |r, x| open(r, x, UART, 1, |body, _| body.word(body.channel_word | 1 << 30)),
        |r, x| open(r, x, UART, 1, |body, x| body.word(body.channel_word | 1 << x.below(31))),
    ]),
    Rule(15, Both, "One or more blocks, to the end of the body.", &[
        |r, x| open(r, x, UART, 1, |body, _| body.keep(4, body.fault_in(0, 7))),
    ]),
    Rule(15, Both, "a time stamp of 8 bytes [...], an ID word of 4", &[
        |r, x| open(r, x, EITHER, 3, |body, x| body.keep(body.block_at(2) + 1 + x.index(3), body.fault_in(2, 2))),
        |r, x| open(r, x, MESSAGE, 3, |body, x| body.keep(body.block_at(2) + 1 + x.index(11), body.fault_in(2, 2))),
    ]),
    Rule(15, Both, "then n bytes", &[
        |r, x| open(r, x, EITHER, 2, |body, _| body.bend_block(1, 2, |block| block.bytes.truncate(2))),
        |r, x| open(r, x, EITHER, 2, |body, _| body.bend_block(1, 2, |block| block.bytes.clear())),
        |r, x| open(r, x, EITHER, 2, |body, _| body.bend_block(1, 2, |block| block.n = 65_535)),
    ]),
    Rule(15, Both, "then one zero pad byte if n is odd", &[
        |r, x| open(r, x, EITHER, 4, |body, _| body.bend_block(1, 5, |block| block.pad = vec![1])),
        |r, x| open(r, x, EITHER, 4, |body, _| body.bend_block(2, 5, |block| block.pad = vec![0x80])),
        |r, x| open(r, x, EITHER, 4, |body, _| body.bend_block(3, 5, |block| block.pad = vec![0xFF])),
        |r, x| open(r, x, EITHER, 4, |body, _| body.bend_block(3, 2, |block| block.pad.clear())),
    ]),
    Rule(15, Both, "n = 0 is refused", &[
        |r, x| open(r, x, EITHER, 3, |body, _| body.bend_block(1, 4, |block| block.n = 0)),
        |r, x| open(r, x, EITHER, 3, |body, _| body.bend_block(2, 4, empty)),
    ]),
    Rule(15, Both, "Times: flag bit 6 clear means a value below 2^48", &[
        |r, x| bend_message_time(r, x, 1, MESSAGE),
        |r, x| bend_message_time(r, x, 1, UART),
    ]),
    Rule(15, Both, "set means the secondary time rule of the same format", &[
        |r, x| bend_message_time(r, x, 2, MESSAGE),
        |r, x| bend_message_time(r, x, 2, UART),
        |r, x| bend_message_time(r, x, 3, MESSAGE),
        |r, x| bend_message_time(r, x, 3, UART),
    ]),
    Rule(15, Both, "For a block that breaks several, the lowest number from 2 to 5 wins.", &[
        |r, x| flaw(r, x, |x| Flaws { n: 2, missing: 1 + x.index(2), mistimed: true, pad: 0 }),
        |r, x| flaw(r, x, |x| Flaws { n: 2, missing: 3 + x.index(4), mistimed: true, pad: 0 }), // the head cut behind its whole stamp
        |r, x| flaw(r, x, |_| Flaws { n: 1, missing: 1, mistimed: true, pad: 1 }),
        |r, x| flaw(r, x, |x| Flaws { n: 0, missing: 1 + x.index(2), mistimed: false, pad: 0 }), // of the head n is there
        |r, x| flaw(r, x, |x| Flaws { n: 0, missing: 1 + x.index(2), mistimed: true, pad: 0 }),
        |r, x| flaw(r, x, |_| Flaws { n: 0, missing: 0, mistimed: true, pad: 0 }),
        |r, x| flaw(r, x, |_| Flaws { n: 3, missing: 0, mistimed: true, pad: 1 }),
    ]),
    Rule(15, Both, "Have the block walk name the rule broken", &[
        |r, x| first_of_flaws(r, x, Flaws { n: 2, missing: 0, mistimed: true, pad: 0 }),
        |r, x| first_of_flaws(r, x, Flaws { n: 0, missing: 0, mistimed: false, pad: 0 }),
        |r, x| first_of_flaws(r, x, Flaws { n: 1, missing: 0, mistimed: false, pad: 1 }),
    ]),
    Rule(16, Writer, "no room in a list or output", &[
        |r, _| r.output = Some(|length| length - 1),
        |r, _| r.output = Some(|length| length - 4),
        |r, _| r.output = Some(|_| 0),
    ]),
    Rule(17, Writer, "RTC of 2^48 or more", &[
        |r, _| r.rtc = 1 << 48,
        |r, x| r.rtc |= 1 << (48 + x.below(16)),
    ]),
    Rule(17, Writer, "a secondary time other than 0 with bit 7 clear", &[
        |r, _| without_secondary(r, 0, 1),
        |r, _| without_secondary(r, 0, 1 << 63),
    ]),
    Rule(17, Writer, "writer or builder input out of range", &[
        |r, _| r.channel += 1 << 16,
        |r, _| r.channel += 1 << 32,
        |r, _| r.version += 1 << 8,
        |r, _| r.sequence += 1 << 8,
        |r, _| r.flags += 1 << 8,
        |r, _| r.flags += 1 << 63,
        |r, _| r.kind += 1 << 8,
        |r, _| r.kind += 1 << 32,
    ]),
];

/// All causes that concern the readers, or the writer.
pub fn causes(writer: bool) -> Vec<Cause> {
    let other = if writer { Readers } else { Writer };
    let mut all = Vec::new();
    for Rule(number, _, rule, ways) in RULES.iter().filter(|rule| rule.1 != other) {
        let (number, rule) = (*number, *rule);
        let cause = |apply: &Apply| Cause {
            number,
            rule,
            apply: *apply,
        };
        all.extend(ways.iter().map(cause));
    }
    all
}

/// A sound recipe with these faults at once, and the number that is given for it.
pub fn with_faults(random: &mut Random, faults: &[Cause]) -> (Recipe, u64) {
    let recipe = Recipe::any(random);
    bent(recipe, random, faults)
}

/// This recipe with these faults, and the number: "Tested from the top", the writer's 17 first. The fault that is tested last is put in
/// first, so that those tested earlier stay in force.
pub fn bent(mut recipe: Recipe, random: &mut Random, faults: &[Cause]) -> (Recipe, u64) {
    let mut in_order = faults.to_vec();
    let place = |cause: &Cause| RULES.iter().position(|rule| rule.0 == cause.number);
    in_order.sort_by_key(|cause| std::cmp::Reverse((cause.number != 17, place(cause))));
    for cause in &in_order {
        (cause.apply)(&mut recipe, random);
    }
    (recipe, in_order.last().map_or(0, |cause| cause.number))
}

/// Gives the window a base that is refused. An empty window takes every base, so that it gets a byte.
fn give_refused_base(recipe: &mut Recipe, base: ChooseBase) {
    recipe.base = Some(base);
    let length = recipe.right_length();
    if recipe.kept.map_or(false, |kept| kept(length) == 0) {
        recipe.kept = Some(|_| 1);
    }
}

fn some_reserved_type(random: &mut Random) -> u64 {
    loop {
        let kind = random.below(256);
        if !TYPES.contains(&kind) {
            return kind;
        }
    }
}

fn channel_0(recipe: &mut Recipe, random: &mut Random) {
    recipe.channel = 0;
    if recipe.kind == 0x01 || recipe.kind == 0x04 {
        recipe.kind = random.choose(&[0x00, 0x02, 0x03, 0x09, 0x44]);
    }
}

/// Gives the recipe this type where the greatest P of its own is another: that of 0x01 differs from all others'.
fn with_limit_of(recipe: &mut Recipe, kind: u64) -> &mut Recipe {
    if (recipe.kind == 0x01) != (kind == 0x01) {
        recipe.kind = kind;
        recipe.channel = recipe.channel.max(1);
    }
    recipe
}

/// The length of the body that makes P so long without filler.
fn body_for(recipe: &Recipe, length: usize) -> usize {
    length - recipe.overhead()
}

/// Declares a packet of this length, under the limit of this type, and a body that fits it without filler.
fn declare(recipe: &mut Recipe, kind: u64, length: usize) {
    recipe.length = Some(length as u64);
    recipe.data_length = Some(body_for(with_limit_of(recipe, kind), length) as u64);
}

/// D near 2^32, and the P that adding in 32 bits would give.
fn wrap(recipe: &mut Recipe, random: &mut Random) {
    let overhead = recipe.overhead() as u64;
    let data_length = (1 << 32) - 1 - random.below(overhead - 21);
    recipe.data_length = Some(data_length);
    recipe.length = Some((overhead + data_length + 3) / 4 * 4 % (1 << 32));
}

fn with_secondary(recipe: &mut Recipe) -> &mut Recipe {
    recipe.flags |= 0x80;
    recipe
}

/// Takes the secondary header and the data sum off: P is then 24, D and filler.
fn without_secondary_and_sum(recipe: &mut Recipe) -> &mut Recipe {
    without_secondary(recipe, 0, 0);
    recipe.flags &= !3;
    recipe
}

fn with_format(recipe: &mut Recipe, format: u64) -> &mut Recipe {
    recipe.flags = recipe.flags & !0x0C | 0x80 | format << 2;
    recipe
}

/// Takes bits 7 and 6 off the flags and puts others on.
fn without_secondary(recipe: &mut Recipe, flags: u64, time: u64) {
    recipe.flags = recipe.flags & !0xC0 | flags;
    recipe.time = time;
}

/// Bends the data sum by what `off` gives for its width; a packet without one gets one.
fn bend_data_sum(recipe: &mut Recipe, random: &mut Random, off: fn(usize) -> u64) {
    if recipe.flags & 3 == 0 {
        recipe.flags |= 1 + random.below(3);
    }
    recipe.data_sum_off = off(sum_width(recipe.flags));
}

/// Puts a byte into the filler, at what `place` gives for its length; the sum's width is chosen so that there is some.
fn bend_filler(recipe: &mut Recipe, place: fn(usize) -> usize, byte: u8) {
    let width = if recipe.body.len() % 4 == 0 { 1 } else { 3 };
    recipe.flags = recipe.flags & !3 | width;
    recipe.filler[place(recipe.filler_length())] = byte;
}

/// Either opened type.
const EITHER: u64 = 0;

/// A fault of the channel word.
const WORD: Fault = Fault { at: 0, reason: 1 };

/// Bends a body and answers the fault.
type Bend = fn(&mut Opened, &mut Random) -> Fault;

/// Gives the recipe a body of this opened type and so many blocks, then bent.
fn open(recipe: &mut Recipe, random: &mut Random, kind: u64, count: usize, bend: Bend) {
    let either = random.choose(&[MESSAGE, UART]);
    let kind = if kind == EITHER { either } else { kind };
    let rule = some_rule(random, kind, recipe.flags);
    let mut body = Opened::sound(random, kind, rule, count);
    let fault = bend(&mut body, random);
    give_body(recipe, &body, fault);
}

fn give_body(recipe: &mut Recipe, body: &Opened, fault: Fault) {
    recipe.kind = body.kind;
    recipe.channel = recipe.channel.max(1);
    recipe.body = body.bytes();
    recipe.fault = fault;
}

impl Opened {
    /// A faulty channel word.
    fn word(&mut self, word: u64) -> Fault {
        self.channel_word = word;
        WORD
    }

    /// A channel word that counts other blocks than there are: the fault is at this block, missing or left over.
    fn counts(&mut self, word: u64, block: usize) -> Fault {
        self.channel_word = word;
        self.miscounted(block)
    }

    /// So many bytes behind the last block.
    fn leave_over(&mut self, bytes: usize) -> Fault {
        self.leftover = vec![0; bytes];
        self.fault_in(self.blocks.len(), 6)
    }

    /// The first bytes only, which makes this fault.
    fn keep(&mut self, bytes: usize, fault: Fault) -> Fault {
        self.cut = self.bytes().len() - bytes;
        fault
    }

    /// Makes a block one of three bytes and a pad, then bends it so that it breaks the rule of this reason.
    fn bend_block(&mut self, number: usize, reason: u64, bend: fn(&mut Block)) -> Fault {
        let block = &mut self.blocks[number];
        (block.n, block.bytes, block.pad) = (3, vec![7; 3], vec![0]);
        bend(block);
        self.fault_in(number, reason)
    }
}

/// Makes a block one of no bytes.
fn empty(block: &mut Block) {
    (block.n, block.bytes, block.pad) = (0, Vec::new(), Vec::new());
}

/// Puts message times under this rule (1 to 3).
fn with_message_rule(recipe: &mut Recipe, rule: u64) {
    recipe.flags &= !0x40;
    if rule > 1 {
        with_format(recipe, rule - 2).time = 0;
        recipe.flags |= 0x40;
    }
}

/// Gives a body under this time rule (1 to 3) with one message time that the rule refuses.
fn bend_message_time(recipe: &mut Recipe, random: &mut Random, rule: u64, kind: u64) {
    with_message_rule(recipe, rule);
    let count = 1 + random.index(4);
    let number = random.index(count);
    let mut body = Opened::sound(random, kind, rule, count);
    body.blocks[number].time = time_out_of_form(random, rule);
    let fault = body.fault_in(number, 3);
    give_body(recipe, &body, fault);
}

/// A sound body of either type and so many blocks, for one to get these flaws, and its time rule: one of 1 to 3 where a time is to be out
/// of form.
fn body_for_flaws(
    recipe: &mut Recipe,
    random: &mut Random,
    flaws: Flaws,
    count: usize,
) -> (Opened, u64) {
    let kind = random.choose(&[MESSAGE, UART]);
    let mut rule = some_rule(random, kind, recipe.flags);
    if flaws.mistimed {
        rule = 1 + random.below(3);
        with_message_rule(recipe, rule);
    }
    (Opened::sound(random, kind, rule, count), rule)
}

/// Gives a body of which one block, the first or a later one, has these flaws.
fn flaw(recipe: &mut Recipe, random: &mut Random, flaws: fn(&mut Random) -> Flaws) {
    let flaws = flaws(random);
    let count = 1 + random.index(4);
    let number = random.index(count);
    let (mut body, rule) = body_for_flaws(recipe, random, flaws, count);
    let fault = body.flaw(random, rule, number, flaws);
    give_body(recipe, &body, fault.expect("flaws that are a fault"));
}

/// Gives a body of which one block has these flaws, and a later one some of its own: the walk stops at the first.
fn first_of_flaws(recipe: &mut Recipe, random: &mut Random, flaws: Flaws) {
    let count = 2 + random.index(3);
    let number = random.index(count - 1);
    let later = number + 1 + random.index(count - number - 1);
    let (mut body, rule) = body_for_flaws(recipe, random, flaws, count);
    let others = Flaws::some(random);
    body.flaw(random, rule, later, others);
    let fault = body.flaw(random, rule, number, flaws);
    give_body(recipe, &body, fault.expect("flaws that are a fault"));
}
