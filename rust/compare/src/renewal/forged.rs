//! Tables that are forged, and stores that are not what was written: words that adding doesn't make, names held twice, bytes that differ.

use super::check;
use super::kept::{slot_bytes, Kept, Name};
use super::met::Outcome::{self, Added, Dropped, Lives};
use super::orders::{adds, at_start, renews, with_others};
use crate::tally::Tally;
use ch11::raw::{Entry, Refusal, Table, SLOTS, STORE_BYTES};
use generate::filled::{another, cut, lost, of_length, some_packet, sound};
use generate::random::Random;
use generate::recipe::{sum_width, Placed, Recipe};

pub fn all(tally: &mut Tally, random: &mut Random) {
    live_words(tally, random);
    forged_lengths(tally, random);
    held_bytes(tally, random);
    bytes_read(tally, random);
    exchanged_units(tally, random);
    names_twice(tally, random);
    near_names(tally, random);
    forged_fields(tally, random);
    for _ in 0..60 {
        any_words(tally, random);
    }
    next(tally, random);
}

/// The name that is tried.
const NAME: Name = (7, 1 << 40);

/// Slots at the ends and in the middle.
const TRIED: [usize; 6] = [0, 1, 31, 32, 62, 63];

/// Dropped, where the reader has nothing to say.
const ALONE: Outcome = Dropped(Refusal {
    number: 0,
    place: 0,
    room: 0,
    reason: 0,
    recording_place: 0,
});

/// What a refused reading drops the entry for.
fn dropped_for(window: &Placed, number: u64) -> Outcome {
    Dropped(crate::check::refusal_in(window, number, 0, 0))
}

/// A window on this packet at the name's place.
fn window_on(random: &mut Random, recipe: &Recipe) -> Placed {
    sound(random, recipe, NAME.1).window
}

/// Any word but 0 is an entry that lives; in a free slot the name is none.
fn live_words(tally: &mut Tally, random: &mut Random) {
    for live in [0, 1, 2, 255, 256, 1 << 32, 1 << 63, u64::MAX] {
        for slot in TRIED {
            let recipe = of_length(random, 100);
            let (window, gone) = (
                window_on(random, &recipe),
                cut(random, &recipe, NAME.1, 99).window,
            );
            let mut kept = with_others(random.index(slot + 1), STORE_BYTES);
            let lowest_free = kept.live_count() as u64;
            kept.put(slot, NAME, &recipe.bytes());
            kept.table.slots[slot].live = live;
            let unless_free = |outcome, window| {
                if live == 0 {
                    at_start(window, 20)
                } else {
                    outcome
                }
            };
            let dropped = unless_free(dropped_for(&gone, 10), &gone);
            renews(tally, &mut kept.clone(), NAME.0, &gone, dropped);
            renews(
                tally,
                &mut kept,
                NAME.0,
                &window,
                unless_free(Lives, &window),
            );
            let taken = if live == 0 { lowest_free } else { slot as u64 };
            adds(tally, &mut kept, NAME.0, &window, Added(taken));
        }
    }
}

/// P as a row may have it where the packet's is another, or the right one: near it, at the slot's length, and the same in 16, 32 or 63 bits.
fn forged_ps(random: &mut Random, length: u64) -> Vec<u64> {
    let near = [length - 4, length - 1, length, length + 1, length + 4];
    let alike = [16, 32, 63].map(|bit| 1 << bit | length);
    let others = [0, 1, 24, 1_024, 1_025, 1_028, 2_048, random.wide()];
    let highest = [u64::MAX - 1_023, u64::MAX];
    [&near[..], &alike, &others, &highest].concat()
}

/// "a forged entry whose P passes 1,024 is dropped too", though the store has the packet's bytes from the slot's first on; so is one whose P
/// is another packet's.
fn forged_lengths(tally: &mut Tally, random: &mut Random) {
    for length in [28, 40, 1_020, 1_024, 1_028, 2_048] {
        let recipe = of_length(random, length as usize);
        for (slot, more) in [
            (0, 0),
            (30, 0),
            (62, 4),
            (62, 1_028),
            (63, 0),
            (63, 4),
            (63, 2_048),
        ] {
            let window = window_on(random, &recipe);
            let mut kept = Kept::new(STORE_BYTES + more);
            kept.put(slot, NAME, &recipe.bytes());
            for forged in forged_ps(random, length) {
                kept.table.slots[slot].length = forged;
                let is_right = forged == length && length <= 1_024;
                let wanted = if is_right { Lives } else { ALONE };
                renews(tally, &mut kept.clone(), NAME.0, &window, wanted);
            }
            let wanted = if length > 1_024 {
                at_start(&window, 21)
            } else {
                Added(slot as u64)
            };
            adds(tally, &mut kept, NAME.0, &window, wanted);
        }
    }
}

/// Each byte of the store in the entry's slot, and the two beside the slot, changed alone: it counts where the packet is, and nowhere else.
fn held_bytes(tally: &mut Tally, random: &mut Random) {
    for length in [28, 1_024] {
        let recipe = of_length(random, length);
        let slot = 1 + random.index(SLOTS - 2);
        let window = window_on(random, &recipe);
        let mut kept = with_others(SLOTS, STORE_BYTES);
        kept.put(slot, NAME, &recipe.bytes());
        let row = kept.table.slots[slot];
        let bytes = slot_bytes(slot);
        for at in bytes.start - 1..bytes.end + 1 {
            let bit = 1 << random.below(8);
            kept.store_mut()[at] ^= bit;
            let is_held = (bytes.start..bytes.start + length).contains(&at);
            let wanted = if is_held { ALONE } else { Lives };
            renews(tally, &mut kept, NAME.0, &window, wanted);
            kept.store_mut()[at] ^= bit;
            kept.table.slots[slot] = row;
        }
    }
}

/// Each byte of the window's packet changed alone, where the packet is still accepted; and each behind it, in the window and behind the
/// filled end, which doesn't count.
fn bytes_read(tally: &mut Tally, random: &mut Random) {
    for length in [28, 1_024] {
        let recipe = plain(random, 0, length - 24);
        let mut window = Placed::whole([recipe.bytes(), random.bytes(30)].concat());
        window.base = NAME.1;
        window.end -= 15;
        let slot = random.index(SLOTS);
        let mut kept = Kept::new(STORE_BYTES);
        for at in 24..window.buf.len() {
            kept.put(slot, NAME, &recipe.bytes());
            let bit = 1 << random.below(8);
            window.buf[at] ^= bit;
            let wanted = if at < length { ALONE } else { Lives };
            renews(tally, &mut kept, NAME.0, &window, wanted);
            window.buf[at] ^= bit;
        }
    }
}

/// A packet that is carried, without secondary header, with this data sum and a body of so many bytes.
fn plain(random: &mut Random, flags: u64, body_length: usize) -> Recipe {
    let mut recipe = of_length(random, 28);
    recipe.flags = flags;
    recipe.body = random.bytes(body_length);
    recipe
}

/// Two units of the body exchanged: header and data sum are the same, the packet is accepted, and is another one.
fn exchanged_units(tally: &mut Tally, random: &mut Random) {
    for flags in 0..4 {
        let width = sum_width(flags).max(1);
        for _ in 0..6 {
            let recipe = plain(random, flags, 40 * width);
            let mut other = recipe.clone();
            let (one, two) = (random.index(20), 20 + random.index(20));
            for byte in 0..width {
                other.body.swap(one * width + byte, two * width + byte);
            }
            let wanted = if other.body == recipe.body {
                Lives
            } else {
                ALONE
            };
            let mut kept = Kept::new(STORE_BYTES);
            kept.put(random.index(SLOTS), NAME, &recipe.bytes());
            let window = window_on(random, &other);
            renews(tally, &mut kept, NAME.0, &window, wanted);
        }
    }
}

/// "Of a name held twice in a forged table the lowest slot counts": the others stay, and come to light when it is dropped.
fn names_twice(tally: &mut Tally, random: &mut Random) {
    for slots in [
        [0, 1, 2],
        [61, 62, 63],
        [0, 31, 63],
        [1, 2, 63],
        [5, 40, 41],
        [30, 31, 32],
    ] {
        for others in [0, 64] {
            let (first, second) = (of_length(random, 64), of_length(random, 64));
            let (one, two) = (window_on(random, &first), window_on(random, &second));
            let gone = cut(random, &first, NAME.1, 0).window;
            let mut kept = with_others(others, STORE_BYTES);
            for (slot, recipe) in slots.iter().zip([&first, &second, &first]) {
                kept.put(*slot, NAME, &recipe.bytes());
                kept.table.slots[*slot].live = random.choose(&[1, 1, 3]);
            }
            let [lowest, middle, highest] = slots.map(|slot| slot as u64);
            adds(tally, &mut kept.clone(), NAME.0, &two, Added(lowest));
            renews(tally, &mut kept, NAME.0, &one, Lives);
            renews(tally, &mut kept, NAME.0, &two, ALONE);
            renews(tally, &mut kept, NAME.0, &two, Lives);
            adds(tally, &mut kept.clone(), NAME.0, &one, Added(middle));
            renews(tally, &mut kept, NAME.0, &gone, dropped_for(&gone, 2));
            adds(tally, &mut kept.clone(), NAME.0, &two, Added(highest));
            renews(tally, &mut kept, NAME.0, &one, Lives);
            renews(tally, &mut kept, NAME.0, &gone, dropped_for(&gone, 2));
            renews(tally, &mut kept, NAME.0, &one, at_start(&one, 20));
        }
    }
}

/// Names that differ in one bit are others; a free row that spells the name beside the entry has no say.
fn near_names(tally: &mut Tally, random: &mut Random) {
    let recipe = of_length(random, 48);
    let window = window_on(random, &recipe);
    for bit in 0..64 {
        for near in [(NAME.0 ^ 1 << bit, NAME.1), (NAME.0, NAME.1 ^ 1 << bit)] {
            let slot = random.index(SLOTS - 1);
            let mut kept = Kept::new(STORE_BYTES);
            kept.put(slot, near, &recipe.bytes());
            renews(tally, &mut kept, NAME.0, &window, at_start(&window, 20));
            let other = kept.free()[0] as u64;
            adds(tally, &mut kept, NAME.0, &window, Added(other));
        }
        let (free, slot) = (random.index(SLOTS / 2), SLOTS / 2 + random.index(SLOTS / 2));
        let mut kept = Kept::new(STORE_BYTES);
        for slot in [free, slot] {
            kept.put(slot, NAME, &recipe.bytes());
        }
        kept.table.slots[free].live = 0;
        renews(tally, &mut kept, NAME.0, &window, Lives);
        adds(tally, &mut kept, NAME.0, &window, Added(slot as u64));
    }
}

/// Channel, sequence and RTC in the row have no say, and stay as they are.
fn forged_fields(tally: &mut Tally, random: &mut Random) {
    for _ in 0..20 {
        let recipe = of_length(random, 200);
        let window = window_on(random, &recipe);
        let slot = random.index(SLOTS);
        let mut kept = Kept::new(STORE_BYTES);
        kept.put(slot, NAME, &recipe.bytes());
        let row = &mut kept.table.slots[slot];
        for word in [&mut row.channel, &mut row.sequence, &mut row.rtc] {
            *word = random.wide();
        }
        renews(tally, &mut kept, NAME.0, &window, Lives);
        let other = another(random, &recipe, NAME.1).window;
        renews(tally, &mut kept, NAME.0, &other, ALONE);
    }
}

/// Rows of any words, of which some hold a packet under one of two names; nothing is known of them but what §13 says.
fn any_words(tally: &mut Tally, random: &mut Random) {
    let names = [(random.wide(), random.wide() >> 1), NAME];
    let recipes = [some_packet(random), of_length(random, 1_024)];
    let mut kept = Kept::new(STORE_BYTES + random.index(9));
    kept.store_mut()
        .iter_mut()
        .for_each(|byte| *byte = random.bits() as u8);
    for slot in 0..SLOTS {
        let row = &mut kept.table.slots[slot];
        for word in [
            &mut row.live,
            &mut row.length,
            &mut row.channel,
            &mut row.recording,
            &mut row.place,
        ] {
            *word = random.wide();
        }
        if random.one_in(6) {
            kept.put(
                slot,
                random.choose(&names),
                &recipes[random.index(2)].bytes(),
            );
            kept.table.slots[slot].live = random.wide();
        }
    }
    for _ in 0..12 {
        let row = kept.table.slots[random.index(SLOTS)];
        let (recording, place) = random.choose(&[names[0], names[1], (row.recording, row.place)]);
        let recipe = &recipes[random.index(2)];
        let make = if random.one_in(4) { lost } else { sound };
        let window = make(random, recipe, place).window;
        if random.one_in(3) {
            check::add(tally, &mut kept, recording, &window);
        } else {
            check::renew(tally, &mut kept, recording, &window);
        }
    }
}

/// The next live slot, from every slot on and from far behind, in tables of every density: none, each slot alone, some, all.
fn next(tally: &mut Tally, random: &mut Random) {
    let alone = (0..SLOTS).map(|slot| (1, slot..slot + 1));
    let denser = [1, 2, 3, 4, 8, 20, 64].map(|odds| (odds, 0..SLOTS));
    for (odds, slots) in alone.chain(denser).chain([(1, 0..0)]) {
        let mut table = Table::default();
        for slot in 0..SLOTS {
            let live = if slots.contains(&slot) && random.one_in(odds) {
                random.choose(&[1, 2, 1 << 32, u64::MAX])
            } else {
                0
            };
            let [recording, length] = [random.wide(), random.wide()];
            table.slots[slot] = Entry {
                live,
                recording,
                length,
                ..Entry::default()
            };
        }
        for from in (0..=65).chain([1 << 32, usize::MAX - 1, usize::MAX]) {
            check::next(tally, &table, from);
        }
    }
}
