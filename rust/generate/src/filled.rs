//! Windows "as the store filled it now", for the renewal table: a recording's packet, or what became of it. What stands at a window's start
//! is known, since it was made so.

use crate::causes::{bent, causes};
use crate::opened::{MESSAGE, UART};
use crate::random::Random;
use crate::recipe::{legal_flags, Placed, Recipe, TYPES};

/// What is at a window's start: a packet that is accepted, of these bytes; or a refusal of this number, so many bytes behind the start, and
/// for this reason.
#[derive(Clone, Debug, PartialEq, Eq)]
pub enum Found {
    Packet(Vec<u8>),
    Refused(u64, usize, u64),
}

/// A window, and what is at its start.
#[derive(Clone, Debug)]
pub struct Filled {
    pub window: Placed,
    pub found: Found,
}

impl Filled {
    /// The window at this place of the recording; it is refused where it is outside its buffer or reaches past the last place.
    fn at(place: u64, mut window: Placed, found: Found) -> Filled {
        window.base = place;
        let found = if window.is_taken() {
            found
        } else {
            Found::Refused(1, 0, 0)
        };
        Filled { window, found }
    }
}

/// A sound packet of exactly this length (a multiple of 4, at least 28), of a type that is carried.
pub fn of_length(random: &mut Random, length: usize) -> Recipe {
    let is_carried = |kind: &u64| *kind != MESSAGE && *kind != UART;
    let carried: Vec<u64> = TYPES.into_iter().filter(is_carried).collect();
    let flags = if length < 44 {
        0
    } else {
        random.choose(&legal_flags())
    };
    let kind = random.choose(&carried);
    let mut recipe = Recipe::sound(random, kind, flags);
    let body_length = length - recipe.overhead() - random.index(4);
    recipe.body = random.bytes(body_length);
    recipe
}

/// A sound packet, mostly one that a slot holds.
pub fn some_packet(random: &mut Random) -> Recipe {
    let any = 28 + 4 * random.index(250);
    match random.below(8) {
        0..=2 => Recipe::any(random),
        3 => of_length(random, 28),
        4 => of_length(random, 1_024),
        5 if random.one_in(4) => {
            let longer = 1_028 + 4 * random.index(1_000);
            let length = random.choose(&[1_028, longer]);
            of_length(random, length)
        }
        _ => of_length(random, any),
    }
}

/// A window that the packet is still in, with other bytes behind it or without.
pub fn sound(random: &mut Random, recipe: &Recipe, place: u64) -> Filled {
    Filled::at(place, recipe.placed(random), Found::Packet(recipe.bytes()))
}

/// A window that is filled with so many bytes of the packet; the rest stands behind the filled end. With none it is withdrawn.
pub fn cut(random: &mut Random, recipe: &Recipe, place: u64, kept: usize) -> Filled {
    let mut window = recipe.placed(random);
    window.end = window.start + kept;
    let number = if kept < 24 { 2 } else { 10 };
    Filled::at(place, window, Found::Refused(number, 0, 0))
}

/// A window with one byte of the packet changed, where a sum sees it.
pub fn altered(random: &mut Random, recipe: &Recipe, place: u64) -> Filled {
    let mut window = recipe.placed(random);
    let is_seen = |at: &usize| recipe.number_for_change(*at).is_some();
    let seen: Vec<usize> = (0..recipe.right_length()).filter(is_seen).collect();
    let at = random.choose(&seen);
    window.buf[window.start + at] ^= 1 << random.below(8);
    let number = recipe.number_for_change(at).unwrap_or(0);
    Filled::at(place, window, Found::Refused(number, 0, 0))
}

/// A window with another sound packet: one of the same length that differs in one field, or any.
pub fn another(random: &mut Random, recipe: &Recipe, place: u64) -> Filled {
    let mut other = recipe.clone();
    match random.below(4) {
        0 => other.sequence ^= 1 << random.below(8),
        1 => other.rtc ^= 1 << random.below(48),
        2 => other.flags ^= 0x10,
        _ => other = some_packet(random),
    }
    sound(random, &other, place)
}

/// A window with the packet made faulty in one of the ways of `causes`.
pub fn faulty(random: &mut Random, recipe: &Recipe, place: u64) -> Filled {
    let cause = random.choose(&causes(false));
    let (recipe, number) = bent(recipe.clone(), random, &[cause]);
    let (inside, reason) = recipe.fault_of(number);
    let found = if number == 1 {
        // Its base is refused, or its window is outside: with this place the first may be sound.
        Found::Packet(recipe.bytes())
    } else {
        Found::Refused(number, inside, reason)
    };
    Filled::at(place, recipe.placed(random), found)
}

/// A window that the packet is no longer in, in one of these ways.
pub fn lost(random: &mut Random, recipe: &Recipe, place: u64) -> Filled {
    let some = random.index(recipe.right_length());
    match random.below(8) {
        0 => cut(random, recipe, place, 0),
        1 => cut(random, recipe, place, some),
        2 => altered(random, recipe, place),
        3 => another(random, recipe, place),
        _ => faulty(random, recipe, place),
    }
}
