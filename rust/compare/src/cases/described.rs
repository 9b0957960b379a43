//! Packets, and windows of packets and other bytes, as the words of the table describe them.

use super::grammar::{altered_byte, is_of_a_packet};
use super::words::{bytes, halves, named, number};
use generate::recipe::{Placed, Recipe};
use std::collections::BTreeMap;

#[derive(Default)]
pub struct Packets {
    named: BTreeMap<&'static str, Recipe>,
}

impl Packets {
    /// Gives a packet a name; `body=built` is this body.
    pub fn name(&mut self, name: &'static str, given: &[String], built: &[u8]) {
        let is_built = |word: &String| word == "body=built";
        let (of_builder, others): (Vec<_>, Vec<_>) = given.iter().cloned().partition(is_built);
        let mut recipe = self.described(&others);
        if !of_builder.is_empty() {
            recipe.body = built.to_vec();
        }
        self.named.insert(name, recipe);
    }

    /// One packet: that of the name which stands ahead, with what the other words change.
    pub fn described(&self, given: &[String]) -> Recipe {
        let mut recipe = Recipe::default();
        for word in given {
            match halves(word) {
                (name, "") => recipe = self.named[name].clone(),
                (name, value) => set(&mut recipe, name, value),
            }
        }
        recipe
    }

    /// A buffer of packets and pieces of bytes, some of its bytes altered, and the window in it: all of it, from a byte on, as many bytes as
    /// are kept, or as it is named; its base is 0 or as it is named.
    pub fn window(&self, given: &[String]) -> Placed {
        let mut pieces: Vec<Vec<String>> = Vec::new();
        for word in given {
            match halves(word) {
                (_, "") | ("bytes", _) => pieces.push(vec![word.clone()]),
                _ => pieces.last_mut().expect("a packet").push(word.clone()),
            }
        }
        let piece = |words: &Vec<String>| {
            if let ("bytes", value) = halves(&words[0]) {
                let lost = words.iter().find(|word| is_of_a_packet(halves(word).0));
                assert!(lost.is_none(), "bytes have no parts: {:?}", words);
                return bytes(value);
            }
            let recipe = self.described(words);
            assert!(fits(&recipe), "a part does not fit its field: {:?}", words);
            recipe.bytes()
        };
        let mut window = Placed::whole(pieces.iter().flat_map(piece).collect());
        for (name, value) in given.iter().map(|word| halves(word)) {
            if let Some(at) = altered_byte(name) {
                window.buf[at] = u8::try_from(number(value)).expect("a byte");
            }
        }
        let place = |name| named(given, name).map(|place| place as usize);
        window.start = place("from").or(place("start")).unwrap_or(0);
        window.end = match place("kept") {
            Some(kept) => window.start + kept,
            None => place("end").unwrap_or(window.end),
        };
        window.base = named(given, "base").unwrap_or(0);
        window
    }
}

/// Whether each part fits its field, so that nothing is cut where the packet is put down.
fn fits(recipe: &Recipe) -> bool {
    let Recipe {
        sync,
        channel,
        version,
        sequence,
        flags,
        kind,
        rtc,
        ..
    } = recipe;
    let lengths = [recipe.length, recipe.data_length].map(|length| length.unwrap_or(0));
    let behind_filler = &recipe.filler[recipe.filler_length()..];
    [sync, channel, &recipe.reserved]
        .iter()
        .all(|part| **part < 1 << 16)
        && [version, sequence, flags, kind]
            .iter()
            .all(|part| **part < 1 << 8)
        && lengths.iter().all(|length| *length < 1 << 32)
        && *rtc < 1 << 48
        && behind_filler.iter().all(|byte| *byte == 0)
}

/// Gives a part of a packet this value, where the word names one.
fn set(recipe: &mut Recipe, name: &str, value: &str) {
    let part = match name {
        "channel" => &mut recipe.channel,
        "version" => &mut recipe.version,
        "sequence" => &mut recipe.sequence,
        "flags" => &mut recipe.flags,
        "type" => &mut recipe.kind,
        "rtc" => &mut recipe.rtc,
        "time" => &mut recipe.time,
        "sync" => &mut recipe.sync,
        "P" => recipe.length.insert(0),
        "D" => recipe.data_length.insert(0),
        "reserved" => &mut recipe.reserved,
        "header_sum_off" => &mut recipe.header_sum_off,
        "secondary_sum_off" => &mut recipe.secondary_sum_off,
        "data_sum_off" => &mut recipe.data_sum_off,
        "body" => {
            recipe.body = bytes(value);
            return;
        }
        "filler" => {
            let filler = bytes(value);
            recipe.filler[..filler.len()].copy_from_slice(&filler);
            return;
        }
        _ => return,
    };
    *part = number(value);
}
