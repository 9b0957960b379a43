//! The lines of the table that are about the renewal table.

use super::told;
use super::words::{named, number, Line};
use super::Cases;
use crate::renewal::check;
use crate::renewal::kept::{slot_bytes, Kept};
use ch11::raw::Entry;
use generate::recipe::Placed;

impl Cases<'_> {
    /// An empty table with a fresh store, a row that is forged, or bytes put down from a slot's first on.
    pub fn prepare_table(&mut self, command: &str, given: &[String]) {
        let part = |name| named(given, name).unwrap_or(0);
        let slot = part("slot") as usize;
        match command {
            "store" => self.kept = Kept::new(number(&given[0]) as usize),
            "row" => {
                self.kept.table.slots[slot] = Entry {
                    live: part("live"),
                    recording: part("recording"),
                    place: part("place"),
                    length: part("P"),
                    channel: part("channel"),
                    sequence: part("sequence"),
                    rtc: part("rtc"),
                }
            }
            _ => {
                let window = self.packets.window(given);
                self.kept.fill(slot, &window.buf[window.start..window.end]);
            }
        }
    }

    /// Adds or renews, as a reader is asked: twice, the first time on a copy, unless the window is named.
    pub fn ask_table(&mut self, line: &Line, given: &[String]) {
        let window = self.packets.window(given);
        if named(given, "start").is_some() {
            return self.ask_renewal(line, given, &window, 0);
        }
        let (moved, kept) = (self.moved(&window), self.kept.clone());
        self.ask_renewal(line, given, &moved, moved.start as u64);
        self.kept = kept;
        self.ask_renewal(line, given, &window, window.start as u64);
    }

    /// Places in the answer count from `here`.
    fn ask_renewal(&mut self, line: &Line, given: &[String], window: &Placed, here: u64) {
        let recording = named(given, "recording").unwrap_or(0);
        let call = if line.command == "keep" {
            check::add
        } else {
            check::renew
        };
        let outcome = call(self.tally, &mut self.kept, recording, window);
        self.require(line, given, told::renewal(&outcome, here));
    }

    /// The next slot that lives, or what a slot's row and bytes are.
    pub fn tell_table(&mut self, line: &Line, given: &[String]) {
        let part = |name| named(given, name).unwrap_or(0) as usize;
        let table = &self.kept.table;
        let told = if line.command == "next" {
            told::next(check::next(self.tally, table, part("from")))
        } else {
            let bytes = &self.kept.store()[slot_bytes(part("slot"))];
            told::entry(&table.slots[part("slot")], bytes)
        };
        self.require(line, given, told);
    }
}
