//! The cases of documents 01 and 02, in `table.txt`: what is written there is required of the library, whatever the second program says.

mod described;
mod grammar;
mod renewing;
mod told;
mod words;

use crate::check::{self, Step};
use crate::library;
use crate::renewal::kept::Kept;
use crate::tally::Tally;
use ch11::raw::Draft;
use described::Packets;
use generate::random::Random;
use generate::recipe::{Placed, CASE_L};
use told::Told;
use words::{bytes, each, halves, in_hex, lines, named, number, plain, Line};

const TABLE: &str = include_str!("table.txt");

/// What a builder's buffer is full of beforehand.
const UNWRITTEN: u8 = 0x5A;

/// The packets by their names, the body that is being built, and the renewal table, as the lines before have left them.
struct Cases<'a> {
    tally: &'a mut Tally,
    random: &'a mut Random,
    packets: Packets,
    draft: Draft,
    buf: Vec<u8>,
    kept: Kept,
    count: u64,
}

pub fn all(tally: &mut Tally, random: &mut Random) {
    let mut cases = Cases {
        tally,
        random,
        packets: Packets::default(),
        draft: library::draft(0, 0, 0, 0),
        buf: Vec::new(),
        kept: Kept::new(0),
        count: 0,
    };
    for line in lines(TABLE) {
        let all = each(&line.given);
        grammar::check(&line, all.len());
        for given in all {
            cases.run(&line, &given);
        }
    }
    println!("cases of documents 01 and 02: {}", cases.count);
}

impl Cases<'_> {
    fn run(&mut self, line: &Line, given: &[String]) {
        match line.command {
            "packet" => {
                let built = &self.buf[..self.buf.len().min(self.draft.used as usize)];
                self.packets.name(line.given[0], &given[1..], built);
            }
            "buffer" => {
                self.buf = vec![UNWRITTEN; number(&given[0]) as usize];
                self.draft = library::draft(0, 0, 0, 0);
            }
            "state" => {
                let part = |name| named(given, name).unwrap_or(0);
                self.draft =
                    library::draft(part("used"), part("blocks"), part("type"), part("rule"));
            }
            "read" | "list" | "message" | "recording" => {
                let window = self.packets.window(given);
                if named(given, "start").is_some() {
                    self.ask(line, given, &window, 0);
                } else {
                    for window in [self.moved(&window), window] {
                        self.ask(line, given, &window, window.start as u64);
                    }
                }
            }
            "store" | "row" | "fill" => self.prepare_table(line.command, given),
            "keep" | "renew" => self.ask_table(line, given),
            "next" | "entry" => self.tell_table(line, given),
            "write" => {
                let told = self.write(given);
                self.require(line, given, told);
            }
            _ => {
                let told = self.build(line.command, given);
                self.require(line, given, told);
            }
        }
    }

    /// The same window further back in a buffer, with case L behind it.
    fn moved(&mut self, window: &Placed) -> Placed {
        let buf = [&self.random.bytes(7), &window.buf[..], &CASE_L].concat();
        Placed::new(buf, window.start + 7, window.end + 7, window.base)
    }

    /// One of the readers on this window, or the recording reader; places in its answer count from `here`.
    fn ask(&mut self, line: &Line, given: &[String], window: &Placed, here: u64) {
        let (tally, random) = (&mut *self.tally, &mut *self.random);
        let place = |name| named(given, name).unwrap_or(0) as usize;
        let told = match line.command {
            "read" => {
                let (number, packet) = check::window(tally, random, window);
                if number == 0 {
                    check::write_again(tally, window, &packet, 3);
                }
                told::packet(&packet, here)
            }
            "list" => {
                let (list, lists) = check::list(tally, window, place("starts"), place("lengths"));
                told::list(&list, &lists, here)
            }
            "message" => told::message(&check::message(tally, window, place("number")).1, here),
            _ => told::recording(&check::recording(tally, window).1, here),
        };
        self.require(line, given, told);
    }

    /// The writer on a packet's fields and body, with this room, or with three bytes more than it needs; what it writes is the packet.
    fn write(&mut self, given: &[String]) -> Told {
        let recipe = self.packets.described(given);
        let room = named(given, "room").map_or(recipe.right_length() + 3, |room| room as usize);
        let (written, packet) =
            check::write(self.tally, &check::fields_of(&recipe), &recipe.body, room);
        let mut told = told::written(&written, &packet);
        if told[0] == "0" && packet != recipe.bytes() {
            told[0] = "0, other bytes".to_string();
        }
        told
    }

    /// A step of the builder, once or some times over, or what its buffer holds ahead of what is unwritten.
    fn build(&mut self, command: &str, given: &[String]) -> Told {
        let part = |name| named(given, name).unwrap_or(0);
        let step = match command {
            "open" => Step::Open(part("type"), part("rule")),
            "add" => Step::Add(part("time"), part("upper"), bytes_in(given)),
            "close" => Step::Close,
            "holds" => {
                let written = self.buf.iter().rposition(|byte| *byte != UNWRITTEN);
                let held = &self.buf[..written.map_or(0, |last| last + 1)];
                return vec!["0".to_string(), format!("bytes={}", in_hex(held))];
            }
            other => panic!("no such command: {}", other),
        };
        for _ in 0..named(given, "times").unwrap_or(1) {
            (_, self.draft, self.buf) = check::step(self.tally, self.draft, &self.buf, &step);
        }
        told::draft(&self.draft)
    }

    /// Requires that the answer has the words of the line: all of a refusal's and of a renewal's, and of the values of an acceptance those
    /// that are named.
    fn require(&mut self, line: &Line, given: &[String], told: Told) {
        self.count += 1;
        let mut wanted = outcome(line, given);
        let names: Vec<&str> = wanted.iter().map(|word| halves(word).0).collect();
        let all = told[0] != "0" || line.command == "renew";
        let is_asked = |word: &String| all || names.contains(&halves(word).0);
        let mut told: Told = told.into_iter().filter(is_asked).collect();
        wanted.sort();
        told.sort();
        let input = || format!("{}, with {}", line.text, given.join(" "));
        self.tally.require(line.sentence, &input, &told, &wanted);
    }
}

/// What the line wants. The recording places that it doesn't write are those by a base of 0: distances from the window's start, and 0 for
/// the writer and builder.
fn outcome(line: &Line, given: &[String]) -> Told {
    let mut wanted: Told = line.wanted.iter().map(|word| plain(word)).collect();
    let start = named(given, "start").unwrap_or(0);
    for (name, place) in grammar::recording_places(line) {
        if named(&wanted, name).is_none() {
            let distance = named(&wanted, place).map_or(0, |place| place - start);
            wanted.push(format!("{}={}", name, distance));
        }
    }
    wanted
}

fn bytes_in(given: &[String]) -> Vec<u8> {
    let mut values = given.iter().map(|word| halves(word));
    values
        .find(|half| half.0 == "bytes")
        .map_or(Vec::new(), |half| bytes(half.1))
}
