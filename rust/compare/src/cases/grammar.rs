//! Which words each command of the table takes and which it can't do without, so that no word is left unread.

use super::words::{halves, Line};

/// A packet as the writer takes it.
const GIVEN: [&str; 8] = [
    "channel", "version", "sequence", "flags", "type", "rtc", "time", "body",
];
/// What else a packet is described by.
const BENT: [&str; 8] = [
    "sync",
    "P",
    "D",
    "reserved",
    "filler",
    "header_sum_off",
    "secondary_sum_off",
    "data_sum_off",
];
/// Pieces of bytes, the window and its base.
const WINDOW: [&str; 6] = ["bytes", "from", "kept", "start", "end", "base"];

/// What a row of a renewal table can't do without, and what else it may have.
const ROW: [&str; 5] = ["slot", "live", "recording", "place", "P"];
const OF_A_ROW: [&str; 3] = ["channel", "sequence", "rtc"];

/// The commands that ask for nothing.
const PREPARING: [&str; 6] = ["packet", "buffer", "state", "store", "row", "fill"];

/// How many bare words a command takes, the words it needs, and those it may have.
struct Form(
    std::ops::RangeInclusive<usize>,
    &'static [&'static str],
    Vec<&'static str>,
);

fn form(command: &str) -> Form {
    let packets = 0..=9;
    match command {
        "packet" => Form(1..=2, &[], [GIVEN, BENT].concat()),
        "buffer" | "store" => Form(1..=1, &[], Vec::new()),
        "row" => Form(0..=0, &ROW, OF_A_ROW.to_vec()),
        "fill" => Form(packets, &["slot"], of_a_reader()),
        "keep" | "renew" => Form(packets, &["recording", "base"], of_a_reader()),
        "next" => Form(0..=0, &["from"], Vec::new()),
        "entry" => Form(0..=0, &["slot"], Vec::new()),
        "state" => Form(0..=0, &["used", "blocks", "type", "rule"], Vec::new()),
        "read" | "recording" => Form(packets, &[], of_a_reader()),
        "list" => Form(packets, &["starts", "lengths"], of_a_reader()),
        "message" => Form(packets, &["number"], of_a_reader()),
        "write" => Form(1..=1, &[], [&GIVEN[..], &["room"]].concat()),
        "open" => Form(0..=0, &["type", "rule"], Vec::new()),
        "add" => Form(0..=0, &["bytes"], vec!["time", "upper", "times"]),
        "close" | "holds" => Form(0..=0, &[], Vec::new()),
        other => panic!("no such command: {}", other),
    }
}

fn of_a_reader() -> Vec<&'static str> {
    [&GIVEN[..], &BENT, &WINDOW].concat()
}

/// Whether words of this name describe a packet.
pub fn is_of_a_packet(name: &str) -> bool {
    GIVEN.contains(&name) || BENT.contains(&name)
}

/// The place that a word `byte13` names.
pub fn altered_byte(name: &str) -> Option<usize> {
    name.strip_prefix("byte")?.parse().ok()
}

/// Whether a word of a packet, or of what is asked of it, stands there twice.
fn is_said_twice(line: &Line) -> bool {
    let is_piece = |word: &&str| halves(word).1.is_empty() || halves(word).0 == "bytes";
    let of_piece = |words: &[&str]| {
        let mut names: Vec<&str> = words.iter().map(|word| halves(word).0).collect();
        names.sort_unstable();
        names.windows(2).any(|pair| pair[0] == pair[1])
    };
    line.given.split(|word| is_piece(&word)).any(of_piece)
}

/// The recording places in a line's outcome, each with the place that it goes by: a refusal's or an accepted packet's, and a recording's
/// that is reached.
pub fn recording_places(line: &Line) -> Vec<(&'static str, &'static str)> {
    let mut places = Vec::new();
    if line.command == "read" || line.wanted.first() != Some(&"0") {
        places.push(("recording_place", "at"));
    }
    if line.command == "recording" {
        places.push(("recording_reached", "reached"));
    }
    places
}

/// Whether a line that names a base writes each of these places.
fn are_places_written(line: &Line) -> bool {
    let is_written = |name: &str| line.wanted.iter().any(|word| halves(word).0 == name);
    let mut places = recording_places(line).into_iter();
    places.all(|(name, _)| is_written(name))
}

/// Ends the run where the line is none of the table: a word that its command does not take, lacks or has twice, a window named by half or in two
/// ways, a base without the places by it, a case without a sentence or an outcome, an outcome or several values where there is no case.
pub fn check(line: &Line, cases: usize) {
    let Form(bare, needed, allowed) = form(line.command);
    let prepares = PREPARING.contains(&line.command);
    let names: Vec<&str> = line.given.iter().map(|word| halves(word).0).collect();
    let has = |name: &str| names.contains(&name);
    let reads = allowed.contains(&"kept");
    let is_known = |word: &&str| {
        let (name, value) = halves(word);
        let takes = needed.contains(&name) || allowed.contains(&name);
        value.is_empty() || takes || (reads && altered_byte(name).is_some())
    };
    let bare_words = line.given.iter().filter(|word| halves(word).1.is_empty());
    let is_sound = bare.contains(&bare_words.count())
        && line.given.iter().all(is_known)
        && needed.iter().all(|name| has(name))
        && !is_said_twice(line)
        && has("start") == has("end")
        && !(has("start") && (has("from") || has("kept")))
        && (!has("base") || are_places_written(line))
        && prepares == line.wanted.is_empty()
        && (prepares || !line.sentence.is_empty())
        && (!prepares || cases == 1);
    assert!(is_sound, "no line of the table: {}", line.text);
}
