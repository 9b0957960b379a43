//! What the calls answer, in the words of the table: the number first, then `name=value`.

use super::words::in_hex;
use crate::check::{LIST_PATTERN, PATTERN};
use crate::renewal::met::Outcome;
use ch11::raw::{Draft, Entry, List, Message, Packet, Part, Recording, Refusal, Written};

pub type Told = Vec<String>;

/// Words of names and numbers.
macro_rules! words {
    ($($name:literal $value:expr),+) => { vec![$(format!("{}={}", $name, $value)),+] };
}

/// 0 and the answer's values, or a refusal: its place counts from `here`; without a window the place is 0, and not told, nor is a room or
/// reason of 0. Its place in the recording is always told. That all other results are zero then, `check` requires of every call.
fn answer(refusal: &Refusal, here: Option<u64>, values: Vec<String>) -> Told {
    let number = vec![refusal.number.to_string()];
    if refusal.number == 0 {
        return [number, values].concat();
    }
    let place = refusal.place.wrapping_sub(here.unwrap_or(0));
    let mut told = number;
    if here.is_some() || place != 0 {
        told.extend(words!("at" place));
    }
    if refusal.room != 0 {
        told.extend(words!("room" refusal.room));
    }
    if refusal.reason != 0 {
        told.extend(words!("reason" refusal.reason));
    }
    told.extend(words!("recording_place" refusal.recording_place));
    told
}

pub fn packet(packet: &Packet, here: u64) -> Told {
    let fields = &packet.fields;
    let part = |part: Part| format!("{}+{}", part.at.wrapping_sub(here), part.length);
    let values = words!(
        "channel" fields.channel, "version" fields.version, "sequence" fields.sequence, "flags" fields.flags, "type" fields.kind,
        "rtc" fields.rtc, "time" fields.time, "P" packet.length, "D" packet.data_length, "header_sum" packet.header_sum,
        "data_sum" packet.data_sum, "recording_place" packet.recording_place, "header" part(packet.header),
        "secondary" part(packet.secondary), "body" part(packet.body), "filler" part(packet.filler), "sum" part(packet.sum)
    );
    answer(&packet.refusal, Some(here), values)
}

/// The entries of both lists are told, `-` for one that is untouched.
pub fn list(list: &List, [starts, lengths]: &[Vec<u32>; 2], here: u64) -> Told {
    let entry = |entry: &u32| {
        if *entry == LIST_PATTERN {
            "-".to_string()
        } else {
            entry.to_string()
        }
    };
    let all = |list: &[u32]| list.iter().map(entry).collect::<Vec<_>>().join(",");
    let values = words!("count" list.count, "starts" all(starts), "lengths" all(lengths));
    answer(&list.refusal, Some(here), values)
}

pub fn message(message: &Message, here: u64) -> Told {
    let values = words!("time" message.time, "id" message.id, "start" message.start, "length" message.length);
    answer(&message.refusal, Some(here), values)
}

/// "The answer, never zeroed, is the number accepted, the place reached and the refusal there, or 0".
pub fn recording(recording: &Recording, here: u64) -> Told {
    let reached = recording.reached.wrapping_sub(here);
    let values = words!(
        "accepted" recording.accepted, "reached" reached, "recording_reached" recording.recording_reached
    );
    let refusal = answer(&recording.refusal, Some(here), Vec::new());
    [refusal, values].concat()
}

pub fn written(written: &Written, packet: &[u8]) -> Told {
    let values = words!("P" written.length, "bytes" in_hex(packet));
    answer(&written.refusal, None, values)
}

/// A refused step hands back its state, which `check` requires too.
pub fn draft(draft: &Draft) -> Told {
    let values =
        words!("used" draft.used, "blocks" draft.blocks, "type" draft.kind, "rule" draft.rule);
    answer(&draft.refusal, None, values)
}

/// What became of adding or renewing: the slot, or whether the entry lives; where it doesn't, the reader's refusal as `cause`, or 0.
pub fn renewal(outcome: &Outcome, here: u64) -> Told {
    match outcome {
        Outcome::Refused(refusal) => answer(refusal, Some(here), Vec::new()),
        Outcome::Added(slot) => answer(&Refusal::default(), None, words!("slot" slot)),
        Outcome::Lives => answer(&Refusal::default(), None, words!("lives" 1)),
        Outcome::Dropped(cause) => {
            let cause = answer(cause, Some(here), Vec::new());
            let beside = cause[1..].iter().map(|word| format!("cause_{}", word));
            let dropped = words!("lives" 0, "cause" cause[0]);
            let values = dropped.into_iter().chain(beside).collect();
            answer(&Refusal::default(), None, values)
        }
    }
}

/// A row's words, and the bytes of its slot up to the last that is written.
pub fn entry(row: &Entry, slot: &[u8]) -> Told {
    let written = slot.iter().rposition(|byte| *byte != PATTERN);
    let bytes = in_hex(&slot[..written.map_or(0, |last| last + 1)]);
    let values = words!(
        "live" row.live, "recording" row.recording, "place" row.place, "P" row.length, "channel" row.channel,
        "sequence" row.sequence, "rtc" row.rtc, "bytes" bytes
    );
    answer(&Refusal::default(), None, values)
}

pub fn next(slot: usize) -> Told {
    answer(&Refusal::default(), None, words!("slot" slot))
}
