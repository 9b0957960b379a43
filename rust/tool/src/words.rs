//! Refusals in words for people: what the library says, with places in the recording, and plainly where the recording ends too early.

use crate::reading::Answer;
use ch11::{Number, Refusal};
use std::fmt;

/// A count with its noun: `1 packet`, `7 packets`.
pub fn counted(count: u64, noun: &str) -> String {
    let plural = if count == 1 { "" } else { "s" };
    format!("{count} {noun}{plural}")
}

/// The refusal in an answer: `13 at 156: wrong data sum`.
pub fn refused(answer: &Answer, refusal: &Refusal) -> String {
    let (number, place) = (refusal.number.value(), refusal.recording_place);
    format!("{number} at {place}: {}", words(answer, refusal))
}

/// What the refusal says, without its number and place.
pub fn words(answer: &Answer, refusal: &Refusal) -> String {
    match (refusal.number, refusal.reason) {
        (Number::Short, _) => ends_in_header(answer.left),
        (Number::Cut, _) => ends_in_packet(answer.left, answer.needed.unwrap_or(0)),
        (number, Some(reason)) => format!("{number}: {reason}"),
        (number, None) => number.to_string(),
    }
}

fn ends_in_header(left: usize) -> String {
    let verb = if left == 1 { "is" } else { "are" };
    let left = counted(left as u64, "byte");
    format!("the recording ends within a packet's header ({left} {verb} left)")
}

fn ends_in_packet(left: usize, length: usize) -> String {
    format!("the recording ends within a packet ({left} of {length} bytes are there)")
}

/// A whole recording, or the refusal that ended its reading.
pub struct Verdict<'a>(pub &'a Answer);

impl fmt::Display for Verdict<'_> {
    fn fmt(&self, f: &mut fmt::Formatter<'_>) -> fmt::Result {
        match &self.0.refusal {
            None => f.write_str("whole"),
            Some(refusal) => write!(f, "refused: {}", refused(self.0, refusal)),
        }
    }
}

#[cfg(test)]
mod tests {
    use super::*;
    use ch11::Reason;

    /// A refusal of a packet at 60 of a buffer and 5,000,000,060 of the recording.
    fn verdict(number: Number, reason: Option<Reason>, left: usize, needed: usize) -> String {
        let refusal = Refusal {
            number,
            place: 60,
            room: 0,
            reason,
            recording_place: 5_000_000_060,
        };
        let answer = Answer {
            bytes: 5_000_000_060,
            refusal: Some(refusal),
            left,
            needed: Some(needed),
        };
        Verdict(&answer).to_string()
    }

    #[test]
    fn refusals_have_number_place_and_words() {
        let layout = verdict(Number::Layout, Some(Reason::CutShort), 0, 0);
        assert_eq!(
            layout,
            "refused: 15 at 5000000060: body breaks its layout: block cut short"
        );
        let sum = verdict(Number::DataSum, None, 0, 0);
        assert_eq!(sum, "refused: 13 at 5000000060: wrong data sum");
    }

    #[test]
    fn an_early_end_is_told_plainly() {
        let short = |left| verdict(Number::Short, None, left, 24);
        let words = "refused: 2 at 5000000060: the recording ends within a packet's header";
        assert_eq!(short(12), format!("{words} (12 bytes are left)"));
        assert_eq!(short(1), format!("{words} (1 byte is left)"));
        assert_eq!(
            verdict(Number::Cut, None, 92, 132),
            "refused: 10 at 5000000060: the recording ends within a packet (92 of 132 bytes are there)"
        );
    }

    #[test]
    fn one_is_no_plural() {
        assert_eq!(counted(0, "packet"), "0 packets");
        assert_eq!(counted(1, "packet"), "1 packet");
        assert_eq!(counted(2, "byte"), "2 bytes");
    }
}
