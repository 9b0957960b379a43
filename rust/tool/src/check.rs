//! `ch11 check`: how many packets and bytes a recording has, and whether it is whole.

use crate::failure::Failure;
use crate::progress::Progress;
use crate::reading::{read_on, Answer, Stop};
use crate::windows::Windows;
use crate::words::{counted, Verdict};
use std::fmt;

/// What a check found.
#[derive(Clone, Copy, Debug, PartialEq, Eq)]
pub struct Checked {
    pub packets: u64,
    pub answer: Answer,
}

/// Reads a recording up to its end or the first refusal.
pub fn check(windows: &mut Windows, progress: &mut Progress) -> Result<Checked, Failure> {
    let mut packets = 0;
    let answer = read_on(windows, progress, |window| {
        let read = ch11::read_recording(window.buf, window.start, window.end, window.base);
        packets += read.accepted as u64;
        Ok(Stop {
            reached: read.reached,
            refusal: read.refusal,
        })
    })?;
    Ok(Checked { packets, answer })
}

/// `7 packets, 636 bytes, whole`
impl fmt::Display for Checked {
    fn fmt(&self, f: &mut fmt::Formatter<'_>) -> fmt::Result {
        let packets = counted(self.packets, "packet");
        let bytes = counted(self.answer.bytes, "byte");
        write!(f, "{packets}, {bytes}, {}", Verdict(&self.answer))
    }
}
