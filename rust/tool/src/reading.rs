//! The rule by which a recording is read window by window, and how its reading ended.
//!
//! Of a window's answers only three can change when more bytes come behind it: refusal 2 (fewer than 24 bytes), refusal 10 (the packet is
//! longer than the window) and the exact end. Every other refusal stands: that is proved of the library.

use crate::failure::Failure;
use crate::progress::Progress;
use crate::windows::{Window, Windows};
use ch11::{Number, Refusal};

/// The bytes of a packet's header.
const HEADER: usize = 24;

/// Where the reading of a window stopped.
#[derive(Clone, Copy, Debug)]
pub struct Stop {
    /// The place in the window's buffer: the refused packet's first byte, or the window's end.
    pub reached: usize,
    pub refusal: Option<Refusal>,
}

/// How the reading of a recording ended.
#[derive(Clone, Copy, Debug, PartialEq, Eq)]
pub struct Answer {
    /// The place reached in the recording: the refused packet's first byte, or the end.
    pub bytes: u64,
    /// The refusal; `None`: the recording is whole.
    pub refusal: Option<Refusal>,
    /// How many bytes there are from that place on; with refusals 2 and 10, up to the recording's end.
    pub left: usize,
    /// How many bytes are needed from that place on for another answer, with refusal 10 the packet's length; `None`: the answer stands.
    pub needed: Option<usize>,
}

impl Answer {
    /// The answer at the start of a window: the refusal of the packet there, or the window's exact end.
    pub fn at(window: Window<'_>, refusal: Option<Refusal>) -> Answer {
        let needed = match refusal {
            None => Some(1),
            Some(refusal) if !refusal.waits() => None,
            Some(refusal) if refusal.number == Number::Short => Some(HEADER),
            Some(_) => Some(packet_length(window.bytes())),
        };
        Answer {
            bytes: window.base,
            refusal,
            left: window.bytes().len(),
            needed,
        }
    }

    /// Grows the window by what may change this answer. False: it stands, or the source has no more.
    pub fn may_change(&self, windows: &mut Windows) -> Result<bool, Failure> {
        match self.needed {
            Some(needed) => windows.grow(needed),
            None => Ok(false),
        }
    }
}

/// Reads a recording: `each` reads a window and says where it stopped; where more bytes can change that, a window with more follows.
pub fn read_on(
    windows: &mut Windows,
    progress: &mut Progress,
    mut each: impl FnMut(Window<'_>) -> Result<Stop, Failure>,
) -> Result<Answer, Failure> {
    loop {
        let window = windows.window();
        let stop = each(window)?;
        let passed = stop.reached - window.start;
        windows.pass(passed);
        let answer = Answer::at(windows.window(), stop.refusal);
        progress.reached(answer.bytes);
        if !answer.may_change(windows)? {
            return Ok(answer);
        }
    }
}

/// The packet length of a header: bytes 4 to 7. With refusal 10 the header is sound, so that it is at most 134,217,728.
fn packet_length(packet: &[u8]) -> usize {
    let byte = |at: usize| packet.get(at).copied().unwrap_or(0);
    u32::from_le_bytes([byte(4), byte(5), byte(6), byte(7)]) as usize
}
