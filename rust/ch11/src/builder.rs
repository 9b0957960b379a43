//! The builder of bodies.

use crate::raw;
use crate::refusal::{refused, Refusal};
use std::error::Error;
use std::fmt;

/// What the message times of a body are. The rule isn't stored in the body: the packet's flags must
/// say the same (see [`Fields::flags`](crate::Fields::flags)).
#[derive(Clone, Copy, Debug, PartialEq, Eq, Hash)]
pub enum TimeRule {
    /// No times are stored; in UART bodies only. Any flags do.
    None,
    /// Values below 2^48. Bit 6 of the flags is clear.
    Counter,
    /// Absolute, the low 16 bits zero. Bits 7 and 6 are set, time format 00.
    Chapter4,
    /// Absolute, seconds × 2^32 + nanoseconds below 1,000,000,000. Bits 7 and 6 set, time format 01.
    Ieee1588,
    /// Absolute, any value. Bits 7 and 6 are set, time format 10.
    Extended,
}

impl TimeRule {
    /// The rule's number in the C interface.
    fn number(self) -> u64 {
        match self {
            TimeRule::None => 0,
            TimeRule::Counter => 1,
            TimeRule::Chapter4 => 2,
            TimeRule::Ieee1588 => 3,
            TimeRule::Extended => 4,
        }
    }
}

/// The state of a body that is being built in a lent buffer: open it, add blocks, close it. Each
/// step takes the state and hands back the new one, so that no old state can be used again. Lend the
/// same buffer to all steps and leave its first [`used`](Draft::used) bytes alone between them.
///
/// ```
/// use ch11::{Draft, Fields, TimeRule, UART};
///
/// # fn main() -> Result<(), Box<dyn std::error::Error>> {
/// let mut body = [0; 64];
/// let draft = Draft::new().open(&mut body, UART, TimeRule::None)?;
/// let draft = draft.add(&mut body, 0, 0, b"ABC")?;
/// let used = draft.close(&mut body)?;
///
/// // Flags 2: no secondary header, a 16-bit data sum.
/// let fields = Fields { channel: 1, version: 6, flags: 2, kind: UART, ..Fields::default() };
/// let mut out = [0; 64];
/// let length = ch11::write_packet(&fields, &body[..used], &mut out)?;
/// assert_eq!(ch11::message(&out, 0, length, 0, 0)?.bytes, b"ABC");
/// # Ok(())
/// # }
/// ```
#[derive(Debug, Default, PartialEq, Eq)]
pub struct Draft {
    /// As the library left it, but for the refusal, which is always none.
    state: raw::Draft,
}

impl Draft {
    /// A fresh state.
    pub fn new() -> Draft {
        Draft::default()
    }

    /// Opens a body of this type ([`MESSAGE`](crate::MESSAGE) or [`UART`](crate::UART)) and time rule
    /// at the first byte of `buf`. Refused: another type, or no times in a message body
    /// ([`Number::Range`](crate::Number::Range)); then no room.
    pub fn open(self, buf: &mut [u8], kind: u8, rule: TimeRule) -> Result<Draft, Denied> {
        let (at, len) = (buf.as_mut_ptr(), buf.len());
        // SAFETY: the pointer and length are those of `buf`; `state` is our own.
        self.step(|state| unsafe { raw::ch11_open(state, at, len, kind.into(), rule.number()) })
    }

    /// Adds a block: its time (0 under [`TimeRule::None`]), the upper half of its ID word, and its 1
    /// to 65,535 bytes. With too small a buffer [`Refusal::room`] is the length of the whole body
    /// with this block: a longer buffer that begins with the bytes used so far can go on from there.
    pub fn add(self, buf: &mut [u8], time: u64, upper: u16, bytes: &[u8]) -> Result<Draft, Denied> {
        let (at, len) = (buf.as_mut_ptr(), buf.len());
        let (from, count) = (bytes.as_ptr(), bytes.len());
        // SAFETY: the pointers and lengths are those of `buf` and `bytes`, which can't overlap as
        // `buf` is borrowed alone; `state` is our own.
        self.step(|state| unsafe { raw::ch11_add(state, at, len, time, upper.into(), from, count) })
    }

    /// Closes the body, which needs at least one block, and gives its length: the body is the first
    /// so many bytes of `buf`.
    pub fn close(self, buf: &mut [u8]) -> Result<usize, Denied> {
        let (at, len) = (buf.as_mut_ptr(), buf.len());
        // SAFETY: the pointer and length are those of `buf`; `state` is our own.
        let closed = self.step(|state| unsafe { raw::ch11_close(state, at, len) })?;
        Ok(closed.used())
    }

    /// The bytes of the body so far.
    pub fn used(&self) -> usize {
        self.state.used as usize
    }

    /// The blocks added so far.
    pub fn blocks(&self) -> usize {
        self.state.blocks as usize
    }

    /// Makes one step of the library on this state.
    fn step(mut self, call: impl FnOnce(&mut raw::Draft) -> u64) -> Result<Draft, Denied> {
        call(&mut self.state);
        match refused(std::mem::take(&mut self.state.refusal)) {
            None => Ok(self),
            Some(refusal) => Err(Denied {
                refusal,
                draft: self,
            }),
        }
    }
}

/// A builder's step that was refused: the refusal and the state as it was before the step.
#[derive(Debug, PartialEq, Eq)]
pub struct Denied {
    /// Why.
    pub refusal: Refusal,
    /// The state that the step was given; building can go on from it. The buffer is as it was.
    pub draft: Draft,
}

impl fmt::Display for Denied {
    fn fmt(&self, f: &mut fmt::Formatter<'_>) -> fmt::Result {
        self.refusal.fmt(f)
    }
}

impl Error for Denied {}

impl From<Denied> for Refusal {
    fn from(denied: Denied) -> Refusal {
        denied.refusal
    }
}
