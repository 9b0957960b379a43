//! Refusals: the only way in which a call says no.

use crate::raw;
use std::error::Error;
use std::fmt;

/// Which refusal it is, by its number, as in `include/ch11.h`. The tests are made in this order, save
/// where a call says otherwise, and the first that applies is given.
#[derive(Clone, Copy, Debug, PartialEq, Eq, Hash)]
#[non_exhaustive]
pub enum Number {
    /// 1: the window is outside its buffer, or base plus window length passes 2^64 - 1; a builder's
    /// used count is outside its buffer or under 4, or the builder's state has a type or time rule
    /// that opening refuses, or too many blocks.
    State,
    /// 2: fewer than 24 bytes in the window.
    Short,
    /// 3: wrong sync.
    Sync,
    /// 4: wrong header sum.
    HeaderSum,
    /// 5: a version other than 1 to 9.
    Version,
    /// 6: a reserved type.
    Type,
    /// 7: a reserved time format, or absolute message times without a secondary header.
    Flags,
    /// 8: channel 0 with a type other than 0x01 and 0x04.
    Channel,
    /// 9: packet length and data length break a rule, each alone or together.
    Length,
    /// 10: the packet is longer than the window.
    Cut,
    /// 11: wrong sum of the secondary header.
    SecondarySum,
    /// 12: reserved bytes of the secondary header that aren't zero, or a time out of form.
    Secondary,
    /// 13: wrong data sum.
    DataSum,
    /// 14: filler that isn't zero.
    Filler,
    /// 15: an opened body breaks its layout; [`Refusal::reason`] is the rule broken. From a builder:
    /// a time out of form, or no block.
    Layout,
    /// 16: no room in a list or output, or a store under 65,536 bytes; [`Refusal::room`] is the room
    /// needed.
    Room,
    /// 17: an input of the writer or builder is out of range, or there is no message of that number.
    Range,
    /// 19: 64 other entries live in the table.
    Full,
    /// 20: no entry of that name in the table.
    NoEntry,
    /// 21: a packet over 1,024 bytes, too long for a slot.
    Long,
    /// A number that this version of the wrapper has no name for.
    Other(u64),
}

/// Which rule of its layout an opened body breaks, with [`Number::Layout`]. The channel word is
/// looked at first, then block by block; of a block that breaks several the lowest is given.
#[derive(Clone, Copy, Debug, PartialEq, Eq, Hash)]
#[non_exhaustive]
pub enum Reason {
    /// 1: the channel word breaks a rule, or the body has under 4 bytes.
    ChannelWord,
    /// 2: the body ends within a block: in its time, ID word, bytes or pad byte.
    CutShort,
    /// 3: a block's time is out of form.
    Time,
    /// 4: a block has a length of zero.
    LengthZero,
    /// 5: the pad byte behind an odd number of bytes isn't zero.
    Pad,
    /// 6: bytes are left over behind the blocks that the channel word counts.
    LeftOver,
    /// 7: the body ends where a block must begin.
    Missing,
    /// A reason that this version of the wrapper has no name for.
    Other(u64),
}

/// Makes an enum of the library's numbers out of a table: each with its name here and its words.
macro_rules! numbered {
    ($name:ident, $unknown:literal, $($number:literal $case:ident $words:literal,)+) => {
        impl $name {
            /// The number by which the C interface and the documents name it.
            pub fn value(self) -> u64 {
                match self {
                    $($name::$case => $number,)+
                    $name::Other(number) => number,
                }
            }

            /// The one of this number.
            pub fn from_value(value: u64) -> $name {
                match value {
                    $($number => $name::$case,)+
                    other => $name::Other(other),
                }
            }
        }

        impl fmt::Display for $name {
            fn fmt(&self, f: &mut fmt::Formatter<'_>) -> fmt::Result {
                f.write_str(match self {
                    $($name::$case => $words,)+
                    $name::Other(_) => $unknown,
                })
            }
        }
    };
}

numbered! {
    Number, "a number unknown to this version",
    1 State "window, its base or builder's state out of bounds",
    2 Short "fewer than 24 bytes in the window",
    3 Sync "wrong sync",
    4 HeaderSum "wrong header sum",
    5 Version "version other than 1 to 9",
    6 Type "reserved type",
    7 Flags "flags break a rule",
    8 Channel "channel 0 with another type",
    9 Length "packet or data length breaks a rule",
    10 Cut "packet longer than the window",
    11 SecondarySum "wrong secondary sum",
    12 Secondary "secondary header breaks a rule",
    13 DataSum "wrong data sum",
    14 Filler "filler not zero",
    15 Layout "body breaks its layout",
    16 Room "no room in a list, output or store",
    17 Range "input or message number out of range",
    19 Full "64 other entries live",
    20 NoEntry "no such entry",
    21 Long "packet over 1,024 bytes",
}

numbered! {
    Reason, "a reason unknown to this version",
    1 ChannelWord "wrong channel word, or under 4 bytes",
    2 CutShort "block cut short",
    3 Time "time out of form",
    4 LengthZero "length zero",
    5 Pad "pad not zero",
    6 LeftOver "bytes after the counted blocks",
    7 Missing "body ends where a block must begin",
}

/// What a call answers when it says no.
#[derive(Clone, Copy, Debug, PartialEq, Eq, Hash)]
pub struct Refusal {
    /// Which refusal.
    pub number: Number,
    /// Where, counted from the buffer's first byte: the start of the packet, or for
    /// [`Number::Layout`] the channel word, the first byte of the block at fault or of the bytes
    /// left over, or where a missing block should begin. The writer and the builder give 0.
    pub place: usize,
    /// With [`Number::Room`] the room needed: messages for a list, otherwise the bytes of the whole
    /// packet, body or store. Else 0.
    pub room: usize,
    /// With [`Number::Layout`] why: the rule broken. Else `None`.
    pub reason: Option<Reason>,
    /// The same byte as `place`, counted from the recording's first byte: the base given plus the
    /// distance from the window's start. The writer and the builder give 0.
    pub recording_place: u64,
}

/// Which, where, what and why: `15 at 68: body breaks its layout: block cut short`. Where the place in
/// the recording, by the base that was given, is another number: `15 at 68 (5068 in the recording): ..`.
impl fmt::Display for Refusal {
    fn fmt(&self, f: &mut fmt::Formatter<'_>) -> fmt::Result {
        let (number, place) = (self.number.value(), self.place);
        write!(f, "{number} at {place}")?;
        if self.recording_place != place as u64 {
            write!(f, " ({} in the recording)", self.recording_place)?;
        }
        write!(f, ": {}", self.number)?;
        if let Some(reason) = self.reason {
            write!(f, ": {reason}")?;
        }
        if self.room > 0 {
            write!(f, " ({} needed)", self.room)?;
        }
        Ok(())
    }
}

impl Error for Refusal {}

impl Refusal {
    /// Whether more bytes behind the window could change a reader's answer: [`Number::Short`] waits for
    /// 24 bytes, [`Number::Cut`] for the packet's length. Every other refusal stands, however far the
    /// window is filled.
    pub fn waits(&self) -> bool {
        matches!(self.number, Number::Short | Number::Cut)
    }
}

/// The refusal in a result of the library, if there is one.
pub(crate) fn refused(refusal: raw::Refusal) -> Option<Refusal> {
    match refusal.number {
        0 => None,
        number => Some(Refusal {
            number: Number::from_value(number),
            place: refusal.place as usize,
            room: refusal.room as usize,
            reason: match refusal.reason {
                0 => None,
                reason => Some(Reason::from_value(reason)),
            },
            recording_place: refusal.recording_place,
        }),
    }
}

/// `answer`, unless the library refused.
pub(crate) fn unless_refused<T>(refusal: raw::Refusal, answer: T) -> Result<T, Refusal> {
    refused(refusal).map_or(Ok(answer), Err)
}
