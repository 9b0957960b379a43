//! Read, list, build and write IRIG 106 Chapter 11 packets, and keep them in a [`RenewalTable`]: a
//! safe wrapper over the formally verified library `libch11.a`. Nothing is decided here: every answer
//! is the library's.
//!
//! A recording is a run of packets. A packet is a 24-byte header, a 12-byte secondary header if it
//! has one, a body, 0 to 3 bytes of filler and a data sum if it has one. Bodies of type [`MESSAGE`]
//! and [`UART`] are opened: they hold messages. Bodies of the other 33 types are carried as they
//! are.
//!
//! Every reader looks at a window: the bytes `buf[start..end]`. It takes the whole buffer and the
//! two numbers, so that places in the buffer are counted from its first byte, and so that a buffer
//! may be filled in part: what stands behind `end` has no say. A window that isn't within the
//! buffer is refused ([`Number::State`]); it is no panic.
//!
//! A buffer may hold any piece of a recording. Each reader is given a base too, the place in the
//! recording where the window starts: every packet and refusal then has a `recording_place`, counted
//! from the recording's first byte, beside its place in the buffer. Whoever has no use for it gives 0,
//! and has distances from the window's start there; with `start` as base both places are one number.
//!
//! ```
//! fn main() -> Result<(), ch11::Refusal> {
//!     // One UART packet of 40 bytes, and three bytes that aren't filled yet.
//!     let buf = b"\x25\xEB\x01\0\x28\0\0\0\x0C\0\0\0\x06\0\x02\x50\x01\0\0\0\0\0\x63\x3B\
//!                 \0\0\0\0\x03\0\0\0ABC\0\0\0\x87\x42???";
//!     let filled = 40;
//!     for packet in ch11::packets(buf, 0, filled, 0) {
//!         let packet = packet?;
//!         assert_eq!((packet.fields.channel, packet.fields.kind), (1, ch11::UART));
//!         for message in ch11::messages(buf, packet.header.at, filled, packet.recording_place)? {
//!             assert_eq!(message, b"ABC");
//!         }
//!     }
//!     Ok(())
//! }
//! ```

#![warn(missing_docs)]

mod builder;
mod messages;
mod packet;
#[allow(missing_docs)]
pub mod raw;
mod refusal;
mod renewal;

pub use builder::{Denied, Draft, TimeRule};
pub use messages::{list_messages, message, message_count, messages, Message, Messages};
pub use packet::{
    packets, read_packet, read_recording, write_packet, Fields, Packet, Packets, Part, Recording,
};
pub use refusal::{Number, Reason, Refusal};
pub use renewal::{Entries, Entry, RenewalTable, Renewed};

/// The data type of message packets, whose bodies are opened. A time is stored with each message.
pub const MESSAGE: u8 = 0x30;

/// The data type of UART packets, whose bodies are opened. Times are stored with all messages of a
/// body or with none.
pub const UART: u8 = 0x50;

// The library is for x86-64: its 64-bit places and lengths are handed out as `usize`.
const _: () = assert!(usize::BITS == 64);
