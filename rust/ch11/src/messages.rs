//! The messages of a packet. Each call reads the packet at the start of the window
//! `buf[start..end]` whole, with all its tests; a packet whose type isn't opened has no messages.

use crate::raw;
use crate::refusal::{unless_refused, Number, Refusal};
use std::iter::{FusedIterator, Zip};
use std::vec::IntoIter;

/// Lists the messages of the packet at the start of the window `buf[start..end]`: entry k of the two
/// lists becomes the start of message k, counted from the packet's first byte, and its length. Gives
/// the number of messages; entries past it are untouched, and all are at a refusal. With more
/// messages than the shorter list holds ([`Number::Room`]) [`Refusal::room`] is their number.
///
/// `base` is where the window starts in the recording: of a packet that was read, its
/// [`recording_place`](crate::Packet::recording_place). It shows in refusals alone.
pub fn list_messages(
    buf: &[u8],
    start: usize,
    end: usize,
    base: u64,
    starts: &mut [u32],
    lengths: &mut [u32],
) -> Result<usize, Refusal> {
    let mut list = raw::List::default();
    // SAFETY: the pointers and lengths are those of the three slices, which can't overlap as the two
    // lists are borrowed alone; `list` is our own. Any start, end and base do.
    unsafe {
        raw::ch11_list_messages(
            buf.as_ptr(),
            buf.len(),
            start,
            end,
            base,
            starts.as_mut_ptr(),
            starts.len(),
            lengths.as_mut_ptr(),
            lengths.len(),
            &mut list,
        )
    };
    unless_refused(list.refusal, list.count as usize)
}

/// The number of messages in the packet at the start of the window `buf[start..end]`; for `base` see
/// [`list_messages`].
pub fn message_count(buf: &[u8], start: usize, end: usize, base: u64) -> Result<usize, Refusal> {
    match list_messages(buf, start, end, base, &mut [], &mut []) {
        Err(refusal) if refusal.number == Number::Room => Ok(refusal.room),
        counted => counted,
    }
}

/// The bytes of each message in the packet at the start of the window `buf[start..end]`, in order.
///
/// The packet is read twice, to count and to list, and 8 bytes are allocated for each message: the
/// cost grows with the packet's length. For a message's time and ID word, see [`message`]; for `base`
/// [`list_messages`].
pub fn messages(buf: &[u8], start: usize, end: usize, base: u64) -> Result<Messages<'_>, Refusal> {
    let count = message_count(buf, start, end, base)?;
    let (mut starts, mut lengths) = (vec![0; count], vec![0; count]);
    list_messages(buf, start, end, base, &mut starts, &mut lengths)?;
    // The packet was accepted, so that its start is within the buffer.
    let packet = &buf[start..];
    Ok(Messages {
        packet,
        spans: starts.into_iter().zip(lengths),
    })
}

/// The iterator that [`messages`] gives.
#[derive(Clone, Debug)]
pub struct Messages<'a> {
    /// The buffer from the packet's first byte on.
    packet: &'a [u8],
    /// Start and length of the messages still to come.
    spans: Zip<IntoIter<u32>, IntoIter<u32>>,
}

impl<'a> Iterator for Messages<'a> {
    type Item = &'a [u8];

    fn next(&mut self) -> Option<Self::Item> {
        let (start, length) = self.spans.next()?;
        Some(&self.packet[start as usize..][..length as usize])
    }

    fn size_hint(&self) -> (usize, Option<usize>) {
        self.spans.size_hint()
    }
}

impl ExactSizeIterator for Messages<'_> {}

impl FusedIterator for Messages<'_> {}

/// One message of a packet.
#[derive(Clone, Copy, Debug, PartialEq, Eq, Hash)]
pub struct Message<'a> {
    /// Its time, in the form that the packet's flags name; 0 where none is stored.
    pub time: u64,
    /// Its ID word, reserved bits as read; the lower half is the number of bytes.
    pub id: u32,
    /// The place of its first byte, counted from the packet's first byte.
    pub start: usize,
    /// Its bytes.
    pub bytes: &'a [u8],
}

/// The message of this number, from 0, in the packet at the start of the window `buf[start..end]`;
/// [`Number::Range`] where there is none.
///
/// Each call reads the whole packet and walks to the message from the first one, so that fetching
/// all of them this way costs as much as their number times the packet's length. Use [`messages`]
/// where the bytes are enough. For `base` see [`list_messages`].
pub fn message(
    buf: &[u8],
    start: usize,
    end: usize,
    base: u64,
    number: usize,
) -> Result<Message<'_>, Refusal> {
    let mut found = raw::Message::default();
    // SAFETY: the pointer and length are those of `buf`; `found` is our own. Any start, end, base
    // and number do.
    unsafe {
        raw::ch11_message(
            buf.as_ptr(),
            buf.len(),
            start,
            end,
            base,
            number,
            &mut found,
        )
    };
    unless_refused(found.refusal, ())?;
    Ok(Message {
        time: found.time,
        id: found.id as u32,
        start: found.start as usize,
        bytes: &buf[start + found.start as usize..][..found.length as usize],
    })
}
