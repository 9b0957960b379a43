//! What blocks are filled from: a source that is read on, or a file that is read by place.

use std::fs::File;
use std::io::{self, ErrorKind, Read};
use std::os::unix::fs::FileExt;
use std::sync::Arc;

/// Why a source gave no more.
pub enum Over {
    End,
    Error(io::Error),
}

/// What blocks are filled from.
pub trait Fill: Send + 'static {
    /// Reads from this place of the recording on, and says how many bytes, and why no more come.
    fn fill(&mut self, place: u64, room: &mut [u8]) -> (usize, Option<Over>);
}

/// A source that can only be read on: its reads are taken as they come, and more may come behind each.
pub struct Stream<R>(pub R);

impl<R: Read + Send + 'static> Fill for Stream<R> {
    fn fill(&mut self, _place: u64, room: &mut [u8]) -> (usize, Option<Over>) {
        match retried(|| self.0.read(room)) {
            Ok(0) => (0, Some(Over::End)),
            Ok(filled) => (filled, None),
            Err(error) => (0, Some(Over::Error(error))),
        }
    }
}

/// A file that is read by place, so that several threads can; the recording begins at `origin` of the file. The room is filled as far as
/// the file goes.
pub struct FileFrom {
    file: Arc<File>,
    origin: u64,
}

impl FileFrom {
    pub fn new(file: Arc<File>, origin: u64) -> FileFrom {
        FileFrom { file, origin }
    }
}

impl Fill for FileFrom {
    fn fill(&mut self, place: u64, room: &mut [u8]) -> (usize, Option<Over>) {
        let mut filled = 0;
        while filled < room.len() {
            let passed = place.saturating_add(filled as u64);
            let at = self.origin.saturating_add(passed);
            match retried(|| self.file.read_at(&mut room[filled..], at)) {
                Ok(0) => return (filled, Some(Over::End)),
                Ok(more) => filled += more,
                Err(error) => return (filled, Some(Over::Error(error))),
            }
        }
        (filled, None)
    }
}

/// A read; one that a signal broke off is made again.
fn retried(mut read: impl FnMut() -> io::Result<usize>) -> io::Result<usize> {
    loop {
        match read() {
            Err(error) if error.kind() == ErrorKind::Interrupted => {}
            done => return done,
        }
    }
}
