//! Why a recording can't be read, or an answer can't be written, in plain words.

use std::fmt;
use std::io;

/// What ends the work on a recording, other than its own end or a refusal.
#[derive(Debug)]
pub enum Failure {
    /// The file can't be opened.
    Open(io::Error),
    /// The file is a directory.
    Directory,
    /// A read failed at this place of the recording.
    Read { place: u64, error: io::Error },
    /// A regular file gave fewer bytes than it had when it was opened.
    Shorter { got: u64, size: u64 },
    /// The recording ends ahead of the place that was asked for.
    NoPlace { place: u64, end: u64 },
    /// There is no memory for so many bytes.
    Memory(usize),
    /// The thread that reads ahead can't be started, or ended without a word.
    Thread(Option<io::Error>),
    /// Standard output can't be written.
    Output(io::Error),
}

impl fmt::Display for Failure {
    fn fmt(&self, f: &mut fmt::Formatter<'_>) -> fmt::Result {
        match self {
            Failure::Open(error) => f.write_str(&system_words(error)),
            Failure::Directory => f.write_str("is a directory"),
            Failure::Read { place, error } => {
                write!(f, "can't be read at byte {place}: {}", system_words(error))
            }
            Failure::Shorter { got, size } => write!(
                f,
                "became shorter while it was read ({got} of {size} bytes)"
            ),
            Failure::NoPlace { place, end } => {
                write!(f, "has no byte {place}: it ends at {end}")
            }
            Failure::Memory(bytes) => write!(f, "there is no memory for {bytes} bytes"),
            Failure::Thread(Some(error)) => {
                write!(f, "no thread to read with: {}", system_words(error))
            }
            Failure::Thread(None) => f.write_str("the thread that reads ended early"),
            Failure::Output(error) if error.kind() == io::ErrorKind::BrokenPipe => {
                f.write_str("standard output was closed")
            }
            Failure::Output(error) => write!(
                f,
                "standard output can't be written: {}",
                system_words(error)
            ),
        }
    }
}

/// What the system says of an error, without its number.
fn system_words(error: &io::Error) -> String {
    let mut words = error.to_string();
    if let Some(number) = words.find(" (os error ") {
        words.truncate(number);
    }
    words
}
