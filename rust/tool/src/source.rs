//! Opens what a recording is read from: a file, or standard input.

use crate::ahead::Sizes;
use crate::failure::Failure;
use crate::progress::Progress;
use crate::windows::Windows;
use std::fs::File;
use std::io::{self, Seek};
use std::os::unix::io::AsFd;
use std::path::Path;

/// A source that was opened.
pub struct Source {
    file: File,
    /// Of a regular file, where it stands and how many bytes it has from there; `None` for a pipe or a device.
    part: Option<Part>,
}

#[derive(Clone, Copy)]
struct Part {
    origin: u64,
    size: u64,
}

impl Source {
    /// Opens the file of this name; `-` is standard input, from where it stands.
    pub fn open(path: &Path) -> Result<Source, Failure> {
        if is_standard_input(path) {
            Source::of_file(standard_input().map_err(Failure::Open)?)
        } else {
            Source::of_file(File::open(path).map_err(Failure::Open)?)
        }
    }

    fn of_file(mut file: File) -> Result<Source, Failure> {
        let about = file.metadata().map_err(Failure::Open)?;
        if about.is_dir() {
            return Err(Failure::Directory);
        }
        let part = if about.is_file() {
            let origin = file.stream_position().map_err(Failure::Open)?;
            let size = about.len().saturating_sub(origin);
            Some(Part { origin, size })
        } else {
            None
        };
        Ok(Source { file, part })
    }

    /// How many bytes it has, where that is known.
    pub fn size(&self) -> Option<u64> {
        self.part.map(|part| part.size)
    }

    /// The windows over all of it.
    pub fn windows(self, sizes: Sizes) -> Result<Windows, Failure> {
        match self.part {
            Some(Part { origin, size }) => Windows::over_file(self.file, origin, 0, size, sizes),
            None => Windows::over(self.file, 0, sizes),
        }
    }

    /// The windows from this place on: a regular file is read from there, the bytes of another source are read and passed over.
    pub fn windows_from(
        self,
        place: u64,
        sizes: Sizes,
        progress: &mut Progress,
    ) -> Result<Windows, Failure> {
        match self.part {
            Some(Part { size, .. }) if size < place => Err(Failure::NoPlace { place, end: size }),
            Some(Part { origin, size }) => {
                Windows::over_file(self.file, origin, place, size, sizes)
            }
            None => {
                let mut windows = self.windows(sizes)?;
                pass_over(&mut windows, place, progress)?;
                Ok(windows)
            }
        }
    }
}

/// The window then starts at this place of the recording.
fn pass_over(windows: &mut Windows, place: u64, progress: &mut Progress) -> Result<(), Failure> {
    loop {
        let window = windows.window();
        let ahead = place - window.base;
        // No more than the window has: the windows see to that.
        windows.pass(usize::try_from(ahead).unwrap_or(usize::MAX));
        let end = windows.window().base;
        progress.reached(end);
        if end == place {
            return Ok(());
        }
        if !windows.grow(1)? {
            return Err(Failure::NoPlace { place, end });
        }
    }
}

/// Whether this name stands for standard input.
pub fn is_standard_input(path: &Path) -> bool {
    path.as_os_str() == "-"
}

/// Standard input as a file: nothing is buffered, and it can be sought where it is a regular file.
fn standard_input() -> io::Result<File> {
    Ok(File::from(io::stdin().as_fd().try_clone_to_owned()?))
}

/// The name to show for a source, on one line.
pub fn shown_name(path: &Path) -> String {
    if is_standard_input(path) {
        return "standard input".to_owned();
    }
    let mut shown = String::new();
    for letter in path.to_string_lossy().chars() {
        if letter.is_control() {
            shown.extend(letter.escape_default());
        } else {
            shown.push(letter);
        }
    }
    shown
}
