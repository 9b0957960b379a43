//! Runs what the command line asks for: sources in, answers on standard output, failures on standard error, a status out.

use crate::ahead::Sizes;
use crate::arguments::{Arguments, Task};
use crate::check::{check, Checked};
use crate::failure::Failure;
use crate::list::{list, Shown};
use crate::messages::messages;
use crate::progress::Progress;
use crate::source::{shown_name, Source};
use crate::words::Verdict;
use std::fs::File;
use std::io::{self, BufWriter, Write};
use std::os::unix::io::AsFd;
use std::path::{Path, PathBuf};

/// How many bytes of lines are written at a time.
const LINES: usize = 65_536;

/// The exit status. Of several files the greatest counts.
#[derive(Clone, Copy, Debug, PartialEq, Eq, PartialOrd, Ord)]
pub enum Status {
    /// 0: all that was read is whole.
    Whole,
    /// 1: a packet is refused.
    Refused,
    /// 2: something can't be read or written.
    Failed,
}

impl Status {
    pub fn code(self) -> u8 {
        self as u8
    }

    fn of(refused: bool) -> Status {
        if refused {
            Status::Refused
        } else {
            Status::Whole
        }
    }
}

/// Does what the arguments say.
pub fn run(arguments: &Arguments) -> Status {
    let sizes = arguments
        .window
        .map_or_else(Sizes::for_machine, Sizes::all_of);
    let done = match &arguments.task {
        Task::Check { files } => return check_all(files, sizes),
        Task::List { file, shown } => {
            list_file(file, shown, sizes).map_err(|failure| (file, failure))
        }
        Task::Messages { file, at } => {
            show_messages(file, *at, sizes).map_err(|failure| (file, failure))
        }
    };
    done.unwrap_or_else(|(file, failure)| tell(file, &failure))
}

/// Says on standard error why it can't be done.
fn tell(file: &Path, failure: &Failure) -> Status {
    let mut err = io::stderr().lock();
    // Where that can't be written either, the status says it.
    let _ = match failure {
        Failure::Output(_) => writeln!(err, "ch11: {failure}"),
        _ => writeln!(err, "ch11: {}: {failure}", shown_name(file)),
    };
    Status::Failed
}

/// Standard output as a file, so that every error of a write is told; `io::stdout` keeps some to itself.
fn standard_output() -> Result<File, Failure> {
    let output = io::stdout().as_fd().try_clone_to_owned();
    output.map(File::from).map_err(Failure::Output)
}

fn output() -> Result<BufWriter<File>, Failure> {
    Ok(BufWriter::with_capacity(LINES, standard_output()?))
}

/// A line for each file; the others are still checked where one can't be read.
fn check_all(files: &[PathBuf], sizes: Sizes) -> Status {
    let mut status = Status::Whole;
    for file in files {
        let checked = check_file(file, sizes).and_then(|checked| {
            let line = format!("{}: {checked}\n", shown_name(file));
            let written = standard_output()?.write_all(line.as_bytes());
            written.map_err(Failure::Output)?;
            Ok(Status::of(checked.answer.refusal.is_some()))
        });
        match checked {
            Ok(found) => status = status.max(found),
            Err(failure) => {
                status = tell(file, &failure);
                if let Failure::Output(_) = failure {
                    return status;
                }
            }
        }
    }
    status
}

fn check_file(file: &Path, sizes: Sizes) -> Result<Checked, Failure> {
    let source = Source::open(file)?;
    let mut progress = Progress::new(source.size(), true);
    check(&mut source.windows(sizes)?, &mut progress)
}

fn list_file(file: &Path, shown: &Shown, sizes: Sizes) -> Result<Status, Failure> {
    let source = Source::open(file)?;
    // On a terminal the lines show how far it has come.
    let mut progress = Progress::new(source.size(), !console::user_attended());
    let mut windows = source.windows(sizes)?;
    let answer = list(&mut windows, &mut progress, shown, &mut output()?)?;
    Ok(Status::of(answer.refusal.is_some()))
}

fn show_messages(file: &Path, place: u64, sizes: Sizes) -> Result<Status, Failure> {
    let source = Source::open(file)?;
    let mut progress = Progress::new(source.size(), true);
    let mut windows = source.windows_from(place, sizes, &mut progress)?;
    drop(progress);
    let mut out = output()?;
    let refused = messages(&mut windows, &mut out)?;
    if let Some(answer) = &refused {
        let written = writeln!(out, "{}", Verdict(answer)).and_then(|()| out.flush());
        written.map_err(Failure::Output)?;
    }
    Ok(Status::of(refused.is_some()))
}
