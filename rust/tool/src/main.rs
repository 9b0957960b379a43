//! The command `ch11`; see `docs/TOOL.md`.

#![forbid(unsafe_code)]

use ch11_tool::{arguments, run};
use std::process::ExitCode;

fn main() -> ExitCode {
    // A thread that reads ahead may be in a read that takes long: the program ends without it.
    ExitCode::from(run::run(&arguments::parse()).code())
}
