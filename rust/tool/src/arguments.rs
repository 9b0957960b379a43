//! The command line.

use crate::list::Shown;
use crate::source::is_standard_input;
use clap::error::ErrorKind;
use clap::{value_parser, Arg, ArgAction, ArgMatches, Command};
use std::path::PathBuf;

/// What is to be done.
#[derive(Debug)]
pub enum Task {
    List { file: PathBuf, shown: Shown },
    Check { files: Vec<PathBuf> },
    Messages { file: PathBuf, at: u64 },
}

/// What the command line says.
#[derive(Debug)]
pub struct Arguments {
    pub task: Task,
    /// How many bytes are read at a time, where that is set.
    pub window: Option<usize>,
}

/// The arguments of the command line; says what is wrong with them and ends the program where they can't be taken.
pub fn parse() -> Arguments {
    let matches = command().get_matches();
    match matches.subcommand() {
        Some(("list", list)) => arguments_of(list, list_of(list)),
        Some(("check", check)) => arguments_of(check, check_of(check)),
        Some(("messages", messages)) => arguments_of(messages, messages_of(messages)),
        _ => usage("a command is needed: list, check or messages"),
    }
}

fn arguments_of(matches: &ArgMatches, task: Task) -> Arguments {
    let window = matches.get_one::<u64>("window");
    Arguments {
        task,
        window: window.map(|bytes| usize::try_from(*bytes).unwrap_or(usize::MAX)),
    }
}

fn list_of(matches: &ArgMatches) -> Task {
    Task::List {
        file: file_of(matches),
        shown: Shown {
            channels: all_of(matches, "channel"),
            kinds: all_of(matches, "type"),
            json: matches.get_flag("json"),
        },
    }
}

fn check_of(matches: &ArgMatches) -> Task {
    let files: Vec<PathBuf> = all_of(matches, "file");
    if files.iter().filter(|file| is_standard_input(file)).count() > 1 {
        usage("standard input can be read once only");
    }
    Task::Check { files }
}

fn messages_of(matches: &ArgMatches) -> Task {
    Task::Messages {
        file: file_of(matches),
        at: matches.get_one("at").copied().unwrap_or(0),
    }
}

fn file_of(matches: &ArgMatches) -> PathBuf {
    matches.get_one("file").cloned().unwrap_or_default()
}

/// All values of an argument.
fn all_of<T: Clone + Send + Sync + 'static>(matches: &ArgMatches, name: &str) -> Vec<T> {
    let values = matches.get_many(name);
    values.map_or_else(Vec::new, |values| values.cloned().collect())
}

/// Says what is wrong with the arguments and ends the program with status 2.
fn usage(words: &str) -> ! {
    command().error(ErrorKind::ValueValidation, words).exit()
}

fn command() -> Command {
    Command::new("ch11")
        .version(env!("CARGO_PKG_VERSION"))
        .about("Reads IRIG 106 Chapter 11 recordings, with a library that is proved")
        .after_help("FILE may be `-`: standard input. Exit status: 0 whole, 1 a packet is refused, 2 can't be read or written.")
        .subcommand_required(true)
        .arg_required_else_help(true)
        .disable_help_subcommand(true)
        .subcommand(list())
        .subcommand(check())
        .subcommand(messages())
}

fn list() -> Command {
    Command::new("list")
        .about("Lists the packets of a recording, a line for each number")
        .arg(file())
        .arg(
            Arg::new("json")
                .long("json")
                .action(ArgAction::SetTrue)
                .help("One JSON object a line: a packet, or the end"),
        )
        .arg(
            number_of("channel", "N", channel)
                .action(ArgAction::Append)
                .help("Only packets of this channel; may be given again"),
        )
        .arg(
            number_of("type", "T", kind)
                .action(ArgAction::Append)
                .help("Only packets of this type, as 80 or 0x50; may be given again"),
        )
        .arg(window())
}

fn check() -> Command {
    Command::new("check")
        .about("Says of each recording how many packets it has and whether it is whole")
        .arg(file().action(ArgAction::Append).num_args(1..))
        .arg(window())
}

fn messages() -> Command {
    Command::new("messages")
        .about("Shows the messages of the packet at a place of the recording")
        .arg(file())
        .arg(
            number_of("at", "PLACE", number)
                .required(true)
                .help("The packet's first byte, as `ch11 list` has it in at="),
        )
        .arg(window())
}

fn file() -> Arg {
    Arg::new("file")
        .value_name("FILE")
        .required(true)
        .value_parser(value_parser!(PathBuf))
        .help("A recording, or `-` for standard input")
}

/// Sets how much is read at a time, for tests.
fn window() -> Arg {
    Arg::new("window")
        .long("window")
        .value_name("BYTES")
        .value_parser(value_parser!(u64).range(1..=1 << 30))
        .hide(true)
}

/// An option whose value is a number, decimal or hex.
fn number_of<T>(
    name: &'static str,
    value: &'static str,
    parse: fn(&str) -> Result<T, String>,
) -> Arg
where
    T: Clone + Send + Sync + 'static,
{
    Arg::new(name)
        .long(name)
        .value_name(value)
        .value_parser(parse)
}

/// A number, decimal or hex behind `0x`.
fn number(text: &str) -> Result<u64, String> {
    let hex = text.strip_prefix("0x").or_else(|| text.strip_prefix("0X"));
    let parsed = match hex {
        Some(digits) if digits.starts_with('+') => None,
        Some(digits) => u64::from_str_radix(digits, 16).ok(),
        None => text.parse().ok(),
    };
    parsed.ok_or_else(|| "not a number, as 80 or 0x50".to_owned())
}

fn channel(text: &str) -> Result<u16, String> {
    u16::try_from(number(text)?).map_err(|_| "channels are 0 to 65535".to_owned())
}

fn kind(text: &str) -> Result<u8, String> {
    u8::try_from(number(text)?).map_err(|_| "types are 0 to 255".to_owned())
}

#[cfg(test)]
mod tests {
    use super::*;

    #[test]
    fn numbers_are_decimal_or_hex() {
        assert_eq!(number("80"), Ok(80));
        assert_eq!(number("0x50"), Ok(0x50));
        assert_eq!(number("0XfF"), Ok(255));
        assert_eq!(number("18446744073709551615"), Ok(u64::MAX));
        for wrong in [
            "",
            "x",
            "-1",
            "0x",
            "0x+1",
            "18446744073709551616",
            "1.5",
            "50h",
        ] {
            assert!(number(wrong).is_err(), "{wrong}");
        }
        assert_eq!((channel("65535"), kind("255")), (Ok(65_535), Ok(255)));
        assert!(channel("65536").is_err() && kind("256").is_err());
    }
}
