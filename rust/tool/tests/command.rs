//! The built program, as people start it: what it writes, its exit status, and what it says where it can't go on.

mod common;

use common::recordings;
use std::env;
use std::fs::{self, File};
use std::io::{Read, Write};
use std::path::{Path, PathBuf};
use std::process::{Child, Command, Output, Stdio};
use std::thread;

/// The program, under the emulator where cargo runs tests under one.
fn ch11(arguments: &[&str]) -> Command {
    let program = env!("CARGO_BIN_EXE_ch11");
    let runner = env::var_os("CARGO_TARGET_X86_64_UNKNOWN_LINUX_GNU_RUNNER");
    let mut command = match runner.filter(|runner| !runner.is_empty()) {
        Some(runner) => {
            let mut command = Command::new(runner);
            command.arg(program);
            command
        }
        None => Command::new(program),
    };
    command.args(arguments).stdin(Stdio::null());
    command
}

/// What a run wrote and its status.
#[derive(Debug, PartialEq)]
struct Ran {
    out: String,
    err: String,
    status: Option<i32>,
}

fn ran(output: Output) -> Ran {
    Ran {
        out: String::from_utf8(output.stdout).unwrap(),
        err: String::from_utf8(output.stderr).unwrap(),
        status: output.status.code(),
    }
}

fn finished(command: &mut Command) -> Ran {
    ran(command.output().unwrap())
}

fn run(arguments: &[&str]) -> Ran {
    finished(&mut ch11(arguments))
}

/// Starts the program with pipes to feed it and to read it.
fn started(arguments: &[&str]) -> Child {
    ch11(arguments)
        .stdin(Stdio::piped())
        .stdout(Stdio::piped())
        .stderr(Stdio::piped())
        .spawn()
        .unwrap()
}

/// Feeds the program through a pipe.
fn fed(arguments: &[&str], input: &[u8]) -> Ran {
    let mut child = started(arguments);
    let mut stdin = child.stdin.take().unwrap();
    let input = input.to_vec();
    // The program may end before it has read all.
    let feeder = thread::spawn(move || drop(stdin.write_all(&input)));
    let output = child.wait_with_output().unwrap();
    feeder.join().unwrap();
    ran(output)
}

fn sample(name: &str) -> String {
    format!("{}/../../samples/{name}.ch11", env!("CARGO_MANIFEST_DIR"))
}

/// A folder for this test alone.
fn folder(name: &str) -> PathBuf {
    let folder = Path::new(env!("CARGO_TARGET_TMPDIR")).join(name);
    fs::create_dir_all(&folder).unwrap();
    folder
}

fn written(folder: &Path, name: &str, bytes: &[u8]) -> String {
    let path = folder.join(name);
    fs::write(&path, bytes).unwrap();
    path.to_str().unwrap().to_owned()
}

#[test]
fn check_has_a_line_for_each_file() {
    let (flight, cut, altered) = (sample("flight"), sample("cut"), sample("altered"));
    let ran = run(&["check", &flight, &cut, &altered]);
    let wanted = format!(
        "{flight}: 7 packets, 636 bytes, whole\n\
         {cut}: 6 packets, 504 bytes, refused: 10 at 504: the recording ends within a packet (92 of 132 bytes are there)\n\
         {altered}: 3 packets, 156 bytes, refused: 13 at 156: wrong data sum\n"
    );
    assert_eq!(
        (ran.out, ran.err, ran.status),
        (wanted, String::new(), Some(1))
    );
    let whole = run(&["check", &flight]);
    let line = format!("{flight}: 7 packets, 636 bytes, whole\n");
    assert_eq!((whole.out, whole.status), (line, Some(0)));
}

#[test]
fn check_goes_on_behind_a_file_that_cannot_be_read() {
    let folder = folder("unread");
    let (flight, cut) = (sample("flight"), sample("cut"));
    let missing = folder.join("missing");
    let missing = missing.to_str().unwrap();
    let directory = folder.to_str().unwrap();
    let ran = run(&["check", missing, directory, &flight, &cut]);
    assert_eq!(
        ran.err,
        format!("ch11: {missing}: No such file or directory\nch11: {directory}: is a directory\n")
    );
    assert_eq!(ran.out.lines().count(), 2);
    assert_eq!(ran.status, Some(2));
    for command in ["list", "messages --at 0"] {
        let mut arguments: Vec<&str> = command.split(' ').collect();
        arguments.push(missing);
        let ran = run(&arguments);
        assert_eq!(
            ran.err,
            format!("ch11: {missing}: No such file or directory\n")
        );
        assert_eq!((ran.out.as_str(), ran.status), ("", Some(2)));
    }
}

#[test]
fn checks_at_odd_windows_are_the_librarys() {
    let folder = folder("checks");
    let (mut files, mut wanted) = (Vec::new(), Vec::new());
    for (number, recording) in recordings(70).iter().enumerate() {
        files.push(written(&folder, &number.to_string(), recording));
        let read = ch11::read_recording(recording, 0, recording.len(), 0);
        let end = match read.refusal {
            None => "whole".to_owned(),
            Some(refusal) => {
                let (number, place) = (refusal.number.value(), refusal.recording_place);
                format!("refused: {number} at {place}: ")
            }
        };
        wanted.push((read.accepted, read.recording_reached, end));
    }
    for window in ["40", "997", "4096", "100000", ""] {
        let mut arguments = vec!["check"];
        if !window.is_empty() {
            arguments.extend(["--window", window]);
        }
        arguments.extend(files.iter().map(String::as_str));
        let ran = run(&arguments);
        assert_eq!((ran.err.as_str(), ran.status), ("", Some(1)));
        assert_eq!(ran.out.lines().count(), files.len());
        for (line, (file, (packets, bytes, end))) in ran.out.lines().zip(files.iter().zip(&wanted))
        {
            let plural = |count: u64| if count == 1 { "" } else { "s" };
            let (packets, bytes) = (*packets as u64, *bytes);
            let start = format!(
                "{file}: {packets} packet{}, {bytes} byte{}, {end}",
                plural(packets),
                plural(bytes)
            );
            assert!(
                line.starts_with(&start),
                "window {window}: {line}, not {start}"
            );
        }
    }
}

#[test]
fn lists_at_odd_windows_are_the_second_programs() {
    let folder = folder("lists");
    for (number, recording) in recordings(24).iter().enumerate() {
        let file = written(&folder, &number.to_string(), recording);
        let wanted = String::from_utf8(second::listing(recording)).unwrap();
        let refused = i32::from(!wanted.ends_with("answer=0\n"));
        let window = ["41", "997", "23", "4096"][number % 4];
        let ran = run(&["list", "--window", window, &file]);
        assert!(ran.out == wanted, "window {window}, recording {number}");
        assert_eq!((ran.err.as_str(), ran.status), ("", Some(refused)));
    }
}

#[test]
fn a_pipe_is_read_like_a_file() {
    let recording = fs::read(sample("flight")).unwrap();
    let ran = fed(&["check", "-"], &recording);
    assert_eq!(ran.out, "standard input: 7 packets, 636 bytes, whole\n");
    let cut = fed(&["list", "-"], &recording[..600]);
    let wanted = String::from_utf8(second::listing(&recording[..600])).unwrap();
    assert_eq!((cut.out, cut.status), (wanted, Some(1)));
    let ran = fed(
        &["messages", "-", "--at", "156", "--window", "7"],
        &recording,
    );
    let wanted = run(&["messages", &sample("flight"), "--at", "0x9C"]);
    assert_eq!(ran, wanted);
    // A file on standard input has a known end, and is read from where it stands.
    let mut file = File::open(sample("flight")).unwrap();
    let mut passed = [0; 40];
    file.read_exact(&mut passed).unwrap();
    let ran = finished(ch11(&["check", "-"]).stdin(file));
    assert_eq!(ran.out, "standard input: 6 packets, 596 bytes, whole\n");
    let mut file = File::open(sample("flight")).unwrap();
    file.read_exact(&mut passed).unwrap();
    let ran = finished(ch11(&["messages", "-", "--at", "116"]).stdin(file));
    assert_eq!(ran.out, wanted.out.replace("at 156", "at 116"));
}

#[test]
fn json_has_the_same_numbers() {
    for name in ["flight", "cut", "altered"] {
        let lines = run(&["list", &sample(name)]).out;
        let json = run(&["list", "--json", &sample(name)]);
        let mut numbers = Vec::new();
        for line in json.out.lines() {
            let object: serde_json::Value = serde_json::from_str(line).unwrap();
            // The keys' order is that of the lines.
            let mut keys: Vec<_> = object.as_object().unwrap().iter().collect();
            keys.retain(|(key, _)| !["reason", "place", "words"].contains(&key.as_str()));
            keys.sort_by_key(|(key, _)| line.find(&format!("\"{key}\":")));
            numbers.extend(keys.iter().map(|(key, value)| format!("{key}={value}\n")));
        }
        assert_eq!(numbers.concat(), lines);
        assert_eq!(json.status, Some(i32::from(name != "flight")));
    }
    let last = |name| {
        run(&["list", "--json", &sample(name)])
            .out
            .lines()
            .last()
            .map(str::to_owned)
    };
    assert_eq!(
        last("flight").unwrap(),
        r#"{"packets":7,"bytes":636,"answer":0}"#
    );
    assert_eq!(
        last("altered").unwrap(),
        r#"{"packets":3,"bytes":156,"answer":13,"reason":0,"place":156,"words":"wrong data sum"}"#
    );
}

#[test]
fn a_listing_can_be_of_some_channels_and_types() {
    let flight = sample("flight");
    let shown = |options: &[&str]| {
        let mut arguments = vec!["list", &flight];
        arguments.extend(options);
        let out = run(&arguments).out;
        assert!(out.ends_with("packets=7\nbytes=636\nanswer=0\n"));
        let packets = out.lines().filter_map(|line| line.strip_prefix("packet="));
        packets.collect::<Vec<_>>().join(" ")
    };
    assert_eq!(shown(&["--channel", "9"]), "3 4");
    assert_eq!(shown(&["--channel", "0x9", "--channel", "1"]), "1 3 4");
    assert_eq!(shown(&["--type", "0x30"]), "2");
    assert_eq!(shown(&["--type", "80", "--channel", "7"]), "");
    assert_eq!(shown(&["--type", "64", "--type", "9"]), "5 6");
    for wrong in [
        ["--type", "256"],
        ["--channel", "65536"],
        ["--channel", "x"],
    ] {
        let ran = run(&["list", &flight, wrong[0], wrong[1]]);
        assert_eq!((ran.out.as_str(), ran.status), ("", Some(2)));
    }
}

#[test]
fn messages_are_shown_with_times_and_bytes() {
    let flight = sample("flight");
    let shown = |at: &str| run(&["messages", &flight, "--at", at]);
    assert_eq!(
        shown("80").out,
        "packet at 80: channel 7, type 0x30, 2 messages\n\n\
         message 0: 9 bytes\ntime: 1.0500001 s (counter 10500001)\nID word: 0x00000009\n\
         00000000  47 45 41 52 20 44 4f 57  4e                       |GEAR DOWN|\n\n\
         message 1: 8 bytes\ntime: 1.0500417 s (counter 10500417)\nID word: 0x00000008\n\
         00000000  46 4c 41 50 53 20 32 30                           |FLAPS 20|\n"
    );
    assert!(shown("156")
        .out
        .contains("message 0: 3 bytes\ntime: none\n"));
    assert!(shown("196")
        .out
        .contains("time: 2026-11-15 11:00:01.000000000 TAI\n"));
    assert_eq!(
        shown("504").out,
        "packet at 504: channel 20, type 0x09 is not opened: no messages\n"
    );
    assert_eq!(shown("504").status, Some(0));
}

#[test]
fn messages_that_are_not_there() {
    let flight = sample("flight");
    let shown = |at: &str| run(&["messages", &flight, "--at", at]);
    let refused = |at: &str, words: &str| {
        let ran = shown(at);
        assert_eq!(
            (ran.out, ran.status),
            (format!("refused: {words}\n"), Some(1))
        );
    };
    refused("2", "3 at 2: wrong sync");
    refused(
        "636",
        "2 at 636: the recording ends within a packet's header (0 bytes are left)",
    );
    let behind = shown("637");
    assert_eq!(
        behind.err,
        format!("ch11: {flight}: has no byte 637: it ends at 636\n")
    );
    assert_eq!((behind.out.as_str(), behind.status), ("", Some(2)));
    let behind = fed(
        &["messages", "-", "--at", "637"],
        &fs::read(&flight).unwrap(),
    );
    assert_eq!(
        behind.err,
        "ch11: standard input: has no byte 637: it ends at 636\n"
    );
}

#[test]
fn a_closed_output_is_told() {
    let recording = fs::read(sample("flight")).unwrap().repeat(3_000);
    let file = written(&folder("closed"), "long", &recording);
    // More lines than a pipe holds, so that the program can't end before the pipe is closed.
    let flight = sample("flight");
    let mut many = vec!["check"];
    many.resize(2_001, &flight);
    for arguments in [&["list", &file][..], &["list", "--json", &file], &many] {
        let mut child = started(arguments);
        drop(child.stdout.take());
        let ran = child.wait_with_output().unwrap();
        assert_eq!(
            String::from_utf8(ran.stderr).unwrap(),
            "ch11: standard output was closed\n"
        );
        assert_eq!(ran.status.code(), Some(2));
    }
    let full = || File::options().write(true).open("/dev/full").unwrap();
    for arguments in [
        &["list", &file][..],
        &["check", &file],
        &["messages", &file, "--at", "80"],
    ] {
        let ran = finished(ch11(arguments).stdout(full()));
        let words = "ch11: standard output can't be written: No space left on device\n";
        assert_eq!((ran.err.as_str(), ran.status), (words, Some(2)));
    }
}

#[test]
fn a_refusal_ends_the_program_while_the_pipe_is_still_open() {
    let recording = fs::read(sample("altered")).unwrap();
    let mut child = started(&["check", "-"]);
    let mut stdin = child.stdin.take().unwrap();
    stdin.write_all(&recording).unwrap();
    stdin.flush().unwrap();
    assert_eq!(child.wait().unwrap().code(), Some(1));
    drop(stdin);
}

/// The most memory that a process held at any time, in KiB.
fn peak_memory(process: u32) -> u64 {
    let status = fs::read_to_string(format!("/proc/{process}/status")).unwrap();
    let line = status
        .lines()
        .find(|line| line.starts_with("VmHWM:"))
        .unwrap();
    line.split_whitespace().nth(1).unwrap().parse().unwrap()
}

#[test]
fn memory_does_not_grow_with_the_recording() {
    let piece = fs::read(sample("flight")).unwrap().repeat(1_000);
    let mut child = started(&["check", "-"]);
    let mut stdin = child.stdin.take().unwrap();
    let mut peaks = Vec::new();
    for number in 0..100 {
        stdin.write_all(&piece).unwrap();
        if number == 19 || number == 99 {
            peaks.push(peak_memory(child.id()));
        }
    }
    drop(stdin);
    let output = child.wait_with_output().unwrap();
    let out = String::from_utf8(output.stdout).unwrap();
    assert_eq!(
        out,
        "standard input: 700000 packets, 63600000 bytes, whole\n"
    );
    // The recording grew by 50 MB meanwhile.
    assert!(peaks[1] < peaks[0] + 16_000, "{peaks:?} KiB");
}

#[test]
fn wrong_arguments_are_told() {
    let flight = sample("flight");
    for arguments in [
        &[][..],
        &["check"],
        &["frob", &flight],
        &["messages", &flight],
        &["list", &flight, &flight],
        &["check", "-", "-"],
        &["check", "--window", "0", &flight],
    ] {
        let ran = run(arguments);
        assert_eq!(
            (ran.out.as_str(), ran.status),
            ("", Some(2)),
            "{arguments:?}"
        );
        assert!(!ran.err.is_empty());
    }
    let help = run(&["check", "--help"]);
    assert_eq!(help.status, Some(0));
    assert!(!help.out.contains("window"));
}
