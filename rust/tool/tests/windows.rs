//! Recordings read window by window, held to the second program and to the library on the whole recording in memory.

mod common;

use ch11_tool::ahead::Sizes;
use ch11_tool::check::{check, Checked};
use ch11_tool::failure::Failure;
use ch11_tool::list::{list, Shown};
use ch11_tool::messages::messages_of;
use ch11_tool::progress::Progress;
use ch11_tool::windows::Windows;
use common::{listing_in_memory, recordings};
use generate::causes::{causes, with_faults};
use generate::random::Random;
use generate::recipe::{Recipe, CASE_L};
use generate::recording::{many_messages, packet_of_length};
use std::fs::{self, File};
use std::io::{self, Cursor, Read};
use std::sync::atomic::{AtomicUsize, Ordering};
use std::{env, process};

/// Window sizes around the lengths of headers and small packets.
const ODD: [usize; 12] = [1, 2, 3, 23, 24, 25, 39, 40, 41, 997, 4_096, 65_537];

/// Windows of this size over a recording in memory.
fn windows(recording: &[u8], sizes: Sizes) -> Windows {
    let source = Cursor::new(recording.to_vec());
    Windows::over(source, 0, sizes).unwrap()
}

fn listed(recording: &[u8], sizes: Sizes) -> String {
    let mut out = Vec::new();
    let mut windows = windows(recording, sizes);
    list(
        &mut windows,
        &mut Progress::none(),
        &Shown::default(),
        &mut out,
    )
    .unwrap();
    String::from_utf8(out).unwrap()
}

fn checked(source: impl Read + Send + 'static, sizes: Sizes) -> Result<Checked, Failure> {
    let mut windows = Windows::over(source, 0, sizes)?;
    check(&mut windows, &mut Progress::none())
}

/// Holds a check to what the library says of the whole recording in memory.
fn hold(recording: &[u8], found: &Checked, case: &str) {
    let whole = ch11::read_recording(recording, 0, recording.len(), 0);
    assert_eq!(found.packets, whole.accepted as u64, "packets, {case}");
    assert_eq!(found.answer.bytes, whole.recording_reached, "bytes, {case}");
    let told = |refusal: ch11::Refusal| (refusal.number, refusal.reason, refusal.recording_place);
    assert_eq!(
        found.answer.refusal.map(told),
        whole.refusal.map(told),
        "refusal, {case}"
    );
    if let Some(2 | 10) = whole.refusal.map(|refusal| refusal.number.value()) {
        assert_eq!(
            found.answer.left,
            recording.len() - whole.reached,
            "bytes left, {case}"
        );
    }
}

/// A file of 7 bytes and then these, without a name.
fn file_of(recording: &[u8]) -> File {
    static MADE: AtomicUsize = AtomicUsize::new(0);
    let number = MADE.fetch_add(1, Ordering::Relaxed);
    let name = env::temp_dir().join(format!("ch11-{}-{number}", process::id()));
    fs::write(&name, [&[0xEE; 7], recording].concat()).unwrap();
    let file = File::open(&name).unwrap();
    fs::remove_file(&name).unwrap();
    file
}

/// Checks a recording that stands in a file behind others' bytes, in lanes.
fn checked_in_file(recording: &[u8], sizes: Sizes) -> Result<Checked, Failure> {
    let (file, size) = (file_of(recording), recording.len() as u64);
    let mut windows = Windows::over_file(file, 7, 0, size, sizes)?;
    check(&mut windows, &mut Progress::none())
}

/// Blocks that grow from 30 bytes to 2,000, in so many lanes.
fn growing(lanes: usize) -> Sizes {
    Sizes {
        first: 30,
        full: 2_000,
        headroom: 600,
        blocks: 2,
        lanes,
    }
}

/// Checks and lists a recording with blocks of this size.
fn try_both(recording: &[u8], sizes: Sizes, wanted: &str) {
    let case = format!("{} bytes, {sizes:?}", recording.len());
    let found = checked(Cursor::new(recording.to_vec()), sizes).unwrap();
    hold(recording, &found, &case);
    let found = checked_in_file(recording, sizes).unwrap();
    hold(recording, &found, &format!("{case}, file"));
    assert!(listed(recording, sizes) == wanted, "listing, {case}");
}

#[test]
fn listings_are_the_second_programs_at_odd_windows() {
    let mut compared = 0;
    for recording in recordings(60) {
        let wanted = String::from_utf8(second::listing(&recording)).unwrap();
        for bytes in ODD {
            // Very small windows of long recordings only take time.
            if recording.len() / bytes < 3_000 {
                try_both(&recording, Sizes::all_of(bytes), &wanted);
                compared += 1;
            }
        }
        try_both(&recording, Sizes::FAST, &wanted);
        for lanes in 1..=4 {
            try_both(&recording, growing(lanes), &wanted);
        }
    }
    assert!(compared > 400, "{compared} were compared");
}

#[test]
fn packets_longer_than_blocks_are_gathered() {
    let mut random = Random::new(5);
    let setup = |random: &mut Random, length: usize| {
        let mut recipe = Recipe::sound(random, 0x01, 3);
        recipe.body = random.bytes(length - 28);
        recipe.bytes()
    };
    let mut recording = CASE_L.to_vec();
    recording.extend(packet_of_length(&mut random, 524_288));
    recording.extend(setup(&mut random, 3_000_000));
    recording.extend(CASE_L);
    recording.extend(setup(&mut random, 1_200_000));
    recording.extend(setup(&mut random, 1_700_000));
    recording.extend(many_messages(&mut random, 0x50, 0, 40_000).bytes());
    let wanted = listing_in_memory(&recording);
    let end = format!("packets=7\nbytes={}\nanswer=0\n", recording.len());
    assert!(wanted.ends_with(&end));
    let odd = [997, 4_096, 65_537, 524_287, 1_000_001].map(Sizes::all_of);
    for sizes in odd.into_iter().chain([Sizes::FAST]) {
        try_both(&recording, sizes, &wanted);
    }
    let cut = &recording[..recording.len() - 5];
    try_both(cut, Sizes::FAST, &listing_in_memory(cut));
    let cut = &recording[..3_000_000];
    try_both(cut, Sizes::all_of(4_099), &listing_in_memory(cut));
}

#[test]
fn every_refusal_is_the_same_at_every_window_edge() {
    let mut random = Random::new(7);
    let mut numbers = Vec::new();
    for cause in causes(false) {
        let (recipe, _) = with_faults(&mut random, &[cause]);
        if recipe.window.is_some() || recipe.base.is_some() {
            continue;
        }
        let mut faulty = recipe.bytes();
        if let Some(kept) = recipe.kept {
            faulty.truncate(kept(faulty.len()));
        }
        let recording = [&CASE_L[..], &faulty].concat();
        let refusal = ch11::read_recording(&recording, 0, recording.len(), 0).refusal;
        numbers.extend(refusal.map(|refusal| refusal.number.value()));
        let behind = [&recording[..], &CASE_L].concat();
        for bytes in (1..70).chain(recording.len() - 3..recording.len() + 3) {
            for recording in [&recording, &behind] {
                let source = Cursor::new(recording.clone());
                let found = checked(source, Sizes::all_of(bytes)).unwrap();
                hold(
                    recording,
                    &found,
                    &format!("{}, window {bytes}", cause.rule),
                );
            }
        }
    }
    numbers.sort_unstable();
    numbers.dedup();
    assert_eq!(numbers, (2..=15).collect::<Vec<u64>>());
}

#[test]
fn a_recording_may_end_anywhere() {
    let mut random = Random::new(3);
    let recording = [&CASE_L[..], &Recipe::sound(&mut random, 0x30, 0xC7).bytes()].concat();
    for end in 0..=recording.len() {
        let cut = &recording[..end];
        let wanted = String::from_utf8(second::listing(cut)).unwrap();
        for bytes in [1, 5, 24, 40, 64] {
            try_both(cut, Sizes::all_of(bytes), &wanted);
        }
        try_both(cut, Sizes::FAST, &wanted);
    }
}

/// A source that gives a few bytes a read, is broken off by signals, and fails at last or ends.
struct Trickle {
    bytes: Cursor<Vec<u8>>,
    random: Random,
    fails: bool,
}

impl Read for Trickle {
    fn read(&mut self, room: &mut [u8]) -> io::Result<usize> {
        if self.random.one_in(3) {
            return Err(io::ErrorKind::Interrupted.into());
        }
        let some = (1 + self.random.index(50)).min(room.len());
        match self.bytes.read(&mut room[..some])? {
            0 if self.fails => Err(io::ErrorKind::ConnectionReset.into()),
            read => Ok(read),
        }
    }
}

fn trickle(recording: &[u8], seed: u64, fails: bool) -> Trickle {
    Trickle {
        bytes: Cursor::new(recording.to_vec()),
        random: Random::new(seed),
        fails,
    }
}

#[test]
fn reads_of_any_length_do() {
    for (seed, recording) in recordings(40).iter().enumerate() {
        if recording.len() > 20_000 {
            continue;
        }
        for sizes in [Sizes::FAST, Sizes::all_of(7), Sizes::all_of(64)] {
            let found = checked(trickle(recording, seed as u64, false), sizes).unwrap();
            hold(recording, &found, &format!("recording {seed}, {sizes:?}"));
        }
    }
}

#[test]
fn a_read_that_fails_is_told_with_its_place() {
    let recording = CASE_L.repeat(3);
    for end in 0..=recording.len() {
        for sizes in [Sizes::FAST, Sizes::all_of(1), Sizes::all_of(40)] {
            match checked(trickle(&recording[..end], 1, true), sizes) {
                Err(Failure::Read { place, .. }) => assert_eq!(place, end as u64),
                other => panic!("{other:?}"),
            }
        }
    }
    // A refusal ahead of it is the answer.
    let mut altered = recording;
    altered[40] = 0;
    let found = checked(trickle(&altered, 1, true), Sizes::all_of(10)).unwrap();
    hold(&altered, &found, "altered");
}

#[test]
fn messages_are_as_the_library_gives_each() {
    let mut random = Random::new(9);
    let mut compared = 0;
    for _ in 0..300 {
        let recipe = Recipe::any(&mut random);
        let recording = [&CASE_L[..], &recipe.bytes(), &CASE_L].concat();
        let mut windows = windows(&recording, Sizes::FAST);
        assert!(windows.grow(1).unwrap());
        windows.pass(40);
        let window = windows.window();
        let (buf, start, end, base) = (window.buf, window.start, window.end, window.base);
        assert_eq!(base, 40);
        let packet = ch11::read_packet(buf, start, end, base).unwrap();
        let found = messages_of(window, &packet).unwrap();
        let count = ch11::message_count(buf, start, end, base).unwrap();
        assert_eq!(found.len(), count);
        for (number, found) in found.iter().enumerate() {
            let one = ch11::message(buf, start, end, base, number).unwrap();
            assert_eq!(found.time.unwrap_or(0), one.time);
            assert_eq!(
                (found.id, found.start, found.bytes),
                (one.id, one.start, one.bytes)
            );
            compared += 1;
        }
    }
    assert!(compared > 300, "{compared} were compared");
}

/// A file that has become shorter, one that is read from a place on, and one that can't be read, in one lane and in several.
#[test]
fn files_in_lanes() {
    let recording = [CASE_L; 5].concat();
    for bytes in [1, 3, 40, 67, 100, 199, 200, 201, 1_000] {
        let sizes = Sizes::all_of(bytes);
        let mut windows = Windows::over_file(file_of(&recording), 7, 0, 260, sizes).unwrap();
        match check(&mut windows, &mut Progress::none()) {
            Err(Failure::Shorter { got, size }) => assert_eq!((got, size), (200, 260), "{bytes}"),
            other => panic!("{other:?}, {bytes}"),
        }
        // From the third packet on.
        let mut windows = Windows::over_file(file_of(&recording), 7, 80, 200, sizes).unwrap();
        let found = check(&mut windows, &mut Progress::none()).unwrap();
        assert_eq!((found.packets, found.answer.bytes), (3, 200), "{bytes}");
        let folder = File::open(env::temp_dir()).unwrap();
        let mut windows = Windows::over_file(folder, 0, 0, 260, sizes).unwrap();
        match check(&mut windows, &mut Progress::none()) {
            Err(Failure::Read { place, .. }) => assert_eq!(place, 0, "{bytes}"),
            other => panic!("{other:?}, {bytes}"),
        }
    }
}
