//! Recordings, and what is to be said of them.
#![allow(dead_code)]

use generate::random::Random;
use generate::recording::{listing_input, LONGEST_INPUT};
use std::fmt::Write;

/// Inputs of the listing that it lists: the set ones and some by chance.
pub fn recordings(count: u64) -> Vec<Vec<u8>> {
    let mut random = Random::new(11);
    let inputs = (0..count).map(|number| listing_input(&mut random, number));
    inputs
        .filter(|input| input.len() <= LONGEST_INPUT)
        .collect()
}

/// The listing of a recording of any length, from the packets in memory.
pub fn listing_in_memory(recording: &[u8]) -> String {
    let mut lines = String::new();
    let end = recording.len();
    for (number, packet) in ch11::packets(recording, 0, end, 0).flatten().enumerate() {
        let fields = packet.fields;
        let messages = ch11::message_count(recording, packet.header.at, end, 0);
        let numbers = [
            ("packet", number as u64),
            ("at", packet.recording_place),
            ("length", packet.length as u64),
            ("channel", fields.channel.into()),
            ("type", fields.kind.into()),
            ("version", fields.version.into()),
            ("sequence", fields.sequence.into()),
            ("flags", fields.flags.into()),
            ("rtc", fields.rtc),
            ("time", fields.time),
            ("body", packet.body.length as u64),
            ("filler", packet.filler.length as u64),
            ("sum", packet.data_sum.into()),
            ("messages", messages.unwrap() as u64),
        ];
        for (key, number) in numbers {
            writeln!(lines, "{key}={number}").unwrap();
        }
    }
    let read = ch11::read_recording(recording, 0, end, 0);
    let answer = read.refusal.map_or(0, |refusal| refusal.number.value());
    let (packets, bytes) = (read.accepted, read.recording_reached);
    writeln!(lines, "packets={packets}\nbytes={bytes}\nanswer={answer}").unwrap();
    lines
}
