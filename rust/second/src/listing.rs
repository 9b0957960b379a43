//! The listing.

use crate::reader::{read_recording, read_with_messages};
use crate::rules::OUTSIDE_BUFFER;
use crate::{Message, Packet};

/// "It reads standard input, up to 65,536 bytes".
pub const LONGEST_INPUT: usize = 65_536;

/// One line: a key and a decimal number.
fn line(output: &mut Vec<u8>, key: &str, number: u64) {
    output.extend_from_slice(format!("{}={}\n", key, number).as_bytes());
}

/// The lines of one accepted packet.
fn packet_lines(output: &mut Vec<u8>, number: u64, packet: &Packet, messages: &[Message]) {
    line(output, "packet", number);
    // Request 9: "Listings follow": the place in the recording.
    line(output, "at", packet.recording_place);
    line(output, "length", packet.length);
    line(output, "channel", packet.fields.channel);
    line(output, "type", packet.fields.kind);
    line(output, "version", packet.fields.version);
    line(output, "sequence", packet.fields.sequence);
    line(output, "flags", packet.fields.flags);
    line(output, "rtc", packet.fields.rtc);
    line(output, "time", packet.fields.time);
    line(output, "body", packet.body.length);
    line(output, "filler", packet.filler.length);
    // "`sum` is 0 if absent, `messages` 0 if the type isn't opened."
    line(output, "sum", packet.data_sum);
    line(output, "messages", messages.len() as u64);
}

/// The listing program's whole output for this standard input: "For each
/// accepted packet it prints these lines, decimal, then the three last lines."
pub fn listing(input: &[u8]) -> Vec<u8> {
    let mut output = Vec::new();
    // "(more: it prints only `answer=1`)"
    if input.len() > LONGEST_INPUT {
        line(&mut output, "answer", OUTSIDE_BUFFER);
        return output;
    }
    // Standard input is the recording from its first byte on: start and base
    // are both 0, and each place in the buffer is that place in the recording.
    let recording = read_recording(input, 0, input.len(), 0);
    let mut at = 0;
    for number in 0..recording.accepted {
        // "the one-packet reader, at each of those places with the same end,
        // gives that packet". Request 9: "the one-packet reader's base is moved
        // on by the distance from the window's start"
        let answer = read_with_messages(input, at, input.len(), at as u64);
        if let Ok((packet, messages)) = answer {
            packet_lines(&mut output, number, &packet, &messages);
            at += packet.length as usize;
        }
    }
    line(&mut output, "packets", recording.accepted);
    line(&mut output, "bytes", recording.reached);
    line(&mut output, "answer", recording.refusal.number);
    output
}
