//! The answers of the Rust side as the structs of the C interface, to be held against the library's.
use crate::same;
use crate::same::renewal::Renewed;
use ch11::raw;

pub fn packet(answer: Result<same::Packet, same::Refusal>) -> raw::Packet {
    let packet = match answer {
        Ok(packet) => packet,
        Err(reason) => {
            return raw::Packet {
                refusal: refusal(reason),
                ..raw::Packet::default()
            }
        }
    };
    raw::Packet {
        refusal: raw::Refusal::default(),
        fields: fields(packet.fields),
        length: u64::from(packet.length),
        data_length: u64::from(packet.data_length),
        header_sum: u64::from(packet.header_sum),
        data_sum: u64::from(packet.data_sum),
        recording_place: packet.recording_place,
        header: part(packet.header),
        secondary: part(packet.secondary),
        body: part(packet.body),
        filler: part(packet.filler),
        sum: part(packet.sum),
    }
}

pub fn recording(recording: same::Recording) -> raw::Recording {
    raw::Recording {
        refusal: recording
            .refusal
            .map_or_else(raw::Refusal::default, refusal),
        accepted: recording.accepted as u64,
        reached: recording.reached as u64,
        recording_reached: recording.recording_reached,
    }
}

pub fn list(answer: Result<usize, same::Refusal>) -> raw::List {
    let (refusal, count) = number(answer);
    raw::List { refusal, count }
}

pub fn written(answer: Result<usize, same::Refusal>) -> raw::Written {
    let (refusal, length) = number(answer);
    raw::Written { refusal, length }
}

pub fn message(answer: Result<same::Message, same::Refusal>) -> raw::Message {
    match answer {
        Ok(message) => raw::Message {
            refusal: raw::Refusal::default(),
            time: message.time,
            id: u64::from(message.id),
            start: message.start as u64,
            length: message.length as u64,
        },
        Err(reason) => raw::Message {
            refusal: refusal(reason),
            ..raw::Message::default()
        },
    }
}

pub fn added(answer: Result<usize, same::Refusal>) -> raw::Added {
    let (refusal, slot) = number(answer);
    raw::Added { refusal, slot }
}

pub fn renewed(answer: Result<Renewed, same::Refusal>) -> raw::Renewed {
    let nothing = raw::Renewed::default();
    match answer {
        Ok(Renewed::Lives) => raw::Renewed {
            lives: 1,
            ..nothing
        },
        Ok(Renewed::Dropped(cause)) => raw::Renewed {
            cause: cause.map_or(nothing.cause, refusal),
            ..nothing
        },
        Err(reason) => raw::Renewed {
            refusal: refusal(reason),
            ..nothing
        },
    }
}

/// A refusal and a number of which one is all 0.
fn number(answer: Result<usize, same::Refusal>) -> (raw::Refusal, u64) {
    match answer {
        Ok(number) => (raw::Refusal::default(), number as u64),
        Err(reason) => (refusal(reason), 0),
    }
}

fn refusal(refusal: same::Refusal) -> raw::Refusal {
    raw::Refusal {
        number: u64::from(refusal.number),
        place: refusal.place as u64,
        room: refusal.room as u64,
        reason: u64::from(refusal.reason),
        recording_place: refusal.recording_place,
    }
}

fn part(part: same::Part) -> raw::Part {
    raw::Part {
        at: part.at as u64,
        length: part.length as u64,
    }
}

fn fields(fields: same::Fields) -> raw::Fields {
    raw::Fields {
        channel: u64::from(fields.channel),
        version: u64::from(fields.version),
        sequence: u64::from(fields.sequence),
        flags: u64::from(fields.flags),
        kind: u64::from(fields.kind),
        rtc: fields.rtc,
        time: fields.time,
    }
}
