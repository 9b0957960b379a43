//! The packet writer.

use crate::body::read_body;
use crate::rules::*;
use crate::{Fields, Refusal};

/// The refusal with this number. "For the writer and builder the place is 0."
/// Request 9: "a base that the caller gives, plus the distance from the window's
/// start": the writer has neither, so that the place in the recording is 0 too.
fn refuse(number: u64) -> Refusal {
    Refusal {
        number,
        place: 0,
        recording_place: 0,
        room: 0,
        reason: NO_REASON,
    }
}

/// Whether each number fits its field of the primary header; for the RTC that
/// is "RTC of 2^48 or more".
fn fields_fit(fields: &Fields) -> bool {
    fields.channel <= 0xFFFF
        && fields.version <= 0xFF
        && fields.sequence <= 0xFF
        && fields.flags <= 0xFF
        && fields.kind <= 0xFF
        && fields.rtc < (1 << 48)
}

/// "It takes channel, version, sequence, flags, type, RTC, secondary time, body
/// and output, and works out the rest." Answers P.
pub fn write_packet(fields: &Fields, body: &[u8], out: &mut [u8]) -> Result<u64, Refusal> {
    let flags = fields.flags;
    let kind = fields.kind;

    // "First 17 (RTC of 2^48 or more;" and every number too big for its field
    if !fields_fit(fields) {
        return Err(refuse(OUT_OF_RANGE));
    }
    // "a secondary time other than 0 with bit 7 clear),"
    if !has_secondary(flags) && fields.time != 0 {
        return Err(refuse(OUT_OF_RANGE));
    }
    // "then 5 to 9,"
    if !version_is_good(fields.version) {
        return Err(refuse(WRONG_VERSION));
    }
    if !type_is_defined(kind) {
        return Err(refuse(RESERVED_TYPE));
    }
    if !flags_are_good(flags) {
        return Err(refuse(WRONG_FLAGS));
    }
    if !channel_is_good(fields.channel, kind) {
        return Err(refuse(CHANNEL_ZERO));
    }
    let data_length = body.len() as u64;
    let filler = filler_length(flags, data_length);
    let length = length_without_filler(flags, data_length) + filler;
    if !lengths_are_good(kind, flags, length, data_length) {
        return Err(refuse(WRONG_LENGTH));
    }
    // "12"
    if has_secondary(flags) && !time_is_good(secondary_rule(flags), fields.time) {
        return Err(refuse(WRONG_SECONDARY));
    }
    // "and 15 by the reader's rules,"
    // Request 2: "Lister, recording reader, builder and writer pass it on."
    if let Err(fault) = read_body(kind, message_rule(flags), body) {
        return Err(Refusal {
            reason: fault.reason,
            ..refuse(WRONG_BODY)
        });
    }
    // "then 16", with the room for the whole packet.
    if length > out.len() as u64 {
        return Err(Refusal {
            room: length,
            ..refuse(NO_ROOM)
        });
    }

    // "Output behind the packet is untouched."
    let packet = &mut out[0..length as usize];
    write_header(packet, fields, length, data_length);
    let secondary_at = HEADER_LENGTH as usize;
    let body_at = secondary_at + secondary_length(flags) as usize;
    if has_secondary(flags) {
        write_secondary(&mut packet[secondary_at..body_at], fields.time);
    }
    let filler_at = body_at + body.len();
    let sum_at = filler_at + filler as usize;
    packet[body_at..filler_at].copy_from_slice(body);
    // "Filler bytes are zero."
    for at in filler_at..sum_at {
        packet[at] = 0;
    }
    // The data sum "fills the last 1, 2 or 4 bytes of the packet, low byte
    // first".
    let sum = data_sum(flags, &packet[body_at..sum_at]);
    put_number(packet, sum_at, sum_width(flags) as usize, sum);
    Ok(length)
}

/// The primary header, field by field, then its sum.
fn write_header(packet: &mut [u8], fields: &Fields, length: u64, data_length: u64) {
    packet[0..2].copy_from_slice(&SYNC);
    put_number(packet, 2, 2, fields.channel);
    put_number(packet, 4, 4, length);
    put_number(packet, 8, 4, data_length);
    put_number(packet, 12, 1, fields.version);
    put_number(packet, 13, 1, fields.sequence);
    put_number(packet, 14, 1, fields.flags);
    put_number(packet, 15, 1, fields.kind);
    put_number(packet, 16, 6, fields.rtc);
    let sum = sum_of_words(&packet[0..22]);
    put_number(packet, 22, 2, sum);
}

/// "Low long word of the time, high long word, 2 reserved bytes (zero), then a
/// 2-byte sum of the five 16-bit words before it".
fn write_secondary(secondary: &mut [u8], time: u64) {
    put_number(secondary, 0, 8, time);
    put_number(secondary, 8, 2, 0);
    let sum = sum_of_words(&secondary[0..10]);
    put_number(secondary, 10, 2, sum);
}
