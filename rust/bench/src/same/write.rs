//! The writer.
use super::body::{is_opened, walk_body};
use super::frame::{data_sum, SYNC};
use super::rules::{body_at, check_values, has_secondary, length_for, sum_width, TimeRule, Values};
use super::units::{header_sum, put};
use super::{refuse, Fields, Refusal};
use ch11::raw;

/// Writes the packet of these fields, given as the library takes them, and this body at the output's first byte and gives its length.
/// 17, then 5 to 9, 12 and 15 by the reader's rules, then 16.
#[inline(never)]
pub fn write_packet(given: &raw::Fields, body: &[u8], out: &mut [u8]) -> Result<usize, Refusal> {
    let refuse = |number| refuse(number, 0, 0);
    let fields = in_range(given).ok_or_else(|| refuse(17))?;
    let length = check_fields(&fields, body.len() as u64).map_err(refuse)?;
    if is_opened(fields.kind) {
        let walked = walk_body(body, fields.kind, fields.flags);
        if walked.reason != 0 {
            return Err(Refusal {
                reason: walked.reason,
                ..refuse(15)
            });
        }
    }
    let packet = out.get_mut(..length).ok_or(Refusal {
        room: length,
        ..refuse(16)
    })?;
    put_packet(packet, &fields, body);
    Ok(length)
}

/// The fields, if each number is in its range.
fn in_range(given: &raw::Fields) -> Option<Fields> {
    let fields = Fields {
        channel: given.channel.try_into().ok()?,
        version: given.version.try_into().ok()?,
        sequence: given.sequence.try_into().ok()?,
        flags: given.flags.try_into().ok()?,
        kind: given.kind.try_into().ok()?,
        rtc: given.rtc,
        time: given.time,
    };
    let time_has_place = has_secondary(fields.flags) || fields.time == 0;
    Some(fields).filter(|fields| fields.rtc < 1 << 48 && time_has_place)
}

/// The packet's length, or the first of 5 to 9 and 12 that applies.
fn check_fields(fields: &Fields, data_length: u64) -> Result<usize, u8> {
    let length = length_for(fields.flags, data_length);
    check_values(&Values {
        channel: fields.channel,
        version: fields.version,
        flags: fields.flags,
        kind: fields.kind,
        length,
        data_length,
    })?;
    if !TimeRule::absolute(fields.flags).admits(fields.time) {
        return Err(12);
    }
    Ok(length as usize)
}

/// Fills the output, which is as long as the packet.
fn put_packet(packet: &mut [u8], fields: &Fields, body: &[u8]) {
    let length = packet.len();
    let (headers, data) = packet.split_at_mut(body_at(fields.flags));
    put_header(headers, fields, length as u32, body.len() as u32);
    if has_secondary(fields.flags) {
        put_secondary(&mut headers[24..], fields.time);
    }
    put_data(data, fields.flags, body);
}

fn put_header(head: &mut [u8], fields: &Fields, length: u32, data_length: u32) {
    put(head, 0, &SYNC);
    put(head, 2, &fields.channel.to_le_bytes());
    put(head, 4, &length.to_le_bytes());
    put(head, 8, &data_length.to_le_bytes());
    let bytes = [fields.version, fields.sequence, fields.flags, fields.kind];
    put(head, 12, &bytes);
    put(head, 16, &fields.rtc.to_le_bytes()[..6]);
    let sum = header_sum(&head[..22]);
    put(head, 22, &sum.to_le_bytes());
}

fn put_secondary(secondary: &mut [u8], time: u64) {
    put(secondary, 0, &time.to_le_bytes());
    put(secondary, 8, &[0, 0]);
    let sum = header_sum(&secondary[..10]);
    put(secondary, 10, &sum.to_le_bytes());
}

/// Writes body, filler and data sum.
fn put_data(data: &mut [u8], flags: u8, body: &[u8]) {
    let width = sum_width(flags);
    let (summed, stored) = data.split_at_mut(data.len() - width);
    let (body_room, filler) = summed.split_at_mut(body.len());
    body_room.copy_from_slice(body);
    filler.fill(0);
    let sum = data_sum(summed, flags);
    for (byte, stored) in sum.to_le_bytes().into_iter().zip(stored) {
        *stored = byte;
    }
}
