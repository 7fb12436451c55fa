// Signatures and their documentation are from rosc 0.11.4, copyright (c) 2016 Andreas Linz, under MIT or Apache-2.0: see
// NOTICE.
//! Provides a decoding method for OSC packets.

use super::scratch::{first, lend};
use super::{OscArray, OscBundle, OscColor, OscError, OscMessage, OscMidiMessage, OscPacket, OscTime, OscType};
use crate::{Decoded, Edition, Field, Record, Refusal, Time, Value, DEEPEST, LONGEST, RECORD};
use std::mem;

/// Common MTU size for ethernet
pub const MTU: usize = 1536;

/// Takes a bytes slice representing a UDP packet and returns the OSC packet as well as a slice of
/// any bytes remaining after the OSC packet.
pub fn decode_udp(msg: &[u8]) -> Result<(&[u8], OscPacket), OscError> {
    lend(|buffers| {
        let read = crate::decode_udp(msg, first(&mut buffers.table, room(msg)), DEEPEST)?;
        Ok((last(msg, read.left()), packet(read.root())))
    })
}

/// Takes a bytes slice from a TCP stream (or any stream-based protocol) and returns the first OSC
/// packet as well as a slice of the bytes remaining after the packet.
///
/// # Difference to `decode_udp`
///
/// For stream-based protocols, such as TCP, the [OSC specification][^1] requires the size of
/// the first packet to be send as a 32-bit integer before the actual packet data.
///
/// [^1]: _In a stream-based protocol such as TCP, the stream should begin with an int32 giving the size of the first packet, followed by the contents of the first packet, followed by the size of the second packet, etc._
///
/// [OSC specification]: https://cnmat.org/OpenSoundControl/OSC-spec.html
///
/// The slice may be longer than the library takes at once; the packet may not.
pub fn decode_tcp(msg: &[u8]) -> Result<(&[u8], Option<OscPacket>), OscError> {
    if msg.len() > LONGEST {
        return front(msg);
    }
    lend(|buffers| match crate::decode_tcp(Edition::Rosc, msg, first(&mut buffers.table, room(msg)), DEEPEST)? {
        Decoded::Packet(read) => Ok((last(msg, read.left()), Some(packet(read.root())))),
        Decoded::Waiting => Ok((msg, None)),
    })
}

/// Takes a bytes slice from a TCP stream (or any stream-based protocol) and returns a vec of all
/// OSC packets in the slice as well as a slice of the bytes remaining after the last packet.
///
/// The slice may be longer than the library takes at once. Where a packet is over the limits and others stand before it, these are
/// returned, and it is the first of the remaining bytes; the next call says which limit it is.
pub fn decode_tcp_vec(msg: &[u8]) -> Result<(&[u8], Vec<OscPacket>), OscError> {
    if msg.len() <= LONGEST {
        return list(msg);
    }
    let (mut input, mut packets) = (msg, Vec::new());
    loop {
        match front(input) {
            Ok((rest, Some(packet))) => {
                packets.push(packet);
                input = rest;
                if rest.is_empty() {
                    return Ok((rest, packets));
                }
            }
            Ok((rest, None)) => return Ok((rest, packets)),
            Err(OscError::Limit(_)) if !packets.is_empty() => return Ok((input, packets)),
            Err(error) => return Err(error),
        }
    }
}

/// The packets of a stream that the library takes at once.
fn list(msg: &[u8]) -> Result<(&[u8], Vec<OscPacket>), OscError> {
    lend(|buffers| {
        let read = crate::decode_tcp_vec(Edition::Rosc, msg, first(&mut buffers.table, room(msg)), DEEPEST)?.packets();
        Ok((last(msg, read.left()), read.roots().map(packet).collect()))
    })
}

/// The first packet of a stream of any length, from the bytes after its length: as many as the library takes at once.
///
/// By `more-bytes-udp` of the library's theorems a message in them is the message of the whole stream, and by `faults-stay-udp` a refusal
/// of its bytes is that of the whole stream. A field that is short in them is over the limit, and so may a bundle be.
fn front(msg: &[u8]) -> Result<(&[u8], Option<OscPacket>), OscError> {
    let Some((length, packets)) = msg.split_first_chunk() else {
        return Err(Refusal::Short { field: Field::Head, at: 0 }.into());
    };
    if u32::from_be_bytes(*length) as usize > msg.len() {
        return Ok((msg, None));
    }
    let window = &packets[..packets.len().min(LONGEST)];
    lend(|buffers| {
        let read = match crate::decode_udp(window, first(&mut buffers.table, room(window)), DEEPEST) {
            Err(Refusal::Short { .. }) if window.len() < packets.len() => return Err(Refusal::TooLong.into()),
            other => other?,
        };
        let rest = &packets[window.len() - read.left()..];
        if matches!(read.root().value(), Value::Bundle(_)) && goes_on(rest, read.left()) {
            return Err(Refusal::TooLong.into());
        }
        Ok((rest, Some(packet(read.root()))))
    })
}

/// Whether a bundle may go on past the bytes that it was read from: what is left begins with an element that is all there, but not in the
/// first `seen` bytes. An element that was seen and not taken has ended the bundle, and so has one that is not all there.
fn goes_on(left: &[u8], seen: usize) -> bool {
    let Some(size) = left.first_chunk() else {
        return false;
    };
    let end = u32::from_be_bytes(*size) as usize + size.len();
    seen < end && end <= left.len()
}

/// The bytes of a table that has room for what an input decodes to: n bytes never need more than n records. An input over the
/// limit is refused before a record is written.
fn room(msg: &[u8]) -> usize {
    RECORD * msg.len().min(LONGEST)
}

/// The last `left` bytes.
fn last(msg: &[u8], left: usize) -> &[u8] {
    &msg[msg.len() - left..]
}

/// A message or bundle as rosc has it. What was decoded is at most 64 deep, so this calls itself.
fn packet(root: Record<'_>) -> OscPacket {
    match root.value() {
        Value::Bundle(tag) => {
            OscPacket::Bundle(OscBundle { timetag: time(tag), content: root.inside().map(packet).collect() })
        }
        Value::Message(addr) => OscPacket::Message(OscMessage { addr: addr.to_string(), args: arguments(root) }),
        other => unreachable!("a packet is a message or a bundle, not {other:?}"),
    }
}

/// The arguments of a message. Arrays that are open stand on a stack, as in rosc.
fn arguments(message: Record<'_>) -> Vec<OscType> {
    let inside = message.below();
    let mut args = Vec::with_capacity(inside.len());
    let mut end = message.end();
    let mut open: Vec<(Vec<OscType>, usize)> = Vec::new();
    for record in inside {
        while record.index() == end {
            close(&mut args, &mut end, &mut open);
        }
        match argument(record.value()) {
            Some(argument) => args.push(argument),
            None => open.push((mem::take(&mut args), mem::replace(&mut end, record.end()))),
        }
    }
    while !open.is_empty() {
        close(&mut args, &mut end, &mut open);
    }
    args
}

/// Puts what was read into an array, the last value of what was open around it.
fn close(args: &mut Vec<OscType>, end: &mut usize, open: &mut Vec<(Vec<OscType>, usize)>) {
    if let Some((outer, outer_end)) = open.pop() {
        let content = mem::replace(args, outer);
        args.push(OscType::Array(OscArray { content }));
        *end = outer_end;
    }
}

/// An argument as rosc has it, or none for an array, whose values follow.
fn argument(value: Value<'_>) -> Option<OscType> {
    Some(match value {
        Value::Int(x) => OscType::Int(x),
        Value::Float(x) => OscType::Float(x),
        Value::Text(x) => OscType::String(x.to_string()),
        Value::Blob(x) => OscType::Blob(x.to_vec()),
        Value::Time(x) => OscType::Time(time(x)),
        Value::Long(x) => OscType::Long(x),
        Value::Double(x) => OscType::Double(x),
        Value::Char(x) => OscType::Char(x),
        Value::Color(x) => OscType::Color(OscColor { red: x.red, green: x.green, blue: x.blue, alpha: x.alpha }),
        Value::Midi(x) => OscType::Midi(OscMidiMessage { port: x.port, status: x.status, data1: x.data1, data2: x.data2 }),
        Value::Bool(x) => OscType::Bool(x),
        Value::Nil => OscType::Nil,
        Value::Inf => OscType::Inf,
        Value::Array => return None,
        other => unreachable!("an argument is no packet, and this is {other:?}"),
    })
}

fn time(tag: Time) -> OscTime {
    OscTime { seconds: tag.seconds, fractional: tag.fractional }
}
