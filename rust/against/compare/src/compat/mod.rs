//! `rosc_compat` against rosc, function by function: equal values and errors of the same class within document 01's limits,
//! and outside of them the error that says so.

mod convert;
mod helpers;
mod long;
mod same;

use crate::ask::{Asked, Call};
use crate::judge::{DEEPEST, LONGEST};
use crate::table::Reader;
use crate::{inputs, oracle, rules};
use convert::{to_compat, to_rosc};
use rosc::OscPacket;
use same::same_packets;
use sennorbai::rosc_compat as compat;
use std::io::Cursor;

/// What was the same: values or bytes, a refusal of the crate by its number, or a limit that the crate lacks.
#[derive(Clone, Copy, Debug, PartialEq, Eq)]
pub enum Outcome {
    Same,
    Refused(u8),
    Limit(u8),
}

impl Outcome {
    /// The number of the refusal or limit, 0 where there is none.
    pub fn number(self) -> u8 {
        match self {
            Outcome::Same => 0,
            Outcome::Refused(number) | Outcome::Limit(number) => number,
        }
    }
}

/// Compares the function that a case is for, if there is one that takes it; the words say what differs.
pub fn compare(asked: &Asked) -> Result<Option<Outcome>, String> {
    match asked.call {
        Call::Udp | Call::Tcp | Call::TcpVec => decode(asked.call, &asked.first).map(Some),
        Call::Encode | Call::EncodeTcp if rules::well_formed(&asked.first, asked.number, &asked.second).is_ok() => {
            encode(asked).map(Some)
        }
        Call::EncodeString => std::str::from_utf8(&asked.first).ok().map(encode_string).transpose(),
        // Past the last multiple of 4 both overflow.
        Call::Pad if asked.number <= u64::MAX - 3 => pad(asked.number).map(Some),
        _ => Ok(None),
    }
}

/// The class of an error, by document 01's numbers; limits are told apart by `Err`.
fn class(error: &compat::OscError) -> Result<u8, u8> {
    match error {
        compat::OscError::BadPacket("Empty packet.") => Ok(2),
        compat::OscError::ReadError(_) => Ok(3),
        compat::OscError::StringError(_) => Ok(4),
        compat::OscError::BadPacket(_) => Ok(5),
        compat::OscError::BadMessage(_) => Ok(6),
        compat::OscError::BadArg(words) if words.starts_with("Type tag") => Ok(7),
        compat::OscError::BadArg(_) => Ok(8),
        compat::OscError::Limit(refusal) => Err(refusal.number()),
        _ => Ok(0),
    }
}

/// What a decoder gives, in one shape for all three: the packets, none where it waits, and the bytes left over.
type Read<'a, P, E> = Result<(&'a [u8], Option<Vec<P>>), E>;

fn theirs(call: Call, msg: &[u8]) -> Read<'_, OscPacket, rosc::OscError> {
    match call {
        Call::Udp => rosc::decoder::decode_udp(msg).map(|(rest, packet)| (rest, Some(vec![packet]))),
        Call::Tcp => rosc::decoder::decode_tcp(msg).map(|(rest, packet)| (rest, packet.map(|one| vec![one]))),
        _ => rosc::decoder::decode_tcp_vec(msg).map(|(rest, packets)| (rest, Some(packets))),
    }
}

fn ours(call: Call, msg: &[u8]) -> Read<'_, compat::OscPacket, compat::OscError> {
    match call {
        Call::Udp => compat::decoder::decode_udp(msg).map(|(rest, packet)| (rest, Some(vec![packet]))),
        Call::Tcp => compat::decoder::decode_tcp(msg).map(|(rest, packet)| (rest, packet.map(|one| vec![one]))),
        _ => compat::decoder::decode_tcp_vec(msg).map(|(rest, packets)| (rest, Some(packets))),
    }
}

/// The limit that stands in the way of a decoder, if there is one.
fn decode_limit(msg: &[u8], packets: &[OscPacket]) -> Option<u8> {
    if msg.len() > LONGEST {
        return Some(1);
    }
    (oracle::depth(packets).both > DEEPEST).then_some(9)
}

fn decode(call: Call, msg: &[u8]) -> Result<Outcome, String> {
    if msg.len() > LONGEST && call != Call::Udp {
        return long::stream(call, msg);
    }
    let (theirs, ours) = (theirs(call, msg), ours(call, msg));
    let packets = theirs.as_ref().ok().and_then(|(_, packets)| packets.as_deref()).unwrap_or(&[]);
    if let Some(limit) = decode_limit(msg, packets) {
        return limited(limit, ours.map(|_| ()));
    }
    match (theirs, ours) {
        (Err(error), Err(our_error)) => {
            let number = oracle::number_of(&error);
            let same = class(&our_error) == Ok(number);
            same.then_some(Outcome::Refused(number)).ok_or(format!("compat: {our_error} for {error}"))
        }
        (Ok((rest, packets)), Ok((our_rest, our_packets))) => {
            let our_packets: Option<Vec<_>> = our_packets.map(|all| all.iter().map(to_rosc::packet).collect());
            let same = match (&packets, &our_packets) {
                (None, None) => true,
                (Some(all), Some(ours)) => {
                    all.len() == ours.len() && all.iter().zip(ours).all(|(one, our)| same_packets(one, our))
                }
                _ => false,
            };
            let same = same && std::ptr::eq(rest, our_rest);
            same.then_some(Outcome::Same).ok_or(format!("compat: {our_packets:?} and {} bytes left", our_rest.len()))
        }
        (theirs, ours) => Err(format!("compat: rosc reads it: {}, compat: {}", theirs.is_ok(), ours.is_ok())),
    }
}

/// A limit must be told as such.
fn limited(limit: u8, ours: Result<(), compat::OscError>) -> Result<Outcome, String> {
    match ours {
        Err(error) if class(&error) == Err(limit) => Ok(Outcome::Limit(limit)),
        other => Err(format!("compat: limit {limit}, and it gives {other:?}")),
    }
}

fn encode(asked: &Asked) -> Result<Outcome, String> {
    let packet = Reader { table: &asked.first, source: &asked.second }.packet(0);
    let our_packet = to_compat::packet(&packet);
    let tcp = asked.call == Call::EncodeTcp;
    let bytes = if tcp { rosc::encoder::encode_tcp(&packet) } else { rosc::encoder::encode(&packet) };
    let bytes = bytes.expect("the crate encodes every packet");
    let ours = if tcp { compat::encoder::encode_tcp(&our_packet) } else { compat::encoder::encode(&our_packet) };
    // Outputs have no place for a limit: they get the crate's bytes in any case, also of a packet in so many bundles that the
    // library refuses it.
    encode_into(&our_packet, tcp, &bytes)?;
    let deep = inputs::in_bundles(packet.clone(), DEEPEST as usize + 1);
    let deep_bytes = rosc::encoder::encode(&deep).expect("the crate encodes every packet");
    encode_into(&to_compat::packet(&deep), tcp, &deep_bytes)?;
    if oracle::depth([&packet]).both > DEEPEST {
        return limited(9, ours.map(|_| ()));
    }
    if bytes.len() > LONGEST {
        return limited(1, ours.map(|_| ()));
    }
    if !ours.is_ok_and(|ours| ours == bytes) {
        return Err("compat: other bytes".to_string());
    }
    match helpers::differs(&packet) {
        Some(name) => Err(format!("compat: {name}")),
        None => Ok(Outcome::Same),
    }
}

/// Both outputs: bytes that are there already stay, and the count is that of the bytes written.
fn encode_into(packet: &compat::OscPacket, tcp: bool, bytes: &[u8]) -> Result<(), String> {
    let mut list = b"abc".to_vec();
    let mut file = compat::encoder::WriteOutput(Cursor::new(Vec::new()));
    let (written, filed) = if tcp {
        (compat::encoder::encode_into_tcp(packet, &mut list).ok(), compat::encoder::encode_into_tcp(packet, &mut file).ok())
    } else {
        (compat::encoder::encode_into(packet, &mut list).ok(), compat::encoder::encode_into(packet, &mut file).ok())
    };
    let same = written == Some(bytes.len()) && filed == written && list[..3] == *b"abc" && list[3..] == *bytes;
    (same && file.0.get_ref() == bytes).then_some(()).ok_or("compat: encode_into".to_string())
}

fn encode_string(text: &str) -> Result<Outcome, String> {
    let due = rosc::encoder::encode_string(text);
    let mut list = b"abc".to_vec();
    let written = compat::encoder::encode_string_into(text, &mut list);
    let same = compat::encoder::encode_string(text) == due && list[3..] == *due && written == Ok(due.len());
    same.then_some(Outcome::Same).ok_or("compat: encode_string".to_string())
}

fn pad(position: u64) -> Result<Outcome, String> {
    let same = compat::encoder::pad(position) == rosc::encoder::pad(position);
    same.then_some(Outcome::Same).ok_or("compat: pad".to_string())
}

#[cfg(test)]
mod tests {
    use crate::table::Reader;

    /// The rows of docs/DIFFERENCES.md on writing: the crate writes the same, as rust/sennorbai/tests/differences.rs sees it of the port.
    #[test]
    fn the_crate_writes_what_the_document_says() {
        let bytes = |cell: &str| -> Vec<u8> {
            let digits: Vec<u32> = cell.chars().filter_map(|digit| digit.to_digit(16)).collect();
            digits.chunks(2).map(|pair| (16 * pair[0] + pair[1]) as u8).collect()
        };
        let document = include_str!("../../../../../docs/DIFFERENCES.md");
        let (_, part) = document.split_once("\n## Written though OSC 1.0 forbids it, both\n").expect("the part on writing");
        let (part, _) = part.split_once("\n## ").expect("the part after it");
        let rows = part.lines().filter(|line| line.starts_with("| ")).skip(1);
        let mut many = 0;
        for row in rows.map(|line| line.split('|').collect::<Vec<_>>()) {
            let [table, source, due] = [row[3], row[4], row[5]].map(bytes);
            let packet = Reader { table: &table, source: &source }.packet(0);
            assert_eq!(rosc::encoder::encode(&packet).unwrap(), due, "{row:?}");
            many += 1;
        }
        assert_eq!(many, 10);
    }
}
