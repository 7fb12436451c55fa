//! Streams of edition 1 that are longer than the library takes at once. `rosc_compat` reads them packet by packet: what it gives is what the
//! crate gives, up to a packet that is over a limit.

use super::{class, ours, to_rosc, Outcome};
use crate::ask::Call;
use crate::judge::{DEEPEST, LONGEST};
use crate::oracle;
use rosc::decoder::{decode_tcp, decode_udp};
use rosc::{OscError, OscPacket};

/// The limit that may stand in the way of the packet at the front, if one may: 9 where the crate's is too deep, and 1 where it is not read
/// from the first 65,535 bytes after its length, or is a bundle that the crate reads otherwise from these.
fn limit(msg: &[u8]) -> Option<u8> {
    let window = &msg[4..msg.len().min(4 + LONGEST)];
    let packet = match decode_udp(window) {
        Err(OscError::ReadError(_)) if window.len() < msg.len() - 4 => return Some(1),
        Err(_) => return None,
        Ok((rest, packet))
            if matches!(packet, OscPacket::Bundle(_)) && goes_on(msg, window.len() - rest.len(), rest.len()) =>
        {
            // Both may be said of a bundle that is too deep as far as it was read.
            return Some(if oracle::depth([&packet]).both > DEEPEST { 9 } else { 1 });
        }
        Ok((_, packet)) => packet,
    };
    (oracle::depth([&packet]).both > DEEPEST).then_some(9)
}

/// Whether an element stands after the bytes that a bundle took, all of it in the input, but not in those that were read.
fn goes_on(msg: &[u8], taken: usize, unread: usize) -> bool {
    let left = &msg[4 + taken..];
    left.len() >= 4 && {
        let end = 4 + u32::from_be_bytes([left[0], left[1], left[2], left[3]]) as usize;
        unread < end && end <= left.len()
    }
}

/// What is due: the packets before the first that is over a limit, and how many bytes they leave; or why there are none.
enum Due {
    Packets(Vec<OscPacket>, usize),
    Refused(u8),
    Limit(u8),
}

fn due(call: Call, msg: &[u8]) -> Due {
    let (mut input, mut packets) = (msg, Vec::new());
    loop {
        // A length that is more than what is there waits, whatever stands after it.
        let (rest, packet) = match decode_tcp(input) {
            Ok((_, None)) => return Due::Packets(packets, input.len()),
            other => match limit_of(input) {
                Some(_) if !packets.is_empty() => return Due::Packets(packets, input.len()),
                Some(limit) => return Due::Limit(limit),
                None => match other {
                    Err(error) => return Due::Refused(oracle::number_of(&error)),
                    Ok((rest, packet)) => (rest, packet),
                },
            },
        };
        packets.extend(packet);
        input = rest;
        if call == Call::Tcp || rest.is_empty() {
            return Due::Packets(packets, rest.len());
        }
    }
}

fn limit_of(input: &[u8]) -> Option<u8> {
    (input.len() >= 4).then(|| limit(input)).flatten()
}

/// Compares a stream that is longer than the library takes at once.
pub fn stream(call: Call, msg: &[u8]) -> Result<Outcome, String> {
    match (due(call, msg), ours(call, msg)) {
        (Due::Packets(packets, left), Ok((our_rest, our_packets))) => {
            let our_packets = our_packets.unwrap_or_default();
            let same = packets.len() == our_packets.len()
                && packets.iter().zip(&our_packets).all(|(one, our)| super::same_packets(one, &to_rosc::packet(our)));
            let same = same && std::ptr::eq(our_rest, &msg[msg.len() - left..]);
            let words =
                || format!("compat: {} packets and {} bytes left of a long stream", our_packets.len(), our_rest.len());
            same.then_some(Outcome::Same).ok_or_else(|| format!("{} in place of {} and {left}", words(), packets.len()))
        }
        (Due::Refused(number), Err(error)) if class(&error) == Ok(number) => Ok(Outcome::Refused(number)),
        (Due::Limit(limit), Err(error)) if class(&error) == Err(limit) => Ok(Outcome::Limit(limit)),
        (Due::Packets(packets, left), Err(error)) => {
            Err(format!("compat: {error} for {} packets, {left} left", packets.len()))
        }
        (Due::Refused(number) | Due::Limit(number), other) => {
            Err(format!("compat: {:?} for refusal {number}", other.map(|(rest, _)| rest.len())))
        }
    }
}

#[cfg(test)]
mod tests {
    use super::*;
    use crate::random::Random;
    use rosc::{OscBundle, OscMessage, OscTime, OscType};

    fn message(i: usize) -> OscPacket {
        let args = vec![OscType::Int(i as i32), OscType::String("a".repeat(i % 9)), OscType::Blob(vec![7; i % 5])];
        OscPacket::Message(OscMessage { addr: "/cue/go".to_string(), args })
    }

    fn frame(packet: &OscPacket) -> Vec<u8> {
        let bytes = rosc::encoder::encode(packet).unwrap();
        [&(bytes.len() as u32).to_be_bytes(), &bytes[..]].concat()
    }

    fn bundle(content: Vec<OscPacket>) -> OscPacket {
        OscPacket::Bundle(OscBundle { timetag: OscTime { seconds: 0, fractional: 1 }, content })
    }

    fn same(stream: &[u8]) -> u8 {
        let of =
            |call| super::stream(call, stream).unwrap_or_else(|words| panic!("{} bytes: {words}", stream.len())).number();
        of(Call::Tcp);
        of(Call::TcpVec)
    }

    #[test]
    fn twenty_thousand_messages_cut_anywhere() {
        let stream: Vec<u8> = (0..20_000).flat_map(|i| frame(&message(i))).collect();
        assert!(stream.len() > 600_000);
        assert_eq!(same(&stream), 0);
        for cut in (LONGEST + 1..LONGEST + 50).chain(stream.len() - 50..stream.len()) {
            same(&stream[..cut]);
        }
        let mut r = Random::new(32, 0);
        for _ in 0..20 {
            same(&stream[..LONGEST + 1 + r.below(stream.len() - LONGEST - 1)]);
        }
    }

    #[test]
    fn bundles_long_messages_and_refused_frames() {
        let many: Vec<u8> = (0..2_200).flat_map(|i| frame(&message(i))).collect();
        let long = |n: usize| {
            let args = vec![OscType::Blob(vec![7; n])];
            frame(&OscPacket::Message(OscMessage { addr: "/a".to_string(), args }))
        };
        let deep = (0..64).fold(bundle(vec![]), |inner, _| bundle(vec![inner]));
        let fronts: Vec<Vec<u8>> = vec![
            frame(&bundle(vec![])),
            frame(&bundle(vec![message(1), bundle(vec![message(2)])])),
            [&frame(&bundle(vec![message(1)]))[..], &[0; 4]].concat(),
            [&frame(&bundle(vec![message(1)]))[..], b"\x10\0\0\0"].concat(),
            [&frame(&bundle(vec![message(1)]))[..], &[0, 1, 0, 0]].concat(),
            [&frame(&bundle(vec![message(1)]))[..], &[0, 0, 0xFF, 0]].concat(),
            [&frame(&bundle(vec![]))[..], b"\0\0\0\x04/abc"].concat(),
            frame(&deep),
            [&frame(&deep)[..], &[0; 4]].concat(),
            [&frame(&bundle(vec![deep.clone()]))[..], &[0; 4]].concat(),
            b"\0\0\0\x08/a\0\0,x\0\0".to_vec(),
            b"\0\0\0\0".to_vec(),
            b"\0\x01\0\x01/a\0\0,\0\0\0".to_vec(),
            b"\xFF\0\0\0".to_vec(),
            b"\0\0\0\x08/a\0\0,[i]".to_vec(),
            long(65_520),
            long(65_523),
            long(65_524),
            long(70_000),
        ];
        let mut numbers = Vec::new();
        for front in &fronts {
            for stream in [[&front[..], &many].concat(), [&many[..], front].concat(), [&many[..], front, &many].concat()] {
                numbers.push(same(&stream));
                for cut in [1, 3, 4, 5, 20] {
                    same(&stream[..stream.len() - cut]);
                }
            }
        }
        numbers.sort_unstable();
        numbers.dedup();
        assert_eq!(numbers, [0, 1, 2, 3, 5, 7, 8, 9]);
    }
}
