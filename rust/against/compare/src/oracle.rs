//! The crate rosc, unchanged, as the judge: its packets, and its errors as document 01's numbers.

use crate::ask::Call;
use crate::met::{Rule, Seen};
use rosc::{decoder, OscError, OscPacket, OscType};

/// What a decoder of the crate gives: packets and the bytes left over, Waiting, or the number of a refusal (2 to 8).
pub enum Told {
    Packets(Vec<OscPacket>, usize),
    Waiting,
    Refused(u8),
}

/// The three decoders. What is seen in an error is noted.
pub fn decode(call: Call, msg: &[u8], seen: &mut Seen) -> Told {
    let told = match call {
        Call::Udp => decoder::decode_udp(msg).map(|(rest, packet)| Told::Packets(vec![packet], rest.len())),
        Call::Tcp => decoder::decode_tcp(msg).map(|(rest, packet)| match packet {
            Some(packet) => Told::Packets(vec![packet], rest.len()),
            None => Told::Waiting,
        }),
        _ => decoder::decode_tcp_vec(msg).map(|(rest, packets)| Told::Packets(packets, rest.len())),
    };
    told.unwrap_or_else(|error| {
        if let OscError::StringError(words) = &error {
            seen.note(utf8_rule(words.as_bytes(), words.utf8_error().valid_up_to()));
        }
        Told::Refused(number_of(&error))
    })
}

/// The class of an error, by document 01's numbers. `BadBundle` never leaves a bundle.
pub fn number_of(error: &OscError) -> u8 {
    match error {
        OscError::BadPacket("Empty packet.") => 2,
        OscError::ReadError(_) => 3,
        OscError::StringError(_) => 4,
        OscError::BadPacket(_) => 5,
        OscError::BadMessage(_) => 6,
        OscError::BadArg(words) if words.starts_with("Type tag") => 7,
        OscError::BadArg(_) => 8,
        other => panic!("an error of no class: {other}"),
    }
}

/// Which rule of RFC 3629 the bytes break at a place.
pub fn utf8_rule(bytes: &[u8], at: usize) -> Rule {
    let second = bytes.get(at + 1).copied().unwrap_or(0);
    match (bytes[at], second) {
        (0xED, 0xA0..=0xBF) => Rule::Utf8Surrogate,
        (0xC0 | 0xC1, _) | (0xE0, 0x80..=0x9F) | (0xF0, 0x80..=0x8F) => Rule::Utf8Overlong,
        (0xF4, 0x90..=0xBF) | (0xF5..=0xFF, _) => Rule::Utf8Over,
        (0x80..=0xBF, _) => Rule::Utf8Lone,
        _ => Rule::Utf8Cut,
    }
}

/// How deep packets are along any path: by bundles alone, by arrays alone, and by both together, of which refusal 9 speaks
/// (Ticket 4).
#[derive(Clone, Copy, Debug, Default, PartialEq, Eq)]
pub struct Depth {
    pub bundles: u64,
    pub arrays: u64,
    pub both: u64,
}

impl Depth {
    /// Of three, the one that says what is as deep as the whole: bundles alone, arrays alone, or only both together.
    pub fn told<T>(self, [bundles, arrays, together]: [T; 3]) -> T {
        match self {
            _ if self.bundles == self.both => bundles,
            _ if self.arrays == self.both => arrays,
            _ => together,
        }
    }
}

/// The depth of packets side by side. What the crate lost by an unclosed bracket is not in them, and so counts for nothing.
pub fn depth<'a>(packets: impl IntoIterator<Item = &'a OscPacket>) -> Depth {
    packets.into_iter().map(depth_of).fold(Depth::default(), |one, other| Depth {
        bundles: one.bundles.max(other.bundles),
        arrays: one.arrays.max(other.arrays),
        both: one.both.max(other.both),
    })
}

/// A bundle is one level more; a message adds none, and hands on what is in it.
fn depth_of(packet: &OscPacket) -> Depth {
    match packet {
        OscPacket::Message(message) => {
            let arrays = nesting(&message.args);
            Depth { bundles: 0, arrays, both: arrays }
        }
        OscPacket::Bundle(bundle) => {
            let inside = depth(&bundle.content);
            Depth { bundles: inside.bundles + 1, arrays: inside.arrays, both: inside.both + 1 }
        }
    }
}

/// How deep arrays are nested among values: an array is one level more than what it contains.
fn nesting(values: &[OscType]) -> u64 {
    let deep = |value: &OscType| match value {
        OscType::Array(array) => 1 + nesting(&array.content),
        _ => 0,
    };
    values.iter().map(deep).max().unwrap_or(0)
}

#[cfg(test)]
mod tests {
    use super::*;

    /// The depth of a UDP packet, by bundles alone, by arrays alone and by both.
    fn deep(msg: &[u8]) -> (u64, u64, u64) {
        let Told::Packets(packets, _) = decode(Call::Udp, msg, &mut Seen::default()) else {
            panic!("{msg:02X?} is refused")
        };
        let Depth { bundles, arrays, both } = depth(&packets);
        (bundles, arrays, both)
    }

    #[test]
    fn bundles_and_arrays_count_together() {
        assert_eq!(deep(b"/a\0\0,T\0\0"), (0, 0, 0));
        assert_eq!(deep(b"/a\0\0,T[[]]\0\0"), (0, 2, 2));
        assert_eq!(deep(b"/a\0\0,[[T]][T]\0\0\0"), (0, 2, 2));
        assert_eq!(deep(b"#bundle\0\0\0\0\0\0\0\0\x01"), (1, 0, 1));
        assert_eq!(deep(b"#bundle\0\0\0\0\0\0\0\0\x01\0\0\0\x0C/a\0\0,[[]]\0\0\0"), (1, 2, 3));
        // The arrays stand in the first message, and the second bundle beside it.
        let apart = b"#bundle\0\0\0\0\0\0\0\0\x01\0\0\0\x08/a\0\0,[]\0\0\0\0\x10#bundle\0\0\0\0\0\0\0\0\x01";
        assert_eq!(deep(apart), (2, 1, 2));
    }

    #[test]
    fn what_is_lost_does_not_count() {
        // Document 01's P6, and an array in one that is not closed.
        assert_eq!(deep(b"/a\0\0,i[i\0\0\0\0\0\0\0\x01\0\0\0\x02"), (0, 0, 0));
        assert_eq!(deep(b"/a\0\0,[[T]\0\0\0"), (0, 1, 1));
        assert_eq!(deep(b"/a\0\0,[[[]]][T\0\0\0"), (0, 0, 0));
    }
}
