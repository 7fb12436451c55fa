//! Short inputs, exhaustively: every sequence of each length over a telling alphabet, one length after another.

use crate::ask::{Asked, Call, DECODERS, STANDARD};
use crate::judge::DEEPEST;
use crate::met::CALLS;
use crate::table::RECORD;

/// Families of short inputs, each with an alphabet of its own.
#[derive(Clone, Copy, PartialEq)]
enum Family {
    /// Bytes, as the whole input of each decoder.
    Bytes,
    /// Groups of bytes, mostly of 4, as the whole input of each decoder.
    Groups,
    /// Type texts of a message, for each decoder, with padding and data in which not all bytes are zero.
    Types,
    /// Brackets and a tag without data as the type text of a message, alone and in a bundle, for each decoder at low depth limits.
    Brackets,
    /// Bytes around RFC 3629's borders, as the text of `encode_string`.
    Texts,
    /// Records, as the whole table of each encoder.
    Tables,
    /// Any kind byte with one bit of the zero bytes, fields or start set or none, as the one record for `look` and for `start`.
    Records,
    /// Positions for `pad`: low ones, and the very last.
    Positions,
    /// Frames of edition 2, good and bad, the last of which is cut at every place, at two depth limits and with ample room or little.
    /// A stream that is cut in an earlier frame is a shorter one.
    Cuts,
}

const BYTES: &[&[u8]] = &[b"\0", b"\x04", b"\x05", b"\x06", b"/", b"#", b",", b"\xC3", b"\xA9", b"\xFF"];

const GROUPS: &[&[u8]] = &[
    b"/\0\0\0",
    b"/\xFF\0\0",
    b"#bundle\0",
    b"#bundle\0\0\0\0\0\0\0\0\x01",
    b",\0\0\0",
    b",i\0\0",
    b",sb\0",
    b",[i\0",
    b",]\0\0",
    b",c\0\0",
    b"\0\0\0\0",
    b"\0\0\0\x04",
    b"\0\0\0\x08",
    b"\0\0\0\x10",
    b"\0\0\xD8\0",
];

const TYPES: &[&[u8]] = &[b",", b"[", b"]", b"i", b"T", b"s", "é".as_bytes(), b"x"];

const BRACKETS: &[&[u8]] = &[b"[", b"]", b"T"];

/// How many depth limits the brackets are read at, from 0 on, each with the message alone and in a bundle.
const LIMITS: u64 = 4;

const TEXTS: &[&[u8]] = &[
    b"\0", b"a", b"\x7F", b"\x80", b"\x8F", b"\x90", b"\x9F", b"\xA0", b"\xBF", b"\xC0", b"\xC1", b"\xC2", b"\xDF", b"\xE0",
    b"\xE1", b"\xEC", b"\xED", b"\xEE", b"\xEF", b"\xF0", b"\xF1", b"\xF3", b"\xF4", b"\xF5", b"\xFF",
];

/// The kinds of the records of a table, each with any end from 0 on.
const CONTAINED: &[u8] = b"/#[sT";
const ENDS: u64 = 6;

/// The low positions, and how many of the last.
const LOW: u64 = 70_000;
const LAST: u64 = 16;

/// Frames of edition 2. The first six are good, at limit 0 three of them too deep; the others are refused by 1, 2, 16, 15, 15, 7, 17, 18,
/// 19, 21, 4 and 5.
const FRAMES: &[&[u8]] = &[
    b"\0\0\0\x08/a\0\0,\0\0\0",
    b"\0\0\0\x08/a\0\x01,\0\0\x02",
    b"\0\0\0\x0C/a\0\0,i\0\0\0\0\0\x07",
    b"\0\0\0\x0C/a\0\0,[T]\0\0\0\0",
    b"\0\0\0\x10#bundle\0\0\0\0\0\0\0\0\x01",
    b"\0\0\0\x1C#bundle\0\0\0\0\0\0\0\0\x01\0\0\0\x08/b\0\0,T\0\0",
    b"\0\0\xFF\xFC",
    b"\0\0\0\0",
    b"\0\0\0\x09/a\0\0,\0\0\0X",
    b"\0\0\0\x0C/a\0\0,\0\0\0XXXX",
    b"\0\0\0\x14#bundle\0\0\0\0\0\0\0\0\x01\0\0\0\0",
    b"\0\0\0\x08/a\0\x01,x\0\0",
    b"\0\0\0\x04/abc",
    b"\0\0\0\x04/ab\0",
    b"\0\0\0\x08/a\0\0,i\0\0",
    b"\0\0\0\x08#bundle\0",
    b"\0\0\0\x04/\xFF\0\0",
    b"\0\0\0\x04a\0\0\0",
];

/// The depth limits of the cut streams, and how many records there is room for, where 0 is ample.
const CUT_LIMITS: [(u64, usize); 6] = [(DEEPEST, 0), (DEEPEST, 1), (DEEPEST, 2), (0, 0), (0, 1), (0, 2)];

/// A family, the calls that each of its inputs is for, and from which length to which.
pub struct Stage {
    family: Family,
    calls: &'static [Call],
    from: u32,
    to: u32,
}

const fn stage(family: Family, calls: &'static [Call], from: u32, to: u32) -> Stage {
    Stage { family, calls, from, to }
}

/// The stages in the order in which they are done.
pub const STAGES: &[Stage] = &[
    stage(Family::Records, &[Call::Look, Call::Start], 1, 1),
    stage(Family::Positions, &[Call::Pad], 1, 1),
    stage(Family::Tables, &[Call::Encode, Call::EncodeTcp], 0, 3),
    stage(Family::Brackets, &DECODERS, 0, 7),
    stage(Family::Bytes, &DECODERS, 0, 5),
    stage(Family::Groups, &DECODERS, 0, 4),
    stage(Family::Texts, &[Call::EncodeString], 0, 3),
    stage(Family::Types, &DECODERS, 0, 5),
    stage(Family::Texts, &[Call::EncodeString], 4, 4),
    stage(Family::Types, &DECODERS, 6, 6),
    stage(Family::Tables, &[Call::Encode, Call::EncodeTcp], 4, 4),
    stage(Family::Groups, &DECODERS, 5, 5),
    stage(Family::Bytes, &DECODERS, 6, 6),
];

/// Those of edition 2.
pub const STANDARD_STAGES: &[Stage] = &[
    stage(Family::Cuts, &STANDARD, 1, 2),
    stage(Family::Tables, &[Call::EncodeTcp2], 0, 2),
    stage(Family::Brackets, &STANDARD, 0, 5),
    stage(Family::Bytes, &STANDARD, 0, 4),
    stage(Family::Groups, &STANDARD, 0, 3),
    stage(Family::Cuts, &[Call::TcpVec2], 3, 3),
    stage(Family::Bytes, &STANDARD, 5, 5),
    stage(Family::Groups, &STANDARD, 4, 4),
    stage(Family::Brackets, &STANDARD, 6, 7),
    stage(Family::Tables, &[Call::EncodeTcp2], 3, 3),
];

impl Family {
    /// How many letters the alphabet has.
    fn letters(self) -> u64 {
        match self {
            Family::Tables => CONTAINED.len() as u64 * ENDS,
            Family::Records => 256 * (1 + 24 + 96),
            Family::Positions => LOW + LAST,
            _ => self.alphabet().len() as u64,
        }
    }
    fn alphabet(self) -> &'static [&'static [u8]] {
        match self {
            Family::Bytes => BYTES,
            Family::Groups => GROUPS,
            Family::Types => TYPES,
            Family::Brackets => BRACKETS,
            Family::Texts => TEXTS,
            Family::Cuts => FRAMES,
            _ => &[],
        }
    }
    fn words(self) -> &'static str {
        match self {
            Family::Bytes => "bytes",
            Family::Groups => "groups of bytes",
            Family::Types => "characters of type text",
            Family::Brackets => "brackets and tags, alone and in a bundle, limits 0 to 3",
            Family::Texts => "bytes of text",
            Family::Tables => "records",
            Family::Records => "records with one bit set",
            Family::Positions => "positions",
            Family::Cuts => "frames, cut at every place, limits 0 and 64, capacity 1, 2 and ample",
        }
    }
    /// In how many ways each input is asked for; those of cut frames are limits.
    fn ways(self) -> u64 {
        match self {
            Family::Brackets => 2 * LIMITS,
            Family::Cuts => CUT_LIMITS.len() as u64,
            _ => 1,
        }
    }
    /// How many sequences of a length there are; of frames the last is cut, so that it stands for as many as it has bytes.
    fn sequences(self, length: u32) -> u64 {
        match self {
            Family::Cuts => self.letters().pow(length - 1) * FRAMES.concat().len() as u64,
            _ => self.letters().pow(length),
        }
    }
}

impl Stage {
    /// How many cases a length has.
    fn cases(&self, length: u32) -> u64 {
        self.family.sequences(length) * self.family.ways() * self.calls.len() as u64
    }
}

/// Makes the n-th short call of the stages; none where all are done.
pub fn make(stages: &[Stage], mut n: u64, asked: &mut Asked) -> Option<Call> {
    for stage in stages {
        for length in stage.from..=stage.to {
            if n < stage.cases(length) {
                asked.begin(stage.calls[n as usize % stage.calls.len()]);
                fill(stage.family, length, n / stage.calls.len() as u64, asked);
                return Some(asked.call);
            }
            n -= stage.cases(length);
        }
    }
    None
}

fn fill(family: Family, length: u32, mut left: u64, asked: &mut Asked) {
    if asked.call.decodes() {
        asked.number = DEEPEST;
    }
    match family {
        Family::Types => begin_types(asked),
        Family::Brackets => {
            begin_brackets(left % family.ways(), length, asked);
            left /= family.ways();
        }
        Family::Cuts => return fill_cuts(length, left, asked),
        _ => {}
    }
    for _ in 0..length {
        push(family, left % family.letters(), asked);
        left /= family.letters();
    }
    if matches!(family, Family::Types | Family::Brackets) {
        asked.first.push(0);
        let padded = asked.first.len().next_multiple_of(4);
        asked.first.resize(padded, if family == Family::Types { 0xAA } else { 0 });
    }
    if family == Family::Types {
        asked.first.extend_from_slice(b"\0\0\0\x02a\0\0\0\0\0\xD8\0");
    }
}

/// Frames, of which the last has at least one byte.
fn fill_cuts(length: u32, mut left: u64, asked: &mut Asked) {
    let (limit, records) = CUT_LIMITS[left as usize % CUT_LIMITS.len()];
    (asked.number, asked.room) = (limit, RECORD * records);
    left /= CUT_LIMITS.len() as u64;
    for _ in 1..length {
        push(Family::Cuts, left % Family::Cuts.letters(), asked);
        left /= Family::Cuts.letters();
    }
    for frame in FRAMES {
        if left < frame.len() as u64 {
            return asked.first.extend_from_slice(&frame[..=left as usize]);
        }
        left -= frame.len() as u64;
    }
}

/// What stands before a type text.
fn begin_types(asked: &mut Asked) {
    if asked.call != Call::Udp {
        asked.first.extend_from_slice(&[0, 0, 0, 24]);
    }
    asked.first.extend_from_slice(b"/\0\0\0");
}

/// What stands before a type text of so many characters, its comma included: a message's address, or a bundle around it. The
/// way says which, and at which limit.
fn begin_brackets(way: u64, length: u32, asked: &mut Asked) {
    let (limit, bundled) = (way / 2, way % 2 == 1);
    let message = 4 + (length + 2).next_multiple_of(4);
    asked.number = limit;
    if asked.call != Call::Udp {
        let size = if bundled { 20 + message } else { message };
        asked.first.extend_from_slice(&size.to_be_bytes());
    }
    if bundled {
        asked.first.extend_from_slice(b"#bundle\0\0\0\0\0\0\0\0\x01");
        asked.first.extend_from_slice(&message.to_be_bytes());
    }
    asked.first.extend_from_slice(b"/\0\0\0,");
}

/// Appends a letter.
fn push(family: Family, letter: u64, asked: &mut Asked) {
    match family {
        Family::Tables => {
            let mut record = [0; RECORD];
            record[0] = CONTAINED[(letter / ENDS) as usize];
            record[7] = (letter % ENDS) as u8;
            record[16..].fill(letter as u8);
            asked.first.extend_from_slice(&record);
            asked.number += 1;
        }
        Family::Records => {
            let mut record = [0; RECORD];
            let bits = [8..32, 64..160].into_iter().flatten();
            if let Some(bit) = (letter / 256).checked_sub(1).and_then(|nth| bits.clone().nth(nth as usize)) {
                record[bit / 8] |= 1 << (bit % 8);
            }
            record[0] = letter as u8;
            asked.first.extend_from_slice(&record);
        }
        Family::Positions if letter < LOW => asked.number = letter,
        Family::Positions => asked.number = u64::MAX - (letter - LOW),
        _ => asked.first.extend_from_slice(family.alphabet()[letter as usize]),
    }
}

/// Says which lengths of the stages were exhausted by that many short cases.
pub fn report(stages: &[Stage], mut done: u64) {
    for stage in stages {
        let size: u64 = (stage.from..=stage.to).map(|length| stage.cases(length)).sum();
        let words = if done >= size { "exhausted" } else { "not exhausted" };
        let calls: Vec<_> = stage.calls.iter().map(|call| CALLS[*call as usize]).collect();
        let (Stage { family, from, to, .. }, calls) = (stage, calls.join(", "));
        println!(
            "{words}: {from} to {to} {} of {}, {calls}: {} of {size}",
            family.words(),
            family.letters(),
            done.min(size)
        );
        done = done.saturating_sub(size);
    }
}
