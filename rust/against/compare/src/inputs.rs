//! Structured random inputs: trees of every kind, odd messages and bundles, damaged copies, and frames.

use crate::random::Random;
use rosc::{encoder, OscArray, OscBundle, OscColor, OscMessage, OscMidiMessage, OscPacket, OscTime, OscType};

/// Bytes that mean something somewhere: NUL, small sizes, the starts, the tags, UTF-8's borders.
pub const TELLING: &[u8] = &[
    0, 1, 3, 4, 8, 12, b'/', b'#', b',', b'[', b']', b'i', b's', b'b', b'c', b'h', b'T', b'x', 0x7F, 0x80, 0x9F, 0xA0, 0xBF,
    0xC0, 0xC3, 0xD8, 0xE0, 0xED, 0xF0, 0xF4, 0xFF,
];

const WORDS: &[&str] = &[
    "",
    "a",
    "ab",
    "abc",
    "abcd",
    "abcdefg",
    "é",
    "日本",
    "\u{10FFFF}",
    "~",
    "\u{7FF}",
    "\u{800}x",
    "\u{D7FF}\u{E000}",
    "\u{FFFF}",
    "\u{10000}",
];

/// Appends a text without NUL: of any length around a multiple of 4, and now and then of any length up to 40.
fn push_word(r: &mut Random, text: &mut String) {
    text.push_str(r.pick(WORDS));
    let letters = if r.one_in(6) { r.below(41) } else { r.below(5) };
    for _ in 0..letters {
        text.push((b'a' + r.below(26) as u8) as char);
    }
}

fn word(r: &mut Random) -> String {
    let mut text = String::new();
    push_word(r, &mut text);
    if r.one_in(40) {
        text.push('\0');
        push_word(r, &mut text);
    }
    text
}

fn number(r: &mut Random) -> u32 {
    match r.below(4) {
        0 => r.pick(&[0, 1, 5, 0x7F80_0000, 0x7FC0_0001, 0xFF80_0001, 0x8000_0000, 0xFFFF_FFFF, 0x7FFF_FFFF]),
        _ => r.next() as u32,
    }
}

fn long(r: &mut Random) -> u64 {
    ((number(r) as u64) << 32) | number(r) as u64
}

fn time(r: &mut Random) -> OscTime {
    OscTime { seconds: number(r), fractional: number(r) }
}

fn blob(r: &mut Random) -> Vec<u8> {
    let length = if r.one_in(6) { r.below(41) } else { r.below(9) };
    (0..length).map(|_| r.next() as u8).collect()
}

fn argument(r: &mut Random, deep: usize) -> OscType {
    let [p, q, x, y] = number(r).to_be_bytes();
    match r.below(16) {
        0 => OscType::Int(number(r) as i32),
        1 => OscType::Float(f32::from_bits(number(r))),
        2 => OscType::String(word(r)),
        3 => OscType::Blob(blob(r)),
        4 => OscType::Time(time(r)),
        5 => OscType::Long(long(r) as i64),
        6 => OscType::Double(f64::from_bits(long(r))),
        7 => OscType::Char(r.pick(&['\0', 'A', '\u{D7FF}', '\u{E000}', '\u{10FFFF}', '\u{1F600}'])),
        8 => OscType::Color(OscColor { red: p, green: q, blue: x, alpha: y }),
        9 => OscType::Midi(OscMidiMessage { port: p, status: q, data1: x, data2: y }),
        10 => OscType::Bool(true),
        11 => OscType::Bool(false),
        12 => OscType::Nil,
        13 => OscType::Inf,
        _ if deep > 0 => OscType::Array(OscArray { content: (0..r.below(4)).map(|_| argument(r, deep - 1)).collect() }),
        _ => OscType::Array(OscArray { content: Vec::new() }),
    }
}

/// A random message.
pub fn message(r: &mut Random) -> OscPacket {
    let mut addr = String::from(if r.one_in(30) { "" } else { "/" });
    addr.push_str(&word(r));
    OscPacket::Message(OscMessage { addr, args: (0..r.below(6)).map(|_| argument(r, 3)).collect() })
}

/// A random tree: a message, or a bundle at most `deep` levels deep.
pub fn tree(r: &mut Random, deep: usize) -> OscPacket {
    if deep == 0 || r.one_in(2) {
        return message(r);
    }
    OscPacket::Bundle(OscBundle { timetag: time(r), content: (0..r.below(4)).map(|_| tree(r, deep - 1)).collect() })
}

/// A packet in so many bundles, each the only element of the one around it.
pub fn in_bundles(packet: OscPacket, levels: usize) -> OscPacket {
    let timetag = OscTime { seconds: 0, fractional: 1 };
    (0..levels).fold(packet, |inside, _| OscPacket::Bundle(OscBundle { timetag, content: vec![inside] }))
}

/// A value in so many arrays.
fn in_arrays(value: OscType, levels: usize) -> OscType {
    (0..levels).fold(value, |inside, _| OscType::Array(OscArray { content: vec![inside] }))
}

/// Arrays nested around the limit, alone or in nested bundles, some of them with other values beside them.
pub fn nested(r: &mut Random) -> OscPacket {
    let levels = r.pick(&[1, 2, 62, 63, 64, 64, 65, 65, 66]);
    let bundles = if r.one_in(2) { 0 } else { r.below(levels + 1) };
    let beside = r.below(levels - bundles + 1);
    let mut args = vec![in_arrays(OscType::Nil, beside), in_arrays(OscType::Int(7), levels - bundles)];
    if r.one_in(2) {
        args.push(argument(r, 0));
    }
    let swapped = r.below(args.len());
    args.swap(0, swapped);
    in_bundles(OscPacket::Message(OscMessage { addr: "/a".to_string(), args }), bundles)
}

/// Arrays nested so deep that the library has to refuse them without calling itself for each.
pub fn deepest(r: &mut Random) -> OscPacket {
    let levels = match r.below(8) {
        0 => 65_520 + r.below(20),
        _ => r.pick(&[200, 900, 1000, 5000, 16_000]),
    };
    let args = vec![in_arrays(OscType::Nil, levels)];
    in_bundles(OscPacket::Message(OscMessage { addr: "/a".to_string(), args }), r.below(3))
}

/// The bytes that the crate writes for a random tree.
pub fn good(r: &mut Random) -> Vec<u8> {
    let deep = r.below(4);
    encoder::encode(&tree(r, deep)).expect("the crate encodes every packet")
}

/// Appends a text with its NUL, padded by any bytes to a multiple of 4.
fn push_text(r: &mut Random, to: &mut Vec<u8>, text: &[u8]) {
    let set = r.one_in(8);
    to.extend_from_slice(text);
    to.push(0);
    while !to.len().is_multiple_of(4) {
        to.push(if set { r.pick(TELLING) } else { 0 });
    }
}

/// Appends a message with odd type text and data: no comma, other first characters, unmatched brackets, unknown tags.
fn push_odd_message(r: &mut Random, to: &mut Vec<u8>) {
    let mut types = String::from(r.pick(&[",", ",", "X", "é", "", "日", "[", "]", "\u{10FFFF}"]));
    for _ in 0..r.below(9) {
        types.push(r.pick(&['i', 'i', 'T', '[', '[', ']', ']', 's', 's', 'b', 'c', 'h', 'N', 'f', 'S', 'é', 'm', 't']));
    }
    let address = r.pick(&["/", "/", "/a", "/ab", "/abc", "x", "", "#bundl"]);
    push_text(r, to, address.as_bytes());
    push_text(r, to, types.as_bytes());
    for _ in 0..r.below(24) {
        to.push(if r.one_in(2) { 0 } else { r.pick(TELLING) });
    }
}

/// Appends a bundle whose elements are cut and sized at will, so that padding is counted from odd places.
fn push_odd_bundle(r: &mut Random, to: &mut Vec<u8>, deep: usize) {
    to.extend_from_slice(b"#bundle\0\0\0\0\0\0\0\0\x01");
    for _ in 0..r.below(4) {
        let size_at = to.len();
        to.extend_from_slice(&[0; 4]);
        let from = to.len();
        match r.below(4) {
            0 if deep > 0 => push_odd_bundle(r, to, deep - 1),
            1 => to.extend(good(r)),
            2 if r.one_in(6) => {}
            _ => push_odd_message(r, to),
        }
        let cut = if r.one_in(4) { r.below(4) } else { 0 };
        to.truncate((to.len() - cut).max(from));
        for _ in 0..r.below(4) {
            to.push(r.pick(TELLING));
        }
        let size = if r.one_in(8) { r.below(40) } else { to.len() - from };
        to[size_at..from].copy_from_slice(&(size as u32).to_be_bytes());
    }
}

/// A packet of any sort: good, odd or of no bytes.
pub fn packet(r: &mut Random) -> Vec<u8> {
    let mut bytes = Vec::new();
    match r.below(100) {
        0..=24 => push_odd_message(r, &mut bytes),
        25..=49 => push_odd_bundle(r, &mut bytes, 3),
        50..=97 => return good(r),
        _ => {}
    }
    bytes
}

/// Changes a byte, cuts off, puts in or appends, one to three times.
pub fn damage(r: &mut Random, bytes: &mut Vec<u8>) {
    for _ in 0..1 + r.below(3) {
        let at = r.below(bytes.len() + 1);
        match r.below(6) {
            0 => bytes.truncate(at),
            1 => bytes.insert(at, r.pick(TELLING)),
            2 | 3 if at < bytes.len() => bytes[at] = r.pick(TELLING),
            4 if at < bytes.len() => bytes[at] = r.next() as u8,
            _ => bytes.push(r.pick(TELLING)),
        }
    }
}

/// Appends a packet with a prefix before it: its length, or one beside it, or one beside all that will be there.
pub fn push_frame(r: &mut Random, to: &mut Vec<u8>, packet: &[u8]) {
    let length = packet.len() as i64;
    let prefix = match r.below(12) {
        0 | 1 => (length + r.below(9) as i64 - 4).max(0) as u32,
        2 | 3 => (length + 4 + r.below(4) as i64 - 1) as u32,
        4 => r.pick(&[0, 1, 65_535, 65_536, 1 << 31, u32::MAX]),
        _ => length as u32,
    };
    to.extend_from_slice(&prefix.to_be_bytes());
    to.extend_from_slice(packet);
}

/// A structured random input: one packet, or with `frames` that many packets with their prefixes.
pub fn structured(r: &mut Random, frames: usize, to: &mut Vec<u8>) {
    if frames == 0 {
        to.extend(packet(r));
    }
    for _ in 0..frames {
        let one = packet(r);
        push_frame(r, to, &one);
    }
    if r.one_in(3) {
        damage(r, to);
    }
}
