//! Streams of edition 2: frames around packets of the crate, of liblo and of oscpack and around odd ones, whole, with wrong lengths, with
//! bytes too many, damaged and cut.

use crate::judge::LONGEST;
use crate::peers::Peers;
use crate::random::Random;
use crate::{edges, inputs, soiled};

/// Whose packets are in a stream as they were written.
#[derive(Clone, Copy, Debug, Default, PartialEq, Eq)]
pub struct Writers {
    pub liblo: bool,
    pub oscpack: bool,
}

/// Lengths at a border, and such that no frame has.
const LENGTHS: &[u32] = &[0, 1, 4, 65_528, 65_529, 65_531, 65_532, 65_532, 65_533, 65_535, 65_536, 1 << 31, u32::MAX];

/// Small frames that are all in order: a message, one with dirty padding, an array, and bundles.
const SMALL: &[&[u8]] = &[
    b"\0\0\0\x08/a\0\0,\0\0\0",
    b"\0\0\0\x08/a\0\x01,\0\x02\x03",
    b"\0\0\0\x0C/a\0\0,i\0\0\0\0\0\x07",
    b"\0\0\0\x0C/a\0\0,[T]\0\0\0\0",
    b"\0\0\0\x10#bundle\0\0\0\0\0\0\0\0\x01",
    b"\0\0\0\x1C#bundle\0\0\0\0\0\0\0\0\x01\0\0\0\x08/b\0\0,T\0\0",
];

/// Small packets that are refused, each by another number.
const UNREADABLE: &[&[u8]] = &[
    b"/\xFF\0\0",
    b"a\0\0\0",
    b"/a\0\0,]\0\0",
    b"/a\0\0,x\0\0",
    b"/a\0\0,c\0\0\0\0\xD8\0",
    b"/abc",
    b"/a\0\0",
    b"/a\0\0,i\0\0",
    b"#bundle\0",
];

/// Small frames that are refused, each by another number.
const BAD: &[&[u8]] = &[
    b"\0\0\0\0",
    b"\0\0\xFF\xFC",
    b"\0\0\0\x09/a\0\0,\0\0\0X",
    b"\0\0\0\x0C/a\0\0,\0\0\0\0\0\0\0",
    b"\0\0\0\x08/a\0\x01,x\0\0",
    b"\0\0\0\x04/abc",
];

/// A frame: a length, which may be any, and bytes.
fn put(to: &mut Vec<u8>, length: u32, bytes: &[u8]) {
    to.extend(length.to_be_bytes());
    to.extend(bytes);
}

/// A packet, mostly a good one.
fn packet(r: &mut Random, peers: &Peers, by: &mut Writers) -> Vec<u8> {
    match r.below(40) {
        0..=7 if peers.any() => peers.written(r, by),
        8..=10 => soiled::packet(r),
        11..=13 => inputs::packet(r),
        14 => edges::lengths(r),
        15 => edges::utf8(r),
        16 => edges::nested(r),
        17 => edges::arrays(r),
        18 => edges::cut_bundle(r),
        19 => edges::character(r, &mut Default::default()),
        20 => r.pick(UNREADABLE).to_vec(),
        _ => inputs::good(r),
    }
}

/// Appends a frame around a packet. Its bytes are mostly a multiple of 4, now and then with some too many after the packet, and its
/// length is mostly theirs.
fn push_frame(r: &mut Random, to: &mut Vec<u8>, mut packet: Vec<u8>) {
    if !packet.len().is_multiple_of(4) && !r.one_in(4) {
        let fill = r.pick(&[0, b'/']);
        packet.resize(packet.len().next_multiple_of(4), fill);
    }
    if r.one_in(12) {
        let more = 4 * (1 + r.below(3));
        let fill = r.pick(&[0, 0, 1, 0xFF]);
        packet.resize(packet.len() + more, fill);
    }
    let length = packet.len() as i64;
    let length = match r.below(30) {
        0 => length + 1 + r.below(4) as i64,
        1 => length - 1 - r.below(4) as i64,
        2 => r.pick(LENGTHS) as i64,
        _ => length,
    };
    put(to, length.max(0) as u32, &packet);
}

/// Appends good frames up to so many bytes and a frame more: as long as much is missing, some with a long blob, so that they are not
/// too many.
fn push_many(r: &mut Random, to: &mut Vec<u8>, bytes: usize) {
    while to.len() < bytes {
        let missing = bytes - to.len();
        match r.below(3) {
            0 if missing > 2000 => push_blob(to, 4 * r.below(missing / 4)),
            0 => {
                let packet = inputs::good(r);
                put(to, packet.len() as u32, &packet);
            }
            _ => to.extend(r.pick(SMALL)),
        }
    }
}

/// Appends a frame with a blob of so many bytes, which are a multiple of 4.
fn push_blob(to: &mut Vec<u8>, size: usize) {
    put(to, 12 + size as u32, b"/a\0\0,b\0\0");
    put(to, size as u32, &vec![7; size]);
}

/// Appends many good frames, with any one among them or one that is refused.
fn push_far(r: &mut Random, to: &mut Vec<u8>, peers: &Peers, by: &mut Writers, bytes: usize) {
    let place = r.below(bytes + 1);
    push_many(r, to, place);
    if r.one_in(2) {
        to.extend(r.pick(BAD));
    } else {
        let packet = packet(r, peers, by);
        push_frame(r, to, packet);
    }
    push_many(r, to, bytes);
}

/// A frame of the highest length or the ones beside it, all there or with some bytes too few or too many.
fn push_highest(r: &mut Random, to: &mut Vec<u8>) {
    push_blob(to, r.pick(&[65_512, 65_516, 65_516, 65_520]));
    if r.one_in(4) {
        to[3] += 1 + r.below(3) as u8;
    }
    match r.below(3) {
        0 => to.truncate(to.len() - 1 - r.below(3)),
        1 => to.resize(to.len() + 1 + r.below(3), 0),
        _ => {}
    }
}

/// A long input of good frames, the last of which may be cut.
pub fn long(r: &mut Random, to: &mut Vec<u8>) {
    let bytes = LONGEST / 2 + r.below(LONGEST / 2);
    push_many(r, to, bytes);
    to.truncate(bytes);
}

/// An input; whose packets are in it is answered.
pub fn input(r: &mut Random, peers: &Peers, to: &mut Vec<u8>) -> Writers {
    let mut by = Writers::default();
    match r.below(800) {
        0..=1 => {
            push_far(r, to, peers, &mut by, LONGEST);
            to.truncate(LONGEST - 12 + r.below(16));
        }
        2..=3 => push_highest(r, to),
        4..=5 => *to = edges::longest(r, true),
        6..=25 => {
            let bytes = 100 + r.below(3000);
            push_far(r, to, peers, &mut by, bytes);
        }
        26..=33 => {}
        34..=93 => {
            for _ in 0..1 + r.below(4) {
                let packet = soiled::packet(r);
                push_frame(r, to, packet);
            }
        }
        _ => {
            for _ in 0..1 + r.below(5) {
                let packet = packet(r, peers, &mut by);
                push_frame(r, to, packet);
            }
        }
    }
    match r.below(10) {
        0..=2 => to.truncate(r.below(to.len() + 1)),
        3 => inputs::damage(r, to),
        _ => {}
    }
    by
}

/// A packet with records on either side of what an index takes, 3,276, in bundles on either side of depth 64 or in none: a message with
/// many tags, or a bundle of many messages.
fn many_records(r: &mut Random) -> Vec<u8> {
    let (records, levels) = (r.pick(&[3_275, 3_276, 3_276, 3_277, 3_277, 3_278]), r.pick(&[0, 0, 0, 1, 63, 64, 65, 65]));
    let inside = records - levels;
    let mut packet = Vec::new();
    if levels > 0 && r.one_in(2) {
        // The innermost bundle is among the levels.
        (0..inside).for_each(|_| put(&mut packet, 8, b"/\0\0\0,\0\0\0"));
    } else {
        let tag = r.pick(b"TFNIi");
        let mut message = [&b"/a\0\0,"[..], &vec![tag; inside - 1], &[0]].concat();
        message.resize(message.len().next_multiple_of(4), 0);
        message.resize(message.len() + if tag == b'i' { 4 * (inside - 1) } else { 0 }, 7);
        if levels == 0 {
            return message;
        }
        put(&mut packet, message.len() as u32, &message);
    }
    for level in 0..levels {
        packet.splice(..0, *b"#bundle\0\0\0\0\0\0\0\0\x01");
        if level + 1 < levels {
            let size = packet.len() as u32;
            packet.splice(..0, size.to_be_bytes());
        }
    }
    packet
}

/// A recording for an index: mostly an input as others are, before which good frames may stand. Some have a frame at a limit of an index
/// between others, some are of the shortest frames alone, and some are longer than a buffer.
pub fn recording(r: &mut Random, peers: &Peers, to: &mut Vec<u8>) {
    match r.below(1000) {
        0..=1 => (0..r.pick(&[5_460, 5_461, 5_461, 5_462, 5_470])).for_each(|_| to.extend(SMALL[0])),
        2..=6 => {
            let bytes = LONGEST + r.below(2 * LONGEST);
            push_far(r, to, peers, &mut Writers::default(), bytes);
        }
        7..=46 => push_limit(r, to),
        turn => {
            let good = if turn.is_multiple_of(2) { 1 + r.below(300) } else { 0 };
            push_many(r, to, good);
            input(r, peers, to);
            return;
        }
    }
    if r.one_in(5) {
        to.truncate(r.below(to.len() + 1));
    }
}

/// Appends a frame at a limit of an index, by its length or its records, between some good ones.
fn push_limit(r: &mut Random, to: &mut Vec<u8>) {
    let (before, after) = (r.below(100), r.below(100));
    push_many(r, to, before);
    if r.one_in(5) {
        push_blob(to, r.pick(&[65_512, 65_516, 65_516, 65_520]));
    } else {
        let packet = many_records(r);
        put(to, packet.len() as u32, &packet);
    }
    let whole = to.len();
    push_many(r, to, whole + after);
}
