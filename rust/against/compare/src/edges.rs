//! Inputs around each boundary: lengths of text and blobs, the end of the input, 65,535 bytes, depth of bundles and of arrays,
//! characters and UTF-8.

use crate::inputs::TELLING;
use crate::met::{Rule, Seen};
use crate::random::Random;

/// Appends a text with its NULs.
fn push_text(to: &mut Vec<u8>, text: &[u8]) {
    push_filled(to, text, 0);
}

/// Appends a text with its NUL, and padding that is all one byte.
fn push_filled(to: &mut Vec<u8>, text: &[u8], fill: u8) {
    to.extend_from_slice(text);
    to.push(0);
    to.resize(to.len().next_multiple_of(4), fill);
}

/// A message with an address, a text and a blob of any length up to 40, cut off around any of their boundaries; the blob's
/// size may be off by some bytes or far off. Some have no zero in the padding.
pub fn lengths(r: &mut Random) -> Vec<u8> {
    let fill = r.pick(&[0, 0, 0xAA]);
    let mut bytes = vec![b'/'];
    bytes.resize(1 + r.below(41), b'a');
    push_filled(&mut bytes, b"", fill);
    let (types, blob_first) = r.pick(&[(",sb", false), (",bs", true), (",sbi", false), (",[s]b", false)]);
    push_filled(&mut bytes, types.as_bytes(), fill);
    let mut ends = [bytes.len(); 3];
    for (turn, blob) in [blob_first, !blob_first].into_iter().enumerate() {
        let length = r.below(41);
        if blob {
            push_blob(r, &mut bytes, length, fill);
        } else {
            push_filled(&mut bytes, &vec![b't'; length], fill);
        }
        ends[turn + 1] = bytes.len();
    }
    bytes.extend_from_slice(&[0; 8]);
    let end = r.pick(&ends) + r.below(9) - 4;
    bytes.truncate(end);
    bytes
}

/// Appends a blob, now and then with another size before it, and padding that is all one byte.
fn push_blob(r: &mut Random, to: &mut Vec<u8>, length: usize, fill: u8) {
    let size = match r.below(6) {
        0 => (length + r.below(9)).saturating_sub(4) as u32,
        1 => r.pick(&[u32::MAX, u32::MAX - 3, 1 << 31, 65_535]),
        _ => length as u32,
    };
    to.extend_from_slice(&size.to_be_bytes());
    to.resize(to.len() + length, 0xBB);
    to.resize(to.len().next_multiple_of(4), fill);
}

/// A message with one character on either side of a border, which is noted.
pub fn character(r: &mut Random, seen: &mut Seen) -> Vec<u8> {
    let x = r.pick(&[0xD7FF, 0xD800, 0xDBFF, 0xDC00, 0xDFFF, 0xE000, 0x10_FFFF, 0x11_0000, 0x7FFF_FFFF, u32::MAX]);
    seen.note(match x {
        0xD800..=0xDFFF => Rule::CharSurrogate,
        0..=0x10_FFFF => Rule::CharBorder,
        _ => Rule::CharOver,
    });
    let mut bytes = b"/a\0\0,c\0\0".to_vec();
    bytes.extend_from_slice(&x.to_be_bytes());
    bytes
}

/// Byte sequences on either side of RFC 3629's borders.
const SEQUENCES: &[&[u8]] = &[
    b"\x7F",
    b"\x80",
    b"\xBF",
    b"\xC0\x80",
    b"\xC1\xBF",
    b"\xC2\x80",
    b"\xDF\xBF",
    b"\xDF\xC0",
    b"\xE0\x9F\xBF",
    b"\xE0\xA0\x80",
    b"\xEC\xBF\xBF",
    b"\xED\x9F\xBF",
    b"\xED\xA0\x80",
    b"\xED\xBF\xBF",
    b"\xEE\x80\x80",
    b"\xEF\xBF\xBF",
    b"\xF0\x8F\xBF\xBF",
    b"\xF0\x90\x80\x80",
    b"\xF4\x8F\xBF\xBF",
    b"\xF4\x90\x80\x80",
    b"\xF5\x80\x80\x80",
    b"\xFF",
    b"\xC3",
    b"\xE2\x82",
    b"\xF0\x9F\x98",
    b"\xE2\x82\x41",
    b"\xF1\x80\x80\x7F",
];

/// Some letters with sequences around UTF-8's borders among them.
pub fn text(r: &mut Random) -> Vec<u8> {
    let mut bytes = vec![b'a'; r.below(4)];
    for _ in 0..1 + r.below(2) {
        bytes.extend_from_slice(r.pick(SEQUENCES));
        bytes.resize(bytes.len() + r.below(3), b'z');
    }
    bytes
}

/// A message that has such a text as its address, its type text or an argument.
pub fn utf8(r: &mut Random) -> Vec<u8> {
    let odd = text(r);
    let slash = [&b"/"[..], &odd].concat();
    let mut bytes = Vec::new();
    match r.below(3) {
        0 => {
            push_text(&mut bytes, &slash);
            push_text(&mut bytes, b",");
        }
        1 => {
            push_text(&mut bytes, b"/a");
            push_text(&mut bytes, &odd);
        }
        _ => {
            push_text(&mut bytes, b"/a");
            push_text(&mut bytes, b",s");
            push_text(&mut bytes, &odd);
        }
    }
    bytes
}

/// Bundles nested around the limit.
pub fn nested(r: &mut Random) -> Vec<u8> {
    let levels = r.pick(&[1, 2, 3, 62, 63, 64, 64, 65, 65, 66]);
    let last: &[u8] = if r.one_in(2) { b"\0\0\0\x08/\0\0\0,\0\0\0" } else { b"" };
    chain(r, levels, last)
}

/// A bundle that is cut off in its first text or time tag, alone or as an element that may stand at an odd place.
pub fn cut_bundle(r: &mut Random) -> Vec<u8> {
    let whole = b"#bundle\0\0\0\0\0\0\0\0\x01";
    let cut = &whole[..r.pick(&[1, 6, 7, 8, 8, 8, 9, 12, 15])];
    if r.one_in(2) {
        return cut.to_vec();
    }
    let mut bytes = whole.to_vec();
    let odd = r.below(4);
    bytes.extend_from_slice(&(8 + odd as u32).to_be_bytes());
    bytes.extend_from_slice(b"/\0\0\0,\0\0\0");
    bytes.extend_from_slice(&[0; 3][..odd]);
    bytes.extend_from_slice(&(cut.len() as u32).to_be_bytes());
    bytes.extend_from_slice(cut);
    bytes
}

/// Arrays nested around the limit, alone or in nested bundles.
pub fn arrays(r: &mut Random) -> Vec<u8> {
    let levels = r.pick(&[0, 1, 2, 3, 62, 63, 64, 64, 65, 65, 66]);
    let bundles = match r.below(4) {
        0 | 1 => 0,
        2 => levels.min(1 + r.below(2)),
        _ => r.below(levels + 1),
    };
    let message = array_message(r, levels - bundles);
    if bundles == 0 {
        return message;
    }
    // A message that is not so deep may stand on either side of it.
    let (before, after) = (r.one_in(3), r.one_in(3));
    let mut last = Vec::new();
    for (there, levels) in [(before, 0), (true, levels - bundles), (after, 0)] {
        if there {
            let message = array_message(r, levels);
            last.extend_from_slice(&(message.len() as u32).to_be_bytes());
            last.extend_from_slice(&message);
        }
    }
    chain(r, bundles, &last)
}

/// A message with arrays nested so deep. Arrays that a bracket loses, since it is not closed, may stand before them.
fn array_message(r: &mut Random, levels: usize) -> Vec<u8> {
    let mut tags = vec![b','];
    for _ in 0..r.below(6).saturating_sub(3) {
        let (lost, open) = (r.pick(&[0, 1, levels, levels + 1, 65]), r.pick(&[1, 1, 2, levels + 1, 65]));
        push_arrays(r, &mut tags, lost);
        tags.resize(tags.len() + open, b'[');
    }
    if r.one_in(3) {
        let beside = r.below(levels + 1);
        push_arrays(r, &mut tags, beside);
    }
    push_arrays(r, &mut tags, levels);
    let mut bytes = b"/a\0\0".to_vec();
    push_text(&mut bytes, &tags);
    for _ in tags.iter().filter(|tag| **tag == b'i') {
        bytes.extend_from_slice(&[0, 0, 0, 7]);
    }
    bytes
}

/// Appends the tags of arrays, each in the one before it, now and then with a value beside a bracket.
fn push_arrays(r: &mut Random, tags: &mut Vec<u8>, levels: usize) {
    for bracket in [b'[', b']'] {
        for _ in 0..levels {
            tags.push(bracket);
            if r.one_in(12) {
                tags.push(r.pick(b"iTN"));
            }
        }
    }
}

/// Bundles nested as deep as bytes allow, or arrays, closed and not; now and then one byte is another.
pub fn deepest(r: &mut Random) -> Vec<u8> {
    if r.one_in(2) {
        let levels = r.pick(&[200, 1000, 3276]);
        return chain(r, levels, b"");
    }
    let levels = r.pick(&[10, 1000, 32_000]);
    let closed = match r.below(4) {
        0 | 1 => levels,
        2 => levels.min(r.pick(&[0, 1, 63, 64, 65])),
        _ => r.below(levels),
    };
    let mut bytes = b"/a\0\0".to_vec();
    let types = [&b","[..], &vec![b'['; levels], b"i", &vec![b']'; closed]].concat();
    push_text(&mut bytes, &types);
    bytes.extend_from_slice(&[0, 0, 0, 7]);
    spoil(r, &mut bytes);
    bytes
}

/// A chain of bundles, each the only element of the one around it; `last` is the element of the innermost.
fn chain(r: &mut Random, levels: usize, last: &[u8]) -> Vec<u8> {
    let mut bytes = Vec::with_capacity(20 * levels + last.len());
    for inside in (0..levels).rev() {
        bytes.extend_from_slice(b"#bundle\0\0\0\0\0\0\0\0\x01");
        if inside > 0 {
            bytes.extend_from_slice(&((20 * inside - 4 + last.len()) as u32).to_be_bytes());
        }
    }
    bytes.extend_from_slice(last);
    spoil(r, &mut bytes);
    bytes
}

fn spoil(r: &mut Random, bytes: &mut [u8]) {
    if r.one_in(3) {
        let at = r.below(bytes.len());
        bytes[at] = r.pick(TELLING);
    }
}

/// A small packet after its size, as an element or a frame: with and without zeros in its padding.
const SMALL: &[&[u8]] = &[b"\0\0\0\x08/\0\0\0,\0\0\0", b"\0\0\0\x08/\0\x01\x7F,\0\x80\xFF"];

/// A whole input, prefixes included, of around 65,535 bytes: a long address, text, blob or type text, or many small packets.
pub fn longest(r: &mut Random, framed: bool) -> Vec<u8> {
    let target = 65_528 + r.below(16);
    let mut bytes = Vec::new();
    let prefix = (target as u32 - 4).to_be_bytes();
    if framed {
        bytes.extend_from_slice(&prefix);
    }
    match r.below(7) {
        0 => push_text(&mut bytes, &[&b"/"[..], &vec![b'a'; 65_500 + r.below(40)]].concat()),
        1 => {
            bytes.extend_from_slice(b"/a\0\0,s\0\0");
            push_text(&mut bytes, &vec![b't'; 65_490 + r.below(40)]);
        }
        2 => {
            bytes.extend_from_slice(b"/a\0\0,b\0\0");
            let room = target - bytes.len() - 4;
            bytes.extend_from_slice(&((room - r.below(6)) as u32).to_be_bytes());
        }
        3 => {
            bytes.extend_from_slice(b"/a\0\0");
            push_text(&mut bytes, &[&b","[..], &vec![r.pick(b"TN["); 65_490 + r.below(40)]].concat());
        }
        4 => {
            bytes.extend_from_slice(b"#bundle\0\0\0\0\0\0\0\0\x01");
            many(&mut bytes, target, r.pick(SMALL));
        }
        5 => {
            // These have prefixes of their own; what is left of a list waits.
            bytes.clear();
            many(&mut bytes, target, r.pick(SMALL));
            bytes.resize(target, 0xFF);
        }
        _ => {
            let all = r.pick(&[0, b'/', 0xFF]);
            bytes.resize(target, all);
        }
    }
    bytes.resize(target, 0);
    bytes
}

/// Appends as many copies as there is room for.
fn many(to: &mut Vec<u8>, target: usize, one: &[u8]) {
    while to.len() + one.len() <= target {
        to.extend_from_slice(one);
    }
}
