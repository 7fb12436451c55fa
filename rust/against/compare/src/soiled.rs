//! Packets with old memory in their padding: in that of texts and blobs, of arguments that an unclosed bracket loses, of elements
//! that fail, and of "#bundle" at odd places.

use crate::inputs;
use crate::random::Random;

/// Appends padding up to a multiple of 4, zero or not.
fn push_padding(r: &mut Random, to: &mut Vec<u8>) {
    let old = r.one_in(2);
    while !to.len().is_multiple_of(4) {
        to.push(if old { r.pick(&[0, 1, b'/', 0x7F, 0x80, 0xFF]) } else { 0 });
    }
}

fn push_text(r: &mut Random, to: &mut Vec<u8>, text: &[u8]) {
    to.extend_from_slice(text);
    to.push(0);
    push_padding(r, to);
}

fn push_blob(r: &mut Random, to: &mut Vec<u8>) {
    let length = r.below(6);
    to.extend_from_slice(&(length as u32).to_be_bytes());
    to.resize(to.len() + length, 0xBB);
    push_padding(r, to);
}

/// A type text, mostly of texts, blobs and brackets. Brackets may stay open, and an unknown tag may be the last. Some have no bytes,
/// and some stand for so many texts that a byte does not hold the count.
fn types(r: &mut Random) -> Vec<u8> {
    match r.below(60) {
        0 => return [b",", &vec![b's'; 350 + r.below(100)][..]].concat(),
        1..=5 => return Vec::new(),
        _ => {}
    }
    let (mut types, mut open) = (vec![b','], 0);
    for _ in 0..r.below(7) {
        let tag = r.pick(b"sssbbiT[[]");
        match tag {
            b'[' => open += 1,
            b']' if open == 0 => continue,
            b']' => open -= 1,
            _ => {}
        }
        types.push(tag);
    }
    if r.one_in(6) {
        types.push(b'x');
    }
    types
}

fn push_message(r: &mut Random, to: &mut Vec<u8>) {
    let (address, types) = (&b"/abcd"[..1 + r.below(5)], types(r));
    push_text(r, to, address);
    push_text(r, to, &types);
    for tag in types.iter().skip(1) {
        match tag {
            b's' => {
                let text = &b"texts"[..r.below(6)];
                push_text(r, to, text);
            }
            b'b' => push_blob(r, to),
            b'i' => to.extend_from_slice(&[0, 0, 0, 7]),
            _ => {}
        }
    }
}

/// Appends a bundle. Its elements may have bytes too many, so that what follows them stands at an odd place.
fn push_bundle(r: &mut Random, to: &mut Vec<u8>, deep: usize) {
    push_text(r, to, b"#bundle");
    to.extend_from_slice(&[0, 0, 0, 0, 0, 0, 0, 1]);
    for _ in 0..r.below(4) {
        let size_at = to.len();
        to.extend_from_slice(&[0; 4]);
        push_packet(r, to, deep);
        to.extend_from_slice(&[0xFF; 3][..r.below(4)]);
        let size = (to.len() - size_at - 4) as u32;
        to[size_at..size_at + 4].copy_from_slice(&size.to_be_bytes());
    }
}

/// Appends a message, or a bundle with at most so many levels of bundles in it. Padding counts from the start of `to`.
fn push_packet(r: &mut Random, to: &mut Vec<u8>, deep: usize) {
    match deep.checked_sub(1) {
        Some(deep) if r.one_in(2) => push_bundle(r, to, deep),
        _ => push_message(r, to),
    }
}

/// Appends a frame. Half of them have the length 0: no bundle before such a frame takes it as an element, so that it may stand at an
/// odd place.
fn push_frame(r: &mut Random, to: &mut Vec<u8>, packet: &[u8]) {
    if r.one_in(2) {
        to.extend_from_slice(&[0; 4]);
        to.extend_from_slice(packet);
    } else {
        inputs::push_frame(r, to, packet);
    }
}

/// One such packet.
pub fn packet(r: &mut Random) -> Vec<u8> {
    let mut packet = Vec::new();
    push_packet(r, &mut packet, 3);
    packet
}

/// An input: one such packet, or with `frames` that many of them with their prefixes. Now and then it is damaged.
pub fn input(r: &mut Random, frames: usize, to: &mut Vec<u8>) {
    for _ in 0..frames.max(1) {
        let packet = packet(r);
        match frames {
            0 => to.extend(packet),
            _ => push_frame(r, to, &packet),
        }
    }
    if r.one_in(5) {
        inputs::damage(r, to);
    }
}
