//! rosc's encoder in plain Rust, for packets past the library's limits: `encode_into` has no place for a refusal, and rosc writes them.
//!
//! It is tested and not proved. It does not call itself, so no depth of bundles or arrays is too much for the stack.

use super::walk::{Step, Walk};
use super::OscPacket;
use crate::builder::Fields;

/// A packet's bytes.
pub fn encode(packet: &OscPacket) -> Vec<u8> {
    let mut writer = Writer::default();
    for step in Walk::new(packet) {
        match step {
            Step::Value(fields) => writer.push(fields),
            Step::Close => writer.close(),
        }
    }
    writer.bytes
}

/// A packet's bytes for a stream: their length stands before a message, and none before a bundle.
pub fn encode_tcp(packet: &OscPacket) -> Vec<u8> {
    let bytes = encode(packet);
    match packet {
        OscPacket::Message(_) => [&size(bytes.len()), &bytes[..]].concat(),
        OscPacket::Bundle(_) => bytes,
    }
}

/// A container that is open; the number is where its bytes begin.
enum Open {
    Message(usize),
    Bundle(usize),
    Array,
}

/// What is written so far. All parts begin at multiples of 4, so each is padded for itself.
#[derive(Default)]
struct Writer {
    bytes: Vec<u8>,
    /// The tags and the data of the message that is open.
    tags: Vec<u8>,
    data: Vec<u8>,
    open: Vec<Open>,
}

impl Writer {
    fn push(&mut self, Fields { kind, numbers, bytes }: Fields<'_>) {
        let range = bytes.unwrap_or_default();
        match kind {
            b'/' => {
                let start = self.start();
                self.open.push(Open::Message(start));
                text(&mut self.bytes, range);
                self.tags.push(b',');
            }
            b'#' => {
                let start = self.start();
                self.open.push(Open::Bundle(start));
                text(&mut self.bytes, b"#bundle");
                words(&mut self.bytes, &numbers);
            }
            _ => self.argument(kind, numbers, range),
        }
    }

    /// A tag and its data.
    fn argument(&mut self, kind: u8, numbers: [u32; 2], range: &[u8]) {
        self.tags.push(kind);
        match kind {
            b'[' => self.open.push(Open::Array),
            b's' => text(&mut self.data, range),
            b'b' => {
                self.data.extend(size(range.len()));
                self.data.extend(range);
                fill(&mut self.data);
            }
            b'i' | b'f' | b'c' | b'r' | b'm' => words(&mut self.data, &numbers[..1]),
            b'h' | b'd' | b't' => words(&mut self.data, &numbers),
            // What is left, T, F, N and I, has no data.
            _ => {}
        }
    }

    fn close(&mut self) {
        match self.open.pop() {
            Some(Open::Array) => self.tags.push(b']'),
            Some(Open::Bundle(start)) => self.end(start),
            Some(Open::Message(start)) => {
                self.tags.push(0);
                fill(&mut self.tags);
                self.bytes.append(&mut self.tags);
                self.bytes.append(&mut self.data);
                self.end(start);
            }
            // A walk closes no more than it opened.
            None => {}
        }
    }

    /// Begins a packet, with room for its size if it is an element; answers where its bytes begin.
    fn start(&mut self) -> usize {
        if !self.open.is_empty() {
            self.bytes.extend([0; 4]);
        }
        self.bytes.len()
    }

    /// Ends the packet that begins at `start`: an element's size goes before it.
    fn end(&mut self, start: usize) {
        if !self.open.is_empty() {
            let length = size(self.bytes.len() - start);
            self.bytes[start - 4..start].copy_from_slice(&length);
        }
    }
}

/// A length in four bytes; one that has more is cut, as in rosc.
fn size(length: usize) -> [u8; 4] {
    (length as u32).to_be_bytes()
}

fn words(to: &mut Vec<u8>, numbers: &[u32]) {
    numbers.iter().for_each(|number| to.extend(number.to_be_bytes()));
}

/// A text with its 1 to 4 NULs.
fn text(to: &mut Vec<u8>, text: &[u8]) {
    to.extend(text);
    to.push(0);
    fill(to);
}

/// Zeros up to a multiple of 4.
fn fill(to: &mut Vec<u8>) {
    to.resize(to.len().next_multiple_of(4), 0);
}
