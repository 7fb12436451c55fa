//! Node tables from the crate's packets, and packets from well-formed tables.

use rosc::{OscArray, OscBundle, OscColor, OscMessage, OscMidiMessage, OscPacket, OscTime, OscType};

/// The bytes of a record.
pub const RECORD: usize = 20;

/// Where an item begins, and where its range: only an address, text or blob has one.
#[derive(Clone, Copy, Debug, PartialEq, Eq)]
pub struct Spot {
    pub start: u32,
    pub range: u32,
}

/// Tells where the next item stands, by the bytes of its range, which may be none.
pub type Place<'a> = dyn FnMut(&[u8]) -> Spot + 'a;

/// Appends a record that ends right after itself; answers its place.
fn open(to: &mut Vec<u8>, kind: u8, [a, b]: [u32; 2], start: u32) -> usize {
    let at = to.len();
    to.extend_from_slice(&[kind, 0, 0, 0]);
    for number in [(at / RECORD + 1) as u32, a, b, start] {
        to.extend_from_slice(&number.to_be_bytes());
    }
    at
}

/// The record at a place contains all that came after it.
fn close(to: &mut [u8], at: usize) {
    let end = (to.len() / RECORD) as u32;
    to[at + 4..at + 8].copy_from_slice(&end.to_be_bytes());
}

/// Appends the records of a packet.
pub fn put_packet(to: &mut Vec<u8>, packet: &OscPacket, place: &mut Place) {
    match packet {
        OscPacket::Message(message) => {
            let spot = place(message.addr.as_bytes());
            let at = open(to, b'/', [spot.range, message.addr.len() as u32], spot.start);
            message.args.iter().for_each(|value| put_value(to, value, place));
            close(to, at);
        }
        OscPacket::Bundle(bundle) => {
            let at = open(to, b'#', [bundle.timetag.seconds, bundle.timetag.fractional], place(&[]).start);
            bundle.content.iter().for_each(|packet| put_packet(to, packet, place));
            close(to, at);
        }
    }
}

fn put_value(to: &mut Vec<u8>, value: &OscType, place: &mut Place) {
    let bytes = match value {
        OscType::String(x) => x.as_bytes(),
        OscType::Blob(x) => x,
        _ => &[],
    };
    let spot = place(bytes);
    let range = [spot.range, bytes.len() as u32];
    let halves = |x: u64| [(x >> 32) as u32, x as u32];
    let four = |x: [u8; 4]| [u32::from_be_bytes(x), 0];
    let (kind, numbers) = match value {
        OscType::String(_) => (b's', range),
        OscType::Blob(_) => (b'b', range),
        OscType::Int(x) => (b'i', [*x as u32, 0]),
        OscType::Float(x) => (b'f', [x.to_bits(), 0]),
        OscType::Time(x) => (b't', [x.seconds, x.fractional]),
        OscType::Long(x) => (b'h', halves(*x as u64)),
        OscType::Double(x) => (b'd', halves(x.to_bits())),
        OscType::Char(x) => (b'c', [*x as u32, 0]),
        OscType::Color(x) => (b'r', four([x.red, x.green, x.blue, x.alpha])),
        OscType::Midi(x) => (b'm', four([x.port, x.status, x.data1, x.data2])),
        OscType::Bool(x) => (if *x { b'T' } else { b'F' }, [0, 0]),
        OscType::Nil => (b'N', [0, 0]),
        OscType::Inf => (b'I', [0, 0]),
        OscType::Array(_) => (b'[', [0, 0]),
    };
    let at = open(to, kind, numbers, spot.start);
    if let OscType::Array(array) = value {
        array.content.iter().for_each(|value| put_value(to, value, place));
        close(to, at);
    }
}

/// Appends the table of a packet, with any starts, and to `source` all that its ranges are over.
pub fn put_with_source(table: &mut Vec<u8>, source: &mut Vec<u8>, packet: &OscPacket, mut start: impl FnMut() -> u32) {
    put_packet(table, packet, &mut |bytes| {
        let range = source.len() as u32;
        source.extend_from_slice(bytes);
        Spot { start: start(), range }
    });
}

/// The big-endian number at a place.
pub fn word(bytes: &[u8], at: usize) -> u32 {
    u32::from_be_bytes([bytes[at], bytes[at + 1], bytes[at + 2], bytes[at + 3]])
}

/// A well-formed table, read back.
pub struct Reader<'a> {
    pub table: &'a [u8],
    pub source: &'a [u8],
}

impl Reader<'_> {
    fn a(&self, index: usize) -> u32 {
        word(self.table, RECORD * index + 8)
    }
    fn b(&self, index: usize) -> u32 {
        word(self.table, RECORD * index + 12)
    }
    fn range(&self, index: usize) -> Vec<u8> {
        self.source[self.a(index) as usize..][..self.b(index) as usize].to_vec()
    }
    fn text(&self, index: usize) -> String {
        String::from_utf8(self.range(index)).expect("the text of a well-formed table")
    }

    /// What `one` makes of each node that the record contains.
    fn inside<T>(&self, index: usize, one: impl Fn(&Self, usize) -> T) -> Vec<T> {
        let end_of = |i: usize| word(self.table, RECORD * i + 4) as usize;
        let mut all = Vec::new();
        let mut at = index + 1;
        while at < end_of(index) {
            all.push(one(self, at));
            at = end_of(at);
        }
        all
    }

    pub fn packet(&self, index: usize) -> OscPacket {
        if self.table[RECORD * index] == b'/' {
            return OscPacket::Message(OscMessage { addr: self.text(index), args: self.inside(index, Self::value) });
        }
        let timetag = OscTime { seconds: self.a(index), fractional: self.b(index) };
        OscPacket::Bundle(OscBundle { timetag, content: self.inside(index, Self::packet) })
    }

    fn value(&self, index: usize) -> OscType {
        let (a, b) = (self.a(index), self.b(index));
        let long = ((a as u64) << 32) | b as u64;
        let [p, q, r, s] = a.to_be_bytes();
        match self.table[RECORD * index] {
            b'i' => OscType::Int(a as i32),
            b'f' => OscType::Float(f32::from_bits(a)),
            b's' => OscType::String(self.text(index)),
            b'b' => OscType::Blob(self.range(index)),
            b't' => OscType::Time(OscTime { seconds: a, fractional: b }),
            b'h' => OscType::Long(long as i64),
            b'd' => OscType::Double(f64::from_bits(long)),
            b'c' => OscType::Char(char::from_u32(a).expect("a scalar number")),
            b'r' => OscType::Color(OscColor { red: p, green: q, blue: r, alpha: s }),
            b'm' => OscType::Midi(OscMidiMessage { port: p, status: q, data1: r, data2: s }),
            b'T' => OscType::Bool(true),
            b'F' => OscType::Bool(false),
            b'N' => OscType::Nil,
            b'I' => OscType::Inf,
            _ => OscType::Array(OscArray { content: self.inside(index, Self::value) }),
        }
    }
}
