//! The port: a lent table and a lent output, both used again for each call and never cleared.

use sennorbai::{Color, Midi, Table, Time, Value, DEEPEST, MOST, RECORD};

/// A table lent to every call, with room for any input's records.
pub struct Lent {
    bytes: Vec<u8>,
}

impl Lent {
    pub fn new() -> Lent {
        Lent { bytes: vec![0; RECORD * MOST] }
    }

    /// Decodes, reads every record and sums what it read; a refusal gives none.
    pub fn decode(&mut self, msg: &[u8]) -> Option<u64> {
        let packets = sennorbai::decode_udp(msg, &mut self.bytes, DEEPEST).ok()?;
        Some(packets.records().fold(0, |sum, record| sum.wrapping_add(read(record.value()))))
    }
}

/// The records of a packet, or none where it is refused.
pub fn records(msg: &[u8]) -> Option<Vec<u8>> {
    let mut lent = Lent::new();
    let packets = sennorbai::decode_udp(msg, &mut lent.bytes, DEEPEST).ok()?;
    Some(packets.table().bytes.to_vec())
}

/// Writes the packet of a table and answers its length.
pub fn encode(records: &[u8], source: &[u8], out: &mut [u8]) -> Option<usize> {
    let table = Table { bytes: records, count: records.len() / RECORD, source };
    sennorbai::encode(table, out).ok().map(<[u8]>::len)
}

fn node(kind: u8, fields: u64) -> u64 {
    fields.wrapping_add(kind as u64)
}

fn pair(time: Time) -> u64 {
    (time.seconds as u64) << 32 | time.fractional as u64
}

/// The length and the last byte of a text or a blob.
fn range(bytes: &[u8]) -> u64 {
    bytes.last().map_or(0, |&last| bytes.len() as u64 + last as u64)
}

/// What one record says, as a number.
fn read(value: Value) -> u64 {
    match value {
        Value::Message(x) => node(b'/', range(x.as_bytes())),
        Value::Bundle(x) => node(b'#', pair(x)),
        Value::Int(x) => node(b'i', x as u32 as u64),
        Value::Float(x) => node(b'f', x.to_bits() as u64),
        Value::Text(x) => node(b's', range(x.as_bytes())),
        Value::Blob(x) => node(b'b', range(x)),
        Value::Time(x) => node(b't', pair(x)),
        Value::Long(x) => node(b'h', x as u64),
        Value::Double(x) => node(b'd', x.to_bits()),
        Value::Char(x) => node(b'c', x as u64),
        Value::Color(Color { red, green, blue, alpha }) => node(b'r', u32::from_be_bytes([red, green, blue, alpha]) as u64),
        Value::Midi(Midi { port, status, data1, data2 }) => {
            node(b'm', u32::from_be_bytes([port, status, data1, data2]) as u64)
        }
        Value::Bool(x) => node(if x { b'T' } else { b'F' }, 0),
        Value::Nil => node(b'N', 0),
        Value::Inf => node(b'I', 0),
        Value::Array => node(b'[', 0),
    }
}
