//! The table of a packet of rosc's types.

use super::scratch::first;
use super::walk::{fields, head, Step, Walk};
use super::{OscPacket, OscType};
use crate::builder::{record, Fields};
use crate::{BuildError, Table, DEEPEST, LONGEST, MOST, RECORD};
use std::slice;

/// The records that a scratch table has room for at first.
const FEW: usize = 64;

/// The table of a packet, in scratch buffers. Every packet that the library encodes has one here: no more records, bytes of text and
/// levels than its limits allow.
pub fn within_limits<'a>(
    packet: &OscPacket,
    table: &'a mut Vec<u8>,
    source: &'a mut Vec<u8>,
) -> Result<Table<'a>, BuildError> {
    let source = first(source, LONGEST);
    loop {
        let mut rows = Rows::new(table, source);
        match put_packets(&mut rows, slice::from_ref(packet), DEEPEST) {
            Ok(()) => {
                let (count, used) = (rows.count, rows.used);
                return Ok(Table { bytes: table, count, source: &source[..used] });
            }
            Err(BuildError::TableFull) if table.len() < RECORD * MOST => {
                let room = (4 * table.len()).clamp(RECORD * FEW, RECORD * MOST);
                first(table, room);
            }
            Err(error) => return Err(error),
        }
    }
}

/// Puts in messages and bundles with what they contain, unless bundles and arrays are nested deeper than `levels`.
fn put_packets(rows: &mut Rows<'_>, packets: &[OscPacket], levels: u64) -> Result<(), BuildError> {
    for packet in packets {
        let place = rows.put(head(packet))?;
        match packet {
            OscPacket::Message(message) => put_arguments(rows, &message.args, levels)?,
            OscPacket::Bundle(bundle) => put_packets(rows, &bundle.content, below(levels)?)?,
        }
        rows.close(place);
    }
    Ok(())
}

/// Puts in arguments, unless arrays are nested deeper than `levels`.
#[inline(always)]
fn put_arguments(rows: &mut Rows<'_>, arguments: &[OscType], levels: u64) -> Result<(), BuildError> {
    for argument in arguments {
        let place = rows.put(fields(argument))?;
        if let OscType::Array(array) = argument {
            put_content(rows, &array.content, below(levels)?)?;
            rows.close(place);
        }
    }
    Ok(())
}

/// Puts in what an array contains: apart from its caller, so that messages without arrays take no call.
#[inline(never)]
fn put_content(rows: &mut Rows<'_>, content: &[OscType], levels: u64) -> Result<(), BuildError> {
    put_arguments(rows, content, levels)
}

/// The levels that a bundle or array leaves, which takes one itself.
fn below(levels: u64) -> Result<u64, BuildError> {
    levels.checked_sub(1).ok_or(BuildError::Misplaced)
}

/// Buffers for the table of any packet: one for its records, and one for its addresses, texts and blobs.
pub fn room(packet: &OscPacket) -> (Vec<u8>, Vec<u8>) {
    let (records, texts) = Walk::new(packet).fold((0, 0), |(records, texts), step| match step {
        Step::Value(fields) => (records + 1, texts + fields.bytes.unwrap_or_default().len()),
        Step::Close => (records, texts),
    });
    (vec![0; RECORD * records], vec![0; texts])
}

/// The table of any packet, however deep, in buffers that are long enough. It fails only where no table can hold the packet.
pub fn of_any<'a>(packet: &OscPacket, table: &'a mut [u8], source: &'a mut [u8]) -> Result<Table<'a>, BuildError> {
    let mut rows = Rows::new(table, source);
    let mut open = Vec::new();
    for step in Walk::new(packet) {
        match step {
            Step::Value(fields) => {
                let place = rows.put(fields)?;
                if matches!(fields.kind, b'/' | b'#' | b'[') {
                    open.push(place);
                }
            }
            Step::Close => open.pop().into_iter().for_each(|place| rows.close(place)),
        }
    }
    let (count, used) = (rows.count, rows.used);
    Ok(Table { bytes: table, count, source: &source[..used] })
}

/// A table in the making. What contains what is the tree's business: a [`Builder`](crate::Builder) would test it.
struct Rows<'a> {
    records: &'a mut [[u8; RECORD]],
    source: &'a mut [u8],
    count: usize,
    used: usize,
}

impl<'a> Rows<'a> {
    fn new(table: &'a mut [u8], source: &'a mut [u8]) -> Rows<'a> {
        let records = table.as_chunks_mut().0;
        let most = records.len().min(MOST);
        // A range is two 32-bit numbers, so what lies further in the source cannot be named.
        let named = source.len().min(u32::MAX as usize);
        Rows { records: &mut records[..most], source: &mut source[..named], count: 0, used: 0 }
    }

    /// Puts in a record that contains nothing so far, and answers its place.
    #[inline]
    fn put(&mut self, fields: Fields<'_>) -> Result<usize, BuildError> {
        let numbers = match fields.bytes {
            None => fields.numbers,
            Some(bytes) => self.append(bytes)?,
        };
        let place = self.count;
        let row = self.records.get_mut(place).ok_or(BuildError::TableFull)?;
        *row = record(fields.kind, place as u32 + 1, numbers);
        self.count = place + 1;
        Ok(place)
    }

    /// Puts bytes at the end of the source's used part, and gives their range.
    #[inline]
    fn append(&mut self, bytes: &[u8]) -> Result<[u32; 2], BuildError> {
        let start = self.used;
        let free = self.source.get_mut(start..start + bytes.len()).ok_or(BuildError::SourceFull)?;
        free.copy_from_slice(bytes);
        self.used = start + bytes.len();
        Ok([start as u32, bytes.len() as u32])
    }

    /// Ends the container at a place after what was put in last.
    #[inline]
    fn close(&mut self, place: usize) {
        self.records[place][4..8].copy_from_slice(&(self.count as u32).to_be_bytes());
    }
}
