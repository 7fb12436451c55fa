//! A builder of node tables over lent buffers.

use crate::limits::{MOST, RECORD};
use crate::table::Table;
use crate::value::{Time, Value};
use core::fmt;

/// Why a builder does not take a step. It is as it was before.
#[derive(Clone, Copy, Debug, PartialEq, Eq, Hash)]
pub enum BuildError {
    /// The lent table has no room for one more record, or holds [`MOST`](crate::MOST).
    TableFull,
    /// The lent source has no room for the text or blob.
    SourceFull,
    /// The value cannot stand here: messages and bundles stand first or in a bundle, everything else in a message or array.
    Misplaced,
    /// There is nothing open to be closed.
    NothingOpen,
    /// The table is asked for before everything is closed.
    StillOpen,
    /// The table is asked for before there is a packet.
    Empty,
}

impl fmt::Display for BuildError {
    fn fmt(&self, f: &mut fmt::Formatter<'_>) -> fmt::Result {
        f.write_str(match self {
            BuildError::TableFull => "the table has no room for one more record",
            BuildError::SourceFull => "the source has no room for the text or blob",
            BuildError::Misplaced => "the value cannot stand here",
            BuildError::NothingOpen => "there is nothing open to be closed",
            BuildError::StillOpen => "a message, bundle or array is still open",
            BuildError::Empty => "there is no packet",
        })
    }
}

impl core::error::Error for BuildError {}

/// Builds the table of one packet in a lent table, its texts and blobs in a lent source.
///
/// Nothing was read, so every record's [`start`](crate::Record::start) is 0.
///
/// ```
/// use sennorbai::{encode, Builder, Time};
///
/// let (mut table, mut source, mut out) = ([0; 120], [0; 32], [0; 128]);
/// let mut builder = Builder::new(&mut table, &mut source);
/// builder.bundle(Time::IMMEDIATELY)?;
/// builder.message("/cue")?.push(7)?.push("go")?;
/// builder.array()?.push(true)?.close()?;
/// builder.close()?.close()?;
///
/// let bytes = encode(builder.finish()?, &mut out)?;
/// assert_eq!(bytes, b"#bundle\0\0\0\0\0\0\0\0\x01\0\0\0\x18/cue\0\0\0\0,is[T]\0\0\0\0\0\x07go\0\0");
/// # Ok::<(), Box<dyn std::error::Error>>(())
/// ```
pub struct Builder<'a> {
    records: &'a mut [[u8; RECORD]],
    source: &'a mut [u8],
    count: usize,
    used: usize,
    /// The innermost open container. Until it is closed, its end is the place of the one around it, or `NONE`.
    open: u32,
}

/// No container: no record can stand there.
const NONE: u32 = u32::MAX;

impl<'a> Builder<'a> {
    /// An empty table over the lent buffers: [`RECORD`](crate::RECORD) bytes of `table` for each record, and as much of `source`
    /// as the texts, blobs and addresses are long.
    pub fn new(table: &'a mut [u8], source: &'a mut [u8]) -> Builder<'a> {
        Builder { records: table.as_chunks_mut().0, source, count: 0, used: 0, open: NONE }
    }

    /// Opens a message. Its arguments follow, and [`close`](Builder::close).
    pub fn message(&mut self, address: &str) -> Result<&mut Self, BuildError> {
        self.push(Value::Message(address))
    }

    /// Opens a bundle. Its messages and bundles follow, and [`close`](Builder::close).
    pub fn bundle(&mut self, time: Time) -> Result<&mut Self, BuildError> {
        self.push(Value::Bundle(time))
    }

    /// Opens an array. Its values follow, and [`close`](Builder::close).
    pub fn array(&mut self) -> Result<&mut Self, BuildError> {
        self.push(Value::Array)
    }

    /// Appends a value. A message, bundle or array is open from here on.
    pub fn push<'v>(&mut self, value: impl Into<Value<'v>>) -> Result<&mut Self, BuildError> {
        let fields = fields(value.into());
        if !self.may_hold(fields.kind) {
            return Err(BuildError::Misplaced);
        }
        if self.count == self.records.len().min(MOST) {
            return Err(BuildError::TableFull);
        }
        let numbers = match fields.bytes {
            None => fields.numbers,
            Some(bytes) => self.append(bytes)?,
        };
        let opens = matches!(fields.kind, b'/' | b'#' | b'[');
        let end = if opens { self.open } else { self.count as u32 + 1 };
        self.records[self.count] = record(fields.kind, end, numbers);
        if opens {
            self.open = self.count as u32;
        }
        self.count += 1;
        Ok(self)
    }

    /// Closes the innermost message, bundle or array that is open.
    pub fn close(&mut self) -> Result<&mut Self, BuildError> {
        if self.open == NONE {
            return Err(BuildError::NothingOpen);
        }
        let end = &mut self.records[self.open as usize][4..8];
        let [e, f, g, h] = [end[0], end[1], end[2], end[3]];
        self.open = u32::from_be_bytes([e, f, g, h]);
        end.copy_from_slice(&(self.count as u32).to_be_bytes());
        Ok(self)
    }

    /// The table with its source. It is well formed.
    pub fn finish(self) -> Result<Table<'a>, BuildError> {
        if self.count == 0 {
            return Err(BuildError::Empty);
        }
        if self.open != NONE {
            return Err(BuildError::StillOpen);
        }
        let records = &self.records[..self.count];
        Ok(Table { bytes: records.as_flattened(), count: self.count, source: &self.source[..self.used] })
    }

    /// Whether a value of this kind may stand in what is open.
    fn may_hold(&self, kind: u8) -> bool {
        let packet = matches!(kind, b'/' | b'#');
        match self.open {
            NONE => packet && self.count == 0,
            open => packet == (self.records[open as usize][0] == b'#'),
        }
    }

    /// Puts bytes at the end of the source's used part, and gives their range.
    fn append(&mut self, bytes: &[u8]) -> Result<[u32; 2], BuildError> {
        let end = self.used + bytes.len();
        // A range is two 32-bit numbers, so what lies further in the source cannot be named.
        if end > self.source.len() || end > u32::MAX as usize {
            return Err(BuildError::SourceFull);
        }
        self.source[self.used..end].copy_from_slice(bytes);
        let range = [self.used as u32, bytes.len() as u32];
        self.used = end;
        Ok(range)
    }
}

impl fmt::Debug for Builder<'_> {
    fn fmt(&self, f: &mut fmt::Formatter<'_>) -> fmt::Result {
        f.debug_struct("Builder").field("count", &self.count).field("used", &self.used).finish_non_exhaustive()
    }
}

/// A record that begins at 0.
#[inline]
pub(crate) fn record(kind: u8, end: u32, [a, b]: [u32; 2]) -> [u8; RECORD] {
    // The kind is the first byte of a word, for one store in place of four.
    let words = [(kind as u32) << 24, end, a, b, 0];
    let mut record = [0; RECORD];
    for (four, word) in record.as_chunks_mut().0.iter_mut().zip(words) {
        *four = word.to_be_bytes();
    }
    record
}

/// A value as a record has it: kind, the two numbers, and in place of a range its bytes.
#[derive(Clone, Copy)]
pub(crate) struct Fields<'a> {
    pub kind: u8,
    pub numbers: [u32; 2],
    pub bytes: Option<&'a [u8]>,
}

impl<'a> Fields<'a> {
    /// No number.
    #[inline]
    pub fn bare(kind: u8) -> Fields<'a> {
        Fields::two(kind, 0, 0)
    }

    /// One number.
    #[inline]
    pub fn one(kind: u8, x: u32) -> Fields<'a> {
        Fields::two(kind, x, 0)
    }

    /// Two numbers.
    #[inline]
    pub fn two(kind: u8, a: u32, b: u32) -> Fields<'a> {
        Fields { kind, numbers: [a, b], bytes: None }
    }

    /// A number in two halves.
    #[inline]
    pub fn long(kind: u8, x: u64) -> Fields<'a> {
        Fields::two(kind, (x >> 32) as u32, x as u32)
    }

    /// A range.
    #[inline]
    pub fn range(kind: u8, bytes: &'a [u8]) -> Fields<'a> {
        Fields { kind, numbers: [0, 0], bytes: Some(bytes) }
    }
}

/// The fields of a value.
fn fields(value: Value<'_>) -> Fields<'_> {
    match value {
        Value::Message(address) => Fields::range(b'/', address.as_bytes()),
        Value::Bundle(time) => Fields::two(b'#', time.seconds, time.fractional),
        Value::Int(x) => Fields::one(b'i', x as u32),
        Value::Float(x) => Fields::one(b'f', x.to_bits()),
        Value::Text(text) => Fields::range(b's', text.as_bytes()),
        Value::Blob(bytes) => Fields::range(b'b', bytes),
        Value::Time(time) => Fields::two(b't', time.seconds, time.fractional),
        Value::Long(x) => Fields::long(b'h', x as u64),
        Value::Double(x) => Fields::long(b'd', x.to_bits()),
        Value::Char(x) => Fields::one(b'c', x as u32),
        Value::Color(x) => Fields::one(b'r', u32::from_be_bytes([x.red, x.green, x.blue, x.alpha])),
        Value::Midi(x) => Fields::one(b'm', u32::from_be_bytes([x.port, x.status, x.data1, x.data2])),
        Value::Bool(x) => Fields::bare(if x { b'T' } else { b'F' }),
        Value::Nil => Fields::bare(b'N'),
        Value::Inf => Fields::bare(b'I'),
        Value::Array => Fields::bare(b'['),
    }
}
