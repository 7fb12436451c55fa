//! Node tables: the records that a decoder wrote, read as typed values.

use crate::boundary::{self, Given, Nodes};
use crate::refusal::Refusal;
use crate::value::Value;
use core::fmt;
use core::iter::FusedIterator;

/// A node table as an encoder takes it: `count` records, and the source that their ranges lie in.
///
/// It may hold any bytes. [`encode`](crate::encode) refuses what is not well formed, and [`check`](Table::check) gives the
/// records of what is. Both read each of its texts, and many of them may have the same range: 600 texts over the same 4 MiB take more than
/// a second. Where a stranger's table is taken, bound the product of `count` and the length of `source`.
#[derive(Clone, Copy, Debug, PartialEq, Eq)]
pub struct Table<'a> {
    /// The records, [`RECORD`](crate::RECORD) bytes each. Bytes after the last one are not looked at.
    pub bytes: &'a [u8],
    /// The number of records.
    pub count: usize,
    /// The bytes that texts, blobs and addresses are parts of.
    pub source: &'a [u8],
}

impl<'a> Table<'a> {
    /// The records of a table from anywhere, or [`Refusal::BadTable`]. How deep a table is does not matter here; an encoder refuses
    /// one that is deeper than [`DEEPEST`](crate::DEEPEST).
    ///
    /// ```
    /// use sennorbai::{Refusal, Table, Value};
    ///
    /// let bytes = *b"/\0\0\0\0\0\0\x01\0\0\0\0\0\0\0\x02\0\0\0\0";
    /// let table = Table { bytes: &bytes, count: 1, source: b"/a" };
    /// assert_eq!(table.check()?.root().value(), Value::Message("/a"));
    ///
    /// let outside = Table { source: b"/", ..table };
    /// assert_eq!(outside.check().unwrap_err(), Refusal::BadTable);
    /// # Ok::<(), Refusal>(())
    /// ```
    pub fn check(self) -> Result<Packet<'a>, Refusal> {
        let nodes = Nodes::check(self.bytes, self.count, self.source)?;
        Ok(Packet { nodes, left: 0, dirty: 0 })
    }

    /// Shifts the time tags of a table's first `count` records, modulo 2^64, and gives how many there are: the tag of each bundle and of
    /// each time argument. An amount is a number of fractions, of which a second has 2^32; to go back by x, shift by
    /// `0u64.wrapping_sub(x)`. No other byte changes: the table stays well formed over the same source, and what it encodes to has the
    /// same length and differs in the tags alone. [`Time::IMMEDIATELY`](crate::Time::IMMEDIATELY) is shifted like any other.
    ///
    /// [`Refusal::BadTable`], and no byte is changed, where one of these records does not exist or breaks its own rules. Records after
    /// them are not looked at. A count of 2^32 or more is refused so too.
    ///
    /// ```
    /// use sennorbai::{decode_udp, encode, Refusal, Table, DEEPEST};
    ///
    /// let msg = *b"#bundle\0\0\0\0\x07\x80\0\0\0";
    /// let mut table = [0; 100];
    /// let count = decode_udp(&msg, &mut table, DEEPEST)?.count();
    ///
    /// let half_a_second = 1 << 31;
    /// assert_eq!(Table::shift(&mut table, count, half_a_second), Ok(1));
    /// let mut out = [0; 16];
    /// encode(Table { bytes: &table, count, source: &msg }, &mut out)?;
    /// assert_eq!(out, *b"#bundle\0\0\0\0\x08\0\0\0\0");
    /// # Ok::<(), Refusal>(())
    /// ```
    pub fn shift(table: &mut [u8], count: usize, by: u64) -> Result<usize, Refusal> {
        Ok(Refusal::settle(boundary::shift_table(table, count as u64, by), 0)? as usize)
    }
}

/// The records of one well-formed packet, what was left of the input, and how much of its padding was not zero.
///
/// Only a decoder or [`Table::check`] gives one, so reading it tests nothing again.
#[derive(Clone, Copy)]
pub struct Packet<'a> {
    nodes: Nodes<'a>,
    left: usize,
    dirty: usize,
}

/// The records of well-formed packets, one after another, what was left of the input, and how much of its padding was not zero.
///
/// Only a decoder gives one, so reading it tests nothing again.
#[derive(Clone, Copy)]
pub struct Packets<'a> {
    nodes: Nodes<'a>,
    left: usize,
    dirty: usize,
}

/// What one packet and a list of them have in common.
macro_rules! nodes_impl {
    ($name:ident) => {
        impl<'a> $name<'a> {
            #[inline]
            pub(crate) fn new(Given { nodes, left, dirty, .. }: Given<'a>) -> $name<'a> {
                $name { nodes, left, dirty }
            }

            /// The number of records.
            #[inline]
            pub fn count(&self) -> usize {
                self.nodes.count()
            }

            /// The number of input bytes left over, which are the last ones.
            #[inline]
            pub fn left(&self) -> usize {
                self.left
            }

            /// The input bytes left over.
            pub fn rest(&self) -> &'a [u8] {
                let source = self.nodes.source();
                &source[source.len() - self.left..]
            }

            /// The number of padding bytes that were not zero; of a list, the sum over its packets.
            ///
            /// Padding follows the NUL of a text, or the bytes of a blob, up to a multiple of 4. It is read over, whatever it
            /// holds; a sender that leaves old memory there is seen by this number alone. What the records are of counts: each
            /// message's address and type text, each text and blob, and the `#bundle` of a bundle that is an element at no
            /// multiple of 4. Arguments that an unclosed `[` loses, and an element that ended its bundle, have no record, and
            /// their padding does not count.
            ///
            /// A table holds no padding, so it is 0 of what [`Table::check`] gives.
            ///
            /// ```
            /// use sennorbai::{decode_tcp_vec, decode_udp, Edition, Refusal, DEEPEST};
            ///
            /// let mut table = [0; 100];
            /// assert_eq!(decode_udp(b"/cue\0\0\0\0,s\0\0go\0\0", &mut table, DEEPEST)?.dirty(), 0);
            /// assert_eq!(decode_udp(b"/cue\0old,s\0\0go\0!", &mut table, DEEPEST)?.dirty(), 4);
            /// // A list has the sum over its packets.
            /// let msg = b"\0\0\0\x08/a\0!,\0\0\0\0\0\0\x08/b\0!,\0\0\0";
            /// let list = decode_tcp_vec(Edition::Standard, msg, &mut table, DEEPEST)?;
            /// assert_eq!(list.packets().dirty(), 2);
            /// # Ok::<(), Refusal>(())
            /// ```
            #[inline]
            pub fn dirty(&self) -> usize {
                self.dirty
            }

            /// Every record, containers before what they contain.
            #[inline]
            pub fn records(&self) -> Records<'a> {
                Records { nodes: self.nodes, next: 0, end: self.count() }
            }
        }

        impl fmt::Debug for $name<'_> {
            fn fmt(&self, f: &mut fmt::Formatter<'_>) -> fmt::Result {
                let mut shown = f.debug_struct(stringify!($name));
                shown.field("left", &self.left).field("dirty", &self.dirty).field("records", &self.records()).finish()
            }
        }
    };
}
nodes_impl!(Packet);
nodes_impl!(Packets);

impl<'a> Packet<'a> {
    /// The message or bundle that the packet is.
    #[inline]
    pub fn root(&self) -> Record<'a> {
        Record { nodes: self.nodes, index: 0 }
    }

    /// The table as an encoder takes it.
    pub fn table(&self) -> Table<'a> {
        Table { bytes: self.nodes.bytes(), count: self.count(), source: self.nodes.source() }
    }
}

impl<'a> Packets<'a> {
    /// The message or bundle of each packet.
    #[inline]
    pub fn roots(&self) -> Siblings<'a> {
        Siblings { nodes: self.nodes, next: 0, end: self.count() }
    }
}

/// One record: a node of a packet.
#[derive(Clone, Copy)]
pub struct Record<'a> {
    nodes: Nodes<'a>,
    index: usize,
}

impl<'a> Record<'a> {
    /// Its place in the table.
    #[inline]
    pub fn index(&self) -> usize {
        self.index
    }

    /// The place after it and all that it contains.
    #[inline]
    pub fn end(&self) -> usize {
        self.nodes.end(self.index)
    }

    /// Its kind: the type tag of an argument, `/` for a message, `#` for a bundle, `[` for an array.
    #[inline]
    pub fn kind(&self) -> u8 {
        self.nodes.kind(self.index)
    }

    /// What it says.
    #[inline]
    pub fn value(&self) -> Value<'a> {
        self.nodes.value(self.index)
    }

    /// The offset, from the first byte of the decoded input, where its data begins: a message's address, a bundle's `#bundle`, a
    /// blob's size, a text's or number's first byte; of an array and of a tag without data, the place reached in the data.
    ///
    /// No rule of a table is about it, so in a [`Table`] that no decoder wrote it may be any number.
    ///
    /// ```
    /// use sennorbai::{decode_udp, Refusal, DEEPEST};
    ///
    /// let msg = b"/cue\0\0\0\0,sTi\0\0\0\0go\0\0\0\0\0\x07";
    /// let mut table = [0; 100];
    /// let packet = decode_udp(msg, &mut table, DEEPEST)?;
    /// let starts: Vec<_> = packet.records().map(|record| record.start()).collect();
    /// assert_eq!(starts, [0, 16, 20, 20]);
    /// # Ok::<(), Refusal>(())
    /// ```
    #[inline]
    pub fn start(&self) -> usize {
        self.nodes.start(self.index)
    }

    /// The bytes of the input that its own data takes, from its [`start`](Record::start) on: a message's address, a bundle's
    /// `#bundle`, a blob's size and bytes, a text, the 4 or 8 bytes of a number. A NUL after a text and padding are not among
    /// them, and neither are a message's type text, a bundle's time tag and what either contains: a record does not say where
    /// these stand. An array and a tag without data take no bytes and have none.
    ///
    /// In a [`Table`] that no decoder wrote the start may be any number, and the bytes are those that stand there; there are
    /// none where that is not in the source.
    ///
    /// ```
    /// use sennorbai::{decode_udp, Refusal, DEEPEST};
    ///
    /// let msg = b"/cue\0\0\0\0,sbT\0\0\0\0go\0\0\0\0\0\x01\xFF\0\0\0";
    /// let mut table = [0; 100];
    /// let packet = decode_udp(msg, &mut table, DEEPEST)?;
    /// let data: Vec<_> = packet.records().map(|record| record.data()).collect();
    /// assert_eq!(data, [Some(&b"/cue"[..]), Some(b"go"), Some(b"\0\0\0\x01\xFF"), None]);
    /// # Ok::<(), Refusal>(())
    /// ```
    pub fn data(&self) -> Option<&'a [u8]> {
        let length = match self.value() {
            Value::Message(text) | Value::Text(text) => text.len(),
            Value::Bundle(_) => b"#bundle".len(),
            Value::Blob(bytes) => 4 + bytes.len(),
            Value::Int(_) | Value::Float(_) | Value::Char(_) | Value::Color(_) | Value::Midi(_) => 4,
            Value::Long(_) | Value::Double(_) | Value::Time(_) => 8,
            Value::Bool(_) | Value::Nil | Value::Inf | Value::Array => return None,
        };
        self.nodes.source().get(self.start()..self.start() + length)
    }

    /// What it contains directly: a message's arguments, a bundle's elements, an array's values.
    #[inline]
    pub fn inside(&self) -> Siblings<'a> {
        Siblings { nodes: self.nodes, next: self.index + 1, end: self.end() }
    }

    /// All that it contains at any depth, containers before what they contain.
    #[inline]
    pub fn below(&self) -> Records<'a> {
        Records { nodes: self.nodes, next: self.index + 1, end: self.end() }
    }
}

impl fmt::Debug for Record<'_> {
    fn fmt(&self, f: &mut fmt::Formatter<'_>) -> fmt::Result {
        write!(f, "{}..{} {:?}", self.index, self.end(), self.value())
    }
}

/// Records one after another, containers before what they contain.
#[derive(Clone)]
pub struct Records<'a> {
    nodes: Nodes<'a>,
    next: usize,
    end: usize,
}

impl<'a> Iterator for Records<'a> {
    type Item = Record<'a>;

    #[inline]
    fn next(&mut self) -> Option<Record<'a>> {
        if self.next == self.end {
            return None;
        }
        let record = Record { nodes: self.nodes, index: self.next };
        self.next += 1;
        Some(record)
    }

    #[inline]
    fn size_hint(&self) -> (usize, Option<usize>) {
        (self.end - self.next, Some(self.end - self.next))
    }
}

impl ExactSizeIterator for Records<'_> {}
impl FusedIterator for Records<'_> {}

impl fmt::Debug for Records<'_> {
    fn fmt(&self, f: &mut fmt::Formatter<'_>) -> fmt::Result {
        f.debug_list().entries(self.clone()).finish()
    }
}

/// Records that stand side by side: each begins where the one before it, with all that it contains, ends.
#[derive(Clone)]
pub struct Siblings<'a> {
    nodes: Nodes<'a>,
    next: usize,
    end: usize,
}

impl<'a> Iterator for Siblings<'a> {
    type Item = Record<'a>;

    #[inline]
    fn next(&mut self) -> Option<Record<'a>> {
        if self.next == self.end {
            return None;
        }
        let record = Record { nodes: self.nodes, index: self.next };
        self.next = record.end();
        Some(record)
    }
}

impl FusedIterator for Siblings<'_> {}

impl fmt::Debug for Siblings<'_> {
    fn fmt(&self, f: &mut fmt::Formatter<'_>) -> fmt::Result {
        f.debug_list().entries(self.clone()).finish()
    }
}

/// The kind of the record at `index` of any table, by that record's own rules: its end and range are not looked at.
///
/// ```
/// use sennorbai::{look, Refusal};
///
/// let table = *b"i\0\0\0\0\0\0\x01\0\0\0\x05\0\0\0\0\0\0\0\x08";
/// assert_eq!(look(&table, 0), Ok(b'i'));
/// assert_eq!(look(&table, 1), Err(Refusal::BadTable));
/// ```
pub fn look(table: &[u8], index: usize) -> Result<u8, Refusal> {
    Refusal::settle(boundary::look(table, index as u64), 0).map(|answer| answer as u8)
}

/// The start of the record at `index` of any table, as [`Record::start`] has it: nothing else of the record is looked at.
///
/// ```
/// use sennorbai::{start_of, Refusal};
///
/// let table = *b"i\0\0\0\0\0\0\x01\0\0\0\x05\0\0\0\0\0\0\0\x08";
/// assert_eq!(start_of(&table, 0), Ok(8));
/// assert_eq!(start_of(&table, 1), Err(Refusal::BadTable));
/// ```
pub fn start_of(table: &[u8], index: usize) -> Result<usize, Refusal> {
    Refusal::settle(boundary::start(table, index as u64), 0).map(|answer| answer as usize)
}
