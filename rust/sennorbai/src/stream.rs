//! A TCP stream that comes in portions.

use crate::boundary::{Nodes, Stop};
use crate::limits::LONGEST;
use crate::refusal::Refusal;
use crate::table::{Packets, Record};
use core::fmt;

/// Reads a TCP stream of [`Edition::Standard`](crate::Edition::Standard) as its bytes come: portions in, packets out.
///
/// However the stream is cut, these are the packets that [`decode_tcp_vec`](crate::decode_tcp_vec) gives for all of it, each as soon
/// as its last byte is there; the bytes of a frame that is not whole yet are kept. A stream may be of any length. A frame that is
/// refused ends it for good.
///
/// The buffer, of [`LONGEST`] bytes, is in the reader itself, and the table is lent to each [`read`](StreamReader::read). So there is
/// one reader for programs with and without an allocator: it has no lifetime, is made by a `const fn`, and stands in a static, in a
/// `Box` or in a map of connections. No frame is longer than the buffer, with its length at most 65,532 bytes, so each one gets through.
/// And one table serves all readers: a table for every case has 20 times the bytes of a buffer, and is needed only as long as packets
/// are looked at.
///
/// ```
/// use sennorbai::{StreamReader, Value, DEEPEST, LONGEST, RECORD};
///
/// // Three frames. The first portion ends in the second one.
/// let stream = b"\0\0\0\x08/a\0\0,\0\0\0\0\0\0\x0C/b\0\0,i\0\0\0\0\0\x07\0\0\0\x08/c\0\0,T\0\0";
/// let mut table = vec![0; RECORD * LONGEST];
/// let mut reader = StreamReader::new(DEEPEST);
/// let mut seen = Vec::new();
/// for mut bytes in [&stream[..20], &stream[20..]] {
///     while !bytes.is_empty() {
///         let taken = reader.feed(bytes);
///         bytes = &bytes[taken..];
///         let portion = reader.read(&mut table)?;
///         for root in portion.packets().roots() {
///             if let Value::Message(address) = root.value() {
///                 seen.push(format!("{address} at byte {}", portion.offset(root)));
///             }
///         }
///         if let Some(ended) = portion.ended() {
///             return Err(ended.into());
///         }
///     }
///     seen.push(format!("{} bytes kept", reader.kept().len()));
/// }
/// assert_eq!(seen, ["/a at byte 4", "8 bytes kept", "/b at byte 16", "/c at byte 32", "0 bytes kept"]);
/// assert_eq!(reader.consumed(), 40);
/// # Ok::<(), Box<dyn std::error::Error>>(())
/// ```
pub struct StreamReader {
    buffer: [u8; LONGEST],
    /// The bytes of the buffer from `from` up to `to` have come and are not consumed.
    from: usize,
    to: usize,
    consumed: u64,
    depth: u64,
    ended: Option<Ended>,
}

impl StreamReader {
    /// A reader at a stream's first byte. `depth` is how deep bundles and arrays may be nested together, as for
    /// [`decode_tcp_vec`](crate::decode_tcp_vec); with one over [`DEEPEST`](crate::DEEPEST) every read is refused.
    pub const fn new(depth: u64) -> StreamReader {
        StreamReader { buffer: [0; LONGEST], from: 0, to: 0, consumed: 0, depth, ended: None }
    }

    /// Room for the next bytes of the stream. Write to its beginning, and say by [`received`](StreamReader::received) how many they
    /// are. After every read that gives an answer there is room for 4 bytes at least, unless the stream has ended: then there is none,
    /// and a socket that reads into it answers 0, as it does where the sender has closed. So look at [`ended`](Portion::ended) after
    /// each read. With the feature `std`, `receive` does both steps and tells the two apart.
    ///
    /// ```
    /// use sennorbai::{StreamReader, DEEPEST, LONGEST, RECORD};
    /// use std::error::Error;
    /// use std::io::Read;
    ///
    /// /// How many packets a sender sends before it closes, and how many bytes of a frame that does not come whole.
    /// fn record(mut socket: impl Read) -> Result<(usize, usize), Box<dyn Error>> {
    ///     let mut table = vec![0; RECORD * LONGEST];
    ///     let mut reader = StreamReader::new(DEEPEST);
    ///     let mut packets = 0;
    ///     loop {
    ///         let many = socket.read(reader.spare())?;
    ///         if many == 0 {
    ///             return Ok((packets, reader.kept().len()));
    ///         }
    ///         reader.received(many);
    ///         let portion = reader.read(&mut table)?;
    ///         packets += portion.packets().roots().count();
    ///         if let Some(ended) = portion.ended() {
    ///             return Err(ended.into());
    ///         }
    ///     }
    /// }
    ///
    /// // The sender has closed within a frame.
    /// assert_eq!(record(&b"\0\0\0\x08/a\0\0,\0\0\0\0\0\0\x0C/b"[..])?, (1, 6));
    /// // The second of three frames is refused: there is no type tag `x`.
    /// let refused = &b"\0\0\0\x08/a\0\0,\0\0\0\0\0\0\x08/b\0\0,x\0\0\0\0\0\x08/c\0\0,\0\0\0"[..];
    /// assert_eq!(record(refused).unwrap_err().to_string(), "the frame at byte 12: 7: unknown type tag");
    /// # Ok::<(), Box<dyn Error>>(())
    /// ```
    pub fn spare(&mut self) -> &mut [u8] {
        if self.from > 0 {
            self.buffer.copy_within(self.from..self.to, 0);
            self.to -= self.from;
            self.from = 0;
        }
        let room = self.room();
        &mut self.buffer[self.to..][..room]
    }

    /// Says that the first `many` bytes of [`spare`](StreamReader::spare) are the next ones of the stream. More than it had are
    /// taken for all that it had.
    pub fn received(&mut self, many: usize) {
        self.to += many.min(self.room());
    }

    /// Reads the next bytes of the stream from `socket`, as many as it gives at once, and answers how many these are: 0 where the sender
    /// has closed. Where there is no room to read into, that is an error which says why: the stream has ended, with the [`Ended`] in it,
    /// or the bytes that have come are to be read first.
    ///
    /// ```
    /// use sennorbai::{StreamReader, DEEPEST, LONGEST, RECORD};
    ///
    /// let mut socket = &b"\0\0\0\x08/a\0\0,\0\0\0\0\0\0\x08/b\0\0,x\0\0\0\0\0\x08/c\0\0,\0\0\0"[..];
    /// let mut table = vec![0; RECORD * LONGEST];
    /// let mut reader = StreamReader::new(DEEPEST);
    /// assert_eq!(reader.receive(&mut socket)?, 36);
    /// assert_eq!(reader.read(&mut table)?.packets().roots().count(), 1);
    /// let error = reader.receive(&mut socket).unwrap_err();
    /// assert_eq!(error.to_string(), "the frame at byte 12: 7: unknown type tag");
    /// # Ok::<(), Box<dyn std::error::Error>>(())
    /// ```
    #[cfg(feature = "std")]
    pub fn receive(&mut self, socket: &mut impl std::io::Read) -> std::io::Result<usize> {
        use std::io::{Error, ErrorKind};
        if let Some(ended) = self.ended {
            return Err(Error::new(ErrorKind::InvalidData, ended));
        }
        let spare = self.spare();
        if spare.is_empty() {
            return Err(Error::other("the reader's buffer is full: the bytes that have come are to be read first"));
        }
        loop {
            match socket.read(spare) {
                Err(error) if error.kind() == ErrorKind::Interrupted => {}
                Err(error) => return Err(error),
                Ok(many) => {
                    self.received(many);
                    return Ok(many);
                }
            }
        }
    }

    /// Copies the next bytes of the stream, as many as there is room for, and answers how many these are. Where they are not all,
    /// feed the others after a read. None are taken once the stream has ended.
    pub fn feed(&mut self, bytes: &[u8]) -> usize {
        let spare = self.spare();
        let many = bytes.len().min(spare.len());
        spare[..many].copy_from_slice(&bytes[..many]);
        self.received(many);
        many
    }

    /// How many bytes may be written after those that have come.
    fn room(&self) -> usize {
        match self.ended {
            None => LONGEST - self.to,
            Some(_) => 0,
        }
    }

    /// Reads the packets of all whole frames into the lent table, which may be none. Their bytes are consumed, and those after them are
    /// kept for the next read.
    ///
    /// A table of [`RECORD`](crate::RECORD) times [`LONGEST`] bytes always has room. One that is too small is refused with
    /// [`Refusal::TableFull`], and nothing is consumed: the same frames can be read into a larger one. The only other refusal of a stream
    /// that goes on is [`Refusal::DepthLimit`]. Neither ends the stream, and neither changes a byte of the table.
    ///
    /// Where a frame is refused, the packets before it are given once, with that frame as [`ended`](Portion::ended). Nothing can come
    /// after it, so every read from then on is refused as the frame is: a loop that does not look at `ended` ends all the same.
    ///
    /// ```
    /// use sennorbai::{Refusal, StreamReader, DEEPEST, RECORD};
    ///
    /// let mut reader = StreamReader::new(DEEPEST);
    /// reader.feed(b"\0\0\0\x08/a\0\0,T\0\0\0\0\0\x08/b\0\0,x\0\0");
    /// let mut table = [0; 2 * RECORD];
    /// assert_eq!(reader.read(&mut table[..RECORD]).unwrap_err(), Refusal::TableFull);
    ///
    /// // There is no type tag `x`.
    /// let portion = reader.read(&mut table)?;
    /// assert_eq!(portion.packets().count(), 2);
    /// let ended = portion.ended().unwrap();
    /// assert_eq!((ended.refusal, ended.frame), (Refusal::UnknownTag, 12));
    /// assert_eq!(reader.read(&mut table).unwrap_err(), Refusal::UnknownTag);
    /// assert_eq!(reader.ended(), Some(ended));
    /// # Ok::<(), Refusal>(())
    /// ```
    pub fn read<'a>(&'a mut self, table: &'a mut [u8]) -> Result<Portion<'a>, Refusal> {
        if let Some(ended) = self.ended {
            return Err(ended.refusal);
        }
        let (bytes, start) = (&self.buffer[self.from..self.to], self.consumed);
        let given = Nodes::portion(bytes, table, self.depth)?;
        let used = bytes.len() - given.left;
        self.from += used;
        self.consumed += used as u64;
        // The bytes from a refused frame on stay: they are what is kept.
        self.ended = given.stopped.map(|stop| Ended::new(stop, start));
        Ok(Portion { packets: Packets::new(given), start, ended: self.ended })
    }

    /// The number of bytes of the stream that are consumed: those of all frames that were read. It is where the
    /// [`kept`](StreamReader::kept) bytes begin in the stream.
    pub fn consumed(&self) -> u64 {
        self.consumed
    }

    /// The bytes that have come and are not consumed.
    ///
    /// Where the sender closes, and all that came was read, there are none after a whole frame; others are the beginning of a frame
    /// that will not come. Where a frame was refused, they begin with its length.
    pub fn kept(&self) -> &[u8] {
        &self.buffer[self.from..self.to]
    }

    /// The refused frame that ended the stream, if a read has come to one.
    pub fn ended(&self) -> Option<Ended> {
        self.ended
    }
}

impl fmt::Debug for StreamReader {
    fn fmt(&self, f: &mut fmt::Formatter<'_>) -> fmt::Result {
        let mut shown = f.debug_struct("StreamReader");
        shown.field("consumed", &self.consumed).field("kept", &self.kept().len()).field("ended", &self.ended).finish()
    }
}

/// What a [`StreamReader`] gives by one read: the packets of the frames that were whole, where they stand in the stream, and whether
/// it has ended.
#[derive(Clone, Copy, Debug)]
pub struct Portion<'a> {
    packets: Packets<'a>,
    start: u64,
    ended: Option<Ended>,
}

impl<'a> Portion<'a> {
    /// The packets, which may be none. What is left over is what the reader keeps, and dirty padding is that of these packets.
    #[inline]
    pub fn packets(&self) -> Packets<'a> {
        self.packets
    }

    /// The offset in the stream of the byte that the [`start`](Record::start) of each record is counted from: the bytes that were
    /// consumed before this read.
    #[inline]
    pub fn start(&self) -> u64 {
        self.start
    }

    /// The offset in the stream where the data of one of these records begins, as its [`start`](Record::start) says it. Of a packet's
    /// message or bundle it is that of the frame and 4 more.
    #[inline]
    pub fn offset(&self, record: Record<'_>) -> u64 {
        self.start + record.start() as u64
    }

    /// The refused frame after the packets, which has ended the stream.
    #[inline]
    pub fn ended(&self) -> Option<Ended> {
        self.ended
    }
}

/// The refused frame that ended a stream, or the index of a recording. Both offsets are counted from the stream's first byte.
///
/// ```
/// use sennorbai::{Field, Refusal, StreamReader, DEEPEST, RECORD};
///
/// let mut reader = StreamReader::new(DEEPEST);
/// reader.feed(b"\0\0\0\x08/a\0\0,\0\0\0\0\0\0\x04/abc");
/// let mut table = [0; RECORD];
/// let ended = reader.read(&mut table)?.ended().unwrap();
/// assert_eq!((ended.refusal.number(), ended.frame, ended.field), (17, 12, Some(16)));
/// assert_eq!(ended.refusal, Refusal::Short { field: Field::Address, at: 4 });
/// assert_eq!(ended.to_string(), "the frame at byte 12: 17: the address at offset 16 is not all there");
/// # Ok::<(), Refusal>(())
/// ```
#[derive(Clone, Copy, Debug, PartialEq, Eq, Hash)]
pub struct Ended {
    /// Why the frame is refused, as [`decode_tcp`](crate::decode_tcp) says it of this frame alone: where a field was short, its own
    /// offset is counted from the frame's length.
    pub refusal: Refusal,
    /// Where the frame's length begins.
    pub frame: u64,
    /// Where the field began that was short; none for every other refusal.
    pub field: Option<u64>,
}

impl Ended {
    /// A frame at which a step stopped, that had so many bytes of the stream before it.
    pub(crate) fn new(Stop { refusal, frame }: Stop, before: u64) -> Ended {
        let field = refusal.offset().map(|at| before + at as u64);
        let refusal = match refusal {
            Refusal::Short { field, at } => Refusal::Short { field, at: at - frame as u32 },
            other => other,
        };
        Ended { refusal, frame: before + frame as u64, field }
    }
}

impl fmt::Display for Ended {
    fn fmt(&self, f: &mut fmt::Formatter<'_>) -> fmt::Result {
        write!(f, "the frame at byte {}: ", self.frame)?;
        match self.field {
            Some(at) => self.refusal.write_at(f, at),
            None => write!(f, "{}", self.refusal),
        }
    }
}

impl core::error::Error for Ended {}
