//! A cue index of a recording: frames of edition 2 end to end in a file, and 16 bytes for each, big-endian: the offset of its prefix (8),
//! its length without the prefix (4) and the records of its table (4).
//!
//! [`write()`] writes it, up to the first frame that is not accepted (64 deep, [`MOST_IN_A_CUE`] records; one that is not all there counts
//! so), and says where that is. [`check`] accepts an index exactly if it is what `write` would write today. Only a [`Checked`] index can be
//! asked for a cue, and only `check` makes one.
//!
//! Both read through buffers of at most 64 KiB, whatever the length of the recording.
//!
//! ```
//! use sennorbai::index::{check, write, Cue, Stop};
//! use std::io::Cursor;
//!
//! let recording = b"\0\0\0\x08/a\0\0,\0\0\0\0\0\0\x08/b\0\0,T\0\0\0\0\0\x08/c";
//! let mut index = Vec::new();
//! let written = write(&recording[..], &mut index)?;
//! assert_eq!((written.records, written.end, written.stop), (2, 24, Stop::Waiting));
//!
//! let mut checked = check(&recording[..], Cursor::new(&index))?;
//! assert_eq!(checked.cue(1)?, Some(Cue { offset: 12, length: 8, records: 2 }));
//! assert_eq!(checked.cue(2)?, None);
//!
//! index[31] = 3;
//! let error = check(&recording[..], Cursor::new(&index)).unwrap_err();
//! assert_eq!(error.to_string(), "25: index differs, record 1");
//! # Ok::<(), sennorbai::index::Error>(())
//! ```

use crate::boundary;
use crate::limits::LONGEST;
use crate::stream::Ended;
use core::fmt;
use std::io::{self, Read, Seek, SeekFrom, Write};

/// The bytes of a record of an index.
pub const ENTRY: usize = 16;

/// The most records that the table of a frame may have: those that 64 KiB hold.
pub const MOST_IN_A_CUE: usize = 3_276;

/// The most records that the frames of a buffer have: a frame is 12 bytes at least, 4 of length and 8 of the shortest packet.
pub const MOST_ENTRIES: usize = 5_461;

/// The number of the refusal of an index that differs.
pub const INDEX_DIFFERS: u8 = 25;

/// The bytes of an index that are held at once: 64 KiB, which are 4,096 records.
const PART: usize = 4_096 * ENTRY;

/// What [`write()`] has written, or [`check`] has found to be right.
#[derive(Clone, Copy, Debug, PartialEq, Eq, Hash)]
pub struct Written {
    /// The records of the index: one for each frame that is accepted.
    pub records: u64,
    /// Where it goes no further: the offset of the prefix of the first frame that is not accepted, or the recording's length.
    pub end: u64,
    /// Why it goes no further.
    pub stop: Stop,
}

/// Why an index goes no further.
#[derive(Clone, Copy, Debug, PartialEq, Eq, Hash)]
#[non_exhaustive]
pub enum Stop {
    /// The recording ends there.
    Whole,
    /// The recording ends within the frame.
    Waiting,
    /// The frame is refused, as [`decode_tcp`](crate::decode_tcp) refuses it with room for [`MOST_IN_A_CUE`] records. Where it stands and
    /// where a field began that was short is counted from the recording's first byte.
    ///
    /// ```
    /// use sennorbai::index::{write, Stop};
    ///
    /// let recording = b"\0\0\0\x08/a\0\0,\0\0\0\0\0\0\x04/abc";
    /// let Stop::Refused(ended) = write(&recording[..], Vec::new())?.stop else { panic!() };
    /// assert_eq!((ended.refusal.number(), ended.frame, ended.field), (17, 12, Some(16)));
    /// assert_eq!(ended.to_string(), "the frame at byte 12: 17: the address at offset 16 is not all there");
    /// # Ok::<(), sennorbai::index::Error>(())
    /// ```
    Refused(Ended),
}

/// Why there is no index, or why one is not accepted.
#[derive(Debug)]
#[non_exhaustive]
pub enum Error {
    /// The recording cannot be read.
    Recording(io::Error),
    /// The index cannot be written or read.
    Index(io::Error),
    /// 1: the recording has 2^63 bytes or more.
    TooLong,
    /// 25: the index differs from the one that belongs to the recording. It is said as `osc` says it.
    Differs {
        /// The first record that differs, is missing or is extra, from 0; a part of a record counts as one.
        record: u64,
    },
}

impl Error {
    /// The refusal's number; none where a file cannot be read or written.
    pub fn number(&self) -> Option<u8> {
        match self {
            Error::Recording(_) | Error::Index(_) => None,
            Error::TooLong => Some(1),
            Error::Differs { .. } => Some(INDEX_DIFFERS),
        }
    }
}

impl fmt::Display for Error {
    fn fmt(&self, f: &mut fmt::Formatter<'_>) -> fmt::Result {
        match self {
            Error::Recording(error) => write!(f, "the recording: {error}"),
            Error::Index(error) => write!(f, "the index: {error}"),
            Error::TooLong => write!(f, "1: the recording has 2^63 bytes or more"),
            Error::Differs { record } => write!(f, "{INDEX_DIFFERS}: index differs, record {record}"),
        }
    }
}

impl std::error::Error for Error {
    fn source(&self) -> Option<&(dyn std::error::Error + 'static)> {
        match self {
            Error::Recording(error) | Error::Index(error) => Some(error),
            Error::TooLong | Error::Differs { .. } => None,
        }
    }
}

/// A cue, as a record of a checked index has it.
#[derive(Clone, Copy, Debug, PartialEq, Eq, Hash)]
pub struct Cue {
    /// Where its frame's prefix begins in the recording.
    pub offset: u64,
    /// The frame's length without its prefix.
    pub length: u32,
    /// The records of its table.
    pub records: u32,
}

/// Writes the index of a recording, which begins at the next byte of its reader, and answers how far it goes. Where an error is given, any
/// part of it may have been written.
pub fn write(recording: impl Read, mut index: impl Write) -> Result<Written, Error> {
    let written = walk(recording, |fresh| index.write_all(fresh).map_err(Error::Index))?;
    index.flush().map_err(Error::Index)?;
    Ok(written)
}

/// Checks an index against the recording: it is accepted exactly if its bytes, from the next one of its reader to the end, are those that
/// [`write()`] would write.
///
/// What is given holds the index, and looks up in it. That the bytes behind a reader stay as they were is the caller's to see to; a
/// [`Cursor`](io::Cursor) over lent bytes cannot change. [`fits`] is the same check of a reader that cannot seek, as a pipe.
pub fn check<I: Read + Seek>(recording: impl Read, mut index: I) -> Result<Checked<I>, Error> {
    let start = index.stream_position().map_err(Error::Index)?;
    let written = fits(recording, &mut index)?;
    Ok(Checked { index, start, written })
}

/// An index that was found to be that of its recording. Only [`check`] makes one.
#[derive(Debug)]
pub struct Checked<I> {
    index: I,
    /// Where the index begins in what holds it.
    start: u64,
    written: Written,
}

impl<I> Checked<I> {
    /// The number of its records, and how far it goes.
    pub fn written(&self) -> Written {
        self.written
    }

    /// Gives the index back.
    pub fn into_inner(self) -> I {
        self.index
    }
}

impl<I: Read + Seek> Checked<I> {
    /// The cue of number `k`, from 0, or none where the index has no such record: 11 of document 01.
    ///
    /// The record is read anew. One that can be in no index any more is an error; any other change since the check is not seen.
    pub fn cue(&mut self, k: u64) -> Result<Option<Cue>, Error> {
        if self.written.records <= k {
            return Ok(None);
        }
        self.read_cue(k).map(Some).map_err(Error::Index)
    }

    fn read_cue(&mut self, k: u64) -> io::Result<Cue> {
        let mut entry = [0; ENTRY];
        self.index.seek(SeekFrom::Start(self.start + ENTRY as u64 * k))?;
        self.index.read_exact(&mut entry)?;
        let mut offset = 0;
        let answer = boundary::cue(&entry, 0, &mut offset);
        match answer >> 56 {
            0 => Ok(Cue { offset, length: answer as u32, records: (answer >> 32) as u32 }),
            _ => Err(io::Error::new(io::ErrorKind::InvalidData, "a record was changed after the check")),
        }
    }
}

/// Checks an index as [`check`] does, and answers how far it goes; nothing can be looked up by that. It reads the index to its end beside
/// the one that is written afresh, which has to be the same.
pub fn fits(recording: impl Read, mut index: impl Read) -> Result<Written, Error> {
    let mut given = vec![0; PART];
    let mut record = 0;
    let written = walk(recording, |fresh| {
        for part in fresh.chunks(PART) {
            let many = read_up_to(&mut index, &mut given[..part.len()]).map_err(Error::Index)?;
            record = settle(boundary::index_check_step(part, &given[..many], record))?;
        }
        Ok(())
    })?;
    // One byte more would be one too many.
    let extra = read_up_to(&mut index, &mut given[..1]).map_err(Error::Index)?;
    settle(boundary::index_check_step(&[], &given[..extra], record))?;
    Ok(written)
}

/// The number of the next record, if those that were checked are right.
fn settle(answer: u64) -> Result<u64, Error> {
    let record = answer & 0xFF_FFFF_FFFF_FFFF;
    match (answer >> 56) as u8 {
        0 => Ok(record),
        INDEX_DIFFERS => Err(Error::Differs { record }),
        _ => Err(Error::TooLong),
    }
}

/// Hands over the records of the recording's index, those of a buffer at a time, and answers how far it goes.
fn walk(mut recording: impl Read, mut each: impl FnMut(&[u8]) -> Result<(), Error>) -> Result<Written, Error> {
    let (mut buffer, mut out) = (vec![0; LONGEST], vec![0; MOST_ENTRIES * ENTRY]);
    let (mut kept, mut records, mut end) = (0, 0, 0);
    loop {
        // Every frame is shorter than the buffer, so that one which is not all there leaves room.
        let many = read_some(&mut recording, &mut buffer[kept..]).map_err(Error::Recording)?;
        if many == 0 {
            let stop = if kept == 0 { Stop::Whole } else { Stop::Waiting };
            return Ok(Written { records, end, stop });
        }
        let (bytes, mut more) = (&buffer[..kept + many], 0);
        let answer = boundary::index_step(bytes, end, &mut out, &mut more);
        if answer >> 56 != 0 {
            // The output has room for every record, so it is the recording that is too long.
            return Err(Error::TooLong);
        }
        let (count, used) = ((answer >> 32) as usize, answer as u32 as usize);
        each(&out[..count * ENTRY])?;
        records += count as u64;
        let refused = boundary::ended(more, used).map(|stop| Ended::new(stop, end));
        end += used as u64;
        if let Some(ended) = refused {
            return Ok(Written { records, end, stop: Stop::Refused(ended) });
        }
        kept = bytes.len() - used;
        if used > 0 {
            buffer.copy_within(used..used + kept, 0);
        }
    }
}

/// The next bytes, as many as come at once; none at the end.
fn read_some(from: &mut impl Read, buffer: &mut [u8]) -> io::Result<usize> {
    loop {
        match from.read(buffer) {
            Err(error) if error.kind() == io::ErrorKind::Interrupted => {}
            other => return other,
        }
    }
}

/// The next bytes, as many as there is room for, or fewer at the end.
fn read_up_to(from: &mut impl Read, buffer: &mut [u8]) -> io::Result<usize> {
    let mut many = 0;
    while many < buffer.len() {
        match read_some(from, &mut buffer[many..])? {
            0 => break,
            more => many += more,
        }
    }
    Ok(many)
}
