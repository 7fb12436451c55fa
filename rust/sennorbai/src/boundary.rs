//! The static library's functions as they are, over lent slices: what include/osc.h declares. The only unsafe code.
//!
//! A decoder's answer has the refusal's number in bits 56 to 63 (0 where there is an answer), the count of records in bits 32
//! to 55 and the input bytes left over in bits 0 to 31; Waiting is count 0 with the whole input left. A decoder also writes more,
//! in every case: for the refusals 17 to 21 bits 32 to 47 are where the field began that was short; where there is an answer bits
//! 0 to 31 are the number of padding bytes that were not zero, and none are told for Waiting; all else is 0. An encoder's answer
//! has the refusal's number and, in bits 0 to 31, the bytes written.
//!
//! A list of edition 2 that a refused frame ends has all of it: the refusal's number, the count of records before the frame, the
//! bytes left over from its prefix on, at least 4, and as more the padding bytes of those packets, where a field began and, in bits
//! 48 to 63, the offset of the frame's prefix. Of a call that is refused count and bytes left are 0, and that tells the two apart.
//!
//! A step over a stream has in bits 0 to 31 of its answer the bytes that were used, and in bits 56 to 63 only a refusal of the call. As
//! more it has the number of a refused frame's refusal in bits 48 to 63, and in bits 32 to 47 where a field began: that frame stands right
//! after the used bytes.
//!
//! A step that writes a cue index has in bits 32 to 55 the records written and in bits 0 to 31 the bytes used; as more it has 1 where
//! the next frame is not all there, and of a refused one what a step over a stream has. A check has in bits 0 to 55 the number of
//! the next record, or that of the first that differs with 25 in bits 56 to 63. A cue has its records in bits 32 to 55 and its length in
//! bits 0 to 31, and its offset beside it.
//!
//! A time tag is one number here, with its seconds in bits 32 to 63 and its fractions in bits 0 to 31. What a conversion writes beside its
//! answer it writes in every case, and 0 where it is refused.
//!
//! The functions of the crate's root take these answers apart and are what a program should call.
#![allow(unsafe_code)]

use crate::edition::Edition;
use crate::limits::RECORD;
use crate::refusal::Refusal;
use crate::value::{Color, Midi, Time, Value};

mod c {
    extern "C" {
        pub fn osc_decode_udp(
            msg: *const u8,
            len: usize,
            table: *mut u8,
            table_len: usize,
            depth: u64,
            more: *mut u64,
        ) -> u64;
        pub fn osc_decode_tcp(
            msg: *const u8,
            len: usize,
            table: *mut u8,
            table_len: usize,
            depth: u64,
            more: *mut u64,
        ) -> u64;
        pub fn osc_decode_tcp_vec(
            msg: *const u8,
            len: usize,
            table: *mut u8,
            table_len: usize,
            depth: u64,
            more: *mut u64,
        ) -> u64;
        pub fn osc_decode_tcp2(
            msg: *const u8,
            len: usize,
            table: *mut u8,
            table_len: usize,
            depth: u64,
            more: *mut u64,
        ) -> u64;
        pub fn osc_decode_tcp_vec2(
            msg: *const u8,
            len: usize,
            table: *mut u8,
            table_len: usize,
            depth: u64,
            more: *mut u64,
        ) -> u64;
        pub fn osc_read_portion(
            bytes: *const u8,
            len: usize,
            table: *mut u8,
            table_len: usize,
            depth: u64,
            more: *mut u64,
        ) -> u64;
        #[rustfmt::skip]
        pub fn osc_index_step(bytes: *const u8, len: usize, base: u64, out: *mut u8, out_len: usize, more: *mut u64) -> u64;
        #[rustfmt::skip]
        pub fn osc_index_check_step(
            fresh: *const u8,
            fresh_len: usize,
            given: *const u8,
            given_len: usize,
            from: u64,
        ) -> u64;
        pub fn osc_cue(index: *const u8, len: usize, k: u64, offset: *mut u64) -> u64;
        #[rustfmt::skip]
        pub fn osc_encode(
            table: *const u8,
            table_len: usize,
            count: u64,
            source: *const u8,
            source_len: usize,
            out: *mut u8,
            out_len: usize,
        ) -> u64;
        #[rustfmt::skip]
        pub fn osc_encode_tcp(
            table: *const u8,
            table_len: usize,
            count: u64,
            source: *const u8,
            source_len: usize,
            out: *mut u8,
            out_len: usize,
        ) -> u64;
        #[rustfmt::skip]
        pub fn osc_encode_tcp2(
            table: *const u8,
            table_len: usize,
            count: u64,
            source: *const u8,
            source_len: usize,
            out: *mut u8,
            out_len: usize,
        ) -> u64;
        pub fn osc_encode_string(text: *const u8, len: usize, out: *mut u8, out_len: usize) -> u64;
        pub fn osc_pad(pos: u64) -> u64;
        pub fn osc_look(table: *const u8, table_len: usize, index: u64) -> u64;
        pub fn osc_start(table: *const u8, table_len: usize, index: u64) -> u64;
        pub fn osc_tag_a(seconds: i64, nanos: u64, tag: *mut u64) -> u64;
        pub fn osc_tag_b(seconds: i64, nanos: u64, tag: *mut u64) -> u64;
        pub fn osc_unix_a(tag: u64, seconds: *mut i64) -> u64;
        pub fn osc_unix_b(tag: u64, seconds: *mut i64) -> u64;
        pub fn osc_shift(tag: u64, by: u64) -> u64;
        pub fn osc_difference(tag: u64, old: u64) -> i64;
        pub fn osc_shift_table(table: *mut u8, table_len: usize, count: u64, by: u64) -> u64;
        pub fn osc_version() -> u64;
    }
}

// What every call of `c` below rests on: a slice's pointer and length name bytes that live through the call; what may be written is lent
// by `&mut`, so nothing else names it; and the functions keep no pointer and are proved for every input.

/// `osc_decode_udp`: one packet from all of a UDP packet.
pub fn decode_udp(msg: &[u8], table: &mut [u8], depth: u64, more: &mut u64) -> u64 {
    // SAFETY: `msg` is read within its length; `table` is written within its length and `more` is one number, each lent alone.
    unsafe { c::osc_decode_udp(msg.as_ptr(), msg.len(), table.as_mut_ptr(), table.len(), depth, more) }
}

/// `osc_decode_tcp`: the first packet of a TCP stream.
pub fn decode_tcp(msg: &[u8], table: &mut [u8], depth: u64, more: &mut u64) -> u64 {
    // SAFETY: `msg` is read within its length; `table` is written within its length and `more` is one number, each lent alone.
    unsafe { c::osc_decode_tcp(msg.as_ptr(), msg.len(), table.as_mut_ptr(), table.len(), depth, more) }
}

/// `osc_decode_tcp_vec`: the packets of a TCP stream.
pub fn decode_tcp_vec(msg: &[u8], table: &mut [u8], depth: u64, more: &mut u64) -> u64 {
    // SAFETY: `msg` is read within its length; `table` is written within its length and `more` is one number, each lent alone.
    unsafe { c::osc_decode_tcp_vec(msg.as_ptr(), msg.len(), table.as_mut_ptr(), table.len(), depth, more) }
}

/// `osc_decode_tcp2`: the first packet of a TCP stream, by edition 2.
pub fn decode_tcp2(msg: &[u8], table: &mut [u8], depth: u64, more: &mut u64) -> u64 {
    // SAFETY: `msg` is read within its length; `table` is written within its length and `more` is one number, each lent alone.
    unsafe { c::osc_decode_tcp2(msg.as_ptr(), msg.len(), table.as_mut_ptr(), table.len(), depth, more) }
}

/// `osc_decode_tcp_vec2`: the packets of a TCP stream, by edition 2.
pub fn decode_tcp_vec2(msg: &[u8], table: &mut [u8], depth: u64, more: &mut u64) -> u64 {
    // SAFETY: `msg` is read within its length; `table` is written within its length and `more` is one number, each lent alone.
    unsafe { c::osc_decode_tcp_vec2(msg.as_ptr(), msg.len(), table.as_mut_ptr(), table.len(), depth, more) }
}

/// `osc_read_portion`: the packets of the whole frames among `bytes`, which were kept of a TCP stream and came after that, by edition 2.
pub fn read_portion(bytes: &[u8], table: &mut [u8], depth: u64, more: &mut u64) -> u64 {
    // SAFETY: `bytes` is read within its length; `table` is written within its length and `more` is one number, each lent alone.
    unsafe { c::osc_read_portion(bytes.as_ptr(), bytes.len(), table.as_mut_ptr(), table.len(), depth, more) }
}

/// `osc_index_step`: the cue index of the whole frames among `bytes`, which stand at offset `base` of a recording in edition 2.
pub fn index_step(bytes: &[u8], base: u64, out: &mut [u8], more: &mut u64) -> u64 {
    // SAFETY: `bytes` is read within its length; `out` is written within its length and `more` is one number, each lent alone.
    unsafe { c::osc_index_step(bytes.as_ptr(), bytes.len(), base, out.as_mut_ptr(), out.len(), more) }
}

/// `osc_index_check_step`: the records written afresh against as many bytes of an index, of which the first is number `record`.
pub fn index_check_step(fresh: &[u8], given: &[u8], record: u64) -> u64 {
    // SAFETY: `fresh` and `given` are read within their lengths.
    unsafe { c::osc_index_check_step(fresh.as_ptr(), fresh.len(), given.as_ptr(), given.len(), record) }
}

/// `osc_cue`: the record of number `k` in an index.
pub fn cue(index: &[u8], k: u64, offset: &mut u64) -> u64 {
    // SAFETY: `index` is read within its length; `offset` is one number, lent alone.
    unsafe { c::osc_cue(index.as_ptr(), index.len(), k, offset) }
}

/// `osc_encode`: the packet of `count` records.
pub fn encode(table: &[u8], count: u64, source: &[u8], out: &mut [u8]) -> u64 {
    // SAFETY: `table` and `source` are read within their lengths; `out` is written within its length, lent alone.
    unsafe { c::osc_encode(table.as_ptr(), table.len(), count, source.as_ptr(), source.len(), out.as_mut_ptr(), out.len()) }
}

/// `osc_encode_tcp`: the same for a stream; a length stands before a message and none before a bundle.
pub fn encode_tcp(table: &[u8], count: u64, source: &[u8], out: &mut [u8]) -> u64 {
    // SAFETY: `table` and `source` are read within their lengths; `out` is written within its length, lent alone.
    unsafe {
        c::osc_encode_tcp(table.as_ptr(), table.len(), count, source.as_ptr(), source.len(), out.as_mut_ptr(), out.len())
    }
}

/// `osc_encode_tcp2`: the same by edition 2; a length stands before either.
pub fn encode_tcp2(table: &[u8], count: u64, source: &[u8], out: &mut [u8]) -> u64 {
    // SAFETY: `table` and `source` are read within their lengths; `out` is written within its length, lent alone.
    unsafe {
        c::osc_encode_tcp2(table.as_ptr(), table.len(), count, source.as_ptr(), source.len(), out.as_mut_ptr(), out.len())
    }
}

/// `osc_encode_string`: a text with its 1 to 4 NULs.
pub fn encode_string(text: &[u8], out: &mut [u8]) -> u64 {
    // SAFETY: `text` is read within its length; `out` is written within its length, lent alone.
    unsafe { c::osc_encode_string(text.as_ptr(), text.len(), out.as_mut_ptr(), out.len()) }
}

/// `osc_pad`: the next multiple of 4, or 14, which is none, for a position over 2^64 - 4.
pub fn pad(pos: u64) -> u64 {
    // SAFETY: no pointer is given, and every number has an answer.
    unsafe { c::osc_pad(pos) }
}

/// `osc_look`: the kind of a record in the low byte; bits 56 to 63 are the refusal's number.
pub fn look(table: &[u8], index: u64) -> u64 {
    // SAFETY: `table` is read within its length.
    unsafe { c::osc_look(table.as_ptr(), table.len(), index) }
}

/// `osc_start`: where the item of a record begins, in bits 0 to 31; bits 56 to 63 are the refusal's number.
pub fn start(table: &[u8], index: u64) -> u64 {
    // SAFETY: `table` is read within its length.
    unsafe { c::osc_start(table.as_ptr(), table.len(), index) }
}

/// `osc_shift_table`: how many time tags the first `count` records have, now shifted, in bits 0 to 31; bits 56 to 63 are the refusal's
/// number.
pub fn shift_table(table: &mut [u8], count: u64, by: u64) -> u64 {
    // SAFETY: `table` is read and written within its length, lent alone.
    unsafe { c::osc_shift_table(table.as_mut_ptr(), table.len(), count, by) }
}

/// `osc_tag_a`: the time tag of a Unix time by rule A, as one number, in `tag`; bits 56 to 63 of the answer are the refusal's number.
pub fn tag_a(seconds: i64, nanos: u64, tag: &mut u64) -> u64 {
    // SAFETY: `tag` is one number, lent alone.
    unsafe { c::osc_tag_a(seconds, nanos, tag) }
}

/// `osc_tag_b`: the same by rule B.
pub fn tag_b(seconds: i64, nanos: u64, tag: &mut u64) -> u64 {
    // SAFETY: `tag` is one number, lent alone.
    unsafe { c::osc_tag_b(seconds, nanos, tag) }
}

/// `osc_unix_a`: the Unix time of a time tag by rule A: its nanoseconds in bits 0 to 31, or the refusal's number in bits 56 to 63.
pub fn unix_a(tag: u64, seconds: &mut i64) -> u64 {
    // SAFETY: `seconds` is one number, lent alone.
    unsafe { c::osc_unix_a(tag, seconds) }
}

/// `osc_unix_b`: the same by rule B.
pub fn unix_b(tag: u64, seconds: &mut i64) -> u64 {
    // SAFETY: `seconds` is one number, lent alone.
    unsafe { c::osc_unix_b(tag, seconds) }
}

/// `osc_shift`: a time tag moved on by so many fractions, modulo 2^64.
pub fn shift(tag: u64, by: u64) -> u64 {
    // SAFETY: no pointer is given, and every number has an answer.
    unsafe { c::osc_shift(tag, by) }
}

/// `osc_difference`: how many fractions a time tag is after an old one, around the wrap.
pub fn difference(tag: u64, old: u64) -> i64 {
    // SAFETY: no pointer is given, and every number has an answer.
    unsafe { c::osc_difference(tag, old) }
}

/// `osc_version`: the major in bits 32 to 47, the minor in bits 16 to 31 and the patch in bits 0 to 15.
pub fn version() -> u64 {
    // SAFETY: nothing is given.
    unsafe { c::osc_version() }
}

/// The decoders.
pub(crate) enum Decoder {
    Udp,
    Tcp(Edition),
    TcpVec(Edition),
}

/// What a decoder gives: records, the number of input bytes left over, that of padding bytes that were not zero, and the refused
/// frame that ended a list.
pub(crate) struct Given<'a> {
    pub nodes: Nodes<'a>,
    pub left: usize,
    pub dirty: usize,
    pub stopped: Option<Stop>,
}

/// A refused frame that ended a list or an index: why, and the offset of its prefix. Both offsets are the call's.
#[derive(Clone, Copy)]
pub(crate) struct Stop {
    pub refusal: Refusal,
    pub frame: usize,
}

/// The refused frame after the bytes that a step has used, by what the step has said beside its answer.
pub(crate) fn ended(more: u64, used: usize) -> Option<Stop> {
    match (more >> 48) as u8 {
        0 => None,
        number => Some(Stop { refusal: Refusal::of(number, (more >> 32) as u16 as u32), frame: used }),
    }
}

/// The records of well-formed trees, one after another, and the bytes that their ranges lie in.
///
/// The three constructors are the only ones: each asks the library, and its contract is what `value` rests on. Nothing can write
/// to the slices while this value lives.
#[derive(Clone, Copy)]
pub(crate) struct Nodes<'a> {
    records: &'a [[u8; RECORD]],
    source: &'a [u8],
}

impl<'a> Nodes<'a> {
    /// What a decoder gives.
    #[inline]
    pub fn decode(by: Decoder, msg: &'a [u8], table: &'a mut [u8], depth: u64) -> Result<Given<'a>, Refusal> {
        let mut more = 0;
        let answer = match by {
            Decoder::Udp => decode_udp(msg, table, depth, &mut more),
            Decoder::Tcp(Edition::Rosc) => decode_tcp(msg, table, depth, &mut more),
            Decoder::Tcp(Edition::Standard) => decode_tcp2(msg, table, depth, &mut more),
            Decoder::TcpVec(Edition::Rosc) => decode_tcp_vec(msg, table, depth, &mut more),
            Decoder::TcpVec(Edition::Standard) => decode_tcp_vec2(msg, table, depth, &mut more),
        };
        let (count, left) = ((answer >> 32) as usize & 0xFF_FFFF, answer as u32 as usize);
        let stopped = match Refusal::settle(answer, more) {
            Ok(_) => None,
            // Only of a list that has stopped are bytes left beside a refusal.
            Err(refusal) if left > 0 => Some(Stop { refusal, frame: (more >> 48) as usize }),
            Err(refusal) => return Err(refusal),
        };
        let nodes = Nodes { records: &table.as_chunks().0[..count], source: msg };
        Ok(Given { nodes, left, dirty: more as u32 as usize, stopped })
    }

    /// What a step over a stream gives.
    pub fn portion(bytes: &'a [u8], table: &'a mut [u8], depth: u64) -> Result<Given<'a>, Refusal> {
        let mut more = 0;
        let answer = Refusal::settle(read_portion(bytes, table, depth, &mut more), 0)?;
        let (count, used) = ((answer >> 32) as usize, answer as u32 as usize);
        let nodes = Nodes { records: &table.as_chunks().0[..count], source: bytes };
        Ok(Given { nodes, left: bytes.len() - used, dirty: more as u32 as usize, stopped: ended(more, used) })
    }

    /// A table from anywhere, if it is well formed. The encoder's first test is that, and 11 is given for nothing else; with no
    /// room to write to it ends in another refusal.
    pub fn check(table: &'a [u8], count: usize, source: &'a [u8]) -> Result<Nodes<'a>, Refusal> {
        match Refusal::settle(encode(table, count as u64, source, &mut []), 0) {
            Err(Refusal::BadTable) => Err(Refusal::BadTable),
            _ => Ok(Nodes { records: &table.as_chunks().0[..count], source }),
        }
    }

    /// The records as bytes.
    pub fn bytes(self) -> &'a [u8] {
        self.records.as_flattened()
    }

    /// The bytes that the ranges lie in.
    pub fn source(self) -> &'a [u8] {
        self.source
    }

    /// The number of records.
    #[inline]
    pub fn count(self) -> usize {
        self.records.len()
    }

    /// The kind of a record.
    #[inline]
    pub fn kind(self, index: usize) -> u8 {
        self.records[index][0]
    }

    /// The index of the first record after a node and all that it contains.
    #[inline]
    pub fn end(self, index: usize) -> usize {
        let [_, _, _, _, e, f, g, h, ..] = self.records[index];
        u32::from_be_bytes([e, f, g, h]) as usize
    }

    /// Where the item of a record began. No rule of a well-formed tree is about it.
    #[inline]
    pub fn start(self, index: usize) -> usize {
        let [.., e, f, g, h] = self.records[index];
        u32::from_be_bytes([e, f, g, h]) as usize
    }

    /// What a record says.
    #[inline]
    pub fn value(self, index: usize) -> Value<'a> {
        let [kind, _, _, _, _, _, _, _, p, q, r, s, t, u, v, w, ..] = self.records[index];
        let (a, b) = (u32::from_be_bytes([p, q, r, s]), u32::from_be_bytes([t, u, v, w]));
        let long = (a as u64) << 32 | b as u64;
        match kind {
            // SAFETY: the records are of well-formed trees, so the range of a `/` lies in `source` and is valid UTF-8.
            b'/' => Value::Message(unsafe { self.text(a, b) }),
            // SAFETY: so does that of an `s`, and so is it.
            b's' => Value::Text(unsafe { self.text(a, b) }),
            // SAFETY: the range of a `b` lies in `source`.
            b'b' => Value::Blob(unsafe { self.part(a, b) }),
            // SAFETY: the number of a `c` in a well-formed tree is a scalar number.
            b'c' => Value::Char(unsafe { char::from_u32_unchecked(a) }),
            b'#' => Value::Bundle(Time { seconds: a, fractional: b }),
            b't' => Value::Time(Time { seconds: a, fractional: b }),
            b'i' => Value::Int(a as i32),
            b'f' => Value::Float(f32::from_bits(a)),
            b'h' => Value::Long(long as i64),
            b'd' => Value::Double(f64::from_bits(long)),
            b'r' => Value::Color(Color { red: p, green: q, blue: r, alpha: s }),
            b'm' => Value::Midi(Midi { port: p, status: q, data1: r, data2: s }),
            b'T' => Value::Bool(true),
            b'F' => Value::Bool(false),
            b'N' => Value::Nil,
            b'I' => Value::Inf,
            // The only kind left is `[`.
            _ => Value::Array,
        }
    }

    /// The bytes of a range.
    ///
    /// # Safety
    ///
    /// The range lies in the source.
    #[inline]
    unsafe fn part(self, offset: u32, length: u32) -> &'a [u8] {
        let from = offset as usize;
        // SAFETY: the caller says that the range lies in the source.
        unsafe { self.source.get_unchecked(from..from + length as usize) }
    }

    /// The text of a range.
    ///
    /// # Safety
    ///
    /// The range lies in the source and is valid UTF-8.
    #[inline]
    unsafe fn text(self, offset: u32, length: u32) -> &'a str {
        // SAFETY: the caller says that the range lies in the source and is valid UTF-8.
        unsafe { core::str::from_utf8_unchecked(self.part(offset, length)) }
    }
}
