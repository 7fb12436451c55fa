//! What the port must answer, from what the crate gives and document 01's limits.

use crate::ask::{Asked, Call, Due};
use crate::fields::{self, Dirty, Fault};
use crate::met::{Rule, Seen};
use crate::oracle::{self, Depth, Told};
use crate::padding;
use crate::rules;
use crate::standard;
use crate::table::{word, Reader, RECORD};
use crate::walk::{self, Lost};
use rosc::encoder;

/// The longest input and result.
pub const LONGEST: usize = 65_535;
/// The deepest nesting of bundles and arrays together.
pub const DEEPEST: u64 = 64;

/// What is made of an input: the number of its refusal or 0, what is said beside it, how deep the crate's packets are, the bytes
/// left over, how deep what it lost would be, and the rules that were at work. Beside a refusal it is said where a field began that
/// was short, and beside packets how many bytes of padding are not zero.
#[derive(Default)]
pub struct Found {
    pub refusal: u8,
    more: u64,
    pub depth: Depth,
    pub left: usize,
    lost: Lost,
    seen: Seen,
}

/// Asks the crate to decode; the table of its packets goes to `table`. Where it refuses, the reader of fields says what was short.
pub fn find(call: Call, input: &[u8], table: &mut Vec<u8>) -> Found {
    table.clear();
    let mut seen = Seen::default();
    let (read, dirty) = fields::read(call, input);
    match oracle::decode(call, input, &mut seen) {
        Told::Refused(class) => {
            let (fault, frame) = read.expect_err("an input that the crate refuses");
            assert_eq!(fault.class(), class, "the reader of fields and the crate refuse otherwise: {input:02X?}");
            short(fault, frame, &mut seen);
            seen.note_if(Rule::DirtyRefused, dirty.bytes > 0);
            Found { refusal: fault.number(), more: fault.more(), seen, ..Found::default() }
        }
        Told::Waiting => {
            assert_eq!(read, Ok(input.len()), "the crate waits, and the reader of fields does not: {input:02X?}");
            seen.note(Rule::WaitingFirst);
            Found { left: input.len(), seen, ..Found::default() }
        }
        Told::Packets(packets, left) => {
            assert_eq!(read, Ok(left), "the reader of fields reads otherwise than the crate: {input:02X?}");
            let prefix = if call == Call::Udp { 0 } else { 4 };
            let lost = walk::table(input, prefix, &packets, left, table, &mut seen);
            let more = padding(input, prefix, table, dirty, &mut seen);
            let waits = call == Call::TcpVec && left > 0;
            seen.note_if(Rule::WaitingFirst, packets.is_empty());
            seen.note_if(Rule::WaitingLater, waits && !packets.is_empty());
            seen.note_if(Rule::DirtyWaiting, waits && more > 0);
            Found { more, depth: oracle::depth(&packets), left, lost, seen, ..Found::default() }
        }
    }
}

/// What is said beside packets: the bytes of padding that are not zero, counted over their table. The reader of fields, which does
/// not know the packets, has to have found as many.
fn padding(input: &[u8], prefix: usize, table: &[u8], read: Dirty, seen: &mut Seen) -> u64 {
    let bytes = padding::dirty(input, prefix, table, 0, seen);
    assert_eq!(read.bytes, bytes, "the reader of fields finds other padding than the packets have: {input:02X?}");
    seen.add(read.seen);
    bytes as u64
}

/// Notes what was short.
fn short(fault: Fault, frame: usize, seen: &mut Seen) {
    let Fault::Short { at, what, .. } = fault else { return };
    seen.note(what.rule);
    if let Some(of) = what.of {
        seen.note(of);
    }
    seen.note_if(Rule::ShortLaterPrefix, frame > 0 && at == frame);
    seen.note_if(Rule::ShortLater, frame > 0 && at > frame);
    seen.note_if(Rule::ShortLaterOdd, !frame.is_multiple_of(4) && at > frame);
}

/// What a decoder must answer, in order: 13, 1, the crate's refusal, 9, 10, the crate's table, which is in `due` already.
pub fn decode(asked: &Asked, found: &Found, due: &mut Due, seen: &mut Seen) {
    let (limit, count) = (asked.number, due.wrote.len() / RECORD);
    seen.note_if(Rule::Input65535, asked.first.len() == LONGEST);
    seen.note_if(Rule::Input65536, asked.first.len() == LONGEST + 1);
    if limit > DEEPEST {
        due.refuse(13);
    } else if asked.first.len() > LONGEST {
        due.refuse(1);
    } else if found.refusal > 0 {
        seen.add(found.seen);
        due.refuse(found.refusal);
        due.more = found.more;
    } else if found.depth.both > limit {
        too_deep(found.depth, limit, seen);
        seen.note_if(Rule::DirtyDeep, found.more > 0);
        due.refuse(9);
    } else if count > asked.room / RECORD {
        seen.note_if(Rule::CapacityLess, count == asked.room / RECORD + 1);
        seen.note_if(Rule::DirtyFull, found.more > 0);
        due.refuse(10);
    } else {
        seen.add(found.seen);
        deep_enough(found, limit, seen);
        seen.note_if(Rule::CapacityExact, count == asked.room / RECORD && count > 0);
        due.answer = ((count as u64) << 32) | found.left as u64;
        due.more = found.more;
    }
}

/// Notes what made packets too deep for a decoder: arrays, or bundles and arrays where neither would alone.
fn too_deep(depth: Depth, limit: u64, seen: &mut Seen) {
    seen.note_if(Rule::DepthOver, depth.both == limit + 1);
    seen.note_if(Rule::DeepArrays, depth.arrays > limit && depth.bundles <= limit);
    seen.note_if(Rule::DeepBoth, depth.arrays <= limit && depth.bundles <= limit);
    seen.note_if(depth.told([Rule::Bundles65, Rule::Arrays65, Rule::Both65]), depth.both == 65 && limit == DEEPEST);
}

/// Notes what reached the limit of a decoder that accepts, and what would have passed it but is lost, and so does not count.
fn deep_enough(found: &Found, limit: u64, seen: &mut Seen) {
    let depth = found.depth;
    seen.note_if(depth.told([Rule::BundlesAt, Rule::ArraysAt, Rule::BothAt]), depth.both == limit && limit > 0);
    seen.note_if(depth.told([Rule::Bundles64, Rule::Arrays64, Rule::Both64]), depth.both == DEEPEST);
    seen.note_if(Rule::LostDeep, found.lost.arrays > limit);
    seen.note_if(Rule::OpenDeep, found.lost.open > limit);
}

/// What an encoder must write where the room is ample: the crate's bytes in `due`, or a refusal, in order 11, 9, 1.
pub fn encode(asked: &Asked, due: &mut Due, seen: &mut Seen) {
    due.answer = 0;
    due.more = 0;
    due.wrote.clear();
    if let Err(rule) = rules::well_formed(&asked.first, asked.number, &asked.second) {
        seen.note(rule);
        return due.refuse(11);
    }
    let packet = Reader { table: &asked.first, source: &asked.second }.packet(0);
    let depth = oracle::depth([&packet]);
    let (at, over) = (
        [Rule::EncodeBundles64, Rule::EncodeArrays64, Rule::EncodeBoth64],
        [Rule::EncodeBundles65, Rule::EncodeArrays65, Rule::EncodeBoth65],
    );
    seen.note_if(depth.told(at), depth.both == DEEPEST);
    seen.note_if(depth.told(over), depth.both == DEEPEST + 1);
    if depth.both > DEEPEST {
        seen.note_if(Rule::EncodeThousand, depth.arrays >= 1000);
        return due.refuse(9);
    }
    let bytes = if asked.call == Call::EncodeTcp { encoder::encode_tcp(&packet) } else { encoder::encode(&packet) };
    due.wrote = bytes.expect("the crate encodes every packet");
    if asked.call == Call::EncodeTcp2 {
        standard::put_length(&packet, &mut due.wrote, seen);
    }
    not_too_long(due, seen);
}

/// What `encode_string` must write where the room is ample: 4, 1, the crate's bytes.
pub fn encode_string(asked: &Asked, due: &mut Due, seen: &mut Seen) {
    due.answer = 0;
    due.more = 0;
    due.wrote.clear();
    match std::str::from_utf8(&asked.first) {
        Ok(text) => due.wrote = encoder::encode_string(text),
        Err(error) => {
            seen.note(oracle::utf8_rule(&asked.first, error.valid_up_to()));
            return due.refuse(4);
        }
    }
    not_too_long(due, seen);
}

fn not_too_long(due: &mut Due, seen: &mut Seen) {
    seen.note_if(Rule::Result65532, due.wrote.len() == LONGEST - 3);
    seen.note_if(Rule::Result65536, due.wrote.len() == LONGEST + 1);
    if due.wrote.len() > LONGEST {
        due.refuse(1);
    }
}

/// The last test of the encoders: 12 where the room is short.
pub fn fit(asked: &Asked, due: &mut Due, seen: &mut Seen) {
    if due.answer != 0 {
        return;
    }
    let length = due.wrote.len();
    seen.note_if(Rule::OutputExact, length == asked.room);
    seen.note_if(Rule::OutputLess, length == asked.room + 1);
    if length > asked.room {
        due.refuse(12);
    } else {
        due.answer = length as u64;
    }
}

/// What `pad` must answer: the crate's, and 14 where the crate overflows.
pub fn pad(asked: &Asked, due: &mut Due, seen: &mut Seen) {
    due.more = 0;
    due.wrote.clear();
    let last = u64::MAX - 3;
    seen.note_if(Rule::PadTop, asked.number <= last && asked.number > last - 16);
    due.answer = if asked.number > last { 14 } else { encoder::pad(asked.number) };
}

/// What `start` must answer: the last number of a record, whatever else it says, and 11 where there is no such record.
pub fn start(asked: &Asked, due: &mut Due, seen: &mut Seen) {
    due.more = 0;
    due.wrote.clear();
    match asked.first.chunks_exact(RECORD).nth(asked.number as usize) {
        Some(record) => due.answer = word(record, 16) as u64,
        None => {
            seen.note(Rule::StartIndex);
            due.refuse(11);
        }
    }
}

/// What `look` must answer.
pub fn look(asked: &Asked, due: &mut Due, seen: &mut Seen) {
    due.more = 0;
    due.wrote.clear();
    match rules::look(&asked.first, asked.number) {
        Ok(kind) => due.answer = kind as u64,
        Err(rule) => {
            seen.note(rule);
            due.refuse(11);
        }
    }
}
