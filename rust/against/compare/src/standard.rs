//! Edition 2 of TCP framing: what its calls must answer, by Ticket 1 and its readings alone. The crate does not have it. A loop of its
//! own cuts the stream, and each frame goes to the crate with nothing after it: there is no byte that a bundle could take, and padding
//! counts from the prefix, so what the crate makes of it is what edition 2 has to. Fields, padding and places are found as for edition
//! 1, and the limits are kept frame by frame.

use crate::ask::{Asked, Call, Due};
use crate::fields::{self, Fault};
use crate::judge::{DEEPEST, LONGEST};
use crate::met::{Rule, Seen};
use crate::oracle::{self, Depth, Told};
use crate::random::Random;
use crate::table::{word, RECORD};
use crate::{padding, walk};
use rosc::{decoder, OscPacket};

/// The highest length: with its prefix a frame is not longer than an input.
const HIGHEST: usize = LONGEST - 4;
/// Up to so many bytes the crate is asked what it would take of them uncut.
const ASKED: usize = 2048;

/// A frame whose packet is read, limits apart: how deep it is, and the records and the dirty padding of all packets up to it.
#[derive(Clone, Copy, Debug)]
struct Frame {
    at: usize,
    depth: Depth,
    records: usize,
    dirty: usize,
}

/// A frame that is refused, limits apart: its number, and where a field began that was short, or 0. Beside that, whether it has dirty
/// padding, how deep it is where it has bytes left, and the records of the frame after it where that one is read.
#[derive(Clone, Copy, Debug, Default)]
struct Refused {
    number: u8,
    field: usize,
    dirty: bool,
    deep: u64,
    after: Option<usize>,
}

/// The end of a frame whose packet is read, with the records and the dirty padding of all packets up to it.
#[derive(Clone, Copy, Debug, Default)]
pub struct Mark {
    pub at: usize,
    pub records: usize,
    pub dirty: usize,
}

/// The frames of a stream up to the first that is refused or not all there, which stands at `at`; and the rules that were at work.
#[derive(Debug, Default)]
pub struct Stream {
    frames: Vec<Frame>,
    at: usize,
    refused: Option<Refused>,
    seen: Seen,
}

/// Reads the frames of an input, of which only a list has more than one; their table goes to `table`. The whole input is refused where
/// it is too long, before any frame is read.
pub fn find(call: Call, input: &[u8], table: &mut Vec<u8>) -> Stream {
    table.clear();
    let mut stream = Stream::default();
    while input.len() <= LONGEST && stream.next(input, table) && call != Call::Tcp2 {}
    stream.look_after(input);
    note_kept(&mut stream, input, table);
    stream
}

impl Stream {
    /// Reads the frame at this place; whether there is one. In order: fewer than 4 bytes, 1, 16, Waiting, the packet.
    fn next(&mut self, input: &[u8], table: &mut Vec<u8>) -> bool {
        let rest = &input[self.at..];
        if rest.len() < 4 {
            return false;
        }
        let length = word(rest, 0) as usize;
        self.note_length(length, rest);
        if length > HIGHEST {
            return self.refuse(Refused { number: 1, ..Refused::default() });
        }
        if !length.is_multiple_of(4) {
            return self.refuse(Refused { number: 16, ..Refused::default() });
        }
        length <= rest.len() - 4 && self.packet(&input[..self.at + 4 + length], table)
    }

    /// Reads the packet of the frame, whose bytes end the input; whether there is one. In order: 2 to 8, 15.
    fn packet(&mut self, input: &[u8], table: &mut Vec<u8>) -> bool {
        let (from, frame) = (self.at, &input[self.at..]);
        let (read, dirty) = fields::read(Call::Tcp, frame);
        let refused = Refused { dirty: dirty.bytes > 0, ..Refused::default() };
        match oracle::decode(Call::Tcp, frame, &mut Seen::default()) {
            Told::Waiting => panic!("a frame that is all there, and the crate waits: {frame:02X?}"),
            Told::Refused(class) => {
                let (fault, _) = read.expect_err("a frame that the crate refuses");
                assert_eq!(fault.class(), class, "the reader of fields and the crate refuse otherwise: {frame:02X?}");
                self.seen.note_if(Rule::StdZero, frame.len() == 4);
                let field = if let Fault::Short { at, .. } = fault { from + at } else { 0 };
                self.refuse(Refused { number: fault.number(), field, ..refused })
            }
            Told::Packets(packets, left) => {
                assert_eq!(read, Ok(left), "the reader of fields reads otherwise than the crate: {frame:02X?}");
                if left == 0 {
                    return self.take(input, &packets, dirty.bytes, table);
                }
                let bundle = matches!(packets[..], [OscPacket::Bundle(_)]);
                self.seen.note(if bundle { Rule::StdLeftBundle } else { Rule::StdLeftMessage });
                self.refuse(Refused { number: 15, deep: oracle::depth(&packets).both, ..refused })
            }
        }
    }

    /// Takes the packet of the frame, in which the reader of fields has found so many bytes of dirty padding.
    fn take(&mut self, input: &[u8], packet: &[OscPacket], dirty: usize, table: &mut Vec<u8>) -> bool {
        let (before, mut seen) = (table.len(), Seen::default());
        walk::cut_frame(input, self.at, packet, table, &mut seen);
        let bytes = padding::dirty(input, 4, table, before, &mut seen);
        assert_eq!(dirty, bytes, "the reader of fields finds other padding than the packet has: {input:02X?}");
        self.note_packet(input.len() - self.at, seen);
        let (depth, records, dirty) = (oracle::depth(packet), table.len() / RECORD, self.dirty() + bytes);
        self.frames.push(Frame { at: self.at, depth, records, dirty });
        self.at = input.len();
        true
    }

    fn refuse(&mut self, refused: Refused) -> bool {
        self.refused = Some(refused);
        false
    }

    /// The records, and the dirty padding, of all frames.
    fn records(&self) -> usize {
        self.frames.last().map_or(0, |frame| frame.records)
    }
    fn dirty(&self) -> usize {
        self.frames.last().map_or(0, |frame| frame.dirty)
    }

    /// The ends of the frames.
    pub fn marks(&self) -> Vec<Mark> {
        let ends = self.frames.iter().skip(1).map(|frame| frame.at).chain([self.at]);
        let marks = self.frames.iter().zip(ends);
        marks.map(|(frame, at)| Mark { at, records: frame.records, dirty: frame.dirty }).collect()
    }

    /// The depth of any frame that is read, and the records up to it; 0 where there is none.
    pub fn any(&self, r: &mut Random) -> (u64, usize) {
        match self.frames.len() {
            0 => (0, 0),
            many => {
                let frame = self.frames[r.below(many)];
                (frame.depth.both, frame.records)
            }
        }
    }

    /// Sees whether the frame after a refused one would be read; it is where the length of the refused one says.
    fn look_after(&mut self, input: &[u8]) {
        let at = self.at;
        let Some(refused) = self.refused.as_mut().filter(|refused| !matches!(refused.number, 1 | 16)) else { return };
        let mut after = Stream { at: at + 4 + word(input, at) as usize, ..Stream::default() };
        let mut table = Vec::new();
        if after.next(input, &mut table) {
            refused.after = Some(after.records());
        }
    }

    /// Notes a length that is at a border, or beside what the crate would read as a message were nothing cut.
    fn note_length(&mut self, length: usize, rest: &[u8]) {
        let seen = &mut self.seen;
        let waits = length > rest.len() - 4;
        seen.note_if(Rule::StdOver, length == HIGHEST + 1);
        seen.note_if(Rule::StdOverOdd, length > HIGHEST && !length.is_multiple_of(4));
        seen.note_if(Rule::StdOddHighest, length <= HIGHEST && length > HIGHEST - 3);
        seen.note_if(Rule::StdOddWaits, length <= HIGHEST && waits && !length.is_multiple_of(4));
        seen.note_if(Rule::StdHighestWaits, length == HIGHEST - 3 && waits);
        if rest.len() > ASKED {
            return;
        }
        let Ok((later, OscPacket::Message(_))) = decoder::decode_udp(&rest[4..]) else { return };
        match length as i64 - (rest.len() - 4 - later.len()) as i64 {
            -4 => seen.note(Rule::StdLess4),
            -3..=-1 => seen.note(Rule::StdLess),
            1..=3 => seen.note(Rule::StdMore),
            4 => seen.note(if waits { Rule::StdMore4Waits } else { Rule::StdMore4 }),
            _ => {}
        }
    }

    /// Notes what is in a packet that was read, by the rules of edition 1 that were at work in it.
    fn note_packet(&mut self, length: usize, seen: Seen) {
        self.seen.note_if(Rule::StdHighest, length == HIGHEST + 1);
        self.seen.note_if(Rule::StdDropped, seen.has(Rule::ElementDropped));
        self.seen.note_if(Rule::StdEnds, seen.has(Rule::ElementEnds));
        self.seen.note_if(Rule::StdUnclosed, seen.has(Rule::ArrayUnclosed));
    }
}

/// What stands at the front of some bytes, limits apart.
#[derive(Clone, Copy, Debug, PartialEq, Eq)]
pub enum Front {
    /// A frame whose packet is read: its bytes, prefix included, how deep it is, and its records.
    Read { size: usize, depth: u64, records: usize },
    /// A frame that is not all there.
    Waiting,
    /// A frame that is refused, with this number, and where a field began that was short, or 0.
    Refused { number: u8, field: usize },
}

/// The frame at the front of some bytes, which may be more than an input has.
pub fn front(bytes: &[u8]) -> Front {
    let mut stream = Stream::default();
    stream.next(bytes, &mut Vec::new());
    match (stream.refused, stream.frames.first()) {
        (Some(Refused { number, field, .. }), _) => Front::Refused { number, field },
        (None, None) => Front::Waiting,
        (None, Some(frame)) => Front::Read { size: stream.at, depth: frame.depth.both, records: frame.records },
    }
}

/// Notes a bundle that edition 1 would let take the frame after it, which is read here.
fn note_kept(stream: &mut Stream, input: &[u8], table: &[u8]) {
    let mut first = 0;
    for pair in stream.frames.windows(2) {
        let (kind, rest) = (table[RECORD * first], &input[pair[0].at..]);
        first = pair[0].records;
        if kind == b'#' && rest.len() <= ASKED {
            let taken = decoder::decode_udp(&rest[4..]).map(|(later, _)| later.len());
            let kept = taken.is_ok_and(|later| later < input.len() - pair[1].at);
            return stream.seen.note_if(Rule::StdKept, kept);
        }
    }
}

/// A frame at which a decoder stops: how many frames are before it, where its prefix stands, its number, and where a field began.
#[derive(Clone, Copy, Debug)]
struct Stop {
    before: usize,
    at: usize,
    number: u8,
    field: usize,
}

/// What a decoder must answer: 13, then 1, then what the first frame decides at which something happens, 9 before 10 in each. All
/// records are in `due` already.
pub fn decode(asked: &Asked, stream: &Stream, due: &mut Due, seen: &mut Seen) {
    let (limit, room) = (asked.number, asked.room / RECORD);
    seen.note_if(Rule::StdInput65535, asked.first.len() == LONGEST);
    seen.note_if(Rule::StdInput65536, asked.first.len() == LONGEST + 1);
    if limit > DEEPEST {
        return due.refuse(13);
    }
    if asked.first.len() > LONGEST {
        return due.refuse(1);
    }
    for (before, frame) in stream.frames.iter().enumerate() {
        if frame.depth.both > limit {
            note_deep(stream, before, limit, room, seen);
            return stop(asked, stream, Stop { before, at: frame.at, number: 9, field: 0 }, due, seen);
        }
        if frame.records > room {
            note_full(stream, before, limit, room, seen);
            return due.refuse(10);
        }
    }
    seen.add(stream.seen);
    match stream.refused {
        Some(Refused { number, field, .. }) => {
            note_refused(stream, limit, room, seen);
            let stopped = Stop { before: stream.frames.len(), at: stream.at, number, field };
            stop(asked, stream, stopped, due, seen);
        }
        None => {
            note_left(asked, stream, seen);
            due.answer = (stream.records() as u64) << 32 | low(asked, stream.at);
            due.more = stream.dirty() as u64;
        }
    }
    note_limits(stream, limit, room, seen);
}

/// The lowest bits of an answer: the bytes from a place on, which are left, or of a step those before it, which are used.
fn low(asked: &Asked, at: usize) -> u64 {
    match asked.call {
        Call::Portion => at as u64,
        _ => (asked.first.len() - at) as u64,
    }
}

/// A refused frame: of one frame that is the answer, and of a list the packets before it come with it.
fn stop(asked: &Asked, stream: &Stream, at: Stop, due: &mut Due, seen: &mut Seen) {
    if asked.call == Call::Tcp2 {
        due.refuse(at.number);
        due.more = (at.field as u64) << 32;
        return;
    }
    let (records, dirty) = match at.before.checked_sub(1).map(|last| stream.frames[last]) {
        Some(frame) => (frame.records, frame.dirty),
        None => (0, 0),
    };
    due.wrote.truncate(RECORD * records);
    due.answer = (records as u64) << 32 | low(asked, at.at);
    due.more = (at.field as u64) << 32 | dirty as u64;
    if asked.call == Call::Portion {
        due.more |= (at.number as u64) << 48;
    } else {
        due.answer |= (at.number as u64) << 56;
        due.more |= (at.at as u64) << 48;
    }
    seen.note(if at.before == 0 { Rule::StdStopFirst } else { Rule::StdStopLater });
    seen.note_if(Rule::StdStopField, at.before > 0 && at.field > 0);
    seen.note_if(Rule::StdStopFar, at.at >= 256);
    seen.note_if(Rule::StdStopFarther, at.at >= 1 << 15);
    seen.note_if(Rule::StdStopDirty, dirty > 0);
}

/// Notes how a frame is too deep, and that it comes before a table that is too small.
fn note_deep(stream: &Stream, before: usize, limit: u64, room: usize, seen: &mut Seen) {
    let frame = stream.frames[before];
    seen.note_if(Rule::StdDeepOver, frame.depth.both == limit + 1);
    seen.note_if(Rule::StdDeep65, frame.depth.both == 65 && limit == DEEPEST);
    seen.note(frame.depth.told([Rule::StdDeepBundles, Rule::StdDeepArrays, Rule::StdDeepBoth]));
    seen.note_if(Rule::StdDeepFull, frame.records > room);
    seen.note_if(Rule::StdDeepFirst, frame.records <= room && stream.records() > room);
}

/// Notes which frame the table has no room for, and that it comes before one that is refused or too deep.
fn note_full(stream: &Stream, before: usize, limit: u64, room: usize, seen: &mut Seen) {
    let frame = stream.frames[before];
    seen.note(if before == 0 { Rule::StdFull } else { Rule::StdFullLater });
    seen.note_if(Rule::StdFullLess, frame.records == room + 1 && before + 1 == stream.frames.len());
    seen.note_if(Rule::StdFullRefused, stream.refused.is_some());
    seen.note_if(Rule::StdFullDeep, stream.frames[before..].iter().any(|later| later.depth.both > limit));
    seen.note_if(Rule::StdFullDirty, frame.dirty > 0);
}

/// Notes what else is of a frame that is refused, limits apart.
fn note_refused(stream: &Stream, limit: u64, room: usize, seen: &mut Seen) {
    let Some(refused) = stream.refused else { return };
    seen.note_if(Rule::StdLeftDeep, refused.deep > limit);
    seen.note_if(Rule::StdRefusedDirty, refused.dirty);
    seen.note_if(Rule::StdStopGood, refused.after.is_some());
    seen.note_if(Rule::StdStopFull, refused.after.is_some_and(|after| stream.records() + after > room));
}

/// Notes what is left where no frame is refused.
fn note_left(asked: &Asked, stream: &Stream, seen: &mut Seen) {
    let (rest, frames) = (&asked.first[stream.at..], stream.frames.len());
    let missing = if rest.len() < 4 { 0 } else { 4 + word(rest, 0) as usize - rest.len() };
    let [one, list] = match rest.len() {
        0 => [Rule::StdWaitsEmpty, if frames == 0 { Rule::StdListEmpty } else { Rule::StdListWhole }],
        1..=3 => [Rule::StdWaitsShort, Rule::StdListShort],
        4 => [Rule::StdWaitsBare, Rule::StdListBare],
        _ => [Rule::StdWaitsPart, Rule::StdListPart],
    };
    match asked.call {
        Call::Tcp2 if frames > 0 => seen.note_if(Rule::StdMoreLeft, !rest.is_empty()),
        Call::Tcp2 => seen.note(one),
        _ => seen.note(list),
    }
    let listed = asked.call != Call::Tcp2;
    seen.note_if(Rule::StdWaitsLast, missing == 1);
    seen.note_if(Rule::StdListNone, listed && frames == 0 && !rest.is_empty());
    seen.note_if(Rule::StdListSeveral, listed && frames > 1 && rest.is_empty());
    seen.note_if(Rule::StdListFar, !rest.is_empty() && stream.at >= 1000);
    seen.note_if(Rule::StdListDirty, frames > 0 && !rest.is_empty() && stream.dirty() > 0);
    let first = stream.frames.iter().map(|frame| frame.dirty).find(|dirty| *dirty > 0);
    seen.note_if(Rule::StdDirtySeveral, first.is_some_and(|dirty| dirty < stream.dirty()));
}

/// Notes frames that reach the limits.
fn note_limits(stream: &Stream, limit: u64, room: usize, seen: &mut Seen) {
    let deepest = stream.frames.iter().map(|frame| frame.depth.both).max();
    seen.note_if(Rule::StdDepthAt, deepest == Some(limit) && limit > 0);
    seen.note_if(Rule::StdDepth64, deepest == Some(DEEPEST));
    seen.note_if(Rule::StdRoomExact, stream.records() == room && room > 0);
}

/// Puts the length before a packet that the crate has encoded: edition 2 has it before a bundle too.
pub fn put_length(packet: &OscPacket, bytes: &mut Vec<u8>, seen: &mut Seen) {
    let length = bytes.len() as u32;
    bytes.splice(..0, length.to_be_bytes());
    let bundle = matches!(packet, OscPacket::Bundle(_));
    seen.note(if bundle { Rule::StdBundle } else { Rule::StdMessage });
    seen.note_if(Rule::StdBundle65532, bundle && bytes.len() == LONGEST - 3);
    seen.note_if(Rule::StdBundle65536, bundle && bytes.len() == LONGEST + 1);
}

#[cfg(test)]
mod tests {
    use super::*;

    fn bytes(digits: &str) -> Vec<u8> {
        let digits: String = digits.split_whitespace().collect();
        (0..digits.len() / 2).map(|i| u8::from_str_radix(&digits[2 * i..2 * i + 2], 16).unwrap()).collect()
    }

    /// The number of the refusal, the records, the bytes left; the frame's offset, the field's offset and the dirty padding.
    type Told = ([u64; 3], [u64; 3]);

    /// What is due for an input, with so much room and at a limit.
    fn due(call: Call, digits: &str, records: usize, limit: u64) -> (Told, Vec<u8>, Seen) {
        let mut asked = Asked::new();
        asked.begin(call);
        (asked.number, asked.room, asked.first) = (limit, RECORD * records, bytes(digits));
        let (mut due, mut seen) = (Due::new(), Seen::default());
        let stream = find(call, &asked.first, &mut due.wrote);
        decode(&asked, &stream, &mut due, &mut seen);
        let (answer, more) = (due.answer, due.more);
        let told = (
            [answer >> 56, answer >> 32 & 0xFF_FFFF, answer as u32 as u64],
            [more >> 48, more >> 32 & 0xFFFF, more as u32 as u64],
        );
        (told, due.wrote, seen)
    }

    fn list(digits: &str, records: usize, limit: u64) -> Told {
        let (told, table, _) = due(Call::TcpVec2, digits, records, limit);
        assert_eq!(table.len() as u64, RECORD as u64 * told.0[1], "{digits}");
        told
    }

    fn one(digits: &str) -> Told {
        due(Call::Tcp2, digits, 9, DEEPEST).0
    }

    const MESSAGE: &str = "000000082F6100002C000000";
    const BUNDLE: &str = "000000102362756E646C65000000000000000001";

    #[test]
    fn the_readings_of_the_ticket() {
        assert_eq!(list("00000000", 9, 64), ([2, 0, 4], [0, 0, 0]));
        assert_eq!(list("00000010 2362756E646C6500 0000000000000001", 9, 0), ([9, 0, 20], [0, 0, 0]));
        assert_eq!(list("000000082F6100002C000000 0000FFFC", 9, 64), ([1, 1, 4], [12, 0, 0]));
        assert_eq!(one("00000014 2362756E646C6500 0000000000000001 00000000"), ([15, 0, 0], [0, 0, 0]));
        let both = "000000082F6100002C000000 000000102362756E646C65000000000000000001";
        assert_eq!(list(both, 1, 0), ([9, 1, 20], [12, 0, 0]));
        assert_eq!(list(both, 1, 1), ([10, 0, 0], [0, 0, 0]));
        let arrays = "000000082F6100002C540000 0000000C2F6100002C5B545D00000000";
        assert_eq!(list(arrays, 1, 0), ([10, 0, 0], [0, 0, 0]));
        // Those of the Tickets 2 and 8.
        assert_eq!(list("0000000C2F6100002C69000000000007 00000004 2F616263", 9, 64), ([17, 2, 8], [16, 20, 0]));
        assert_eq!(list("000000082F6100012C000000 00000000", 9, 64), ([2, 1, 4], [12, 0, 1]));
    }

    #[test]
    fn what_waits() {
        for (digits, left) in [("", 0), ("00", 1), ("000000", 3), ("00000008", 4), ("00000008 2F6100002C0000", 11)] {
            assert_eq!(one(digits), ([0, 0, left], [0, 0, 0]), "{digits}");
            assert_eq!(list(digits, 9, 64), ([0, 0, left], [0, 0, 0]), "{digits}");
            assert_eq!(list(&format!("{MESSAGE} {digits}"), 9, 64), ([0, 1, left], [0, 0, 0]), "{digits}");
            assert_eq!(one(&format!("{MESSAGE} {digits}")), ([0, 1, left], [0, 0, 0]), "{digits}");
        }
    }

    #[test]
    fn lengths_come_in_order() {
        for (length, number) in [("0000FFFC", 1), ("FFFFFFFF", 1), ("0000FFFD", 1), ("0000FFFB", 16), ("00000001", 16)] {
            assert_eq!(one(length), ([number, 0, 0], [0, 0, 0]), "{length}");
            assert_eq!(list(length, 9, 64), ([number, 0, 4], [0, 0, 0]), "{length}");
        }
        assert_eq!(one("0000FFF8"), ([0, 0, 4], [0, 0, 0]));
        // 15 comes before 9, and after what is wrong with the packet.
        assert_eq!(due(Call::Tcp2, "00000014 2362756E646C6500 0000000000000001 00000000", 9, 0).0 .0[0], 15);
        assert_eq!(one("0000000C 2F610000 2C780000 00000000"), ([7, 0, 0], [0, 0, 0]));
        assert_eq!(one("0000000C 2F610000 2C000000 00000000"), ([15, 0, 0], [0, 0, 0]));
        // 9 before 10 in one frame.
        assert_eq!(due(Call::Tcp2, BUNDLE, 0, 0).0 .0[0], 9);
    }

    #[test]
    fn a_bundle_leaves_the_next_frame() {
        let (told, table, seen) = due(Call::TcpVec2, &format!("{BUNDLE} {MESSAGE}"), 9, 64);
        assert_eq!((told, seen.has(Rule::StdKept)), (([0, 2, 0], [0, 0, 0]), true));
        let due = "23000000 00000001 00000000 00000001 00000004 2F000000 00000002 00000018 00000002 00000018";
        assert_eq!(table, bytes(due));
    }

    #[test]
    fn whole_inputs_come_first() {
        let long = "00".repeat(LONGEST + 1);
        assert_eq!(list(&long, 9, 64), ([1, 0, 0], [0, 0, 0]));
        assert_eq!(list(&long, 9, 65), ([13, 0, 0], [0, 0, 0]));
        assert_eq!(list(&long[2..], 9, 64), ([2, 0, LONGEST as u64], [0, 0, 0]));
    }

    #[test]
    fn the_first_frame_at_which_something_happens_decides() {
        let refused = "00000008 2F610000 2C780000";
        let (told, _, seen) = due(Call::TcpVec2, &format!("{MESSAGE} {MESSAGE} {refused}"), 1, 64);
        assert_eq!((told.0[0], seen.has(Rule::StdFullRefused)), (10, true));
        let (told, _, seen) = due(Call::TcpVec2, &format!("{MESSAGE} {refused} {MESSAGE}"), 1, 64);
        assert_eq!((told, seen.has(Rule::StdStopFull)), (([7, 1, 24], [12, 0, 0]), true));
    }
}
