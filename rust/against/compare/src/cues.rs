//! The cue index of a recording: Ticket 5, with Ticket 10's 3,276 records. The model of edition 2 says what each frame of the recording
//! is, and this one goes through them as a whole and knows of no buffer. What a step over a buffer must write is taken from that, and
//! what a check in parts must say from where the two indexes first differ as a whole.

use crate::ask::{Asked, Call, Due};
use crate::judge::{DEEPEST, LONGEST};
use crate::met::{Rule, Seen};
use crate::standard::{self, Front};
use crate::table::word;

/// The bytes of a record of an index.
pub const ENTRY: usize = 16;
/// The most records of a frame: those of a table of 64 KiB.
const MOST: usize = 3_276;
/// The most frames of a buffer: 12 bytes each at least.
pub const FRAMES: usize = 5_461;
/// The longest recording.
pub const TOP: u64 = (1 << 63) - 1;
/// The first number of a record that a check does not take.
pub const TOO_HIGH: u64 = 1 << 55;

/// A frame that is accepted: where its prefix stands, where the next one may, and the records of its table.
#[derive(Clone, Copy, Debug)]
pub struct Cue {
    at: usize,
    pub end: usize,
    records: usize,
}

impl Cue {
    /// Its record, where it stands at this offset.
    fn entry(&self, offset: u64) -> Vec<u8> {
        let (length, records) = ((self.end - self.at - 4) as u32, self.records as u32);
        [&offset.to_be_bytes()[..], &length.to_be_bytes(), &records.to_be_bytes()].concat()
    }
}

/// The frame at which an index ends, by the number of its refusal, where a field began that was short, counted from the frame's prefix, and
/// from which place on that is known.
#[derive(Clone, Copy, Debug)]
struct Refused {
    number: u8,
    field: usize,
    known: usize,
}

/// The index of a recording: the frames up to the first that is not accepted, where that stands, and why it is refused, if it is.
#[derive(Debug)]
pub struct Index {
    pub cues: Vec<Cue>,
    end: usize,
    refused: Option<Refused>,
}

impl Index {
    /// Goes through a recording, and notes what is at its end.
    pub fn of(recording: &[u8], seen: &mut Seen) -> Index {
        let (mut index, mut waits) = (Index { cues: Vec::new(), end: 0, refused: None }, false);
        while index.end < recording.len() && index.refused.is_none() && !waits {
            let (at, front) = (index.end, standard::front(&recording[index.end..]));
            note_front(front, seen);
            match front {
                Front::Waiting => waits = true,
                Front::Refused { number, field } => index.refuse(number, field, recording),
                Front::Read { depth, .. } if depth > DEEPEST => index.refuse(9, 0, recording),
                Front::Read { records, .. } if records > MOST => index.refuse(10, 0, recording),
                Front::Read { size, records, .. } => {
                    index.end += size;
                    index.cues.push(Cue { at, end: index.end, records });
                }
            }
        }
        index.note_end(recording, seen);
        index
    }

    /// A length that is refused is so once it is there, and every other frame once it is whole.
    fn refuse(&mut self, number: u8, field: usize, recording: &[u8]) {
        let length = if matches!(number, 1 | 16) { 0 } else { word(recording, self.end) as usize };
        self.refused = Some(Refused { number, field, known: self.end + 4 + length });
    }

    fn note_end(&self, recording: &[u8], seen: &mut Seen) {
        let left = recording.len() - self.end;
        seen.note_if(Rule::IndexNone, recording.is_empty());
        seen.note_if(Rule::IndexWhole, left == 0 && self.cues.len() > 1);
        let Some(Refused { number, known, .. }) = self.refused else {
            seen.note_if(Rule::IndexWaitsLength, (1..4).contains(&left));
            seen.note_if(Rule::IndexWaitsPart, left >= 4);
            return;
        };
        seen.note(if self.end == 0 { Rule::IndexFirst } else { Rule::IndexLater });
        seen.note_if(Rule::IndexField, self.end > 0 && (17..=21).contains(&number));
        let good = |at: usize| matches!(standard::front(&recording[at..]), Front::Read { .. });
        seen.note_if(Rule::IndexOver, !matches!(number, 1 | 16) && good(known));
    }

    /// The bytes of the index of the whole recording.
    pub fn bytes(&self) -> Vec<u8> {
        self.cues.iter().flat_map(|cue| cue.entry(cue.at as u64)).collect()
    }

    /// Whether the bytes up to a place tell that the frame at the end is refused.
    pub fn ends_by(&self, place: usize) -> bool {
        self.refused.is_some_and(|refused| refused.known <= place)
    }

    /// The frames that stand between two places of the recording, of which the first may be one's beginning.
    pub fn between(&self, from: usize, to: usize) -> &[Cue] {
        let (first, last) = (self.cues.partition_point(|cue| cue.at < from), self.cues.partition_point(|cue| cue.end <= to));
        &self.cues[first..last.max(first)]
    }

    /// What a step must answer that is given bytes of the recording from a frame's beginning on, in order: 1, 12, the records.
    pub fn step(&self, asked: &Asked, from: usize, due: &mut Due, seen: &mut Seen) {
        let (base, bytes, to) = (asked.number, asked.first.len(), from + asked.first.len());
        note_lengths(base, bytes, seen);
        *due = Due::new();
        if bytes > LONGEST || base > TOP || bytes as u64 > TOP - base {
            return due.refuse(1);
        }
        let cues = self.between(from, to);
        due.wrote.extend(cues.iter().flat_map(|cue| cue.entry(base + (cue.at - from) as u64)));
        note_room(asked.room, due.wrote.len(), seen);
        if due.wrote.len() > asked.room {
            return due.refuse(12);
        }
        let used = cues.last().map_or(0, |cue| cue.end - from);
        due.answer = (cues.len() as u64) << 32 | used as u64;
        due.more = match self.refused {
            Some(Refused { number, field, .. }) if self.ends_by(to) => (number as u64) << 48 | place(number, used + field) << 32,
            _ => (used < bytes) as u64,
        };
        seen.note_if(Rule::IndexUpper, !cues.is_empty() && base >= 1 << 32);
        seen.note_if(Rule::IndexMany, cues.len() == FRAMES);
        seen.note_if(Rule::IndexFar, !cues.is_empty() && from >= LONGEST);
    }

    /// Notes where a buffer ends that has bytes from one place on up to another, where the one before it ended at a third.
    pub fn note_buffer(&self, from: usize, before: usize, to: usize, seen: &mut Seen) {
        seen.note_if(Rule::IndexNothing, from == to);
        seen.note_if(Rule::IndexSeveral, from > 0 && !self.between(from, to).is_empty());
        let known = self.refused.map_or(usize::MAX, |refused| refused.known);
        seen.note_if(Rule::IndexLate, self.end < before && before < known && known <= to);
        if to == 0 || to >= self.end {
            return;
        }
        let whole = self.cues[..self.cues.partition_point(|cue| cue.end <= to)].last().map_or(0, |cue| cue.end);
        seen.note(match to - whole {
            0 => Rule::IndexBetween,
            1..=3 => Rule::IndexLength,
            _ => Rule::IndexPacket,
        });
    }
}

/// Where a field began, beside the refusals that have one: 17 to 21.
fn place(number: u8, at: usize) -> u64 {
    if (17..=21).contains(&number) { at as u64 } else { 0 }
}

/// Notes a frame at a limit.
fn note_front(front: Front, seen: &mut Seen) {
    let Front::Read { size, depth, records } = front else { return };
    seen.note_if(Rule::IndexLongest, size == 4 + 65_528);
    seen.note_if(Rule::IndexDepth64, depth == DEEPEST && records <= MOST);
    seen.note_if(Rule::IndexDepth65, depth == DEEPEST + 1);
    seen.note_if(Rule::Index3276, depth <= DEEPEST && records == MOST);
    seen.note_if(Rule::Index3277, depth <= DEEPEST && records == MOST + 1);
    seen.note_if(Rule::IndexDeepMany, depth > DEEPEST && records > MOST);
}

/// Notes a buffer, and a recording that ends with it, at a limit.
fn note_lengths(base: u64, bytes: usize, seen: &mut Seen) {
    let end = base.checked_add(bytes as u64);
    seen.note_if(Rule::IndexInput65535, bytes == LONGEST);
    seen.note_if(Rule::IndexInput65536, bytes == LONGEST + 1);
    seen.note_if(Rule::IndexTop, end == Some(TOP) && bytes <= LONGEST);
    seen.note_if(Rule::IndexTooFar, end == Some(TOP + 1) && bytes <= LONGEST);
    seen.note_if(Rule::IndexWraps, end.is_none() && bytes <= LONGEST);
}

/// Notes an output at its limit.
fn note_room(room: usize, needed: usize, seen: &mut Seen) {
    seen.note_if(Rule::IndexRoom, room == needed && needed > 0);
    seen.note_if(Rule::IndexLess, room + 1 == needed);
    seen.note_if(Rule::IndexNoRoom, room == 0 && needed > 0);
}

/// What one call must answer, from what it is given alone.
pub fn judge(asked: &Asked, due: &mut Due, seen: &mut Seen) {
    match asked.call {
        Call::IndexStep => Index::of(&asked.first, seen).step(asked, 0, due, seen),
        Call::IndexCheck => check(asked, due, seen),
        _ => look_up(asked, due, seen),
    }
}

// ---- checking one

/// The first record at which two indexes differ: the first byte that is not the same, or is not in both, tells.
pub fn first_other(fresh: &[u8], given: &[u8]) -> Option<usize> {
    let same = fresh.iter().zip(given).take_while(|(one, other)| one == other).count();
    (same < fresh.len().max(given.len())).then_some(same / ENTRY)
}

/// The answer where the next record has this number, or where this one is the first that is not right.
pub fn told(right: bool, record: u64) -> u64 {
    let refusal = if right { 0 } else { 25 };
    refusal << 56 | record
}

/// What a check of all of an index must answer.
fn check(asked: &Asked, due: &mut Due, seen: &mut Seen) {
    let (fresh, given, from) = (&asked.first[..], &asked.second[..], asked.number);
    *due = Due::new();
    seen.note_if(Rule::CheckTop, from == TOO_HIGH - 1 && !fresh.is_empty());
    seen.note_if(Rule::CheckOver, from == TOO_HIGH);
    if from >= TOO_HIGH {
        return due.refuse(1);
    }
    note_other(fresh, given, seen);
    due.answer = match first_other(fresh, given) {
        Some(record) => told(false, from + record as u64),
        None => told(true, from + fresh.len().div_ceil(ENTRY) as u64),
    };
}

/// Notes how two indexes differ.
fn note_other(fresh: &[u8], given: &[u8], seen: &mut Seen) {
    let same = fresh.iter().zip(given).take_while(|(one, other)| one == other).count();
    let (missing, extra) = (fresh.len() - same, given.len() - same);
    seen.note(match (missing, extra) {
        (0, 0) if same == 0 => Rule::CheckNone,
        (0, 0) => Rule::CheckSame,
        (0, extra) if extra < ENTRY => Rule::CheckExtraPart,
        (0, _) => Rule::CheckExtra,
        (_, 0) if same.is_multiple_of(ENTRY) => Rule::CheckMissing,
        (_, 0) => Rule::CheckPart,
        _ => match same % ENTRY {
            0..=7 => Rule::CheckOffset,
            8..=11 => Rule::CheckLength,
            _ => Rule::CheckRecords,
        },
    });
}

// ---- looking up a cue

/// What is found by a number: what the record says, and 11 where there is none, or where its records have no room in an answer.
fn look_up(asked: &Asked, due: &mut Due, seen: &mut Seen) {
    let (index, k) = (&asked.first, asked.number);
    let (records, part) = ((index.len() / ENTRY) as u64, !index.len().is_multiple_of(ENTRY));
    *due = Due::new();
    seen.note_if(Rule::CueFirst, k == 0 && records > 1);
    seen.note_if(Rule::CueLast, k > 0 && k.checked_add(1) == Some(records));
    seen.note_if(Rule::CuePast, k == records && records > 0 && !part);
    seen.note_if(Rule::CuePart, k == records && part);
    seen.note_if(Rule::CueFar, k >= 1 << 60 && records > 0);
    if k >= records {
        return due.refuse(11);
    }
    let entry = &index[ENTRY * k as usize..][..ENTRY];
    let (offset, many) = ((word(entry, 0) as u64) << 32 | word(entry, 4) as u64, word(entry, 12) as u64);
    seen.note_if(Rule::CueMost, many == 0xFF_FFFF);
    seen.note_if(Rule::CueOver, many == 0x100_0000);
    if many >= 1 << 24 {
        return due.refuse(11);
    }
    due.answer = many << 32 | word(entry, 8) as u64;
    due.more = offset;
}

#[cfg(test)]
mod tests {
    use super::*;
    use crate::port::Bench;

    const MESSAGE: &[u8] = b"\0\0\0\x0C/a\0\0,i\0\0\0\0\0\x07";
    const BUNDLE: &[u8] = b"\0\0\0\x1C#bundle\0\0\0\0\0\0\0\0\x01\0\0\0\x08/b\0\0,T\0\0";

    fn due(call: Call, number: u64, room: usize, first: &[u8], second: &[u8]) -> (u64, u64, Vec<u8>) {
        let (mut asked, mut due) = (Asked::new(), Due::new());
        asked.begin(call);
        (asked.number, asked.room) = (number, room);
        (asked.first, asked.second) = (first.to_vec(), second.to_vec());
        judge(&asked, &mut due, &mut Seen::default());
        assert_eq!(Bench::new().differs(&asked, &due), None);
        (due.answer, due.more, due.wrote)
    }

    fn step(base: u64, room: usize, bytes: &[u8]) -> (u64, u64, Vec<u8>) {
        due(Call::IndexStep, base, room, bytes, &[])
    }

    /// A message with so many arguments without data in so many bundles.
    fn frame(arguments: usize, levels: usize) -> Vec<u8> {
        let mut packet = [&b"/\0\0\0,"[..], &vec![b'T'; arguments], &[0]].concat();
        packet.resize(packet.len().next_multiple_of(4), 0);
        for _ in 0..levels {
            packet = [&b"#bundle\0\0\0\0\0\0\0\0\x01"[..], &(packet.len() as u32).to_be_bytes(), &packet].concat();
        }
        [&(packet.len() as u32).to_be_bytes()[..], &packet].concat()
    }

    #[test]
    fn the_bytes_of_an_index() {
        let written = b"\0\0\0\x01\0\0\0\0\0\0\0\x0C\0\0\0\x02\0\0\0\x01\0\0\0\x10\0\0\0\x1C\0\0\0\x03".to_vec();
        let both = [MESSAGE, BUNDLE].concat();
        assert_eq!(step(1 << 32, 32, &both), (2 << 32 | 48, 0, written.clone()));
        assert_eq!(step(1 << 32, 33, &[&both, &[0; 3][..]].concat()), (2 << 32 | 48, 1, written.clone()));
        assert_eq!(step(1 << 32, 32, &[&both, &[0; 4][..]].concat()), (2 << 32 | 48, 2 << 48, written.clone()));
        // The address of the third frame begins 52 bytes after the first byte of the call, and 4 after its own prefix.
        let short = [&both, &b"\0\0\0\x04/abc"[..]].concat();
        assert_eq!(step(1 << 32, 32, &short), (2 << 32 | 48, 17 << 48 | 52 << 32, written));
        assert_eq!(step(1 << 32, 31, &both), (12 << 56, 0, Vec::new()));
        assert_eq!(step(TOP - 47, 32, &both), (1 << 56, 0, Vec::new()));
        assert_eq!(step(TOP - 48, 32, &both).0, 2 << 32 | 48);
        assert_eq!(step(0, 0, &vec![0; LONGEST + 1]), (1 << 56, 0, Vec::new()));
    }

    #[test]
    fn the_limits_of_a_frame() {
        let told = |arguments: usize, levels: usize| {
            let (answer, more, wrote) = step(0, 16, &frame(arguments, levels));
            (answer >> 32, more >> 48, wrote.get(12..).map(|records| word(records, 0)))
        };
        assert_eq!(told(3_275, 0), (1, 0, Some(3_276)));
        assert_eq!(told(3_276, 0), (0, 10, None));
        assert_eq!(told(3_211, 64), (1, 0, Some(3_276)));
        assert_eq!(told(3_212, 64), (0, 10, None));
        assert_eq!(told(0, 65), (0, 9, None));
        // 9 comes before 10.
        assert_eq!(told(3_276, 65), (0, 9, None));
    }

    #[test]
    fn the_first_record_that_differs() {
        let check = |fresh: &[u8], given: &[u8], from: u64| due(Call::IndexCheck, from, 0, fresh, given).0;
        let index = [[1; ENTRY], [2; ENTRY]].concat();
        assert_eq!(check(&index, &index, 0), 2);
        assert_eq!(check(&[], &[], 7), 7);
        assert_eq!(check(&index, &index[..16], 0), 25 << 56 | 1);
        assert_eq!(check(&index, &index[..15], 0), 25 << 56);
        assert_eq!(check(&index, &index[..31], 5), 25 << 56 | 6);
        assert_eq!(check(&index[..16], &index, 0), 25 << 56 | 1);
        assert_eq!(check(&[], &[0], TOO_HIGH - 1), (25 << 56) | (TOO_HIGH - 1));
        assert_eq!(check(&index, &index, TOO_HIGH), 1 << 56);
    }

    #[test]
    fn a_cue_by_its_number() {
        let index = [&[0, 0, 0, 1, 0, 0, 0, 0, 0, 0, 0, 12, 0, 0, 0, 2][..], &[255; 12], &[1, 0, 0, 0], &[9]].concat();
        let cue = |k: u64| {
            let (answer, offset, _) = due(Call::Cue, k, 0, &index, &[]);
            (answer, offset)
        };
        assert_eq!(cue(0), (2 << 32 | 12, 1 << 32));
        assert_eq!([cue(1), cue(2), cue(1 << 60), cue(u64::MAX)], [(11 << 56, 0); 4]);
    }

    #[test]
    fn a_buffer_tells_what_is_whole_in_it() {
        let mut seen = Seen::default();
        let recording = [MESSAGE, BUNDLE, b"\0\0\0\x04/abc"].concat();
        let index = Index::of(&recording, &mut seen);
        let told = |from: usize, to: usize| {
            let (mut asked, mut due) = (Asked::new(), Due::new());
            asked.begin(Call::IndexStep);
            (asked.number, asked.room) = (from as u64, 64);
            asked.first = recording[from..to].to_vec();
            index.step(&asked, from, &mut due, &mut Seen::default());
            assert_eq!(Bench::new().differs(&asked, &due), None);
            (due.answer >> 32, due.answer as u32, due.more)
        };
        assert_eq!(told(0, 15), (0, 0, 1));
        assert_eq!(told(0, 16), (1, 16, 0));
        assert_eq!(told(0, 47), (1, 16, 1));
        assert_eq!(told(16, 48), (1, 32, 0));
        assert_eq!(told(48, 55), (0, 0, 1));
        assert_eq!(told(48, 56), (0, 0, 17 << 48 | 4 << 32));
        assert_eq!(told(16, 56), (1, 32, 17 << 48 | 36 << 32));
    }
}
