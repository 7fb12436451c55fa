//! A sample of the oracle's answers, chosen for coverage, that the gate replays without Rust.

use crate::ask::{Asked, Call, Due};
use crate::cases::Case;
use crate::judge::DEEPEST;
use crate::met::{Met, Seen};
use crate::peers::Peers;
use crate::random::Random;
use crate::short::{STAGES, STANDARD_STAGES};
use crate::table::RECORD;
use std::collections::HashMap;
use std::fs;
use std::path::Path;

/// The longest case in the file, the most room that it needs, and how many random cases are looked at.
const LONGEST_CASE: usize = 368;
const MOST_ROOM: usize = 640;
const LOOKED_AT: u64 = 400_000;
/// The same for edition 2.
const LOOKED_AT_STANDARD: u64 = 100_000;
/// The short cases are looked at in steps.
const STEP: u64 = 41;

/// The examples of document 01 that are proved: the call and its input.
#[rustfmt::skip]
const EXAMPLES: &[(Call, &[u8])] = &[
    (Call::Udp, b""),
    (Call::Udp, b"/\0\0\0"),
    (Call::Udp, b"/a\0\0,i\0\0\0\0\0\x05"),
    (Call::Udp, b"/a\0\0Xi\0\0\0\0\0\x05"),
    (Call::Udp, b"/a\0\0\0\0\0\0"),
    (Call::Udp, b"/a\0\0,i[i\0\0\0\0\0\0\0\x01\0\0\0\x02"),
    (Call::Udp, b"/a\0\0,]\0\0"),
    (Call::Udp, b"/a\0\0,x\0\0"),
    (Call::Udp, b"/a\0\0,c\0\0\0\0\xD8\0"),
    (Call::Udp, b"/\xFF\0\0"),
    (Call::Udp, b"a\0\0\0"),
    (Call::Udp, b"#bundle\0\0\0\0\0\0\0\0\x01\0\0\0\0"),
    (Call::Tcp, b"\0\0\0\x08/a\0\0"),
    (Call::Tcp, b"\0\0\0\x09/a\0\0"),
];

/// Inputs that tell the readings of Ticket 4 apart, each with a depth limit: what is lost by an unclosed bracket does not count.
#[rustfmt::skip]
const NESTED: &[(Call, u64, &[u8])] = &[
    (Call::Udp, 0, b"/a\0\0,i[i\0\0\0\0\0\0\0\x01\0\0\0\x02"),
    (Call::Udp, 1, b"/a\0\0,[[T]\0\0\0"),
    (Call::Udp, 0, b"/a\0\0,[[T]\0\0\0"),
    (Call::Udp, 0, b"/a\0\0,[[T]][T\0\0"),
    (Call::Udp, 2, b"#bundle\0\0\0\0\0\0\0\0\x01\0\0\0\x08/a\0\0,[]\0"),
    (Call::Udp, 1, b"#bundle\0\0\0\0\0\0\0\0\x01\0\0\0\x08/a\0\0,[]\0"),
];

/// Inputs that tell the readings of Ticket 2 apart: which field was short, and where it began.
#[rustfmt::skip]
const SHORT: &[(Call, &[u8])] = &[
    (Call::Udp, b"#"),
    (Call::Udp, b"#bundle"),
    (Call::Udp, b"#bundle\0\0\0\0\0\0\0\0"),
    (Call::Udp, b"/\0"),
    (Call::Udp, b"/\0\0"),
    (Call::Udp, b"/a\0\0,\0"),
    (Call::Udp, b"/a\0\0,s\0\0abc"),
    (Call::Udp, b"/a\0\0,s\0\0a\0"),
    (Call::Udp, b"/a\0\0,b\0\0\0\0"),
    (Call::Udp, b"/a\0\0,b\0\0\0\0\0\x02a"),
    (Call::Udp, b"/a\0\0,b\0\0\0\0\0\x01a"),
    (Call::Udp, b"/a\0\0,t\0\0\0\0\0\x01"),
    (Call::Tcp, b"\0\0\0"),
    (Call::TcpVec, b""),
    (Call::TcpVec, b"\0\0\0\x0C/a\0\0,i\0\0\0\0\0\x07\0\0"),
    (Call::TcpVec, b"\0\0\0\x0C/a\0\0,i\0\0\0\0\0\x07\0\0\0\x04/abc"),
    (Call::TcpVec, b"\0\0\0\0#bundle\0\0\0\0\0\0\0\0\x01\0\0\0\x09/a\0\0,\0\0\0X\0\0\0\0/\0\0X"),
];

/// Inputs that tell the readings of Ticket 8 apart: which padding counts, where it is counted from, and that a refusal and Waiting
/// tell of none.
#[rustfmt::skip]
const DIRTY: &[(Call, &[u8])] = &[
    (Call::Udp, b"/a\0\x01,\0\0\0"),
    (Call::Udp, b"/a\0\0,\0\0\x01"),
    (Call::Udp, b"/a\0\0\0\x01\x02\x03"),
    (Call::Udp, b"/a\0\0,s\0\0a\0\x02\x03"),
    (Call::Udp, b"/a\0\0,b\0\0\0\0\0\x01a\x01\x02\x03"),
    (Call::Udp, b"/a\0\0,b\0\0\0\0\0\x04abcdX"),
    (Call::Udp, b"/a\0\0,s[\0a\0\x01\x01"),
    (Call::Udp, b"/a\0\0,s[s\0\x01\0\0a\0\x01\x01b\0\0\x01"),
    (Call::Udp, b"/a\0\0,[s]s\0\0\0a\0\x01\x01b\0\0\x01"),
    (Call::Udp, b"#bundle\0\0\0\0\0\0\0\0\x01\0\0\0\x08/a\0\x01,x\0\x01"),
    (Call::Udp, b"#bundle\0\0\0\0\0\0\0\0\x01\0\0\0\x09/a\0\x01,\0\0\0X\0\0\0\x07/\0\x01,x\0\x01"),
    (Call::Udp, b"#bundle\0\0\0\0\0\0\0\0\x01\0\0\0\x09/a\0\x01,\0\0\0X\0\0\0\x13#bundle\0\x01\0\x02\0\0\0\0\0\0\0\x01"),
    (Call::Udp, b"/a\0\x01"),
    (Call::Udp, b"/a\0\x01,x\0\0"),
    (Call::Tcp, b"\0\0\0\x08/a\0\x01,\0\0\0X"),
    (Call::Tcp, b"\0\0\0\x0D/a\0\x01,\0\0\0"),
    (Call::TcpVec, b"\0\0\0\x08/a\0\x01,\0\0\0\0\0\0\x08/a\0\0,\0\x02\x03"),
    (Call::TcpVec, b"\0\0\0\x08/a\0\x01,\0\0\0\0\0\0\x09/a\0\x01"),
    (Call::TcpVec, b"\0\0\0\x08/a\0\x01,\0\0\0\0"),
    (Call::TcpVec, b"\0\0\0\x08/a\0\x01,\0\0\0\0\0\0\0"),
    (Call::TcpVec, b"\0\0\0\0#bundle\0\0\0\0\0\0\0\0\x01\0\0\0\x09/a\0\x01,\0\0\0X\0\0\0\0/a\0\x01,\0\0\x02"),
];

/// Inputs that tell the readings of Ticket 1 apart, each with a depth limit and room for so many records, where 0 is ample. The last two
/// are those of the Tickets 2 and 8 for lists of edition 2.
#[rustfmt::skip]
const FRAMED: &[(Call, u64, usize, &[u8])] = &[
    (Call::TcpVec2, 64, 0, b""),
    (Call::Tcp2, 64, 0, b""),
    (Call::TcpVec2, 64, 0, b"\0\0\0"),
    (Call::Tcp2, 64, 0, b"\0\0\0"),
    (Call::TcpVec2, 64, 0, b"\0\0\0\0"),
    (Call::Tcp2, 64, 0, b"\0\0\0\0"),
    (Call::TcpVec2, 0, 0, b"\0\0\0\x10#bundle\0\0\0\0\0\0\0\0\x01"),
    (Call::TcpVec2, 64, 0, b"\0\0\0\x08/a\0\0,\0\0\0\0\0\xFF\xFC"),
    (Call::TcpVec2, 64, 0, b"\0\0\0\x08/a\0\0,\0\0\0\0\0\xFF\xFB"),
    (Call::TcpVec2, 64, 0, b"\0\0\0\x08/a\0\0,\0\0\0\0\0\xFF\xF8"),
    (Call::Tcp2, 64, 0, b"\0\0\0\x14#bundle\0\0\0\0\0\0\0\0\x01\0\0\0\0"),
    (Call::Tcp2, 0, 0, b"\0\0\0\x14#bundle\0\0\0\0\0\0\0\0\x01\0\0\0\0"),
    (Call::Tcp2, 64, 0, b"\0\0\0\x28#bundle\0\0\0\0\0\0\0\0\x01\0\0\0\x14#bundle\0\0\0\0\0\0\0\0\x01\0\0\0\0"),
    (Call::TcpVec2, 64, 0, b"\0\0\0\x10#bundle\0\0\0\0\0\0\0\0\x01\0\0\0\x08/a\0\0,\0\0\0"),
    (Call::TcpVec2, 0, 1, b"\0\0\0\x08/a\0\0,\0\0\0\0\0\0\x10#bundle\0\0\0\0\0\0\0\0\x01"),
    (Call::TcpVec2, 1, 1, b"\0\0\0\x08/a\0\0,\0\0\0\0\0\0\x10#bundle\0\0\0\0\0\0\0\0\x01"),
    (Call::TcpVec2, 0, 1, b"\0\0\0\x08/a\0\0,T\0\0\0\0\0\x0C/a\0\0,[T]\0\0\0\0"),
    (Call::TcpVec2, 64, 0, b"\0\0\0\x0C/a\0\0,i\0\0\0\0\0\x07\0\0\0\x04/abc"),
    (Call::TcpVec2, 64, 0, b"\0\0\0\x08/a\0\x01,\0\0\0\0\0\0\0"),
];

/// What a case adds: its answer, its rules, kinds and sizes. Each is kept up to a quota, which is lower for edition 2: its packets are
/// those of the other calls.
#[derive(Clone, Copy, PartialEq, Eq, Hash)]
enum Bucket {
    Answer(u8, u8),
    Rule(u8, u8, u8),
    Kind(u8, u8),
    Length(u8, u8),
    Left(u8, u8),
    Dirty(u8, u8),
    Wrote(u8, u8),
    Limit(u8, u8),
    Position(u8, u8),
    Looked(u8),
}

impl Bucket {
    fn quota(self) -> u32 {
        match self {
            Bucket::Answer(9.., _) => 10,
            Bucket::Answer(..) => 40,
            Bucket::Rule(3 | 4 | 7, ..) => 15,
            Bucket::Rule(9.., ..) | Bucket::Kind(9.., _) => 2,
            Bucket::Length(9.., _) | Bucket::Wrote(9.., _) | Bucket::Left(9.., _) | Bucket::Dirty(9.., _) => 1,
            Bucket::Rule(..) => 5,
            Bucket::Kind(..) => 12,
            Bucket::Length(..) | Bucket::Wrote(..) => 2,
            Bucket::Left(..) | Bucket::Dirty(..) => 3,
            Bucket::Limit(..) | Bucket::Position(..) | Bucket::Looked(..) => 1,
        }
    }
}

/// The kind byte of the record that is looked at, or 0 where there is none.
fn looked(asked: &Asked) -> u8 {
    let at = (asked.number as usize).saturating_mul(RECORD);
    asked.first.get(at).copied().unwrap_or(0)
}

/// The buckets of a case.
fn buckets(asked: &Asked, due: &Due, seen: Seen) -> Vec<Bucket> {
    let (call, refusal) = (asked.call as u8, due.refusal(asked.call));
    let small = |n: usize| n.min(80) as u8;
    let mut all = vec![Bucket::Answer(call, refusal)];
    all.extend(seen.rules().map(|rule| Bucket::Rule(call, rule as u8, refusal)));
    match asked.call {
        Call::Pad => all.push(Bucket::Position(64 - asked.number.leading_zeros() as u8, asked.number as u8 % 8)),
        Call::Look if refusal == 0 => all.push(Bucket::Kind(call, due.answer as u8)),
        Call::Look => all.push(Bucket::Looked(looked(asked))),
        Call::Start => all.push(Bucket::Length(call, small(asked.first.len()))),
        _ => {
            all.push(Bucket::Length(call, small(asked.first.len())));
            all.push(Bucket::Wrote(call, small(due.wrote.len() / 4)));
        }
    }
    if asked.call.decodes() {
        all.push(Bucket::Limit(call, small(asked.number as usize)));
        all.push(Bucket::Left(call, small(due.answer as u32 as usize)));
        all.push(Bucket::Dirty(call, small(due.more as u32 as usize)));
        all.extend(due.wrote.chunks_exact(RECORD).map(|record| Bucket::Kind(call, record[0])));
    }
    if asked.call.encodes() && refusal == 0 {
        all.extend(asked.first.chunks_exact(RECORD).take(asked.number as usize).map(|record| Bucket::Kind(call, record[0])));
    }
    all
}

/// The cases that were kept, as they stand in the file.
struct Sample {
    bytes: Vec<u8>,
    cases: u64,
    longest: usize,
    most_room: usize,
    met: Met,
    full: HashMap<Bucket, u32>,
}

impl Sample {
    /// Keeps a case if it is short enough and one of its buckets is not full.
    fn offer(&mut self, case: &Case) {
        let (asked, due) = (&case.asked, &case.due);
        let all = buckets(asked, due, case.seen);
        let size = 37 + asked.first.len() + asked.second.len() + due.wrote.len() + 4;
        let adds = all.iter().any(|bucket| self.full.get(bucket).copied().unwrap_or(0) < bucket.quota());
        if size > LONGEST_CASE || asked.room > MOST_ROOM || !adds {
            return;
        }
        all.into_iter().for_each(|bucket| *self.full.entry(bucket).or_insert(0) += 1);
        self.put(asked, due);
        case.count(&mut self.met);
        self.cases += 1;
        self.longest = self.longest.max(size);
        self.most_room = self.most_room.max(asked.room);
    }

    fn put(&mut self, asked: &Asked, due: &Due) {
        self.bytes.push(asked.call as u8);
        self.bytes.extend_from_slice(&asked.number.to_be_bytes());
        self.bytes.extend_from_slice(&(asked.room as u32).to_be_bytes());
        self.slice(&asked.first);
        self.slice(&asked.second);
        self.bytes.extend_from_slice(&due.answer.to_be_bytes());
        self.bytes.extend_from_slice(&due.more.to_be_bytes());
        self.slice(&due.wrote);
    }

    fn slice(&mut self, bytes: &[u8]) {
        self.bytes.extend_from_slice(&(bytes.len() as u32).to_be_bytes());
        self.bytes.extend_from_slice(bytes);
    }
}

/// Chooses the sample: the proved examples, short cases, random cases.
fn choose(seed: u64) -> Sample {
    let mut sample = Sample { bytes: Vec::new(), cases: 0, longest: 0, most_room: 0, met: Met::new(), full: HashMap::new() };
    let mut case = Case::new();
    let examples = EXAMPLES.iter().chain(SHORT).chain(DIRTY).map(|(call, input)| (*call, DEEPEST, *input));
    for (call, limit, input) in examples.chain(NESTED.iter().copied()) {
        case.roomy(call, limit, input);
        sample.offer(&case);
    }
    let mut r = Random::new(seed, 0);
    for n in 0..LOOKED_AT {
        case.random(&mut r, &Peers::none());
        sample.offer(&case);
        if n % 10 == 0 && case.short(STAGES, n / 10 * STEP) {
            sample.offer(&case);
        }
    }
    choose_standard(&mut r, &mut case, &mut sample);
    sample
}

/// Adds the cases of edition 2: those of its readings, short cases, random cases.
fn choose_standard(r: &mut Random, case: &mut Case, sample: &mut Sample) {
    for (call, limit, records, input) in FRAMED {
        case.framed(*call, *limit, *records, input);
        sample.offer(case);
    }
    for n in 0..LOOKED_AT_STANDARD {
        case.standard(r, &Peers::none());
        sample.offer(case);
        if n % 10 == 0 && case.short(STANDARD_STAGES, n / 10 * STEP) {
            sample.offer(case);
        }
    }
}

/// Writes the sample, and the note that says how it was made, under crates/recorded_runs.
pub fn record(seed: u64) -> Result<bool, String> {
    let folder = Path::new(env!("CARGO_MANIFEST_DIR")).join("../../../crates/recorded_runs");
    let sample = choose(seed);
    let written = fs::create_dir_all(folder.join("data"))
        .and_then(|()| fs::write(folder.join("data/answers.bin"), &sample.bytes))
        .and_then(|()| fs::write(folder.join("ANSWERS.md"), note(&sample, seed)));
    written.map_err(|error| format!("{}: {error}", folder.display()))?;
    println!("crates/recorded_runs/data/answers.bin: {} cases, {} bytes", sample.cases, sample.bytes.len());
    Ok(true)
}

/// The note that stands beside the sample.
fn note(sample: &Sample, seed: u64) -> String {
    let made = format!("    cargo run --release --offline -p compare -- record --seed {seed}");
    let sizes = format!(
        "{} cases, {} bytes; a case has at most {} bytes and room for at most {}",
        sample.cases,
        sample.bytes.len(),
        sample.longest,
        sample.most_room
    );
    let mut note = format!(
        "{HEAD}\nMade in rust/against/ by\n\n{made}\n\nwhich writes this file too. The same seed gives the same bytes:\n{sizes}.\n"
    );
    note += FORMAT;
    for (name, times) in sample.met.counts() {
        note += &format!("| {name} | {times} |\n");
    }
    note
}

const HEAD: &str = "# The recorded answers

data/answers.bin holds a sample of the answers of rosc 0.11.4, built unchanged, as document 01 has them: its packets as node
tables, its errors as numbers, and document 01's limits, rules of a table and of a record on top. Where each item began is
found by a walk over the input that the crate's packets lead; which field was short, and where it began, by a reader of its own,
which agrees with the crate on the class of every refusal. The bytes of padding that are not zero are counted after the items that
the walk found, and by that reader, which agrees. Edition 2 of TCP framing, which the crate does not have, is cut by a loop of its
own, and the crate has read each frame alone. The port had no part in it. The sample is chosen for coverage: a case is kept if
it adds an answer, rule, kind, length or limit that is not there often enough. Document 01's examples P1 to P14 come first, and
after them those that tell the readings of the Tickets 2, 8 and 4 apart; the cases of edition 2 are the last, and those that tell the
readings of Ticket 1 apart the first of them. What needs long slices (an input or a result that is too long, tables of depth 64) is
not here: the program limit_runs has it.
";

const FORMAT: &str = "
## Format

Cases one after another, all numbers big-endian.

| Bytes | What |
|---|---|
| 1 | 0 `decode_udp`, 1 `decode_tcp`, 2 `decode_tcp_vec`, 3 `encode`, 4 `encode_tcp`, 5 `encode_string`, 6 `pad`, 7 `look`, 8 `start_of`; \
of edition 2: 9 `decode_tcp`, 10 `decode_tcp_vec`, 11 `encode_tcp` |
| 8 | depth, count, position or index; 0 for `encode_string` |
| 4 | room: bytes of the buffer that the call may write |
| 4, n | length and bytes of the input, table or text; none for `pad` |
| 4, n | length and bytes of the source, for `encode` and `encode_tcp` |
| 8 | the answer, as include/osc.h has it |
| 8 | what a decoder says beside it, as include/osc.h has it: where a field began that was short, the bytes of padding that are \
not zero, and the offset of a frame that ended a list; 0 for the other calls |
| 4, n | length and bytes that must stand at the front of the room; all others there are unchanged |

## What is met

| | cases; of kinds, records |
|---|---|
";
