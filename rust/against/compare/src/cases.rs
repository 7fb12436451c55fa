//! Cases: a call, what is due, and what it shows.

use crate::ask::{Asked, Call, Due, DECODERS};
use crate::cues::{Index, ENTRY};
use crate::judge::{self, Found};
use crate::met::{Met, Rule, Seen};
use crate::peers::Peers;
use crate::portions::{self, Step};
use crate::random::Random;
use crate::short::Stage;
use crate::standard::Stream;
use crate::streams::Writers;
use crate::table::RECORD;
use crate::{cues, edges, inputs, recordings, shifts, short, soiled, spoil, standard, streams};
use rosc::{OscMessage, OscPacket, OscType};

/// Of the streams in portions, one in so many is long.
const LONG: usize = 50;

/// One case, in memory that the next one uses again.
pub struct Case {
    pub asked: Asked,
    pub due: Due,
    pub seen: Seen,
}

impl Case {
    pub fn new() -> Case {
        Case { asked: Asked::new(), due: Due::new(), seen: Seen::default() }
    }

    /// The n-th short case of the stages, with ample room where none is asked for; false where all are done.
    pub fn short(&mut self, stages: &[Stage], n: u64) -> bool {
        self.seen = Seen::default();
        let Some(call) = short::make(stages, n, &mut self.asked) else { return false };
        let (asked, due, seen) = (&self.asked, &mut self.due, &mut self.seen);
        match call {
            Call::Udp | Call::Tcp | Call::TcpVec | Call::Tcp2 | Call::TcpVec2 | Call::Portion => self.roomy_due(),
            Call::Encode | Call::EncodeTcp | Call::EncodeTcp2 => judge::encode(asked, due, seen),
            Call::EncodeString => judge::encode_string(asked, due, seen),
            Call::Pad => judge::pad(asked, due, seen),
            Call::Look => judge::look(asked, due, seen),
            Call::Start => judge::start(asked, due, seen),
            Call::IndexStep | Call::IndexCheck | Call::Cue => cues::judge(asked, due, seen),
            Call::Shift => shifts::judge(asked, due, seen),
        }
        if call.encodes() || call == Call::EncodeString {
            self.asked.room = self.due.wrote.len() + 8;
            judge::fit(&self.asked, &mut self.due, &mut self.seen);
        }
        true
    }

    /// An input for a decoder at a depth limit, with ample room.
    pub fn roomy(&mut self, call: Call, limit: u64, input: &[u8]) {
        self.seen = Seen::default();
        self.asked.begin(call);
        self.asked.number = limit;
        self.asked.first.extend_from_slice(input);
        self.roomy_due();
    }

    /// A stream for a decoder of edition 2 at a depth limit, with room for so many records, where 0 is ample.
    pub fn framed(&mut self, call: Call, limit: u64, records: usize, input: &[u8]) {
        self.seen = Seen::default();
        self.asked.begin(call);
        (self.asked.number, self.asked.room) = (limit, RECORD * records);
        self.asked.first.extend_from_slice(input);
        self.roomy_due();
    }

    fn roomy_due(&mut self) {
        if self.asked.call.is_standard() {
            let stream = standard::find(self.asked.call, &self.asked.first, &mut self.due.wrote);
            if self.asked.room == 0 {
                self.asked.room = self.needed() + RECORD;
            }
            return standard::decode(&self.asked, &stream, &mut self.due, &mut self.seen);
        }
        let found = self.find();
        self.asked.room = self.needed() + RECORD;
        judge::decode(&self.asked, &found, &mut self.due, &mut self.seen);
    }

    /// Counts its answer and what it has shown and, where it is no refusal, the kinds of its records.
    pub fn count(&self, met: &mut Met) {
        let (call, refusal) = (self.asked.call, self.due.refusal(self.asked.call));
        let stopped = self.due.stopped(call);
        met.count(call as usize, refusal, stopped, self.seen);
        if call.decodes() && (refusal == 0 || stopped) {
            self.due.wrote.chunks_exact(RECORD).for_each(|record| met.count_decoded(record[0]));
        }
        if refusal == 0 && call.encodes() {
            let records = self.asked.first.chunks_exact(RECORD).take(self.asked.number as usize);
            records.for_each(|record| met.count_encoded(record[0]));
        }
    }

    /// A random case.
    pub fn random(&mut self, r: &mut Random, peers: &Peers) {
        self.seen = Seen::default();
        match r.below(64) {
            0..=40 => self.decode(r, peers),
            41..=54 => self.encode(r),
            55..=58 => self.string(r),
            59..=60 => self.pad(r),
            61..=62 => self.look(r),
            _ => self.start(r),
        }
    }

    /// A random case of edition 2.
    pub fn standard(&mut self, r: &mut Random, peers: &Peers) {
        self.seen = Seen::default();
        match r.below(8) {
            0 => self.encode_standard(r),
            _ => self.decode_standard(r, peers),
        }
    }

    /// A random stream of edition 2 for one step; and where that is not refused, the steps over it in portions.
    pub fn portions(&mut self, r: &mut Random, peers: &Peers) -> Vec<Step> {
        self.seen = Seen::default();
        self.asked.begin(Call::Portion);
        let mut by = Writers::default();
        match r.below(LONG) {
            0 => streams::long(r, &mut self.asked.first),
            _ => by = streams::input(r, peers, &mut self.asked.first),
        }
        let marks = self.stream(r, by).marks();
        if self.due.answer >> 56 > 0 {
            return Vec::new();
        }
        let places = portions::places(r, self.asked.first.len(), &marks);
        portions::steps(&self.asked, &self.due, &marks, &places, &mut self.seen)
    }

    /// A random recording for one step that writes its index; and the steps over it through buffers, the checks of its index and the
    /// cues that are looked up in it.
    pub fn cues(&mut self, r: &mut Random, peers: &Peers) -> Vec<Step> {
        self.seen = Seen::default();
        self.asked.begin(Call::IndexStep);
        streams::recording(r, peers, &mut self.asked.first);
        let index = Index::of(&self.asked.first, &mut self.seen);
        self.asked.number = recordings::base(r, self.asked.first.len());
        self.asked.room = recordings::room(r, ENTRY * index.cues.len());
        index.step(&self.asked, 0, &mut self.due, &mut self.seen);
        let mut steps = recordings::row(r, &self.asked, &index, &mut self.seen);
        steps.extend(recordings::too_long(&self.asked, &index, &mut self.seen));
        steps.extend(recordings::checks(r, &index, &mut self.seen));
        steps.extend(recordings::lookups(r, &index, &mut self.seen));
        steps
    }

    /// The tags of a random table, which is spoiled half of the time, shifted; and the step back.
    pub fn shifts(&mut self, r: &mut Random) -> Step {
        self.seen = Seen::default();
        self.asked.begin(Call::Shift);
        let turn = r.below(2800);
        let packet = tree(r, turn);
        self.encode_tree(r, &packet);
        if r.one_in(2) {
            spoil::table(r, &mut self.asked);
        }
        let there = (self.asked.first.len() / RECORD) as u64;
        self.asked.number = shifts::count(r, there, self.asked.number);
        self.asked.second = shifts::amount(r).to_be_bytes().to_vec();
        self.asked.room = self.asked.first.len();
        shifts::judge(&self.asked, &mut self.due, &mut self.seen);
        shifts::back(&self.asked, &self.due)
    }

    fn find(&mut self) -> Found {
        judge::find(self.asked.call, &self.asked.first, &mut self.due.wrote)
    }

    /// The bytes of the table that the crate's packets need; where there are none, what a decoder might have begun to write.
    fn needed(&self) -> usize {
        match self.due.wrote.len() {
            0 => RECORD * self.asked.first.len().min(30),
            needed => needed,
        }
    }

    fn decode(&mut self, r: &mut Random, peers: &Peers) {
        self.asked.begin(r.pick(&DECODERS));
        let frames = match self.asked.call {
            Call::Udp => 0,
            Call::Tcp => 1 + r.below(2),
            _ => 1 + r.below(4),
        };
        let packet = match r.below(45) {
            0 if r.one_in(20) => edges::deepest(r),
            1 if r.one_in(8) => {
                self.asked.first = edges::longest(r, frames > 0);
                return self.decode_due(r);
            }
            2..=5 => edges::lengths(r),
            6..=9 => edges::utf8(r),
            10..=11 => edges::character(r, &mut self.seen),
            12 => edges::nested(r),
            13..=14 => edges::arrays(r),
            19..=20 => edges::cut_bundle(r),
            21..=24 => {
                soiled::input(r, frames, &mut self.asked.first);
                return self.decode_due(r);
            }
            15..=18 if peers.any() => peers.one(r, &mut self.seen),
            _ => {
                inputs::structured(r, frames, &mut self.asked.first);
                return self.decode_due(r);
            }
        };
        match frames {
            0 => self.asked.first = packet,
            _ if r.one_in(3) => self.among(r, frames, &packet),
            _ => inputs::push_frame(r, &mut self.asked.first, &packet),
        }
        self.decode_due(r);
    }

    /// An input of so many frames, of which one holds the packet.
    fn among(&mut self, r: &mut Random, frames: usize, packet: &[u8]) {
        let place = r.below(frames);
        for frame in 0..frames {
            if frame == place {
                inputs::push_frame(r, &mut self.asked.first, packet);
            } else {
                inputs::structured(r, 1, &mut self.asked.first);
            }
        }
    }

    /// What is due for the input, under limits on either side of what it needs.
    fn decode_due(&mut self, r: &mut Random) {
        let found = self.find();
        let needed = self.needed();
        self.asked.number = match r.below(16) {
            0 | 1 => found.depth.both,
            2 => found.depth.both.saturating_sub(1),
            3 => r.below(67) as u64,
            4 if r.one_in(3) => r.pick(&[65, 66, 1 << 32, 1 << 63, u64::MAX]),
            _ => judge::DEEPEST,
        };
        self.asked.room = match r.below(12) {
            0 => (needed + r.below(RECORD)).saturating_sub(RECORD),
            1 => r.below(needed + 1),
            2..=5 => needed,
            6..=8 => needed + r.below(RECORD),
            _ => needed + r.below(200),
        };
        judge::decode(&self.asked, &found, &mut self.due, &mut self.seen);
        let read = found.left == 0 && self.due.refusal(self.asked.call) == 0;
        self.seen.note_if(Rule::LibloRead, read && self.seen.has(Rule::LibloWhole));
        self.seen.note_if(Rule::OscpackRead, read && self.seen.has(Rule::OscpackWhole));
    }

    fn decode_standard(&mut self, r: &mut Random, peers: &Peers) {
        self.asked.begin(r.pick(&[Call::Tcp2, Call::TcpVec2, Call::TcpVec2]));
        let by = streams::input(r, peers, &mut self.asked.first);
        self.stream(r, by);
    }

    /// What is due for a stream, in which some have written, under limits on either side of what one of its frames needs.
    fn stream(&mut self, r: &mut Random, by: Writers) -> Stream {
        let stream = standard::find(self.asked.call, &self.asked.first, &mut self.due.wrote);
        let (depth, records) = stream.any(r);
        self.asked.number = match r.below(12) {
            0 | 1 => depth,
            2 | 3 => depth.saturating_sub(1),
            4 => r.below(67) as u64,
            5 if r.one_in(8) => r.pick(&[65, 66, 1 << 32, 1 << 63, u64::MAX]),
            _ => judge::DEEPEST,
        };
        let needed = self.needed();
        self.asked.room = match r.below(12) {
            0 | 1 => (RECORD * records + r.below(RECORD)).saturating_sub(RECORD),
            2 => RECORD * records + r.below(RECORD),
            3 => r.below(needed + 1),
            4..=6 => needed + r.below(RECORD),
            _ => needed + r.below(200),
        };
        standard::decode(&self.asked, &stream, &mut self.due, &mut self.seen);
        let all = if self.asked.call == Call::Portion { self.asked.first.len() } else { 0 };
        let read = self.due.refusal(self.asked.call) == 0 && self.due.answer as u32 as usize == all;
        self.seen.note_if(Rule::StdLiblo, read && by.liblo);
        self.seen.note_if(Rule::StdOscpack, read && by.oscpack);
        stream
    }

    fn encode(&mut self, r: &mut Random) {
        self.asked.begin(r.pick(&[Call::Encode, Call::EncodeTcp]));
        let packet = match r.below(2800) {
            0..=3 => long_message(r),
            turn => tree(r, turn - 4),
        };
        self.encode_packet(r, &packet);
    }

    fn encode_standard(&mut self, r: &mut Random) {
        self.asked.begin(Call::EncodeTcp2);
        let packet = match r.below(3000) {
            0..=95 => {
                // A bundle of one element has 20 bytes around it.
                let kind = r.below(3);
                inputs::in_bundles(long_bytes(r, kind, 20), 1)
            }
            96..=99 => long_message(r),
            turn => tree(r, turn - 100),
        };
        self.encode_packet(r, &packet);
    }

    /// What is due for the table of a packet, which is spoiled half of the time, and an output on either side of what is needed.
    fn encode_packet(&mut self, r: &mut Random, packet: &OscPacket) {
        self.encode_tree(r, packet);
        let spoiled = r.one_in(2);
        if spoiled {
            spoil::table(r, &mut self.asked);
        }
        judge::encode(&self.asked, &mut self.due, &mut self.seen);
        self.seen.note_if(Rule::SpoiledStill, spoiled && self.due.refusal(Call::Encode) == 0);
        self.fit(r);
    }

    /// Asks for the table of a packet, with any starts; what is odd in its texts is noted.
    fn encode_tree(&mut self, r: &mut Random, packet: &OscPacket) {
        let any = !r.one_in(8);
        self.seen.note_if(Rule::StartAny, any);
        let start = || if any { r.next() as u32 } else { 0 };
        crate::table::put_with_source(&mut self.asked.first, &mut self.asked.second, packet, start);
        self.asked.number = (self.asked.first.len() / RECORD) as u64;
        if let OscPacket::Message(OscMessage { addr, args }) = packet {
            self.seen.note_if(Rule::NoSlash, !addr.starts_with('/'));
            let nul = args.iter().any(|value| matches!(value, OscType::String(text) if text.contains('\0')));
            self.seen.note_if(Rule::NulInText, nul || addr.contains('\0'));
        }
    }

    fn string(&mut self, r: &mut Random) {
        self.asked.begin(Call::EncodeString);
        self.asked.first = match r.below(8) {
            0 if r.one_in(10) => vec![b'x'; 65_524 + r.below(16)],
            0..=4 => edges::text(r),
            _ => vec![b'x'; r.below(41)],
        };
        judge::encode_string(&self.asked, &mut self.due, &mut self.seen);
        self.fit(r);
    }

    /// An output on either side of what is needed; where it is refused, of what might have been written.
    fn fit(&mut self, r: &mut Random) {
        let needed = match self.due.refusal(self.asked.call) {
            0 => self.due.wrote.len(),
            1 => judge::LONGEST,
            _ => self.asked.first.len().min(400),
        };
        self.asked.room = match r.below(8) {
            0 | 1 => needed.saturating_sub(1),
            2 => r.below(needed + 1),
            3 | 4 => needed,
            _ => needed + r.below(70),
        };
        judge::fit(&self.asked, &mut self.due, &mut self.seen);
    }

    fn pad(&mut self, r: &mut Random) {
        self.asked.begin(Call::Pad);
        let around = r.pick(&[1 << 16, 1 << 32, 1 << 48, 1 << 63, u64::MAX - 20]);
        self.asked.number = match r.below(4) {
            0 => r.below(70_000) as u64,
            1 => around - 8 + r.below(16) as u64,
            2 => u64::MAX - r.below(12) as u64,
            _ => r.next(),
        };
        judge::pad(&self.asked, &mut self.due, &mut self.seen);
    }

    fn look(&mut self, r: &mut Random) {
        self.asked.begin(Call::Look);
        spoil::records(r, &mut self.asked);
        judge::look(&self.asked, &mut self.due, &mut self.seen);
    }

    fn start(&mut self, r: &mut Random) {
        self.asked.begin(Call::Start);
        spoil::records(r, &mut self.asked);
        judge::start(&self.asked, &mut self.due, &mut self.seen);
    }
}

/// A tree for an encoder: at a low turn one around the limit of depth.
fn tree(r: &mut Random, turn: usize) -> OscPacket {
    match turn {
        0..=5 => inputs::deepest(r),
        6..=105 => inputs::nested(r),
        106..=175 => {
            let packet = inputs::tree(r, 3);
            inputs::in_bundles(packet, 60 + r.below(6))
        }
        _ => inputs::tree(r, 3),
    }
}

/// A message whose encoding is around 65,535 bytes, or whose records are around 65,535.
fn long_message(r: &mut Random) -> OscPacket {
    let args = match r.below(5) {
        3 => vec![OscType::Nil; 65_516 + r.below(24)],
        4 => vec![OscType::Int(7); 13_100 + r.below(12)],
        kind => return long_bytes(r, kind, 0),
    };
    OscPacket::Message(OscMessage { addr: "/a".to_string(), args })
}

/// A message with a long address, text or blob, whose encoding is around 65,535 bytes with so many around it.
fn long_bytes(r: &mut Random, kind: usize, around: usize) -> OscPacket {
    let text = |length: usize| "x".repeat(length - around);
    let (addr, args) = match kind {
        0 => (text(65_512 + r.below(24)), Vec::new()),
        1 => ("/a".to_string(), vec![OscType::String(text(65_508 + r.below(24)))]),
        _ => ("/a".to_string(), vec![OscType::Blob(vec![1; 65_504 + r.below(24) - around])]),
    };
    OscPacket::Message(OscMessage { addr, args })
}
