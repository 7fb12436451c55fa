//! Where the items of the crate's packets stand in the input, which the crate does not tell: a walk over the input's bytes
//! that is led by the crate's packets. It decides nothing; it only finds offsets, and notes which rules were at work. What it
//! finds is held to the crate: an item's value stands where it begins, and the crate confirms how far a message was read.

use crate::fields::{self, Fault};
use crate::met::{Rule, Seen};
use crate::oracle;
use crate::reached::Reached;
use crate::table::{put_packet, word, Spot, RECORD};
use rosc::{decoder, OscBundle, OscMessage, OscPacket};

/// How deep arrays would be that are not in the crate's packets, bundles around them counted: those that an unclosed bracket
/// lost, and those that would be there had every bracket been closed.
#[derive(Clone, Copy, Debug, Default, PartialEq, Eq)]
pub struct Lost {
    pub arrays: u64,
    pub open: u64,
}

/// Why an element ends its bundle, by the refusal that it would be alone.
const ENDS: [(u8, Rule); 11] = [
    (2, Rule::Ends2),
    (4, Rule::Ends4),
    (5, Rule::Ends5),
    (6, Rule::Ends6),
    (7, Rule::Ends7),
    (8, Rule::Ends8),
    (17, Rule::Ends17),
    (18, Rule::Ends18),
    (19, Rule::Ends19),
    (20, Rule::Ends20),
    (21, Rule::Ends21),
];

pub struct Walk<'a> {
    input: &'a [u8],
    /// Where the position is counted from: the start of the input or of the frame.
    base: usize,
    at: usize,
    /// Where each item stands that is kept, containers before what they contain.
    spots: Vec<Spot>,
    /// Where the data of the message stands before each tag and after the last.
    positions: Vec<usize>,
    /// How many bundles are around.
    around: u64,
    lost: Lost,
    seen: Seen,
}

/// The table of the crate's packets over an input, with the offsets that the walk finds; answers how deep what is lost would be.
/// The bytes left over must agree.
pub fn table(input: &[u8], prefix: usize, packets: &[OscPacket], left: usize, to: &mut Vec<u8>, seen: &mut Seen) -> Lost {
    let mut walk = Walk::new(input, 0, 0, *seen);
    for packet in packets {
        walk.frame(prefix, packet);
    }
    walk.seen.note_if(Rule::LeftOver, left > 0);
    walk.seen.note_if(Rule::Several, packets.len() > 1);
    walk.put(packets, left, to, seen)
}

/// Appends to the table the packet of one frame, which its length has cut: the prefix stands at `from`, and the packet takes all
/// bytes after it.
pub fn cut_frame(input: &[u8], from: usize, packet: &[OscPacket], to: &mut Vec<u8>, seen: &mut Seen) -> Lost {
    let mut walk = Walk::new(input, from, from + 4, *seen);
    packet.iter().for_each(|packet| walk.packet(packet, input.len()));
    walk.put(packet, 0, to, seen)
}

/// Whether the value of a record, as the crate gave it, stands where the walk says that the item begins. A tag without data and
/// an array have none.
fn begins(input: &[u8], record: &[u8]) -> bool {
    let (a, b, start) = (word(record, 8), word(record, 12), word(record, 16) as usize);
    match record[0] {
        b'#' => input[start..].starts_with(b"#bundle\0"),
        b'/' | b's' => a as usize == start && input[start + b as usize] == 0,
        b'b' => a as usize == start + 4 && word(input, start) == b,
        b'i' | b'f' | b'c' | b'r' | b'm' => word(input, start) == a,
        b'h' | b'd' | b't' => word(input, start) == a && word(input, start + 4) == b,
        _ => true,
    }
}

impl<'a> Walk<'a> {
    /// A walk that begins at a place, with padding counted from another.
    fn new(input: &'a [u8], base: usize, at: usize, seen: Seen) -> Walk<'a> {
        Walk { input, base, at, spots: Vec::new(), positions: Vec::new(), around: 0, lost: Lost::default(), seen }
    }

    /// Appends the records of the packets that were walked over, after which so many bytes must be left.
    fn put(self, packets: &[OscPacket], left: usize, to: &mut Vec<u8>, seen: &mut Seen) -> Lost {
        let (input, from) = (self.input, to.len());
        assert_eq!(input.len() - self.at, left, "the walk and the crate disagree on the bytes left over: {input:02X?}");
        let mut next = self.spots.iter();
        for packet in packets {
            put_packet(to, packet, &mut |bytes| {
                let spot = *next.next().expect("a spot for each item");
                assert_eq!(input[spot.range as usize..][..bytes.len()], *bytes, "the walk found other bytes than the crate");
                spot
            });
        }
        assert!(next.next().is_none(), "an item for each spot");
        for record in to[from..].chunks_exact(RECORD) {
            assert!(begins(input, record), "the crate's value does not stand where the walk says: {input:02X?}");
        }
        *seen = self.seen;
        self.lost
    }

    fn frame(&mut self, prefix: usize, packet: &OscPacket) {
        self.base = self.at;
        self.at += prefix;
        self.packet(packet, self.input.len());
        if prefix == 0 {
            return;
        }
        let (length, took) = (word(self.input, self.base) as usize, self.at - self.base - prefix);
        self.seen.note_if(Rule::PrefixZero, length == 0);
        self.seen.note_if(Rule::PrefixShorter, length < took);
        self.seen.note_if(Rule::PrefixExact, length == took);
        self.seen.note_if(Rule::PrefixLonger, length > took);
        self.seen.note_if(Rule::PrefixWhole, length == self.input.len() - self.base);
        let more = matches!(packet, OscPacket::Bundle(bundle) if !bundle.content.is_empty());
        self.seen.note_if(Rule::FrameTaken, more && length >= 16 && length + 8 <= took);
    }

    /// Walks over a packet whose bytes end at `end` at the latest.
    fn packet(&mut self, packet: &OscPacket, end: usize) {
        match packet {
            OscPacket::Message(message) => self.message(message, end),
            OscPacket::Bundle(bundle) => self.bundle(bundle, end),
        }
    }

    /// Skips to the next multiple of 4.
    fn pad(&mut self) {
        self.at = self.base + (self.at - self.base).div_ceil(4) * 4;
    }

    /// Skips a text with its NUL and padding, and answers it.
    fn text(&mut self) -> std::ops::Range<usize> {
        let from = self.at;
        let length = self.input[from..].iter().position(|b| *b == 0).expect("a NUL after a text");
        self.at = from + length + 1;
        self.pad();
        from..from + length
    }

    /// The next item begins here.
    fn begin(&mut self) {
        let start = self.at as u32;
        self.spots.push(Spot { start, range: start });
    }

    fn message(&mut self, message: &OscMessage, end: usize) {
        self.begin();
        let address = self.text();
        assert_eq!(address.len(), message.addr.len());
        let range = self.text();
        let types = std::str::from_utf8(&self.input[range.clone()]).expect("type text is UTF-8");
        self.seen.note_if(Rule::TypesEmpty, types.is_empty());
        self.seen.note_if(Rule::TypesOne, types.len() == 1);
        if types.len() < 2 {
            return;
        }
        let first = types.chars().next().unwrap_or(',');
        self.seen.note_if(Rule::TypesNoComma, first != ',');
        self.seen.note_if(Rule::TypesWide, first.len_utf8() > 1);
        let tags = range.start + first.len_utf8()..range.end;
        self.arguments(&types[first.len_utf8()..]);
        self.confirm(address.start, tags, end);
    }

    /// Walks over arguments. Of an array that is not closed only what it contains is kept, without the array itself.
    fn arguments(&mut self, tags: &str) {
        let (outside, data) = (self.spots.len(), self.at);
        // What is open, the message first: the spots before what it contains, and how deep arrays are nested in it so far.
        let mut open = vec![(outside, 0)];
        self.positions.clear();
        for tag in tags.chars() {
            self.seen.note_if(Rule::ArrayNested, tag == '[' && open.len() > 1);
            self.seen.note_if(Rule::StartArray, tag == '[' && self.at > data);
            self.seen.note_if(Rule::StartNoData, "TFNI".contains(tag) && self.at > data);
            self.positions.push(self.at);
            if tag == ']' {
                let (_, inside) = open.pop().expect("an array that is open");
                let (_, deep) = open.last_mut().expect("what the array stands in");
                *deep = (*deep).max(inside + 1);
                continue;
            }
            self.begin();
            match tag {
                '[' => open.push((self.spots.len(), 0)),
                _ => self.data(tag),
            }
        }
        self.positions.push(self.at);
        let (kept, _) = open[open.len() - 1];
        if open.len() > 1 {
            self.seen.note(Rule::ArrayUnclosed);
            self.seen.note_if(Rule::StartUnclosed, self.spots.get(kept).is_some_and(|spot| spot.start as usize > data));
            self.spots.drain(outside..kept);
            self.lose(&open);
        }
    }

    /// Remembers how deep lost arrays are, where all but the last of what is open is lost.
    fn lose(&mut self, open: &[(usize, u64)]) {
        let deep = open.iter().map(|(_, deep)| *deep);
        let arrays = deep.clone().take(open.len() - 1).max().unwrap_or(0);
        if arrays > 0 {
            self.lost.arrays = self.lost.arrays.max(self.around + arrays);
        }
        let closed = deep.zip(self.around..).map(|(deep, around)| around + deep).max().unwrap_or(0);
        self.lost.open = self.lost.open.max(closed);
    }

    /// Has the crate confirm how far it has read a small message before each of the tags.
    fn confirm(&mut self, from: usize, tags: std::ops::Range<usize>, end: usize) {
        self.positions.iter_mut().for_each(|position| *position -= from);
        let reached = Reached {
            message: &self.input[from..end],
            odd: (from - self.base) % 4,
            tags: tags.start - from..tags.end - from,
            positions: &self.positions,
        };
        if reached.is_small() {
            assert!(reached.is_so(), "the crate has not read as far as the walk: {:02X?}", self.input);
            self.seen.note(Rule::StartConfirmed);
        }
    }

    fn data(&mut self, tag: char) {
        self.seen.note_if(Rule::StartOdd, !self.at.is_multiple_of(4) && !"TFNI".contains(tag));
        match tag {
            'i' | 'f' | 'c' | 'r' | 'm' => self.at += 4,
            'h' | 'd' | 't' => self.at += 8,
            's' => drop(self.text()),
            'b' => {
                let last = self.spots.last_mut().expect("the blob's own spot");
                last.range += 4;
                self.at += 4 + word(self.input, self.at) as usize;
                self.pad();
            }
            _ => {}
        }
    }

    fn bundle(&mut self, bundle: &OscBundle, end: usize) {
        self.begin();
        self.at += 8;
        self.pad();
        self.at += 8;
        self.around += 1;
        for packet in &bundle.content {
            let element = self.at + 4;
            let after = element + word(self.input, self.at) as usize;
            self.at = element;
            self.packet(packet, after);
            self.seen.note_if(Rule::ElementOdd, !(element - self.base).is_multiple_of(4));
            self.seen.note_if(Rule::ElementDropped, self.at < after);
            self.at = after;
        }
        self.around -= 1;
        if self.at < end {
            self.ended(end);
        }
    }

    /// Notes why the element at this place ended its bundle, whose bytes end at `end`.
    fn ended(&mut self, end: usize) {
        let rest = &self.input[self.at..end];
        let fault = fields::element(self.input, self.base, self.at, end).expect("an element that ends its bundle");
        self.seen.note(Rule::ElementEnds);
        if rest.len() < 4 {
            return self.seen.note(Rule::EndsShort);
        }
        let size = word(rest, 0) as usize;
        if size > rest.len() - 4 {
            return self.seen.note(Rule::EndsPast);
        }
        // Padding is counted as for the whole input only where the element stands at a multiple of 4.
        if (self.at + 4 - self.base).is_multiple_of(4) {
            let error = decoder::decode_udp(&rest[4..4 + size]).expect_err("an element that ends its bundle");
            assert_eq!(fault.class(), oracle::number_of(&error), "an element ends its bundle otherwise: {rest:02X?}");
        }
        let number = fault.number();
        self.seen.note(ENDS.iter().find(|(ends, _)| *ends == number).expect("a refusal of reading").1);
        if let Fault::Short { what: fields::What { of: Some(Rule::ShortBundlePadding), .. }, .. } = fault {
            self.seen.note(Rule::ShortBundlePadding);
        }
    }
}
