//! Streams of edition 2 that come in portions: Ticket 14. However a stream is cut, the reader gives what one call over all of it gives.

use sennorbai::{
    decode_tcp, decode_tcp_vec, Decoded, DecodedList, Edition, Ended, Field, Packets, Record, Refusal, StreamReader, Value,
    DEEPEST, LONGEST, RECORD,
};
use std::collections::BTreeSet;

/// A record with offsets and ends as in the whole stream.
#[derive(Clone, Debug, PartialEq, Eq)]
struct Item {
    kind: u8,
    end: usize,
    start: u64,
    says: Vec<u8>,
    data: Option<Vec<u8>>,
}

/// A stream as it was read: its records, the dirty padding, the bytes consumed, and the refused frame, by its number, the field's offset
/// and its own offset.
#[derive(Clone, Debug, Default, PartialEq, Eq)]
struct Seen {
    items: Vec<Item>,
    dirty: usize,
    consumed: u64,
    ended: Option<(u8, Option<u64>, u64)>,
}

/// What a value says, as bytes.
fn says(value: Value<'_>) -> Vec<u8> {
    match value {
        Value::Message(text) | Value::Text(text) => text.as_bytes().to_vec(),
        Value::Blob(bytes) => bytes.to_vec(),
        Value::Bundle(x) | Value::Time(x) => [x.seconds.to_be_bytes(), x.fractional.to_be_bytes()].concat(),
        Value::Int(x) => x.to_be_bytes().to_vec(),
        Value::Float(x) => x.to_bits().to_be_bytes().to_vec(),
        Value::Char(x) => (x as u32).to_be_bytes().to_vec(),
        Value::Color(x) => vec![x.red, x.green, x.blue, x.alpha],
        Value::Midi(x) => vec![x.port, x.status, x.data1, x.data2],
        Value::Long(x) => x.to_be_bytes().to_vec(),
        Value::Double(x) => x.to_bits().to_be_bytes().to_vec(),
        Value::Bool(_) | Value::Nil | Value::Inf | Value::Array => Vec::new(),
        other => panic!("a value that this test does not know: {other:?}"),
    }
}

impl Seen {
    /// Adds packets, before which the stream has so many bytes.
    fn add(&mut self, packets: Packets<'_>, before: u64) {
        let records = self.items.len();
        let item = |record: Record<'_>| Item {
            kind: record.kind(),
            end: records + record.end(),
            start: before + record.start() as u64,
            says: says(record.value()),
            data: record.data().map(<[u8]>::to_vec),
        };
        self.items.extend(packets.records().map(item));
        self.dirty += packets.dirty();
    }

    fn is_beginning_of(&self, whole: &Seen) -> bool {
        whole.items.starts_with(&self.items)
    }
}

/// The refused frame in numbers, before which the call had so many bytes of the stream.
fn end_of(refusal: Refusal, frame: usize, before: u64) -> (u8, Option<u64>, u64) {
    (refusal.number(), refusal.offset().map(|at| before + at as u64), before + frame as u64)
}

/// A stream with the depth limit that it is read under, and what one call over all of it gives.
struct Stream {
    name: &'static str,
    bytes: Vec<u8>,
    depth: u64,
    due: Seen,
    /// Where each frame ends that is read, with the records and the dirty padding up to there.
    frames: Vec<(usize, usize, usize)>,
}

fn room() -> Vec<u8> {
    vec![0xAA; RECORD * LONGEST]
}

impl Stream {
    fn new(name: &'static str, bytes: &[u8]) -> Stream {
        Stream::under(DEEPEST, name, bytes)
    }

    fn under(depth: u64, name: &'static str, bytes: &[u8]) -> Stream {
        let due = if bytes.len() <= LONGEST { by_one_call(bytes, depth) } else { frame_by_frame(bytes, depth) };
        let (mut frames, mut end) = (Vec::new(), 0);
        let mut table = room();
        while (end as u64) < due.consumed {
            let window = &bytes[end..bytes.len().min(end + LONGEST)];
            let Ok(Decoded::Packet(packet)) = decode_tcp(Edition::Standard, window, &mut table, depth) else {
                panic!("{name}: no frame at {end}")
            };
            end += window.len() - packet.left();
            let (_, records, dirty) = frames.last().copied().unwrap_or_default();
            frames.push((end, records + packet.count(), dirty + packet.dirty()));
        }
        Stream { name, bytes: bytes.to_vec(), depth, due, frames }
    }

    /// Reads it in portions that end at these places and at its end, and compares with the one call after each portion.
    fn cut(&self, places: impl IntoIterator<Item = usize>, table: &mut [u8]) {
        let mut reader = StreamReader::new(self.depth);
        self.cut_by(&mut reader, places, table);
    }

    fn cut_by(&self, reader: &mut StreamReader, places: impl IntoIterator<Item = usize>, table: &mut [u8]) {
        let (mut seen, mut fed) = (Seen::default(), 0);
        for place in places.into_iter().chain([self.bytes.len()]) {
            let from = fed;
            while fed < place && seen.ended.is_none() {
                let taken = reader.feed(&self.bytes[fed..place]);
                fed += taken;
                self.step(reader, fed, &mut seen, table);
                assert!(taken > 0, "{}: no byte taken at {fed}", self.name);
            }
            // A portion of no bytes changes nothing.
            if from == place && seen.ended.is_none() {
                self.step(reader, fed, &mut seen, table);
            }
        }
        assert_eq!(seen, self.due, "{}", self.name);
        match seen.ended {
            Some((_, _, frame)) => self.stays_ended(reader, frame, table),
            None => assert_eq!(reader.kept(), &self.bytes[self.due.consumed as usize..], "{}", self.name),
        }
    }

    /// Reads once, where so many bytes have been fed.
    fn step(&self, reader: &mut StreamReader, fed: usize, seen: &mut Seen, table: &mut [u8]) {
        let (name, before) = (self.name, seen.consumed);
        let portion = reader.read(table).unwrap();
        assert_eq!(portion.start(), before, "{name}");
        seen.add(portion.packets(), portion.start());
        for (record, item) in portion.packets().records().zip(&seen.items[seen.items.len() - portion.packets().count()..]) {
            assert_eq!(portion.offset(record), item.start, "{name}");
        }
        let ended = portion.ended();
        let rest = portion.packets().rest().to_vec();
        seen.ended = ended.map(|ended| (ended.refusal.number(), ended.field, ended.frame));
        seen.consumed = reader.consumed();
        assert_eq!(reader.ended(), ended, "{name}");
        assert_eq!(reader.kept(), rest, "{name}");
        assert_eq!(reader.kept(), &self.bytes[seen.consumed as usize..fed], "{name}");
        // No frame waits that is whole.
        let whole = self.frames.iter().take_while(|(end, ..)| *end <= fed).last().copied().unwrap_or_default();
        assert_eq!((seen.consumed as usize, seen.items.len(), seen.dirty), whole, "{name}: {fed} bytes fed");
        assert!(seen.is_beginning_of(&self.due), "{name}: {fed} bytes fed");
    }

    /// A stream that has ended takes nothing more, and says why, whatever the table.
    fn stays_ended(&self, reader: &mut StreamReader, frame: u64, table: &mut [u8]) {
        let (ended, kept) = (reader.ended().unwrap(), reader.kept().to_vec());
        assert!(kept.len() >= 4 && self.bytes[frame as usize..].starts_with(&kept), "{}", self.name);
        let (none, all) = table.split_at_mut(0);
        for table in [none, all] {
            assert_eq!(reader.feed(b"\0\0\0\x08/a\0\0,\0\0\0"), 0);
            assert!(reader.spare().is_empty());
            reader.received(7);
            assert_eq!(reader.read(table).unwrap_err(), ended.refusal, "{}", self.name);
            #[cfg(feature = "std")]
            assert_eq!(reader.receive(&mut &b"\0\0\0\x08"[..]).unwrap_err().to_string(), ended.to_string(), "{}", self.name);
            assert_eq!((reader.ended(), reader.consumed(), reader.kept()), (Some(ended), frame, &kept[..]), "{}", self.name);
        }
        // It is what the frame alone is refused with.
        let refusal = decode_tcp(Edition::Standard, &kept, table, self.depth).unwrap_err();
        assert_eq!(ended.refusal, refusal, "{}", self.name);
        assert_eq!(ended.field, refusal.offset().map(|at| frame + at as u64), "{}", self.name);
    }
}

/// What `decode_tcp_vec` gives.
fn by_one_call(bytes: &[u8], depth: u64) -> Seen {
    let (mut table, mut seen) = (room(), Seen::default());
    let list = decode_tcp_vec(Edition::Standard, bytes, &mut table, depth).unwrap();
    seen.add(list.packets(), 0);
    seen.consumed = (bytes.len() - list.packets().left()) as u64;
    if let DecodedList::Stopped { refusal, frame, .. } = list {
        seen.ended = Some(end_of(refusal, frame, 0));
    }
    seen
}

/// What `decode_tcp` gives, frame after frame: for a stream that is longer than a call takes.
fn frame_by_frame(bytes: &[u8], depth: u64) -> Seen {
    let (mut table, mut seen) = (room(), Seen::default());
    loop {
        let at = seen.consumed as usize;
        let window = &bytes[at..bytes.len().min(at + LONGEST)];
        match decode_tcp(Edition::Standard, window, &mut table, depth) {
            Ok(Decoded::Waiting) => return seen,
            Ok(Decoded::Packet(packet)) => {
                let used = window.len() - packet.left();
                // One packet as a list, for its records.
                let list = decode_tcp_vec(Edition::Standard, &window[..used], &mut table, depth).unwrap();
                seen.add(list.packets(), at as u64);
                seen.consumed += used as u64;
            }
            Err(refusal) => {
                seen.ended = Some(end_of(refusal, 0, at as u64));
                return seen;
            }
        }
    }
}

/// A generator of random numbers (xorshift64*), so that a run repeats.
struct Random(u64);

impl Random {
    fn below(&mut self, n: usize) -> usize {
        self.0 ^= self.0 >> 12;
        self.0 ^= self.0 << 25;
        self.0 ^= self.0 >> 27;
        (self.0.wrapping_mul(0x2545_F491_4F6C_DD1D) >> 16) as usize % n
    }

    /// Places in order, none of them over `most`.
    fn places(&mut self, many: usize, most: usize) -> Vec<usize> {
        let mut places: Vec<_> = (0..many).map(|_| self.below(most + 1)).collect();
        places.sort();
        places
    }
}

fn frame(packet: &[u8]) -> Vec<u8> {
    [&(packet.len() as u32).to_be_bytes(), packet].concat()
}

fn bundle(elements: &[&[u8]]) -> Vec<u8> {
    let mut packet = b"#bundle\0\0\0\0\x05\x80\0\0\0".to_vec();
    elements.iter().for_each(|element| packet.extend(frame(element)));
    packet
}

/// A message with so many bytes in all: an address, a type text and a blob.
fn long(bytes: usize) -> Vec<u8> {
    let mut packet = b"/a\0\0,b\0\0".to_vec();
    packet.extend((bytes as u32 - 12).to_be_bytes());
    packet.extend((0..bytes - 12).map(|at| at as u8));
    packet
}

/// A message with an argument of every kind, the last ones in an array.
const EVERY: &[u8] = b"/a\0\0,ifsbthdcrmTFNI[N[s]]\0\0\0\
    \0\0\0\x05\x3F\x80\0\0\xC3\xA9\0\0\0\0\0\x03\x01\x02\x03\0\0\0\0\x01\0\0\0\x02\
    \x80\0\0\0\0\0\0\0\x7F\xF8\0\0\0\0\0\x01\0\x01\xF6\0\x01\x02\x03\x04\x05\x06\x07\x08ab\0\0";
/// Messages with 4 and with 3 padding bytes that are not zero.
const DIRTY: &[u8] = b"/cue\0old,s\0\0go\0!";
const SOILED: &[u8] = b"/a\0\x01,b\0\0\0\0\0\x02\xFF\xFE\x01\x01";

/// A bundle with bundles, messages, a blob and dirty padding in it. The second element has a byte too many, so the third stands at no
/// multiple of 4.
fn nested() -> Vec<u8> {
    let inner = bundle(&[EVERY, &bundle(&[DIRTY]), SOILED]);
    bundle(&[&inner, b"/a\0\0,\0\0\0X", b"/b\0,i\0\0\0\0\0\x05", &bundle(&[]), b"/last\0\0\0,T\0\0"])
}

/// Frames that are refused, by number; the depth limit is 3 for all.
fn refused() -> Vec<(u8, Vec<u8>)> {
    let four = bundle(&[&bundle(&[&bundle(&[&bundle(&[])])])]);
    vec![
        (1, b"\0\0\xFF\xFC/a\0\0,\0\0\0".to_vec()),
        (1, b"\xFF\xFF\xFF\xFF/a\0\0,\0\0\0".to_vec()),
        (2, b"\0\0\0\0".to_vec()),
        (4, frame(b"/\xFF\0\0,\0\0\0")),
        (5, frame(b"a\0\0\0,\0\0\0")),
        (6, frame(b"/a\0\0,]\0\0")),
        (7, frame(b"/a\0\x01,x\0\0")),
        (8, frame(b"/a\0\0,ic\0\0\0\0\x01\0\0\xD8\0")),
        (9, frame(&four)),
        (9, frame(b"/a\0\0,[[[[]]]]\0\0\0")),
        (15, frame(b"/a\0\0,\0\0\0\0\0\0\0")),
        (15, frame(&[&bundle(&[DIRTY])[..], b"\0\0\0\x01"].concat())),
        (16, b"\0\0\0\x09/a\0\0,\0\0\0X".to_vec()),
        (16, b"\0\0\xFF\xFB/a\0\0,\0\0\0X".to_vec()),
        (17, frame(b"/abc")),
        (18, frame(b"/abc\0\0\0\0,iii")),
        (19, frame(b"/a\0\0,ii\0\0\0\0\x01")),
        (19, frame(b"/a\0\0,b\0\0\0\0\0\x05abcd")),
        (21, frame(b"#bundle\0\0\0\0\x01")),
    ]
}

const FRAMES: &[u8] = include_bytes!("../../../examples/frames.osc");
const STREAM: &[u8] = include_bytes!("../../../examples/stream.osc");

/// Streams that are short enough to be cut at every place.
fn short() -> Vec<Stream> {
    let all = [&frame(EVERY)[..], &frame(&nested()), &frame(DIRTY), &frame(SOILED), &frame(&bundle(&[]))].concat();
    let mut streams = vec![
        Stream::new("no bytes", b""),
        Stream::new("frames.osc", FRAMES),
        Stream::new("stream.osc", STREAM),
        Stream::new("every kind, bundles in bundles, dirty padding, blobs", &all),
        Stream::new("a bare length at the end", &[STREAM, b"\0\0\0\x08"].concat()),
        Stream::new("a part of a length at the end", &[STREAM, b"\0\0"].concat()),
        Stream::new("a part of a frame at the end", &all[..all.len() - 1]),
        Stream::new("a part of a frame alone", b"\0\0\xFF\xF8/a\0\0,\0\0\0"),
    ];
    let before = [&frame(DIRTY)[..], &frame(&bundle(&[SOILED])), &frame(b"/b\0\0,[T]\0\0\0\0")].concat();
    for (number, bad) in refused() {
        let stream = Stream::under(3, "a refused frame in the middle", &[&before, &bad[..], FRAMES].concat());
        let (told, _, at) = stream.due.ended.unwrap();
        assert_eq!((told, at as usize), (number, before.len()), "{bad:02X?}");
        streams.push(stream);
        streams.push(Stream::under(3, "a refused frame at the beginning", &[&bad, STREAM].concat()));
        streams.push(Stream::under(3, "a refused frame at the end", &[STREAM, &bad].concat()));
    }
    streams
}

#[test]
fn these_streams_are_what_they_are_called() {
    let streams = short();
    assert_eq!((streams[1].due.items.len(), streams[1].due.consumed, streams[1].frames.len()), (9, 132, 2));
    assert_eq!((streams[2].due.items.len(), streams[2].due.consumed, streams[2].frames.len()), (6, 64, 3));
    let kinds: BTreeSet<_> = streams[3].due.items.iter().map(|item| item.kind).collect();
    assert_eq!(kinds, b"/#ifsbthdcrmTFNI[".iter().copied().collect());
    assert_eq!((streams[3].frames.len(), streams[3].due.dirty), (5, 14));
    let numbers: BTreeSet<_> = streams.iter().filter_map(|stream| stream.due.ended).map(|(number, ..)| number).collect();
    // Padding is never short in a frame: its length is a multiple of 4, and what an element has too few ends its bundle.
    assert_eq!(numbers, [1, 2, 4, 5, 6, 7, 8, 9, 15, 16, 17, 18, 19, 21].into());
}

#[test]
fn cut_at_every_place() {
    let mut table = room();
    for stream in short() {
        for place in 0..=stream.bytes.len() {
            stream.cut([place], &mut table);
        }
    }
}

#[test]
fn cut_at_every_pair_of_places() {
    let mut table = room();
    let stopped = [&STREAM[..44], b"\0\0\0\x0C/a\0\0,ii\0\0\0\0\x01", &STREAM[44..]].concat();
    for stream in [Stream::new("stream.osc", STREAM), Stream::new("a refused third frame", &stopped)] {
        for first in 0..=stream.bytes.len() {
            for second in first..=stream.bytes.len() {
                stream.cut([first, second], &mut table);
            }
        }
    }
}

#[test]
fn byte_by_byte() {
    let mut table = room();
    for stream in short() {
        stream.cut(0..stream.bytes.len(), &mut table);
    }
}

#[test]
fn cut_at_random() {
    let (mut table, mut random) = (room(), Random(14));
    for stream in short() {
        for _ in 0..100 {
            let many = 1 + random.below(12);
            stream.cut(random.places(many, stream.bytes.len()), &mut table);
        }
    }
}

/// Streams with the longest frames that there are.
fn longest() -> Vec<Stream> {
    let one = frame(&long(65_528));
    vec![
        Stream::new("the longest frame", &one),
        Stream::new("the longest frame, and three bytes more", &[&one, &b"\0\0\0"[..]].concat()),
        Stream::new("longest frames after and before others", &[STREAM, &one, FRAMES, &one, &one, STREAM].concat()),
        Stream::new("a longest frame that is not whole", &[STREAM, &one, &one[..65_531]].concat()),
        Stream::new("a refused frame after a longest one", &[&one[..], b"\0\0\0\x08/a\0\0,ii\0", &one].concat()),
        Stream::new("a frame over the longest", &[STREAM, &one, b"\0\0\xFF\xFC", &one].concat()),
        Stream::under(0, "a long frame that is too deep", &[&one[..], &frame(&bundle(&[&long(65_508)])), &one].concat()),
    ]
}

#[test]
fn the_longest_frames_get_through() {
    let (mut table, mut random) = (room(), Random(15));
    for stream in longest() {
        assert!(stream.due.consumed > 0 && stream.bytes.len() >= 65_532, "{}", stream.name);
        let length = stream.bytes.len();
        let borders = stream.frames.iter().flat_map(|(end, ..)| end.saturating_sub(6)..end + 6).chain(0..6);
        for place in borders.filter(|place| *place <= length) {
            stream.cut([place], &mut table);
            stream.cut((0..length).filter(|at| at % 65_000 == place % 65_000), &mut table);
        }
        for _ in 0..8 {
            let many = 1 + random.below(40);
            stream.cut(random.places(many, length), &mut table);
        }
        // In pieces of one size.
        for size in [1_460, 4_096, 9_001, LONGEST - 1, LONGEST, LONGEST + 1] {
            stream.cut((0..length).step_by(size), &mut table);
        }
    }
}

#[test]
fn the_longest_frame_byte_by_byte() {
    let mut table = [0; 4 * RECORD];
    let one = frame(&long(65_528));
    let mut reader = StreamReader::new(DEEPEST);
    for round in 0..2 {
        for (at, byte) in one.iter().enumerate() {
            assert_eq!(reader.read(&mut table).unwrap().packets().count(), 0);
            assert!(reader.spare().len() >= 4);
            assert_eq!((reader.kept().len(), reader.feed(&[*byte])), (at, 1));
        }
        let portion = reader.read(&mut table).unwrap();
        assert_eq!((portion.packets().count(), portion.start()), (2, round * 65_532));
        assert_eq!(says(portion.packets().records().nth(1).unwrap().value()), one[16..]);
    }
    assert_eq!((reader.consumed(), reader.kept()), (2 * 65_532, &b""[..]));
}

#[test]
fn a_stream_longer_than_a_call_takes() {
    let (mut table, mut random) = (room(), Random(16));
    let one = [&frame(EVERY)[..], FRAMES, &frame(&nested()), STREAM, &frame(DIRTY)].concat();
    let many = one.repeat(3 * LONGEST / one.len());
    assert!(many.len() > 2 * LONGEST);
    for end in [&b""[..], b"\0\0\0\x08/a", b"\0\0\0\x04/abc"] {
        let stream = Stream::new("many frames", &[&many, end].concat());
        assert!(stream.frames.len() > 1000);
        assert_eq!(stream.due.ended.is_some(), end.len() == 8);
        stream.cut([], &mut table);
        stream.cut((0..stream.bytes.len()).step_by(1_460), &mut table);
        for _ in 0..4 {
            stream.cut(random.places(20, stream.bytes.len()), &mut table);
        }
    }
}

#[test]
fn a_table_that_is_too_small_loses_nothing() {
    let stream = Stream::new("frames.osc", FRAMES);
    let mut reader = StreamReader::new(DEEPEST);
    assert_eq!(reader.feed(FRAMES), 132);
    for records in 0..9 {
        let mut table = vec![0xAA; RECORD * records + 19];
        assert_eq!(reader.read(&mut table).unwrap_err(), Refusal::TableFull);
        assert!(table.iter().all(|byte| *byte == 0xAA));
        assert_eq!((reader.consumed(), reader.kept(), reader.ended()), (0, FRAMES, None));
    }
    // More may come meanwhile.
    assert_eq!(reader.feed(b"\0\0\0\x08/a"), 6);
    assert_eq!(reader.read(&mut [0; 8 * RECORD]).unwrap_err(), Refusal::TableFull);
    let mut table = [0; 9 * RECORD];
    let (mut seen, portion) = (Seen::default(), reader.read(&mut table).unwrap());
    seen.add(portion.packets(), portion.start());
    assert_eq!((&seen.items, seen.dirty), (&stream.due.items, stream.due.dirty));
    assert_eq!((reader.consumed(), reader.kept()), (132, &b"\0\0\0\x08/a"[..]));
}

#[test]
fn a_full_buffer_takes_more_after_a_read() {
    let mut table = room();
    let one = frame(b"/a\0\0,TTT\0\0\0\0");
    let stream = one.repeat(LONGEST.div_ceil(16));
    let mut reader = StreamReader::new(DEEPEST);
    assert_eq!(reader.feed(&stream), LONGEST);
    assert_eq!((reader.feed(&stream[LONGEST..]), reader.spare().len()), (0, 0));
    // The table is full, and so is the buffer: both stay as they are.
    assert_eq!(reader.read(&mut table[..100]).unwrap_err(), Refusal::TableFull);
    assert_eq!(reader.feed(&stream[LONGEST..]), 0);
    let portion = reader.read(&mut table).unwrap();
    assert_eq!((portion.packets().roots().count(), portion.packets().left()), (4095, 15));
    assert_eq!(reader.feed(&stream[LONGEST..]), 1);
    let portion = reader.read(&mut table).unwrap();
    assert_eq!((portion.packets().roots().count(), portion.start()), (1, 65_520));
    assert_eq!((reader.consumed(), reader.kept().len(), reader.spare().len()), (65_536, 0, LONGEST));
}

#[test]
fn spare_and_received_are_feed() {
    let (mut table, mut random) = (room(), Random(17));
    for stream in short() {
        let (mut one, mut other) = (StreamReader::new(stream.depth), StreamReader::new(stream.depth));
        let mut left = &stream.bytes[..];
        while !left.is_empty() && one.ended().is_none() {
            let (now, later) = left.split_at(1 + random.below(left.len()));
            left = later;
            assert_eq!(one.feed(now), now.len());
            // What is written to the room counts only as far as it was received.
            other.spare().fill(0xFF);
            other.spare()[..now.len()].copy_from_slice(now);
            other.received(now.len());
            assert_eq!(one.kept(), other.kept());
            let count = one.read(&mut table).unwrap().packets().count();
            assert_eq!(other.read(&mut table).unwrap().packets().count(), count);
            assert_eq!((one.kept(), one.consumed(), one.ended()), (other.kept(), other.consumed(), other.ended()));
        }
        assert_eq!(one.consumed(), stream.due.consumed);
    }
    let mut reader = StreamReader::new(DEEPEST);
    reader.spare()[..4].copy_from_slice(b"\0\0\0\x08");
    reader.received(usize::MAX);
    assert_eq!((reader.kept().len(), reader.spare().len()), (LONGEST, 0));
    reader.received(usize::MAX);
    assert_eq!(reader.kept().len(), LONGEST);
}

/// A socket that gives at most so many bytes at once, and is interrupted before each time.
#[cfg(feature = "std")]
struct Slow<'a>(&'a [u8], usize, bool);

#[cfg(feature = "std")]
impl std::io::Read for Slow<'_> {
    fn read(&mut self, buffer: &mut [u8]) -> std::io::Result<usize> {
        self.2 = !self.2;
        if self.2 {
            return Err(std::io::ErrorKind::Interrupted.into());
        }
        let many = buffer.len().min(self.1);
        self.0.read(&mut buffer[..many])
    }
}

/// A recorder that looks at nothing but errors: it has all packets, or an error that says why not.
#[cfg(feature = "std")]
#[test]
fn a_careless_recorder_hears_of_a_refused_frame() {
    let mut table = room();
    for stream in short() {
        let (mut reader, mut socket, mut seen) = (StreamReader::new(stream.depth), Slow(&stream.bytes, 5, false), 0);
        let error = loop {
            match reader.receive(&mut socket) {
                Ok(0) => break None,
                Ok(many) => assert!(many <= 5),
                Err(error) => break Some(error.to_string()),
            }
            match reader.read(&mut table) {
                Ok(portion) => seen += portion.packets().count(),
                Err(refusal) => break Some(refusal.to_string()),
            }
        };
        assert_eq!(seen, stream.due.items.len(), "{}", stream.name);
        assert_eq!(error.is_some(), stream.due.ended.is_some(), "{}", stream.name);
        assert_eq!(error, reader.ended().map(|ended| ended.to_string()), "{}", stream.name);
    }
    // A buffer that is full is not a sender that has closed.
    let mut reader = StreamReader::new(DEEPEST);
    let zeros = [0; LONGEST + 1];
    assert_eq!(reader.receive(&mut &zeros[..]).unwrap(), LONGEST);
    let words = "the reader's buffer is full: the bytes that have come are to be read first";
    assert_eq!(reader.receive(&mut &zeros[LONGEST..]).unwrap_err().to_string(), words);
    assert_eq!(reader.kept().len(), LONGEST);
}

#[test]
fn a_depth_limit_that_is_too_high_refuses_every_read() {
    let mut reader = StreamReader::new(DEEPEST + 1);
    reader.feed(STREAM);
    for _ in 0..2 {
        assert_eq!(reader.read(&mut room()).unwrap_err(), Refusal::DepthLimit);
        assert_eq!((reader.consumed(), reader.kept(), reader.ended()), (0, STREAM, None));
    }
}

/// Offsets past 2^32, where a field was short: a refusal's own number would be cut.
#[test]
fn offsets_of_a_very_long_stream() {
    let mut table = [0; 4 * RECORD];
    let one = frame(&long(65_528));
    let mut reader = StreamReader::new(DEEPEST);
    let rounds = (1 << 32) / 65_532 + 1;
    for _ in 0..rounds {
        assert_eq!(reader.feed(&one), one.len());
        assert_eq!(reader.read(&mut table).unwrap().packets().count(), 2);
    }
    reader.feed(b"\0\0\0\x08/b\0\0,T\0\0\0\0\0\x04/abc");
    let portion = reader.read(&mut table).unwrap();
    let at = rounds * 65_532;
    assert!(at > 1 << 32);
    assert_eq!((portion.start(), portion.offset(portion.packets().roots().next().unwrap())), (at, at + 4));
    let refusal = Refusal::Short { field: Field::Address, at: 4 };
    assert_eq!(portion.ended(), Some(Ended { refusal, frame: at + 12, field: Some(at + 16) }));
    let words = format!("the frame at byte {}: 17: the address at offset {} is not all there", at + 12, at + 16);
    assert_eq!(portion.ended().unwrap().to_string(), words);
}

#[test]
fn words() {
    let mut reader = StreamReader::new(DEEPEST);
    reader.feed(b"\0\0\0\x08/a\0\0,\0\0\0\0\0\0\x0A/b");
    assert_eq!(format!("{reader:?}"), "StreamReader { consumed: 0, kept: 18, ended: None }");
    let mut table = [0; RECORD];
    let ended = reader.read(&mut table).unwrap().ended().unwrap();
    assert_eq!(ended.to_string(), "the frame at byte 12: 16: frame length not a multiple of 4");
    let shown = "StreamReader { consumed: 12, kept: 6, ended: Some(Ended { refusal: OddLength, frame: 12, field: None }) }";
    assert_eq!(format!("{reader:?}"), shown);
}
