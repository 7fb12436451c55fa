//! A cue index of a recording, Ticket 5: what is written, checked and looked up. The recordings are written here, frame by frame, and so
//! are the indexes that they must have: no decoder is asked what a frame holds.
#![cfg(feature = "std")]

use sennorbai::index::{check, fits, write, Cue, Error, Stop, Written, ENTRY};
use sennorbai::{Ended, Field, Refusal};
use std::cell::{Cell, RefCell};
use std::io::{self, Cursor, Read, Seek, SeekFrom, Write};
use std::rc::Rc;

// ---- packets and recordings

/// A packet, and the records that its table has.
#[derive(Clone)]
struct Packet {
    bytes: Vec<u8>,
    records: u32,
}

/// Text with its NULs.
fn text(of: &str) -> Vec<u8> {
    let mut bytes = of.as_bytes().to_vec();
    bytes.resize(of.len() / 4 * 4 + 4, 0);
    bytes
}

/// A message with so many arguments without data.
fn bare(address: &str, arguments: usize) -> Packet {
    let bytes = [text(address), text(&format!(",{}", "T".repeat(arguments)))].concat();
    Packet { bytes, records: 1 + arguments as u32 }
}

/// A message with a blob of so many bytes.
fn blob(size: usize) -> Packet {
    let mut bytes = [text("/b"), text(",b"), (size as u32).to_be_bytes().to_vec(), vec![7; size]].concat();
    bytes.resize(bytes.len().div_ceil(4) * 4, 0);
    Packet { bytes, records: 2 }
}

/// A bundle of these elements.
fn bundle(elements: &[Packet]) -> Packet {
    let mut bytes = b"#bundle\0\0\0\0\0\0\0\0\x01".to_vec();
    elements.iter().for_each(|element| bytes.extend(frame(&element.bytes)));
    Packet { bytes, records: 1 + elements.iter().map(|element| element.records).sum::<u32>() }
}

/// Bundles so deep, one in the other.
fn nested(depth: usize) -> Packet {
    (1..depth).fold(bundle(&[]), |inner, _| bundle(&[inner]))
}

/// Bytes after their length.
fn frame(bytes: &[u8]) -> Vec<u8> {
    [&(bytes.len() as u32).to_be_bytes()[..], bytes].concat()
}

/// A recording, frame after frame, and the index that it must have.
#[derive(Clone, Default)]
struct Recording {
    bytes: Vec<u8>,
    index: Vec<u8>,
}

impl Recording {
    fn of(packets: impl IntoIterator<Item = Packet>) -> Recording {
        let mut recording = Recording::default();
        packets.into_iter().for_each(|packet| recording.push(&packet));
        recording
    }

    fn push(&mut self, packet: &Packet) {
        self.index.extend((self.bytes.len() as u64).to_be_bytes());
        self.index.extend((packet.bytes.len() as u32).to_be_bytes());
        self.index.extend(packet.records.to_be_bytes());
        self.bytes.extend(frame(&packet.bytes));
    }

    fn records(&self) -> usize {
        self.index.len() / ENTRY
    }

    /// How far the index goes, with this reason why no further.
    fn up_to_here(&self, stop: Stop) -> Written {
        Written { records: self.records() as u64, end: self.bytes.len() as u64, stop }
    }

    /// The same at a frame that is refused so: a field that was short has its own offset counted from the frame, and that in the recording
    /// stands beside it.
    fn refused_here(&self, refusal: Refusal) -> Written {
        let frame = self.bytes.len() as u64;
        let field = refusal.offset().map(|at| frame + at as u64);
        self.up_to_here(Stop::Refused(Ended { refusal, frame, field }))
    }

    fn whole(&self) -> Written {
        self.up_to_here(Stop::Whole)
    }
}

/// Numbers by a rule, for recordings that are the same in every run.
struct Numbers(u64);

impl Numbers {
    fn below(&mut self, n: usize) -> usize {
        self.0 = self.0.wrapping_mul(6364136223846793005).wrapping_add(1442695040888963407);
        ((self.0 >> 33) % n as u64) as usize
    }
}

/// A packet of some kind.
fn any_packet(numbers: &mut Numbers) -> Packet {
    match numbers.below(6) {
        0 => bare("/a", numbers.below(5)),
        1 => bare("/light/7", numbers.below(300)),
        2 => blob(numbers.below(3000)),
        3 => bundle(&[]),
        4 => bundle(&[bare("/x", numbers.below(9)), blob(numbers.below(40))]),
        _ => nested(1 + numbers.below(6)),
    }
}

/// So many packets of any kinds.
fn any_packets(seed: u64, many: usize) -> Vec<Packet> {
    let mut numbers = Numbers(seed);
    (0..many).map(|_| any_packet(&mut numbers)).collect()
}

// ---- readers and writers of every kind

/// A file that gives or takes at most so many bytes at once, by a rule, and is interrupted now and then.
struct Slowly<F>(F, Numbers, usize);

impl<F> Slowly<F> {
    fn many(&mut self, bytes: usize) -> io::Result<usize> {
        if self.1.below(10) == 0 {
            return Err(io::ErrorKind::Interrupted.into());
        }
        Ok(bytes.min(1 + self.1.below(self.2)))
    }
}

impl<F: Read> Read for Slowly<F> {
    fn read(&mut self, buffer: &mut [u8]) -> io::Result<usize> {
        let many = self.many(buffer.len())?;
        self.0.read(&mut buffer[..many])
    }
}

impl<F: Write> Write for Slowly<F> {
    fn write(&mut self, bytes: &[u8]) -> io::Result<usize> {
        let many = self.many(bytes.len())?;
        self.0.write(&bytes[..many])
    }

    fn flush(&mut self) -> io::Result<()> {
        self.0.flush()
    }
}

impl<F: Seek> Seek for Slowly<F> {
    fn seek(&mut self, to: SeekFrom) -> io::Result<u64> {
        self.0.seek(to)
    }
}

/// What is due of bytes that a recording has: its index by readers and writers of every kind, the check of that, and each cue.
fn agrees(name: &str, bytes: &[u8], index: &[u8], due: Written) {
    for most in [1 << 20, 1, 7, 1000, 70_000] {
        if most == 1 && bytes.len() > 300_000 {
            continue;
        }
        let slowly = |seed: u64| Slowly(bytes, Numbers(seed), most);
        let mut fresh = Vec::new();
        let written = write(slowly(1), Slowly(&mut fresh, Numbers(2), most)).unwrap();
        assert_eq!((written, fresh == index), (due, true), "{name}, {most} at once");
        let checked = check(slowly(3), Slowly(Cursor::new(index), Numbers(4), most)).unwrap();
        assert_eq!(checked.written(), due, "{name}, {most} at once");
    }
    looks_up(name, bytes, index, due);
}

/// The cues of an index, from the last to the first, and none after them.
fn looks_up(name: &str, bytes: &[u8], index: &[u8], due: Written) {
    let mut checked = check(bytes, Cursor::new(index)).unwrap();
    for (k, entry) in index.chunks(ENTRY).enumerate().rev().step_by(1 + index.len() / 16_000) {
        let cue = checked.cue(k as u64).unwrap().unwrap();
        let told = [&cue.offset.to_be_bytes()[..], &cue.length.to_be_bytes(), &cue.records.to_be_bytes()].concat();
        assert_eq!(told, entry, "{name}, cue {k}");
    }
    for k in [due.records, due.records + 1, u64::MAX] {
        assert_eq!(checked.cue(k).unwrap(), None, "{name}, cue {k}");
    }
}

/// The same of a recording that is whole.
fn agrees_whole(name: &str, recording: &Recording) {
    agrees(name, &recording.bytes, &recording.index, recording.whole());
}

/// The record at which an index differs.
fn differs(recording: &Recording, index: &[u8]) -> u64 {
    let mut differs = Vec::new();
    for most in [1 << 20, 5] {
        match check(&recording.bytes[..], Slowly(Cursor::new(index), Numbers(6), most)) {
            Err(error @ Error::Differs { record }) => {
                assert_eq!(error.number(), Some(25));
                assert_eq!(error.to_string(), format!("25: index differs, record {record}"));
                differs.push(record);
            }
            Err(other) => panic!("{other:?}"),
            Ok(checked) => panic!("{:?}", checked.written()),
        }
    }
    assert_eq!(differs[0], differs[1]);
    differs[0]
}

// ---- what is written

#[test]
fn recordings_of_many_lengths() {
    for frames in [0, 1, 2, 3, 10, 100, 2000] {
        let recording = Recording::of(any_packets(1, frames));
        assert_eq!(recording.index.len(), frames * ENTRY);
        agrees_whole(&format!("{frames} frames"), &recording);
    }
}

#[test]
fn the_bytes_of_an_index() {
    let recording = Recording::of([bare("/a", 2), bundle(&[bare("/a", 0)])]);
    let due = [&[0; 11][..], &[8, 0, 0, 0, 3], &[0; 7], &[12, 0, 0, 0, 28, 0, 0, 0, 2]].concat();
    assert_eq!(recording.index, due);
    agrees_whole("two frames", &recording);
    let mut checked = check(&recording.bytes[..], Cursor::new(&due)).unwrap();
    assert_eq!(checked.cue(1).unwrap(), Some(Cue { offset: 12, length: 28, records: 2 }));
}

#[test]
fn cut_anywhere() {
    let packets: Vec<_> = (0..6).map(|k| bare("/cut", 3 * k)).collect();
    let all = Recording::of(packets.clone());
    let mut before = Recording::default();
    for packet in packets {
        let end = before.bytes.len() + 4 + packet.bytes.len();
        agrees("cut between frames", &all.bytes[..before.bytes.len()], &before.index, before.whole());
        for cut in before.bytes.len() + 1..end {
            agrees("cut in a frame", &all.bytes[..cut], &before.index, before.up_to_here(Stop::Waiting));
        }
        before.push(&packet);
    }
}

/// A buffer of the shortest frames has more records than are compared at once, also where the recording ends with it.
#[test]
fn many_short_frames() {
    for frames in [2_730, 2_731, 4_096, 4_097, 5_461, 5_462, 8_192, 8_193] {
        let recording = Recording::of(vec![bare("/", 0); frames]);
        assert_eq!(recording.bytes.len(), 12 * frames);
        agrees_whole(&format!("{frames} short frames"), &recording);
    }
}

/// A frame is told as it would be alone, and what comes after it is not looked at.
fn stops_at(name: &str, bytes: &[u8], refusal: Refusal) {
    for before in [0, 1, 3] {
        let recording = Recording::of(any_packets(7, before));
        for after in [&[][..], &[0], &frame(&bare("/after", 1).bytes)] {
            let bytes = [&recording.bytes[..], bytes, after].concat();
            agrees(name, &bytes, &recording.index, recording.refused_here(refusal));
        }
    }
}

#[test]
fn frames_at_the_limits() {
    let within = |packet: Packet| {
        let recording = Recording::of([bare("/before", 1), packet.clone(), bare("/after", 1), packet]);
        agrees_whole("at a limit", &recording);
    };
    let over = |packet: Packet, refusal| stops_at("over a limit", &frame(&packet.bytes), refusal);
    // 65,528 is the longest length that a frame may have.
    assert_eq!(blob(65_516).bytes.len(), 65_528);
    within(blob(65_516));
    over(blob(65_520), Refusal::TooLong);
    // A table of 64 KiB has 3,276 records.
    within(bare("/most", 3_275));
    over(bare("/most", 3_276), Refusal::TableFull);
    within(bundle(&vec![bare("/", 0); 3_275]));
    over(bundle(&vec![bare("/", 0); 3_276]), Refusal::TableFull);
    // Depth 64, and records too many in what is too deep.
    within(nested(64));
    over(nested(65), Refusal::TooDeep);
    over(bundle(&[nested(64), bare("/most", 3_276)]), Refusal::TooDeep);
}

#[test]
fn frames_that_are_refused() {
    let short = |field, at| Refusal::Short { field, at };
    stops_at("1", b"\0\0\xFF\xFC", Refusal::TooLong);
    stops_at("1", b"\xFF\xFF\xFF\xFF", Refusal::TooLong);
    stops_at("2", &frame(b""), Refusal::Empty);
    stops_at("4", &frame(b"/\xFF\0\0,\0\0\0"), Refusal::NotUtf8);
    stops_at("5", &frame(b"a\0\0\0,\0\0\0"), Refusal::BadStart);
    stops_at("6", &frame(b"/a\0\0,]\0\0"), Refusal::NotOpen);
    stops_at("7", &frame(b"/a\0\0,x\0\0"), Refusal::UnknownTag);
    stops_at("8", &frame(b"/a\0\0,c\0\0\0\0\xD8\0"), Refusal::NotScalar);
    stops_at("15", &frame(b"/a\0\0,\0\0\0\0\0\0\0"), Refusal::BytesLeft);
    stops_at("16", b"\0\0\0\x01", Refusal::OddLength);
    stops_at("16", &frame(b"/a\0\0,\0\0\0\0"), Refusal::OddLength);
    stops_at("17", &frame(b"/abc"), short(Field::Address, 4));
    stops_at("18", &frame(b"/a\0\0"), short(Field::TypeText, 8));
    stops_at("19", &frame(b"/a\0\0,ii\0\0\0\0\x07"), short(Field::Data, 16));
    stops_at("21", &frame(b"#bundle\0\0\0\0\0"), short(Field::Head, 12));
}

// ---- what is checked

#[test]
fn each_byte_of_an_index_changed() {
    let recording = Recording::of(any_packets(3, 5));
    for at in 0..recording.index.len() {
        for change in [1, 0x80, 0xFF] {
            let mut changed = recording.index.clone();
            changed[at] ^= change;
            assert_eq!(differs(&recording, &changed), (at / ENTRY) as u64, "byte {at}");
        }
    }
}

#[test]
fn records_cut_off_and_added() {
    let recording = Recording::of(any_packets(3, 5));
    let index = &recording.index;
    for end in 0..index.len() {
        assert_eq!(differs(&recording, &index[..end]), (end / ENTRY) as u64, "cut off at {end}");
    }
    for extra in [1, 15, 16, 17, 32, 5 * ENTRY] {
        assert_eq!(differs(&recording, &[&index[..], &index[..extra]].concat()), 5, "{extra} more");
        assert_eq!(differs(&Recording::default(), &index[..extra]), 0, "{extra} of no recording");
    }
    let swapped = [&index[ENTRY..2 * ENTRY], &index[..ENTRY], &index[2 * ENTRY..]].concat();
    assert_eq!(differs(&recording, &swapped), 0);
    let without = [&index[..2 * ENTRY], &index[3 * ENTRY..]].concat();
    assert_eq!(differs(&recording, &without), 2);
    // The index of the recording with a frame less, and that of one with a frame more.
    let bytes = &recording.bytes;
    let last = u64::from_be_bytes(index[4 * ENTRY..][..8].try_into().unwrap()) as usize;
    assert_eq!(differs(&Recording { bytes: bytes[..last].to_vec(), index: Vec::new() }, index), 4);
    let more = Recording { bytes: [bytes, &bytes[..]].concat(), index: Vec::new() };
    assert_eq!(differs(&more, index), 5);
}

#[test]
fn a_late_difference() {
    // More records than are compared at once, of frames as short as there are.
    let recording = Recording::of(vec![bare("/", 0); 20_000]);
    for k in [0, 4_095, 4_096, 5_460, 5_461, 9_556, 9_557, 10_000, 19_999] {
        let mut changed = recording.index.clone();
        changed[k * ENTRY + 15] ^= 1;
        assert_eq!(differs(&recording, &changed), k as u64);
        assert_eq!(differs(&recording, &recording.index[..k * ENTRY]), k as u64);
        assert_eq!(differs(&recording, &recording.index[..k * ENTRY + 3]), k as u64);
    }
    assert_eq!(differs(&recording, &[&recording.index[..], &[0]].concat()), 20_000);
}

/// The index of a recording with a damaged end goes up to there, and is accepted.
#[test]
fn a_damaged_end() {
    let recording = Recording::of([bare("/a", 1)]);
    let bytes = [&recording.bytes[..], &frame(b"/abc"), &frame(&bare("/c", 1).bytes)].concat();
    let due = recording.refused_here(Refusal::Short { field: Field::Address, at: 4 });
    let Stop::Refused(ended) = due.stop else { panic!("it is refused") };
    assert_eq!(ended.to_string(), "the frame at byte 12: 17: the address at offset 16 is not all there");
    agrees("damaged", &bytes, &recording.index, due);
    // What comes later is not even read.
    assert_eq!(check((&bytes[..]).chain(Broken), Cursor::new(&recording.index)).unwrap().written(), due);
    // An index that goes on over it has a record too many.
    let over = Recording::of([bare("/a", 1), Packet { bytes: b"/abc".to_vec(), records: 1 }]);
    assert_eq!(differs(&Recording { bytes, index: Vec::new() }, &over.index), 1);
}

// ---- what is looked up

/// An index after other bytes of a file is looked up where it is.
#[test]
fn an_index_within_a_file() {
    let recording = Recording::of([bare("/a", 1), bare("/b", 2)]);
    let file = [&[9; 5][..], &recording.index[..]].concat();
    let mut cursor = Cursor::new(&file);
    cursor.set_position(5);
    let mut checked = check(&recording.bytes[..], cursor).unwrap();
    assert_eq!(checked.cue(0).unwrap(), Some(Cue { offset: 0, length: 8, records: 2 }));
    assert_eq!(checked.cue(1).unwrap(), Some(Cue { offset: 12, length: 8, records: 3 }));
    assert_eq!(checked.cue(0).unwrap(), Some(Cue { offset: 0, length: 8, records: 2 }));
    assert_eq!(checked.into_inner().into_inner().len(), 5 + 2 * ENTRY);
}

#[test]
fn an_index_from_a_pipe() {
    let recording = Recording::of(any_packets(12, 40));
    // Slices are readers that cannot seek.
    let (bytes, index) = (&recording.bytes[..], &recording.index[..]);
    assert_eq!(fits(bytes, index).unwrap(), check(bytes, Cursor::new(index)).unwrap().written());
    let last = recording.records() as u64 - 1;
    assert!(matches!(fits(bytes, &index[..index.len() - 1]), Err(Error::Differs { record }) if record == last));
    assert!(matches!(fits(bytes, index.chain(&[0][..])), Err(Error::Differs { record }) if record == last + 1));
}

/// A file that several hold, with one position for all.
#[derive(Clone)]
struct Shared(Rc<RefCell<Cursor<Vec<u8>>>>);

impl Read for Shared {
    fn read(&mut self, buffer: &mut [u8]) -> io::Result<usize> {
        self.0.borrow_mut().read(buffer)
    }
}

impl Seek for Shared {
    fn seek(&mut self, to: SeekFrom) -> io::Result<u64> {
        self.0.borrow_mut().seek(to)
    }
}

#[test]
fn an_index_that_others_hold_too() {
    let recording = Recording::of([bare("/a", 1), bare("/b", 2)]);
    let shared = Shared(Rc::new(RefCell::new(Cursor::new(recording.index.clone()))));
    let mut checked = check(&recording.bytes[..], shared.clone()).unwrap();
    let second = Some(Cue { offset: 12, length: 8, records: 3 });
    for place in [0, 3, 40] {
        // Where they have gone to in it does not matter.
        shared.0.borrow_mut().set_position(place);
        assert_eq!(checked.cue(1).unwrap(), second);
    }
    shared.0.borrow_mut().get_mut().extend([0; 20]);
    assert_eq!((checked.cue(1).unwrap(), checked.cue(2).unwrap()), (second, None));
    // What can be in no index is seen, and so is an index that is gone.
    shared.0.borrow_mut().get_mut()[ENTRY + 12] = 1;
    let kind = |error: Error| match error {
        Error::Index(error) => error.kind(),
        other => panic!("{other:?}"),
    };
    assert_eq!(kind(checked.cue(1).unwrap_err()), io::ErrorKind::InvalidData);
    shared.0.borrow_mut().get_mut().truncate(ENTRY + 15);
    assert_eq!(kind(checked.cue(1).unwrap_err()), io::ErrorKind::UnexpectedEof);
    assert_eq!(checked.cue(0).unwrap(), Some(Cue { offset: 0, length: 8, records: 2 }));
}

// ---- files that fail

/// A file that always fails.
struct Broken;

impl Read for Broken {
    fn read(&mut self, _: &mut [u8]) -> io::Result<usize> {
        Err(io::Error::other("broken"))
    }
}

impl Seek for Broken {
    fn seek(&mut self, _: SeekFrom) -> io::Result<u64> {
        Err(io::Error::other("broken"))
    }
}

/// A file that has room for so many bytes, and may not be flushed.
struct Full(usize, bool);

impl Write for Full {
    fn write(&mut self, bytes: &[u8]) -> io::Result<usize> {
        let many = bytes.len().min(self.0);
        self.0 -= many;
        Ok(many)
    }

    fn flush(&mut self) -> io::Result<()> {
        if self.1 {
            Ok(())
        } else {
            Err(io::Error::other("not flushed"))
        }
    }
}

/// A reader that stands where it is.
struct Still<R>(R);

impl<R: Read> Read for Still<R> {
    fn read(&mut self, buffer: &mut [u8]) -> io::Result<usize> {
        self.0.read(buffer)
    }
}

impl<R> Seek for Still<R> {
    fn seek(&mut self, to: SeekFrom) -> io::Result<u64> {
        match to {
            SeekFrom::Current(0) => Ok(0),
            _ => Err(io::Error::other("it stands where it is")),
        }
    }
}

#[test]
fn a_recording_that_fails() {
    let recording = Recording::of(any_packets(5, 4));
    for end in 0..=recording.bytes.len() {
        let failing = || (&recording.bytes[..end]).chain(Broken);
        let error = write(failing(), Vec::new()).unwrap_err();
        assert!(matches!(error, Error::Recording(_)), "after {end} bytes: {error:?}");
        assert_eq!((error.number(), error.to_string()), (None, "the recording: broken".to_string()));
        assert!(matches!(check(failing(), Cursor::new(&recording.index)), Err(Error::Recording(_))), "after {end} bytes");
    }
}

#[test]
fn an_index_that_fails() {
    let recording = Recording::of(any_packets(5, 4));
    let (bytes, index) = (&recording.bytes[..], &recording.index[..]);
    for room in 0..index.len() {
        let error = write(bytes, Full(room, true)).unwrap_err();
        assert!(matches!(error, Error::Index(_)), "room for {room}: {error:?}");
        assert_eq!((error.number(), &error.to_string()[..11]), (None, "the index: "));
    }
    assert_eq!(write(bytes, Full(index.len(), true)).unwrap(), recording.whole());
    assert!(matches!(write(bytes, Full(index.len(), false)), Err(Error::Index(_))));
    assert!(matches!(write(&[][..], Full(0, false)), Err(Error::Index(_))));
    for end in 0..=index.len() {
        let failing = Still((&index[..end]).chain(Broken));
        assert!(matches!(check(bytes, failing), Err(Error::Index(_))), "after {end} bytes");
    }
    // One that cannot be sought is not checked at all, and one that no longer can gives no cue.
    assert!(matches!(check(bytes, Broken), Err(Error::Index(_))));
    let mut still = check(bytes, Still(index)).unwrap();
    assert!(matches!(still.cue(1), Err(Error::Index(_))));
    assert_eq!(still.cue(4).unwrap(), None);
}

/// Bytes, then an end, then others.
struct Early<'a>(&'a [u8], &'a [u8]);

impl Read for Early<'_> {
    fn read(&mut self, buffer: &mut [u8]) -> io::Result<usize> {
        let many = self.0.read(buffer)?;
        if many == 0 {
            self.0 = std::mem::take(&mut self.1);
        }
        Ok(many)
    }
}

/// The end is where a reader first has no byte, whatever it would have later.
#[test]
fn a_reader_that_ends_early() {
    let recording = Recording::of([bare("/a", 1), bare("/b", 2)]);
    let (bytes, index) = (&recording.bytes, &recording.index);
    let first = Recording::of([bare("/a", 1)]);
    let mut fresh = Vec::new();
    assert_eq!(write(Early(&bytes[..12], &bytes[12..]), &mut fresh).unwrap(), first.whole());
    assert_eq!(fresh, first.index);
    assert_eq!(write(Early(&bytes[..15], &bytes[15..]), Vec::new()).unwrap(), first.up_to_here(Stop::Waiting));
    for end in 0..index.len() {
        let early = Still(Early(&index[..end], &index[end..]));
        assert!(matches!(check(&bytes[..], early), Err(Error::Differs { record }) if record == (end / ENTRY) as u64));
    }
}

/// A reader that knows how many bytes it was asked for at most.
struct Asked<'a, R>(R, &'a Cell<usize>);

impl<R: Read> Read for Asked<'_, R> {
    fn read(&mut self, buffer: &mut [u8]) -> io::Result<usize> {
        self.1.set(self.1.get().max(buffer.len()));
        self.0.read(buffer)
    }
}

#[test]
fn files_are_read_through_64_kib() {
    let recording = Recording::of(vec![bare("/", 0); 20_000]);
    let (one, other) = (Cell::new(0), Cell::new(0));
    let index = Still(Asked(&recording.index[..], &other));
    check(Asked(&recording.bytes[..], &one), index).unwrap();
    assert_eq!((one.get(), other.get()), (65_535, 65_536));
}

// ---- long recordings

/// So many copies of some frames, made as they are read.
struct Generated {
    frames: Vec<u8>,
    at: usize,
    left: u64,
}

impl Read for Generated {
    fn read(&mut self, buffer: &mut [u8]) -> io::Result<usize> {
        let many = buffer.len().min(self.frames.len() - self.at).min(usize::try_from(self.left).unwrap_or(usize::MAX));
        buffer[..many].copy_from_slice(&self.frames[self.at..][..many]);
        self.at = (self.at + many) % self.frames.len();
        self.left -= many as u64;
        Ok(many)
    }
}

/// The index of a row of copies, by that of one: a file for the check, and a writer that compares.
struct Expected {
    one: Vec<u8>,
    length: u64,
    copies: u64,
    at: u64,
}

impl Expected {
    fn byte(&self, at: u64) -> Option<u8> {
        let size = self.one.len() as u64;
        let (copy, within) = (at / size, (at % size) as usize);
        let entry = &self.one[within / ENTRY * ENTRY..][..ENTRY];
        let offset = u64::from_be_bytes(entry[..8].try_into().unwrap()) + copy * self.length;
        (copy < self.copies).then(|| match within % ENTRY {
            k if k < 8 => offset.to_be_bytes()[k],
            k => entry[k],
        })
    }
}

impl Read for Expected {
    fn read(&mut self, buffer: &mut [u8]) -> io::Result<usize> {
        for (many, place) in buffer.iter_mut().enumerate() {
            match self.byte(self.at) {
                Some(byte) => *place = byte,
                None => return Ok(many),
            }
            self.at += 1;
        }
        Ok(buffer.len())
    }
}

impl Seek for Expected {
    fn seek(&mut self, to: SeekFrom) -> io::Result<u64> {
        match to {
            SeekFrom::Start(at) => self.at = at,
            SeekFrom::Current(0) => {}
            _ => return Err(io::ErrorKind::Unsupported.into()),
        }
        Ok(self.at)
    }
}

impl Write for Expected {
    fn write(&mut self, bytes: &[u8]) -> io::Result<usize> {
        for byte in bytes {
            assert_eq!(Some(*byte), self.byte(self.at), "byte {} of the index", self.at);
            self.at += 1;
        }
        Ok(bytes.len())
    }

    fn flush(&mut self) -> io::Result<()> {
        Ok(())
    }
}

/// These packets over and over, up to so many bytes; the last frame of all is not all there.
fn long_recording(packets: Vec<Packet>, bytes: u64) {
    let one = Recording::of(packets);
    let length = one.bytes.len() as u64;
    let copies = bytes / length;
    let generated = || Generated { frames: one.bytes.clone(), at: 0, left: copies * length + 5 };
    let expected = || Expected { one: one.index.clone(), length, copies, at: 0 };
    let due = Written { records: one.records() as u64 * copies, end: copies * length, stop: Stop::Waiting };
    let mut index = expected();
    assert_eq!(write(generated(), &mut index).unwrap(), due);
    assert_eq!(index.at, due.records * ENTRY as u64);
    let mut checked = check(generated(), expected()).unwrap();
    assert_eq!(checked.written(), due);
    let first_of_last = due.records - one.records() as u64;
    assert_eq!(checked.cue(first_of_last).unwrap().map(|cue| cue.offset), Some((copies - 1) * length));
    assert_eq!(checked.cue(due.records).unwrap(), None);
    // A frame more, or one less, is another recording.
    let more = Expected { copies: copies + 1, ..expected() };
    assert!(matches!(check(generated(), more), Err(Error::Differs { record }) if record == due.records));
    let less = Expected { copies: copies - 1, ..expected() };
    assert!(matches!(check(generated(), less), Err(Error::Differs { record }) if record == first_of_last));
}

#[test]
fn a_long_recording() {
    long_recording(any_packets(9, 200), 50_000_000);
}

/// Past 2^32, so that offsets have their upper bytes: frames as long as there are, among some others.
#[test]
fn a_recording_past_four_gigabytes() {
    let packets = [vec![blob(65_516); 40], any_packets(10, 8), vec![blob(65_515); 40]].concat();
    long_recording(packets, (1 << 32) + 100_000_000);
}

/// The same of short frames, which takes a while.
#[test]
#[ignore]
fn five_gigabytes_of_short_frames() {
    long_recording(any_packets(9, 200), 5_000_000_000);
}
