//! Edition 2 of TCP framing, and where edition 1 differs: Ticket 1's rules, and the inputs that tell its readings apart.

use sennorbai::{
    decode_tcp, decode_tcp_vec, decode_udp, encode_tcp, Builder, Decoded, DecodedList, Edition, Field, Refusal, Time, Value,
    DEEPEST, LONGEST, RECORD,
};

/// Bytes from hex digits with spaces between.
fn hex(digits: &str) -> Vec<u8> {
    let digits: String = digits.split_whitespace().collect();
    (0..digits.len() / 2).map(|i| u8::from_str_radix(&digits[2 * i..2 * i + 2], 16).unwrap()).collect()
}

/// What a list of edition 2 gives, in numbers.
#[derive(Clone, Copy, Debug, PartialEq, Eq)]
enum List {
    /// The count of records, and the bytes left over.
    Whole(usize, usize),
    /// The count of records before the refused frame, its refusal, and its offset.
    Stopped(usize, Refusal, usize),
    /// The call is refused.
    Refused(Refusal),
}

/// Reads a list of edition 2. Bytes of the table after its records must be as they were.
fn list_of(msg: &[u8], capacity: usize, depth: u64) -> List {
    let mut table = vec![0xAA; RECORD * capacity];
    let read = decode_tcp_vec(Edition::Standard, msg, &mut table, depth);
    let told = match read {
        Ok(DecodedList::Packets(packets)) => List::Whole(packets.count(), packets.left()),
        Ok(DecodedList::Stopped { packets, refusal, frame }) => {
            assert!(packets.left() >= 4);
            assert_eq!(packets.rest(), &msg[frame..]);
            List::Stopped(packets.count(), refusal, frame)
        }
        Err(refusal) => List::Refused(refusal),
    };
    let count = read.map_or(0, |list| list.packets().count());
    assert!(table[RECORD * count..].iter().all(|&byte| byte == 0xAA), "{msg:02X?}");
    told
}

fn list(digits: &str) -> List {
    list_of(&hex(digits), 16, DEEPEST)
}

/// Reads one frame of edition 2: the count of records, 0 where it waits, and the bytes left over.
fn first_of(msg: &[u8], depth: u64) -> Result<(usize, usize), Refusal> {
    let mut table = vec![0xAA; 16 * RECORD];
    let read = decode_tcp(Edition::Standard, msg, &mut table, depth).map(|decoded| match decoded {
        Decoded::Packet(packet) => (packet.count(), packet.left()),
        Decoded::Waiting => (0, msg.len()),
    });
    let count = read.map_or(0, |(count, _)| count);
    assert!(table[RECORD * count..].iter().all(|&byte| byte == 0xAA), "{msg:02X?}");
    read
}

fn first(digits: &str) -> Result<(usize, usize), Refusal> {
    first_of(&hex(digits), DEEPEST)
}

const MESSAGE: &str = "00000008 2F610000 2C000000";
const BUNDLE: &str = "00000010 2362756E646C6500 0000000000000001";

#[test]
fn a_refused_frame_ends_the_list() {
    assert_eq!(list("00000000"), List::Stopped(0, Refusal::Empty, 0));
    let one = "000000082F6100002C000000";
    assert_eq!(list(&format!("{one} 0000FFFC")), List::Stopped(1, Refusal::TooLong, 12));
    assert_eq!(list(&format!("{one} {one} 00000008 2F610000 2C780000 {one}")), List::Stopped(2, Refusal::UnknownTag, 24));
    let short = Refusal::Short { field: Field::Address, at: 20 };
    let stopped = List::Stopped(2, short, 16);
    assert_eq!(list("0000000C2F6100002C69000000000007 00000004 2F616263"), stopped);
    // One frame alone has a refusal of the call, by the same numbers.
    assert_eq!(first("00000000"), Err(Refusal::Empty));
    assert_eq!(first("0000FFFC"), Err(Refusal::TooLong));
    assert_eq!(first("00000004 2F616263"), Err(Refusal::Short { field: Field::Address, at: 4 }));
    // And edition 1 refuses the whole list.
    let mut table = [0; 16 * RECORD];
    let refused = decode_tcp_vec(Edition::Rosc, &hex("00000000"), &mut table, DEEPEST).unwrap_err();
    assert_eq!(refused, Refusal::Empty);
}

#[test]
fn depth_is_of_the_frame_and_capacity_of_the_call() {
    let bundle = hex("00000010 2362756E646C6500 0000000000000001");
    assert_eq!(list_of(&bundle, 16, 0), List::Stopped(0, Refusal::TooDeep, 0));
    assert_eq!(first_of(&bundle, 0), Err(Refusal::TooDeep));
    let both = hex("000000082F6100002C000000 000000102362756E646C65000000000000000001");
    assert_eq!(list_of(&both, 1, 0), List::Stopped(1, Refusal::TooDeep, 12));
    assert_eq!(list_of(&both, 1, 1), List::Refused(Refusal::TableFull));
    assert_eq!(list_of(&both, 2, 1), List::Whole(2, 0));
    // The first frame at which something happens decides.
    let arrays = hex("000000082F6100002C540000 0000000C2F6100002C5B545D00000000");
    assert_eq!(list_of(&arrays, 1, 0), List::Refused(Refusal::TableFull));
    assert_eq!(list_of(&arrays, 2, 0), List::Stopped(2, Refusal::TooDeep, 12));
    let mut table = vec![0; RECORD];
    assert_eq!(decode_tcp_vec(Edition::Rosc, &arrays, &mut table, 0).unwrap_err(), Refusal::TooDeep);
    // 13, then 1 of the whole input, come before any frame.
    assert_eq!(list_of(&[0; LONGEST + 1], 0, DEEPEST + 1), List::Refused(Refusal::DepthLimit));
    assert_eq!(list_of(&[0; LONGEST + 1], 0, DEEPEST), List::Refused(Refusal::TooLong));
    assert_eq!(first_of(&[0; LONGEST + 1], DEEPEST), Err(Refusal::TooLong));
    assert_eq!(list_of(&[0; LONGEST], 0, DEEPEST), List::Stopped(0, Refusal::Empty, 0));
}

#[test]
fn bytes_left_in_a_frame() {
    assert_eq!(first("00000014 2362756E646C6500 0000000000000001 00000000"), Err(Refusal::BytesLeft));
    assert_eq!(first("0000000C 2F610000 2C000000 00000000"), Err(Refusal::BytesLeft));
    assert_eq!(list("0000000C 2F610000 2C000000 00000000"), List::Stopped(0, Refusal::BytesLeft, 0));
    // It comes before 9.
    assert_eq!(first_of(&hex("00000014 2362756E646C6500 0000000000000001 00000000"), 0), Err(Refusal::BytesLeft));
    // Inside an element the same bytes are dropped.
    let inside = "00000028 2362756E646C6500 0000000000000001 00000014 2362756E646C6500 0000000000000001 00000000";
    assert_eq!(first(inside), Ok((2, 0)));
}

#[test]
fn lengths_in_their_order() {
    // 1 comes before 16, and both before Waiting.
    for (length, refusal) in [
        ("0000FFFD", Refusal::TooLong),
        ("FFFFFFFF", Refusal::TooLong),
        ("00010000", Refusal::TooLong),
        ("0000FFFB", Refusal::OddLength),
        ("0000FFF9", Refusal::OddLength),
        ("00000001", Refusal::OddLength),
        ("0000000A", Refusal::OddLength),
    ] {
        assert_eq!(first(length), Err(refusal), "{length}");
        assert_eq!(list(&format!("{MESSAGE} {length} 2F61")), List::Stopped(1, refusal, 12), "{length}");
    }
    assert_eq!(first("0000FFF8"), Ok((0, 4)));
    // A length that is wrong by some bytes.
    for (length, refusal) in [("07", Refusal::OddLength), ("09", Refusal::OddLength), ("0C", Refusal::NotScalar)] {
        assert_eq!(first(&format!("000000{length} 2F610000 2C630000 0000D800")), Err(refusal), "{length}");
    }
    let short = Refusal::Short { field: Field::TypeText, at: 8 };
    assert_eq!(first("00000004 2F610000 2C000000"), Err(short));
    assert_eq!(first("0000000C 2F610000 2C000000"), Ok((0, 12)));
}

#[test]
fn the_longest_frame() {
    let mut frame = hex("0000FFF8 2F610000 2C620000 0000FFEC");
    frame.resize(65_532, 7);
    assert_eq!(first_of(&frame, DEEPEST), Ok((2, 0)));
    assert_eq!(list_of(&frame, 2, DEEPEST), List::Whole(2, 0));
    frame.extend([0; 3]);
    assert_eq!(list_of(&frame, 2, DEEPEST), List::Whole(2, 3));
    frame[3] += 4;
    assert_eq!(list_of(&frame, 2, DEEPEST), List::Stopped(0, Refusal::TooLong, 0));
}

#[test]
fn a_stream_that_is_cut_waits() {
    let whole = hex(&format!("{MESSAGE} {BUNDLE} {MESSAGE}"));
    for end in 0..=whole.len() {
        let (records, from) = match end {
            0..12 => (0, 0),
            12..32 => (1, 12),
            32..44 => (2, 32),
            _ => (3, 44),
        };
        assert_eq!(list_of(&whole[..end], 3, DEEPEST), List::Whole(records, end - from), "{end} bytes");
        let due = if end < 12 { (0, end) } else { (1, end - 12) };
        assert_eq!(first_of(&whole[..end], DEEPEST), Ok(due), "{end} bytes");
    }
    // Edition 1 refuses a length that is not all there, and an empty list.
    let mut table = [0; RECORD];
    for msg in [&b""[..], b"\0", b"\0\0\0"] {
        let refusal = Refusal::Short { field: Field::Head, at: 0 };
        assert_eq!(decode_tcp(Edition::Rosc, msg, &mut table, DEEPEST).unwrap_err(), refusal);
        assert_eq!(decode_tcp_vec(Edition::Rosc, msg, &mut table, DEEPEST).unwrap_err(), refusal);
    }
}

#[test]
fn a_bundle_leaves_the_next_frame() {
    let stream = hex(&format!("{BUNDLE} {MESSAGE}"));
    let mut table = [0; 16 * RECORD];
    let apart = decode_tcp_vec(Edition::Standard, &stream, &mut table, DEEPEST).unwrap().packets();
    let roots: Vec<_> = apart.roots().map(|root| (root.value(), root.end(), root.start())).collect();
    assert_eq!(roots, [(Value::Bundle(Time::IMMEDIATELY), 1, 4), (Value::Message("/a"), 2, 24)]);
    let taken = decode_tcp_vec(Edition::Rosc, &stream, &mut table, DEEPEST).unwrap().packets();
    let roots: Vec<_> = taken.roots().map(|root| (root.value(), root.end(), root.start())).collect();
    assert_eq!(roots, [(Value::Bundle(Time::IMMEDIATELY), 2, 4)]);
}

#[test]
fn dirty_padding_before_a_refused_frame() {
    let mut table = [0; 16 * RECORD];
    let msg = hex("000000082F6100012C000000 00000000");
    match decode_tcp_vec(Edition::Standard, &msg, &mut table, DEEPEST).unwrap() {
        DecodedList::Stopped { packets, refusal, frame } => {
            assert_eq!((packets.count(), packets.dirty(), packets.left()), (1, 1, 4));
            assert_eq!((refusal, frame), (Refusal::Empty, 12));
            let shown = "Packets { left: 4, dirty: 1, records: [0..1 Message(\"/a\")] }";
            assert_eq!(format!("{packets:?}"), shown);
        }
        other => panic!("{other:?}"),
    }
    // What the refused frame has does not count.
    let msg = hex("000000082F6100012C000000 00000008 2F610001 2C780001");
    let list = decode_tcp_vec(Edition::Standard, &msg, &mut table, DEEPEST).unwrap();
    assert_eq!(list.packets().dirty(), 1);
}

#[test]
fn what_is_written_is_read_again() {
    let (mut records, mut source) = ([0; 8 * RECORD], [0; 64]);
    let mut builder = Builder::new(&mut records, &mut source);
    builder.bundle(Time::IMMEDIATELY).unwrap().message("/cue").unwrap().push(7).unwrap();
    builder.close().unwrap().close().unwrap();
    let bundle = builder.finish().unwrap();
    let mut out = [0xAA; 64];
    let frame = encode_tcp(Edition::Standard, bundle, &mut out).unwrap().to_vec();
    let packet = hex("2362756E646C6500 0000000000000001 00000010 2F637565 00000000 2C690000 00000007");
    assert_eq!(frame, [&hex("00000024"), &packet[..]].concat());
    assert_eq!(out[frame.len()..], [0xAA; 64][frame.len()..]);
    assert_eq!(encode_tcp(Edition::Rosc, bundle, &mut out), Ok(&packet[..]));
    assert_eq!(encode_tcp(Edition::Standard, bundle, &mut out[..39]), Err(Refusal::OutputShort));
    assert_eq!(encode_tcp(Edition::Standard, bundle, &mut out[..40]), Ok(&frame[..]));

    let stream = frame.repeat(3);
    let mut table = [0; 16 * RECORD];
    let list = decode_tcp_vec(Edition::Standard, &stream, &mut table, DEEPEST).unwrap();
    assert!(matches!(list, DecodedList::Packets(_)));
    assert_eq!((list.packets().roots().count(), list.packets().left()), (3, 0));
}

#[test]
fn a_result_may_have_65_535_bytes_with_its_length() {
    let mut table = [0; 3 * RECORD];
    // A bundle with a message that has a blob, and so many bytes in all.
    for (bytes, standard) in [(65_528, Ok(65_532)), (65_532, Err(Refusal::TooLong))] {
        let mut packet = hex("2362756E646C6500 0000000000000001 00000000 2F610000 2C620000 00000000");
        packet[16..20].copy_from_slice(&(bytes - 20u32).to_be_bytes());
        packet[28..32].copy_from_slice(&(bytes - 32u32).to_be_bytes());
        packet.resize(bytes as usize, 7);
        let bundle = decode_udp(&packet, &mut table, DEEPEST).unwrap().table();
        let mut out = vec![0; LONGEST];
        assert_eq!(encode_tcp(Edition::Rosc, bundle, &mut out).map(<[u8]>::len), Ok(bytes as usize));
        assert_eq!(encode_tcp(Edition::Standard, bundle, &mut out).map(<[u8]>::len), standard);
    }
}
