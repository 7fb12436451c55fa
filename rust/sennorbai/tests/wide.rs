//! Numbers that need all their bits: none is cut on its way from the library to a program.

use sennorbai::{
    boundary, decode_tcp, decode_tcp_vec, decode_udp, encode_string, start_of, DecodedList, Edition, Field, Refusal,
    StreamReader, DEEPEST, LONGEST, RECORD,
};

/// A message with 13,102 texts of no bytes, each with 3 bytes of padding that are not zero, in a frame of edition 2.
fn dirty_frame() -> Vec<u8> {
    let packet = [b"/a\0\0,", &[b's'; 13_102][..], b"\0", &b"\0\xAA\xAA\xAA".repeat(13_102)].concat();
    [&(packet.len() as u32).to_be_bytes(), &packet[..]].concat()
}

fn room() -> Vec<u8> {
    vec![0; RECORD * LONGEST]
}

#[test]
fn dirty_padding_and_the_frame_where_a_list_stops() {
    let (mut table, frame) = (room(), dirty_frame());
    assert_eq!(decode_udp(&frame[4..], &mut table, DEEPEST).unwrap().dirty(), 39_306);
    let stopped = [&frame[..], b"\0\0\0\0"].concat();
    match decode_tcp_vec(Edition::Standard, &stopped, &mut table, DEEPEST).unwrap() {
        DecodedList::Stopped { packets, refusal, frame } => {
            assert_eq!((packets.count(), packets.dirty(), packets.left()), (13_103, 39_306, 4));
            assert_eq!((refusal, frame), (Refusal::Empty, 65_520));
        }
        DecodedList::Packets(packets) => panic!("not stopped: {} records", packets.count()),
    }
    // Of a list that stops at a far field, both offsets.
    let short = [&frame[..], b"\0\0\0\x04/abc"].concat();
    match decode_tcp_vec(Edition::Standard, &short, &mut table, DEEPEST).unwrap() {
        DecodedList::Stopped { refusal, frame, .. } => {
            assert_eq!((refusal, frame), (Refusal::Short { field: Field::Address, at: 65_524 }, 65_520));
        }
        DecodedList::Packets(packets) => panic!("not stopped: {} records", packets.count()),
    }
    assert_eq!(start_of(&table, 13_102), Ok(65_516));
}

#[test]
fn the_same_of_a_stream_in_portions() {
    let (mut table, frame) = (room(), dirty_frame());
    let mut reader = StreamReader::new(DEEPEST);
    assert_eq!(reader.feed(&[&frame[..], b"\0\0\0\x04/abc"].concat()), 65_528);
    let portion = reader.read(&mut table).unwrap();
    assert_eq!((portion.packets().count(), portion.packets().dirty(), portion.packets().left()), (13_103, 39_306, 8));
    let ended = portion.ended().unwrap();
    assert_eq!((ended.frame, ended.field, ended.refusal.number()), (65_520, Some(65_524), 17));
}

#[test]
fn bytes_left_and_fields_and_bytes_written() {
    let mut table = room();
    let mut msg = vec![0xAA; LONGEST];
    msg[..8].copy_from_slice(b"/a\0\0,\0\0\0");
    let packet = decode_udp(&msg, &mut table, DEEPEST).unwrap();
    assert_eq!((packet.left(), packet.rest().len()), (65_527, 65_527));
    msg[5..65_531].fill(b'T');
    msg[6] = b'b';
    msg[65_531..].fill(0);
    let refusal = decode_udp(&msg, &mut table, DEEPEST).unwrap_err();
    assert_eq!(refusal, Refusal::Short { field: Field::Data, at: 65_532 });
    let mut out = vec![0; LONGEST];
    assert_eq!(encode_string(&[b'a'; 65_531], &mut out).unwrap().len(), 65_532);
}

/// A depth limit over 64 is refused by every decoder, however many bits it has; it is not taken for 64.
#[test]
fn depth_limits() {
    let (mut table, msg) = ([0; 4 * RECORD], b"\0\0\0\x08/a\0\0,\0\0\0");
    for depth in [DEEPEST + 1, 255, 256, DEEPEST + 256, 1 << 32, u64::MAX] {
        assert_eq!(decode_udp(&msg[4..], &mut table, depth).unwrap_err(), Refusal::DepthLimit);
        for edition in [Edition::Rosc, Edition::Standard] {
            assert_eq!(decode_tcp(edition, msg, &mut table, depth).unwrap_err(), Refusal::DepthLimit);
            assert_eq!(decode_tcp_vec(edition, msg, &mut table, depth).unwrap_err(), Refusal::DepthLimit);
        }
        let mut reader = StreamReader::new(depth);
        reader.feed(msg);
        assert_eq!(reader.read(&mut table).unwrap_err(), Refusal::DepthLimit);
    }
    assert!(decode_udp(&msg[4..], &mut table, DEEPEST).is_ok());
}

/// A check tells records over 2^32.
#[test]
fn far_records() {
    let (one, other) = ([0; 16], [1; 16]);
    let far = (1 << 54) + (1 << 32) + 5;
    assert_eq!(boundary::index_check_step(&one, &one, far), far + 1);
    assert_eq!(boundary::index_check_step(&one, &other, far), 25 << 56 | far);
}

/// What an error of an index has for a number.
#[cfg(feature = "std")]
#[test]
fn numbers_of_the_errors_of_an_index() {
    use sennorbai::index::Error;
    let broken = || std::io::Error::other("broken");
    assert_eq!(Error::TooLong.number(), Some(Refusal::TooLong.number()));
    assert_eq!(Error::TooLong.number(), Some(1));
    assert_eq!(Error::Differs { record: 1 << 40 }.number(), Some(25));
    assert_eq!((Error::Recording(broken()).number(), Error::Index(broken()).number()), (None, None));
}
