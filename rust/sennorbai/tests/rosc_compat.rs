//! rosc's types and signatures over the library: packets there and back, errors, limits, conversions and printing.
#![cfg(feature = "std")]

use sennorbai::rosc_compat::encoder::WriteOutput;
use sennorbai::rosc_compat::{
    decoder, encoder, OscArray, OscBundle, OscColor, OscError, OscMessage, OscMidiMessage, OscPacket, OscTime, OscType,
};
use sennorbai::Refusal;
use std::io::Cursor;
use std::time::{Duration, SystemTime, UNIX_EPOCH};

fn message(addr: &str, args: Vec<OscType>) -> OscPacket {
    OscPacket::Message(OscMessage { addr: addr.to_string(), args })
}

fn bundle(content: Vec<OscPacket>) -> OscPacket {
    OscPacket::Bundle(OscBundle { timetag: (7, 9).into(), content })
}

fn every_type() -> Vec<OscType> {
    let array = |content| OscType::Array(OscArray { content });
    vec![
        OscType::Int(-1),
        OscType::Float(0.25),
        "é".into(),
        OscType::Blob(vec![1, 2, 3]),
        (1, 2).into(),
        array(vec![]),
        array(vec![array(vec![OscType::Nil]), array(vec![]), 5.into()]),
        OscType::Long(i64::MAX),
        OscType::Double(1e300),
        OscType::Char('x'),
        OscType::Color(OscColor { red: 1, green: 2, blue: 3, alpha: 4 }),
        OscType::Midi(OscMidiMessage { port: 1, status: 2, data1: 3, data2: 4 }),
        true.into(),
        false.into(),
        OscType::Inf,
    ]
}

#[test]
fn packets_come_back() {
    let packet = bundle(vec![message("/a", every_type()), bundle(vec![]), bundle(vec![message("/b", vec![])])]);
    let bytes = encoder::encode(&packet).unwrap();
    let (rest, read) = decoder::decode_udp(&bytes).unwrap();
    assert_eq!((rest, &read), (&b""[..], &packet));

    let frame = encoder::encode_tcp(&message("/a", every_type())).unwrap();
    let frames = [&frame[..], &frame[..], b"\0\0\0\x09/c"].concat();
    let (rest, first) = decoder::decode_tcp(&frames).unwrap();
    assert_eq!((rest, first), (&frames[frame.len()..], Some(message("/a", every_type()))));
    let (rest, all) = decoder::decode_tcp_vec(&frames).unwrap();
    assert_eq!((rest, all.len()), (&b"\0\0\0\x09/c"[..], 2));
    assert_eq!(decoder::decode_tcp(rest).unwrap(), (rest, None));
}

#[test]
fn outputs_get_the_same_bytes() {
    let packet = message("/a", every_type());
    let mut bytes = vec![7];
    let length = encoder::encode_into(&packet, &mut bytes).unwrap();
    assert_eq!(bytes[1..], encoder::encode(&packet).unwrap());
    assert_eq!(length, bytes.len() - 1);
    let mut file = WriteOutput(Cursor::new(Vec::new()));
    assert_eq!(encoder::encode_into_tcp(&packet, &mut file).unwrap(), length + 4);
    assert_eq!(file.0.into_inner(), encoder::encode_tcp(&packet).unwrap());
    bytes.clear();
    assert_eq!(encoder::encode_string_into("abcd", &mut bytes).unwrap(), 8);
    assert_eq!((bytes, encoder::encode_string("abc")), (b"abcd\0\0\0\0".to_vec(), b"abc\0".to_vec()));
}

#[test]
fn errors_are_those_of_rosc() {
    let cases: [(&[u8], &str); 7] = [
        (b"", "bad OSC packet: Empty packet."),
        (b"/\0\0\0", "error reading from buffer: Eof"),
        (b"/\xFF\0\0", "reading OSC string as utf-8: invalid utf-8 sequence of 1 bytes from index 0"),
        (b"a\0\0\0", "bad OSC packet: Invalid message address or bundle tag"),
        (b"/a\0\0,]\0\0", "bad OSC message: Encountered ] outside array"),
        (b"/a\0\0,x\0\0", "bad OSC argument: Type tag is not implemented!"),
        (b"/a\0\0,c\0\0\0\0\xD8\0", "bad OSC argument: Argument is not a char!"),
    ];
    for (msg, words) in cases {
        assert_eq!(decoder::decode_udp(msg).unwrap_err().to_string(), words);
        let frame = [&(msg.len() as u32).to_be_bytes(), msg].concat();
        assert_eq!(decoder::decode_tcp(&frame).unwrap_err().to_string(), words);
        assert_eq!(decoder::decode_tcp_vec(&frame).unwrap_err().to_string(), words);
    }
    let error = decoder::decode_udp(b"/\xFF\0\0").unwrap_err();
    assert!(std::error::Error::source(&error).is_some());
}

/// Bundles in bundles.
fn deep(levels: usize) -> OscPacket {
    (1..levels).fold(bundle(vec![]), |inner, _| bundle(vec![inner]))
}

/// A message with arrays in arrays.
fn deep_arrays(levels: usize) -> OscPacket {
    let array = |content| OscType::Array(OscArray { content });
    message("/a", vec![(1..levels).fold(array(vec![]), |inner, _| array(vec![inner]))])
}

#[test]
fn limits_are_an_error_of_their_own() {
    let error = decoder::decode_udp(&[0; 65_536]).unwrap_err();
    assert_eq!(error.to_string(), format!("limit: {}", Refusal::TooLong));
    let too_long = |args| matches!(encoder::encode(&message("/a", args)), Err(OscError::Limit(Refusal::TooLong)));
    assert!(!too_long(vec!["a".repeat(65_523).into()]));
    assert!(too_long(vec!["a".repeat(65_524).into()]));
    assert!(!too_long(vec![OscType::Nil; 65_526]));
    assert!(too_long(vec![OscType::Nil; 65_527]));
    // One record more than a table may have.
    assert!(too_long(vec![OscType::Nil; 65_535]));

    let bytes = encoder::encode(&deep(64)).unwrap();
    assert_eq!(decoder::decode_udp(&bytes).unwrap().1, deep(64));
    assert!(matches!(encoder::encode(&deep(65)), Err(OscError::Limit(Refusal::TooDeep))));
    let deeper = [b"#bundle\0\0\0\0\0\0\0\0\x01", &(bytes.len() as u32).to_be_bytes()[..], &bytes].concat();
    assert!(matches!(decoder::decode_udp(&deeper), Err(OscError::Limit(Refusal::TooDeep))));

    // Arrays count too, together with the bundles around them.
    for packet in [deep_arrays(64), bundle(vec![deep_arrays(63)])] {
        let bytes = encoder::encode(&packet).unwrap();
        assert_eq!(decoder::decode_udp(&bytes).unwrap().1, packet);
    }
    for packet in [deep_arrays(65), bundle(vec![deep_arrays(64)]), deep_arrays(900)] {
        assert!(matches!(encoder::encode(&packet), Err(OscError::Limit(Refusal::TooDeep))));
        let [bytes, _] = written(&packet);
        assert!(matches!(decoder::decode_udp(&bytes), Err(OscError::Limit(Refusal::TooDeep))));
    }

    assert_eq!(encoder::encode_string("a".repeat(70_000)).len(), 70_004);
}

#[test]
fn a_packet_past_several_limits_has_the_refusal_of_the_library() {
    let refusal = |packet: &OscPacket| match encoder::encode(packet) {
        Err(OscError::Limit(refusal)) => refusal,
        other => panic!("no limit: {other:?}"),
    };
    let text = || message("/b", vec!["a".repeat(65_536).into()]);
    assert_eq!(refusal(&bundle(vec![text(), deep(64)])), Refusal::TooDeep);
    assert_eq!(refusal(&bundle(vec![deep(64), text()])), Refusal::TooDeep);
    assert_eq!(refusal(&bundle(vec![deep(63), text()])), Refusal::TooLong);
    // No table holds so many records, so the library is not asked how deep they are.
    let many = || message("/b", vec![OscType::Nil; 65_535]);
    assert_eq!(refusal(&bundle(vec![deep(64), many()])), Refusal::TooLong);
}

/// What the usual loop over a stream has: it appends what comes to what remained, and decodes.
fn stream_of(frames: impl IntoIterator<Item = Vec<u8>>) -> Vec<u8> {
    frames.into_iter().flatten().collect()
}

fn numbered(i: usize) -> OscPacket {
    message("/cue", vec![(i as i32).into()])
}

fn frame(packet: &OscPacket) -> Vec<u8> {
    encoder::encode_tcp(packet).unwrap()
}

#[test]
fn a_stream_may_be_longer_than_the_library_takes_at_once() {
    let stream = stream_of((0..20_000).map(|i| frame(&numbered(i))));
    assert_eq!(stream.len(), 20 * 20_000);
    let (rest, packets) = decoder::decode_tcp_vec(&stream).unwrap();
    assert!(rest.is_empty());
    assert!(packets.iter().cloned().eq((0..20_000).map(numbered)));
    // Cut anywhere, the frames that are whole are given, and what is cut waits, as in rosc: not with a part of a length, nor with the
    // last 4 bytes missing.
    for cut in (65_535..65_560).chain(131_070..131_080).chain([100_000, 399_979, 399_985, 399_995, 399_999]) {
        match decoder::decode_tcp_vec(&stream[..cut]) {
            Ok((rest, packets)) => assert_eq!((packets.len(), rest.len()), (cut / 20, cut % 20)),
            Err(error) => {
                assert!(matches!(error, OscError::ReadError(_)) && [1, 2, 3, 16, 17, 18, 19].contains(&(cut % 20)))
            }
        }
    }
    // The first packet of it.
    let (rest, first) = decoder::decode_tcp(&stream).unwrap();
    assert_eq!((rest, first), (&stream[20..], Some(numbered(0))));
    // A length that is more than all of it waits.
    let waits = [&0x0010_0000u32.to_be_bytes()[..], &stream].concat();
    assert_eq!(decoder::decode_tcp(&waits).unwrap(), (&waits[..], None));
    assert_eq!(decoder::decode_tcp_vec(&waits).unwrap(), (&waits[..], vec![]));
}

#[test]
fn what_a_long_stream_has_in_it() {
    let many = || stream_of((0..5_000).map(|i| frame(&numbered(i))));
    let (count, size) = (5_000, many().len());
    let limit = |msg: &[u8]| matches!(decoder::decode_tcp_vec(msg), Err(OscError::Limit(Refusal::TooLong)));
    let given = |msg: &[u8]| decoder::decode_tcp_vec(msg).map(|(rest, packets)| (packets.len(), rest.len())).unwrap();

    // A message of 65,535 bytes at most is read, and a longer one is over the limit; the packets before it are given.
    let long =
        |bytes: usize| [&[0; 4][..], b"/a\0\0,b\0\0", &(bytes as u32 - 12).to_be_bytes(), &vec![7; bytes - 12]].concat();
    assert_eq!(given(&[long(65_532), many()].concat()), (count + 1, 0));
    assert!(limit(&[long(65_536), many()].concat()));
    assert_eq!(given(&[many(), long(65_536)].concat()), (count, 65_540));
    assert_eq!(given(&[many(), long(65_536), many()].concat()), (count, 65_540 + size));
    assert!(matches!(decoder::decode_tcp(&[long(65_536), many()].concat()), Err(OscError::Limit(Refusal::TooLong))));

    // A bundle takes the frames after it, as many as there are: with more than 65,535 bytes of them it is over the limit.
    let bundled = frame(&bundle(vec![]));
    let framed = [&size_of(bundled.len())[..], &bundled].concat();
    assert!(limit(&[&framed[..], &many()].concat()));
    assert_eq!(given(&[&many()[..], &framed, &many()].concat()), (count, framed.len() + size));
    assert_eq!(given(&[&many()[..], &framed].concat()), (count + 1, 0));
    // It ends where an element is no packet, or is not all there.
    for end in [&b"\0\0\0\x00"[..], b"\0\0\0\x04/abc"] {
        let stream = [&framed[..], end, &many()].concat();
        let (rest, first) = decoder::decode_tcp(&stream).unwrap();
        assert_eq!((rest.len(), first), (end.len() + size, Some(bundle(vec![]))));
    }
    let stream = [&framed[..], b"\x10\0\0\0", &many()].concat();
    assert_eq!(given(&stream), (1, 4 + size));
    // An element that is there, and more than is looked at: that it is none cannot be known.
    assert!(limit(&[&framed[..], &size_of(size - 4), &many()].concat()));

    // What is refused is refused as rosc does it, with the packets before it.
    let refused = stream_of([many(), b"\0\0\0\x08/a\0\0,x\0\0".to_vec(), many()]);
    assert!(matches!(decoder::decode_tcp_vec(&refused), Err(OscError::BadArg(_))));
    // Too deep is a limit too.
    let deeper = stream_of([many(), frame(&deep(64)), many()]);
    assert_eq!(given(&deeper).0, count);
    let mut bundles = vec![0; 4];
    encoder::encode_into(&deep(65), &mut bundles).unwrap();
    assert_eq!(given(&[&many()[..], &bundles].concat()), (count, bundles.len()));
    let first = [&bundles[..], &[0; 4], &many()].concat();
    assert!(matches!(decoder::decode_tcp_vec(&first), Err(OscError::Limit(Refusal::TooDeep))));
}

fn size_of(length: usize) -> [u8; 4] {
    (length as u32).to_be_bytes()
}

/// An output that encodes a packet itself whenever it is written to.
struct Busy(Vec<u8>);

impl encoder::Output for Busy {
    type Err = OscError;
    type Mark = ();

    fn write(&mut self, data: &[u8]) -> Result<usize, OscError> {
        assert_eq!(encoder::encode(&message("/inner", every_type()))?.len() % 4, 0);
        self.0.extend(data);
        Ok(data.len())
    }

    fn mark(&mut self, _: usize) -> Result<(), OscError> {
        Ok(())
    }

    fn place(&mut self, _: (), _: &[u8]) -> Result<(), OscError> {
        Ok(())
    }
}

#[test]
fn scratch_buffers_grow_and_are_not_shared() {
    for count in [1, 63, 64, 255, 256, 300, 5_000, 65_526, 3] {
        let packet = message("/a", vec![OscType::Nil; count]);
        let bytes = [b"/a\0\0,", &vec![b'N'; count][..], &vec![0; 4 - (count + 1) % 4]].concat();
        if bytes.len() <= 65_535 {
            assert_eq!(encoder::encode(&packet).unwrap(), bytes);
        }
        let mut busy = Busy(Vec::new());
        assert_eq!(encoder::encode_into(&packet, &mut busy).unwrap(), bytes.len());
        assert_eq!(busy.0, bytes);
    }
}

/// Both outputs get the same bytes, whose number is answered.
fn written(packet: &OscPacket) -> [Vec<u8>; 2] {
    let (mut bytes, mut frame) = (vec![7], WriteOutput(Cursor::new(Vec::new())));
    let length = encoder::encode_into(packet, &mut bytes).unwrap();
    assert_eq!(length, bytes.len() - 1);
    let framed = encoder::encode_into_tcp(packet, &mut frame).unwrap();
    let frame = frame.0.into_inner();
    assert_eq!(framed, frame.len());
    [bytes.split_off(1), frame]
}

fn size(bytes: &[u8]) -> [u8; 4] {
    (bytes.len() as u32).to_be_bytes()
}

#[test]
fn outputs_have_no_limits() {
    // A long blob.
    let blob = vec![7; 99_999];
    let bytes = [b"/a\0\0,b\0\0", &size(&blob)[..], &blob, b"\0"].concat();
    let frame = [&size(&bytes)[..], &bytes].concat();
    let packet = message("/a", vec![OscType::Blob(blob)]);
    assert!(matches!(encoder::encode(&packet), Err(OscError::Limit(Refusal::TooLong))));
    assert_eq!(written(&packet), [bytes, frame]);

    // One record more than a table may have.
    let bytes = [b"/a\0\0,", &[b'N'; 65_535][..], b"\0\0\0\0"].concat();
    assert_eq!(written(&message("/a", vec![OscType::Nil; 65_535]))[0], bytes);

    // Bundles that are nested too deep: without the outer one the library encodes them.
    let inner = encoder::encode(&deep(64)).unwrap();
    let bytes = [b"#bundle\0\0\0\0\x07\0\0\0\x09", &size(&inner)[..], &inner].concat();
    assert_eq!(written(&deep(65)), [bytes.clone(), bytes]);

    // Arrays that are nested too deep.
    let bytes = [b"/a\0\0,", &[b'['; 900][..], &[b']'; 900], b"\0\0\0"].concat();
    let frame = [&size(&bytes)[..], &bytes].concat();
    assert_eq!(written(&deep_arrays(900)), [bytes, frame]);

    // Every type, as the library writes it, beside a text that makes the bundle too long.
    let (message, long) = (message("/a", every_type()), message("/b", vec!["a".repeat(65_535).into()]));
    let element = encoder::encode(&message).unwrap();
    let elements = [&size(&element)[..], &element].concat();
    let text = [b"/b\0\0,s\0\0", &[b'a'; 65_535][..], b"\0"].concat();
    let bytes = [b"#bundle\0\0\0\0\x07\0\0\0\x09", &elements[..], &size(&text), &text, &elements].concat();
    assert_eq!(written(&bundle(vec![message.clone(), long, message])), [bytes.clone(), bytes]);
}

#[test]
fn nothing_panics_where_rosc_does() {
    assert_eq!((encoder::pad(u64::MAX - 3), encoder::pad(u64::MAX - 2), encoder::pad(u64::MAX)), (u64::MAX - 3, 0, 0));
    let before = SystemTime::from(OscTime { seconds: 2_208_988_799, fractional: 1 << 31 });
    assert_eq!(UNIX_EPOCH.duration_since(before).unwrap(), Duration::from_millis(500));
    let first = UNIX_EPOCH.duration_since(OscTime { seconds: 0, fractional: 0 }.into()).unwrap();
    assert_eq!(first, Duration::from_secs(2_208_988_800));
    let mut bytes = vec![1, 2];
    for (mark, data) in [((1, 3), &b"ab"[..]), ((2, 1), b""), ((0, 1), b"ab")] {
        encoder::Output::place(&mut bytes, mark, data).unwrap();
    }
    assert_eq!(bytes, [1, 2]);
}

/// The stack of the next test. Encoding passes it on 48 KiB too, in a debug build; a walk that called itself for each level of 60,000 or
/// 100,000 would take many megabytes.
const STACK: usize = 128 << 10;

#[test]
fn a_program_may_nest_arrays_and_bundles_to_any_depth() {
    let run = || {
        let arrays = deep_arrays(100_000);
        // There is no table for so many records.
        assert!(matches!(encoder::encode(&arrays), Err(OscError::Limit(Refusal::TooLong))));
        let [bytes, frame] = written(&arrays);
        assert_eq!(bytes, [b"/a\0\0,", &[b'['; 100_000][..], &[b']'; 100_000], b"\0\0\0"].concat());
        assert_eq!(frame, [&size(&bytes)[..], &bytes].concat());

        let bundles = deep(60_000);
        assert!(matches!(encoder::encode(&bundles), Err(OscError::Limit(Refusal::TooDeep))));
        let [bytes, frame] = written(&bundles);
        assert_eq!((bytes.len(), bytes == frame), (20 * 60_000 - 4, true));
        assert_eq!(bytes[16..20], (20 * 59_999u32 - 4).to_be_bytes());
        assert!(bytes.chunks(20).all(|level| level.starts_with(b"#bundle\0\0\0\0\x07\0\0\0\x09")));

        // Dropping calls itself for each level, as in rosc, so neither is dropped.
        std::mem::forget((arrays, bundles));
    };
    std::thread::Builder::new().stack_size(STACK).spawn(run).unwrap().join().unwrap();
}

#[test]
fn values_and_conversions() {
    assert_eq!((OscType::from(3).int(), OscType::from(3).float()), (Some(3), None));
    assert_eq!(OscType::from("a").string(), Some("a".to_string()));
    assert_eq!(OscType::from((1, 2)).time(), Some(OscTime { seconds: 1, fractional: 2 }));
    let array: OscArray = [1, 2].into_iter().collect();
    assert_eq!(array.content, [OscType::Int(1), OscType::Int(2)]);
    assert_eq!(OscMessage::from("/a"), OscMessage::from("/a".to_string()));
    assert_eq!(<(u32, u32)>::from(OscTime::from((1, 2))), (1, 2));

    let time = UNIX_EPOCH + Duration::new(1_700_000_000, 500_000_000);
    let tag = OscTime::try_from(time).unwrap();
    assert_eq!(tag, OscTime { seconds: 3_908_988_800, fractional: 1 << 31 });
    assert_eq!(OscType::try_from(time).unwrap(), OscType::Time(tag));
    assert_eq!(SystemTime::from(tag), time);
    let before = OscTime::try_from(UNIX_EPOCH - Duration::new(1, 0)).unwrap_err();
    assert_eq!(before.to_string(), "time is before the unix epoch and cannot be stored");
    let after = OscTime::try_from(UNIX_EPOCH + Duration::new(2_085_978_496, 0)).unwrap_err();
    assert_eq!(after.to_string(), "time overflows what OSC time can store");
}

#[test]
fn printing() {
    let print = |seconds, fractional| OscTime { seconds, fractional }.to_string();
    assert_eq!(print(0, 1), "1900-01-01T00:00:00.000000000Z");
    assert_eq!(print(2_208_988_800, 0), "1970-01-01T00:00:00.000000000Z");
    assert_eq!(print(3_918_239_999, 1 << 30), "2024-02-29T23:59:59.250000000Z");
    assert_eq!(print(3_918_240_000, 0), "2024-03-01T00:00:00.000000000Z");
    assert_eq!(print(u32::MAX, u32::MAX), "2036-02-07T06:28:16.000000000Z");
    let args = vec![1.into(), "a".into(), OscType::Blob(vec![1, 255]), OscType::Array([true].into_iter().collect())];
    assert_eq!(message("/a", args).to_string(), "/a, (i) 1, (s) a, (b) 0x01FF, [(T)]");
    let empty = OscPacket::Bundle(OscBundle { timetag: (2_208_988_800, 0).into(), content: vec![message("/a", vec![])] });
    assert_eq!(empty.to_string(), "#bundle 1970-01-01T00:00:00.000000000Z { /a,  }");
}
