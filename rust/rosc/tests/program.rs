//! A program written for rosc 0.11.4: a cue list that sends, hears and prints. Nothing in it names Sennorbai. Here it runs over the package
//! `rosc` of this project, and in rust/against the same file runs over the crate itself.

use rosc::decoder::{self, MTU};
use rosc::encoder::{self, Output, WriteOutput};
use rosc::{OscArray, OscBundle, OscColor, OscError, OscMessage, OscMidiMessage, OscPacket, OscTime, OscType};
use std::convert::TryFrom;
use std::io::Cursor;
use std::time::{Duration, SystemTime, UNIX_EPOCH};

/// A lamp's state, as arguments.
fn lamp(level: f32) -> Vec<OscType> {
    let color = OscColor { red: 255, green: 128, blue: 0, alpha: 255 };
    vec![level.into(), OscType::Color(color), "Blackout".into(), OscType::Array([1, 2].into_iter().collect::<OscArray>())]
}

/// Everything that a message may hold.
fn every() -> Vec<OscType> {
    let midi = OscMidiMessage { port: 0, status: 0x90, data1: 60, data2: 127 };
    vec![
        OscType::Int(-7),
        OscType::Long(1 << 40),
        OscType::Double(0.5),
        OscType::Char('x'),
        OscType::Midi(midi),
        OscType::Bool(true),
        OscType::Bool(false),
        OscType::Nil,
        OscType::Inf,
        OscType::Blob(vec![1, 2, 3]),
        OscType::Time(OscTime { seconds: 1, fractional: 2 }),
        OscType::Array(OscArray { content: vec!["in".into()] }),
    ]
}

fn message(addr: &str, args: Vec<OscType>) -> OscPacket {
    OscPacket::Message(OscMessage { addr: addr.to_string(), args })
}

/// The addresses in a packet, as a monitor prints them.
fn heard(packet: &OscPacket, lines: &mut Vec<String>) {
    match packet {
        OscPacket::Message(OscMessage { addr, args }) => {
            let kinds: Vec<String> = args.iter().map(|arg| arg.to_string()).collect();
            lines.push(format!("{addr}: {}", kinds.join(" ")));
        }
        OscPacket::Bundle(OscBundle { timetag, content }) => {
            lines.push(format!("bundle at {}.{}", timetag.seconds, timetag.fractional));
            content.iter().for_each(|inner| heard(inner, lines));
        }
    }
}

#[test]
fn a_packet_is_sent_and_heard() -> Result<(), OscError> {
    let bundle = OscPacket::Bundle(OscBundle {
        timetag: OscTime::from((7, 9)),
        content: vec![message("/lamp/1", lamp(0.25)), message("/every", every().into_iter().take(6).collect())],
    });
    let bytes = encoder::encode(&bundle)?;
    assert!(bytes.len() < MTU);
    let (rest, packet) = decoder::decode_udp(&bytes)?;
    assert!(rest.is_empty());
    assert_eq!(packet, bundle);
    let mut lines = Vec::new();
    heard(&packet, &mut lines);
    let due = [
        "bundle at 7.9",
        "/lamp/1: (f) 0.25 (r) {255,128,0,255} (s) Blackout [(i) 1,(i) 2]",
        "/every: (i) -7 (h) 1099511627776 (d) 0.5 (c) x (m) {port:0, status:0x90, data:0x3C7F} (T)",
    ];
    assert_eq!(lines, due);
    Ok(())
}

/// A receiver that appends what comes to what remained, and decodes, as a program over a TCP socket does.
fn receive(stream: &[u8], portion: usize) -> Result<(Vec<OscPacket>, Vec<u8>), OscError> {
    let (mut kept, mut packets) = (Vec::new(), Vec::new());
    for bytes in stream.chunks(portion) {
        kept.extend_from_slice(bytes);
        let (rest, new) = decoder::decode_tcp_vec(&kept)?;
        let rest = rest.to_vec();
        packets.extend(new);
        kept = rest;
    }
    Ok((packets, kept))
}

#[test]
fn a_stream_is_received() -> Result<(), OscError> {
    let frame = encoder::encode_tcp(&message("/cue/go", vec![7.into(), "now".into()]))?;
    assert_eq!(frame.len(), 24);
    // All at once, 20,000 messages and the beginning of one more; and in portions of whole frames.
    let mut stream = frame.repeat(20_000);
    stream.extend_from_slice(&frame[..10]);
    let (packets, kept) = receive(&stream, usize::MAX)?;
    assert_eq!((packets.len(), &kept[..]), (20_000, &frame[..10]));
    let (packets, kept) = receive(&stream, 24 * 4_000)?;
    assert_eq!((packets.len(), &kept[..]), (20_000, &frame[..10]));
    assert!(packets.iter().all(|packet| *packet == message("/cue/go", vec![7.into(), "now".into()])));
    let (rest, first) = decoder::decode_tcp(&stream)?;
    assert_eq!((rest.len(), first.is_some()), (stream.len() - 24, true));
    Ok(())
}

#[test]
fn errors_are_matched() {
    let word = |msg: &[u8]| match decoder::decode_udp(msg) {
        Ok(_) => "read",
        Err(OscError::BadPacket(_)) => "packet",
        Err(OscError::BadMessage(_)) => "message",
        Err(OscError::BadArg(_)) => "argument",
        Err(OscError::StringError(_)) => "string",
        Err(OscError::ReadError(_)) => "end",
        Err(_) => "other",
    };
    let cases: [&[u8]; 6] = [b"", b"/a\0\0,]\0\0", b"/a\0\0,x\0\0", b"/\xFF\0\0", b"/\0\0\0", b"/a\0\0,\0\0\0"];
    assert_eq!(cases.map(word), ["packet", "message", "argument", "string", "end", "read"]);
    let error: Box<dyn std::error::Error> = Box::new(decoder::decode_udp(b"").unwrap_err());
    assert_eq!(error.to_string(), "bad OSC packet: Empty packet.");
}

#[test]
fn outputs_are_written() {
    let packet = message("/every", every());
    let bytes = encoder::encode(&packet).unwrap();
    let mut list = vec![9];
    assert_eq!(encoder::encode_into(&packet, &mut list).unwrap(), bytes.len());
    assert_eq!(list[1..], bytes);
    let mut file = WriteOutput(Cursor::new(Vec::new()));
    assert_eq!(encoder::encode_into_tcp(&packet, &mut file).unwrap(), bytes.len() + 4);
    assert_eq!(file.0.into_inner()[4..], bytes);
    let mark = list.mark(4).unwrap();
    list.place(mark, b"abcd").unwrap();
    assert!(list.ends_with(b"abcd"));
    assert_eq!((encoder::pad(5), encoder::encode_string("abc")), (8, b"abc\0".to_vec()));
}

#[test]
fn times_are_converted() {
    let time = UNIX_EPOCH + Duration::new(1_700_000_000, 500_000_000);
    let tag = OscTime::try_from(time).unwrap();
    assert_eq!((tag.seconds, tag.fractional), (3_908_988_800, 1 << 31));
    assert_eq!(SystemTime::from(tag), time);
    assert_eq!(OscType::from((1, 2)).time(), Some(OscTime { seconds: 1, fractional: 2 }));
    assert_eq!((OscType::from(3).int(), OscType::from(3).string()), (Some(3), None));
    assert_eq!(OscMessage::from("/a").args, []);
}
