//! The example program on small recordings.

#[path = "../examples/recording.rs"]
#[allow(dead_code)] // Its `main` is not called here.
mod recording;

use recording::{go_through, Figures};
use sennorbai::{encode, Builder, Table, Time, LONGEST};

/// A frame: a length and the packet of a table.
fn frame(table: Table<'_>) -> Vec<u8> {
    let mut out = [0; 256];
    let bytes = encode(table, &mut out).unwrap();
    [&(bytes.len() as u32).to_be_bytes(), bytes].concat()
}

fn two_frames() -> Vec<u8> {
    let (mut table, mut source) = ([0; 256], [0; 64]);
    let mut builder = Builder::new(&mut table, &mut source);
    builder.bundle(Time::IMMEDIATELY).unwrap().message("/cue").unwrap().push(7).unwrap();
    builder.close().unwrap().close().unwrap();
    let mut recording = frame(builder.finish().unwrap());
    let mut builder = Builder::new(&mut table, &mut source);
    builder.message("/light").unwrap().push("on").unwrap().push(0.5f32).unwrap().close().unwrap();
    recording.extend(frame(builder.finish().unwrap()));
    recording
}

#[test]
fn every_packet_comes_back() {
    let mut log = Vec::new();
    let figures = go_through(&two_frames(), &mut log).unwrap();
    assert_eq!(figures, Figures { packets: 2, records: 6, same: 2 });
    assert_eq!(String::from_utf8(log).unwrap(), "0: #bundle 0.1 /cue Int(7)\n40: /light Text(\"on\") Float(0.5)\n");
}

#[test]
fn other_padding_does_not_come_back_the_same() {
    let recording = b"\0\0\0\x08/\0AA,\0BB";
    let figures = go_through(recording, &mut Vec::new()).unwrap();
    assert_eq!(figures, Figures { packets: 1, records: 1, same: 0 });
}

#[test]
fn a_bad_frame_is_named() {
    let mut recording = two_frames();
    recording.extend(b"\0\0\0\x04a\0\0\0");
    let error = go_through(&recording, &mut Vec::new()).unwrap_err();
    assert_eq!(error.to_string(), "the frame at 64: 5: first string is neither /-led nor exactly #bundle");
    recording.truncate(66);
    let error = go_through(&recording, &mut Vec::new()).unwrap_err();
    assert_eq!(error.to_string(), "the frame at 64 is cut off");
}

#[test]
fn a_recording_may_be_longer_than_a_call_takes() {
    let one = two_frames();
    let many = LONGEST / one.len() + 10;
    let figures = go_through(&one.repeat(many), &mut Vec::new()).unwrap();
    assert_eq!(figures, Figures { packets: 2 * many, records: 6 * many, same: 2 * many });
    // The longest frame that there is, once more with a byte of the next one missing.
    let mut recording = b"\0\0\xFF\xF8/a\0\0,b\0\0\0\0\xFF\xEC".to_vec();
    recording.resize(65_532, 7);
    let frame = recording.clone();
    recording.extend(&frame);
    let figures = go_through(&recording, &mut Vec::new()).unwrap();
    assert_eq!(figures, Figures { packets: 2, records: 4, same: 2 });
    recording.pop();
    let error = go_through(&recording, &mut Vec::new()).unwrap_err();
    assert_eq!(error.to_string(), "the frame at 65532 is cut off");
}

#[test]
fn lengths_that_no_frame_has() {
    let error = |recording: &[u8]| go_through(recording, &mut Vec::new()).unwrap_err().to_string();
    assert_eq!(error(b"\0\0\0\x0A/a\0\0,\0\0\0XX"), "the frame at 0: 16: frame length not a multiple of 4");
    assert_eq!(error(b"\0\0\0\x0C/a\0\0,\0\0\0XXXX"), "the frame at 0: 15: bytes left in the frame");
    assert!(error(b"\0\0\xFF\xFC").starts_with("the frame at 0: 1: "));
    assert_eq!(error(b"\0\0"), "the frame at 0 is cut off");
}
