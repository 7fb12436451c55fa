//! Tables from values: what a builder makes is well formed, comes back, and what it cannot make it refuses.

use sennorbai::{decode_udp, encode, BuildError, Builder, Color, Midi, Refusal, Table, Time, Value, DEEPEST, RECORD};

/// A packet of every kind: a container is closed where the list has none.
const EVERY: [Option<Value<'_>>; 24] = [
    Some(Value::Bundle(Time { seconds: 3, fractional: 4 })),
    Some(Value::Message("/a/é")),
    Some(Value::Int(-7)),
    Some(Value::Float(1.5)),
    Some(Value::Text("日本")),
    Some(Value::Blob(&[0, 1, 255])),
    Some(Value::Array),
    Some(Value::Array),
    Some(Value::Time(Time::IMMEDIATELY)),
    None,
    Some(Value::Long(i64::MIN)),
    Some(Value::Double(-0.0)),
    None,
    Some(Value::Char('😀')),
    Some(Value::Color(Color { red: 1, green: 2, blue: 3, alpha: 4 })),
    Some(Value::Midi(Midi { port: 1, status: 2, data1: 3, data2: 4 })),
    Some(Value::Bool(true)),
    Some(Value::Bool(false)),
    Some(Value::Nil),
    Some(Value::Inf),
    None,
    Some(Value::Bundle(Time::IMMEDIATELY)),
    None,
    None,
];

fn build<'a>(steps: &[Option<Value<'_>>], mut builder: Builder<'a>) -> Result<Table<'a>, BuildError> {
    for step in steps {
        match step {
            Some(value) => builder.push(*value)?,
            None => builder.close()?,
        };
    }
    builder.finish()
}

#[test]
fn every_kind_comes_back() {
    let values: Vec<_> = EVERY.into_iter().flatten().collect();
    // Old content of the lent buffers does not shine through.
    let (mut table, mut source, mut out) = ([0xAA; 512], [0xAA; 32], [0; 512]);
    let built = build(&EVERY, Builder::new(&mut table, &mut source)).unwrap();
    let checked: Vec<_> = built.check().unwrap().records().map(|record| record.value()).collect();
    assert_eq!(checked, values);

    let bytes = encode(built, &mut out).unwrap();
    let mut again = [0; 512];
    let read = decode_udp(bytes, &mut again, DEEPEST).unwrap();
    assert_eq!(read.records().map(|record| record.value()).collect::<Vec<_>>(), values);
    let ends = |packet: sennorbai::Packet<'_>| packet.records().map(|record| record.end()).collect::<Vec<_>>();
    assert_eq!(ends(read), ends(built.check().unwrap()));
    assert_eq!(read.left(), 0);
}

#[test]
fn what_cannot_stand_is_misplaced() {
    let (mut table, mut source) = ([0; 256], [0; 64]);
    let mut builder = Builder::new(&mut table, &mut source);
    assert_eq!(builder.push(1).unwrap_err(), BuildError::Misplaced);
    assert_eq!(builder.array().unwrap_err(), BuildError::Misplaced);
    builder.bundle(Time::IMMEDIATELY).unwrap();
    assert_eq!(builder.push("text").unwrap_err(), BuildError::Misplaced);
    builder.message("/a").unwrap();
    assert_eq!(builder.message("/b").unwrap_err(), BuildError::Misplaced);
    builder.array().unwrap();
    assert_eq!(builder.bundle(Time::IMMEDIATELY).unwrap_err(), BuildError::Misplaced);
    builder.close().unwrap().close().unwrap().close().unwrap();
    assert_eq!(builder.message("/second").unwrap_err(), BuildError::Misplaced);
    let built = builder.finish().unwrap();
    assert_eq!((built.count, built.source), (3, &b"/a"[..]));
}

#[test]
fn room_runs_out() {
    let (mut table, mut source) = ([0; 3 * RECORD - 1], [0; 4]);
    let mut builder = Builder::new(&mut table, &mut source);
    builder.message("/a").unwrap();
    assert_eq!(builder.push("abc").unwrap_err(), BuildError::SourceFull);
    builder.push("bc").unwrap();
    assert_eq!(builder.push(true).unwrap_err(), BuildError::TableFull);
    builder.close().unwrap();
    let built = builder.finish().unwrap();
    assert_eq!((built.count, built.source), (2, &b"/abc"[..]));
    assert!(built.check().is_ok());

    let mut table = vec![0; RECORD * 65_536];
    let mut builder = Builder::new(&mut table, &mut source);
    builder.message("/").unwrap();
    for _ in 1..65_535 {
        builder.push(Value::Nil).unwrap();
    }
    assert_eq!(builder.push(Value::Nil).unwrap_err(), BuildError::TableFull);
    builder.close().unwrap();
    let built = builder.finish().unwrap();
    assert_eq!(built.check().unwrap().count(), 65_535);
    assert_eq!(encode(built, &mut []), Err(Refusal::TooLong));
}

#[test]
fn open_and_close() {
    let (mut table, mut source) = ([0; 64], [0; 8]);
    assert_eq!(Builder::new(&mut table, &mut source).finish(), Err(BuildError::Empty));
    assert_eq!(Builder::new(&mut table, &mut source).close().unwrap_err(), BuildError::NothingOpen);
    let mut builder = Builder::new(&mut table, &mut source);
    builder.message("/a").unwrap();
    assert_eq!(builder.finish(), Err(BuildError::StillOpen));
    let error: &dyn std::error::Error = &BuildError::StillOpen;
    assert_eq!(error.to_string(), "a message, bundle or array is still open");
}

#[test]
fn tables_from_anywhere_are_checked() {
    let (mut table, mut source) = ([0; 64], [0; 8]);
    let mut builder = Builder::new(&mut table, &mut source);
    builder.message("/é").unwrap().push('x').unwrap().close().unwrap();
    let built = builder.finish().unwrap();
    assert!(built.check().is_ok());
    for (at, byte) in [(0, b'x'), (3, 1), (7, 1), (11, 1), (15, 4), (20, b'#'), (27, 3), (29, 0x11), (35, 1)] {
        let mut bytes = built.bytes.to_vec();
        bytes[at] = byte;
        assert_eq!(Table { bytes: &bytes, ..built }.check().unwrap_err(), Refusal::BadTable, "byte {at}");
    }
    for count in [0, 1, 3, 65_536, usize::MAX] {
        assert_eq!(Table { count, ..built }.check().unwrap_err(), Refusal::BadTable, "count {count}");
    }
    assert_eq!(Table { source: b"/\xC3\x28", ..built }.check().unwrap_err(), Refusal::BadTable);
}
