//! Where each item began, and the bytes that its data took.

use sennorbai::{
    decode_tcp_vec, decode_udp, encode, start_of, Builder, Edition, Packet, Records, Refusal, Table, Time, Value, DEEPEST,
    RECORD,
};

/// A message with an argument of every kind, the last ones in an array; its data begins at 28.
const EVERY: &[u8] = b"/a\0\0,ifsbthdcrmTFNI[N[s]]\0\0\0\
    \0\0\0\x05\x3F\x80\0\0\xC3\xA9\0\0\0\0\0\x03\x01\x02\x03\0\0\0\0\x01\0\0\0\x02\
    \x80\0\0\0\0\0\0\0\x7F\xF8\0\0\0\0\0\x01\0\x01\xF6\0\x01\x02\x03\x04\x05\x06\x07\x08ab\0\0";

fn starts(records: Records<'_>) -> Vec<usize> {
    records.map(|record| record.start()).collect()
}

#[test]
fn every_kind_has_its_start_and_data() {
    let mut table = [0xAA; 32 * RECORD];
    let packet = decode_udp(EVERY, &mut table, DEEPEST).unwrap();
    let numbers = [28, 32, 36, 40, 48, 56, 64, 72, 76, 80];
    let without_data = [84, 84, 84, 84, 84, 84, 84];
    assert_eq!(starts(packet.records()), [&[0][..], &numbers, &without_data, &[84]].concat());

    let lengths = [Some(2), Some(4), Some(4), Some(2), Some(7), Some(8), Some(8), Some(8), Some(4), Some(4), Some(4)];
    let data: Vec<_> = packet.records().map(|record| record.data()).collect();
    let due: Vec<_> = packet.records().zip(lengths).map(|(record, n)| n.map(|n| &EVERY[record.start()..][..n])).collect();
    assert_eq!(data[..11], due);
    assert_eq!(data[11..18], [None; 7]);
    assert_eq!(data[18], Some(&b"ab"[..]));
}

#[test]
fn data_says_what_the_value_says() {
    let mut table = [0; 32 * RECORD];
    let packet = decode_udp(EVERY, &mut table, DEEPEST).unwrap();
    for record in packet.records() {
        let data = record.data();
        let due = match record.value() {
            Value::Message(text) | Value::Text(text) => text.as_bytes().to_vec(),
            Value::Bundle(_) => b"#bundle".to_vec(),
            Value::Blob(bytes) => [&(bytes.len() as u32).to_be_bytes(), bytes].concat(),
            Value::Int(x) => x.to_be_bytes().to_vec(),
            Value::Float(x) => x.to_be_bytes().to_vec(),
            Value::Char(x) => (x as u32).to_be_bytes().to_vec(),
            Value::Color(x) => vec![x.red, x.green, x.blue, x.alpha],
            Value::Midi(x) => vec![x.port, x.status, x.data1, x.data2],
            Value::Long(x) => x.to_be_bytes().to_vec(),
            Value::Double(x) => x.to_bits().to_be_bytes().to_vec(),
            Value::Time(x) => [x.seconds.to_be_bytes(), x.fractional.to_be_bytes()].concat(),
            Value::Bool(_) | Value::Nil | Value::Inf | Value::Array => {
                assert_eq!(data, None);
                continue;
            }
            other => panic!("a value that this test does not know: {other:?}"),
        };
        assert_eq!(data, Some(&due[..]), "{record:?}");
    }
}

#[test]
fn an_array_starts_at_its_bracket() {
    let mut table = [0; 8 * RECORD];
    // An array that ends after its integer, one between two integers, and one that nothing follows.
    for (msg, due) in [
        (&b"/a\0\0,[i]\0\0\0\0\0\0\0\0"[..], &[0, 12, 12][..]),
        (b"/a\0\0,i[]i\0\0\0\0\0\0\x01\0\0\0\x02", &[0, 12, 16, 16]),
        (b"/a\0\0,s[]\0\0\0\0ab\0\0", &[0, 12, 16]),
        (b"/a\0\0,T\0\0", &[0, 8]),
    ] {
        let packet = decode_udp(msg, &mut table, DEEPEST).unwrap();
        assert_eq!(starts(packet.records()), due, "{msg:02X?}");
    }
}

#[test]
fn what_an_unclosed_array_keeps_has_its_own_starts() {
    let mut table = [0; 8 * RECORD];
    let packet = decode_udp(b"/a\0\0,i[i\0\0\0\0\0\0\0\x01\0\0\0\x02", &mut table, DEEPEST).unwrap();
    assert_eq!(format!("{:?}", packet.records()), "[0..2 Message(\"/a\"), 1..2 Int(2)]");
    assert_eq!(starts(packet.records()), [0, 16]);
    let packet = decode_udp(b"/a\0\0,[i[i]\0\0\0\0\0\x01\0\0\0\x02", &mut table, DEEPEST).unwrap();
    assert_eq!(format!("{:?}", packet.records()), "[0..4 Message(\"/a\"), 1..2 Int(1), 2..4 Array, 3..4 Int(2)]");
    assert_eq!(starts(packet.records()), [0, 12, 16, 16]);
}

#[test]
fn starts_count_from_the_first_byte_of_the_call() {
    let mut table = [0; 8 * RECORD];
    let bundle = b"#bundle\0\0\0\0\0\0\0\0\x01\0\0\0\x0C/a\0\0,i\0\0\0\0\0\x05\0\0\0\x10#bundle\0\0\0\0\0\0\0\0\x02";
    let packet = decode_udp(bundle, &mut table, DEEPEST).unwrap();
    assert_eq!(starts(packet.records()), [0, 20, 28, 36]);
    let data: Vec<_> = packet.records().map(|record| record.data().unwrap()).collect();
    assert_eq!(data, [&b"#bundle"[..], b"/a", b"\0\0\0\x05", b"#bundle"]);

    let stream = b"\0\0\0\x08/a\0\0,T\0\0\0\0\0\x0C/b\0\0,i\0\0\0\0\0\x05";
    for edition in [Edition::Rosc, Edition::Standard] {
        let packets = decode_tcp_vec(edition, stream, &mut table, DEEPEST).unwrap().packets();
        assert_eq!(starts(packets.records()), [4, 12, 16, 24]);
        assert_eq!(packets.roots().nth(1).unwrap().data(), Some(&b"/b"[..]));
    }

    // An element of 9 bytes: the next one stands at no multiple of 4, and its padding counts from the input's first byte.
    let odd = b"#bundle\0\0\0\0\0\0\0\0\x01\0\0\0\x09/a\0\0,\0\0\0X\0\0\0\x0B/b\0,i\0\0\0\0\0\x05";
    let packet = decode_udp(odd, &mut table, DEEPEST).unwrap();
    assert_eq!(starts(packet.records()), [0, 20, 33, 40]);
    assert_eq!(packet.records().last().unwrap().data(), Some(&b"\0\0\0\x05"[..]));
}

#[test]
fn start_of_reads_any_table() {
    let mut table = [0; 2 * RECORD];
    let bytes = decode_udp(b"/a\0\0,i\0\0\0\0\0\x05", &mut table, DEEPEST).unwrap().table().bytes;
    assert_eq!((start_of(bytes, 0), start_of(bytes, 1)), (Ok(0), Ok(8)));
    for index in [2, 3, 1 << 32, 1 << 62, usize::MAX] {
        assert_eq!(start_of(bytes, index), Err(Refusal::BadTable), "{index}");
    }
    assert_eq!(start_of(&bytes[..2 * RECORD - 1], 1), Err(Refusal::BadTable));
    assert_eq!(start_of(&[], 0), Err(Refusal::BadTable));
    assert_eq!(start_of(&[0xFF; RECORD], 0), Ok(u32::MAX as usize));
}

/// The packet of a table whose every start is another.
fn with_start(table: Table<'_>, start: u32, then: impl Fn(Table<'_>, Packet<'_>)) {
    let mut bytes = table.bytes.to_vec();
    bytes
        .as_chunks_mut::<RECORD>()
        .0
        .iter_mut()
        .for_each(|record| record[RECORD - 4..].copy_from_slice(&start.to_be_bytes()));
    let other = Table { bytes: &bytes, ..table };
    then(other, other.check().unwrap());
}

#[test]
fn a_table_with_any_starts_is_well_formed() {
    let (mut table, mut source) = ([0xAA; 4 * RECORD], [0xAA; 8]);
    let mut builder = Builder::new(&mut table, &mut source);
    builder.bundle(Time::IMMEDIATELY).unwrap().message("/a").unwrap().push("text").unwrap().push(5).unwrap();
    builder.close().unwrap().close().unwrap();
    let built = builder.finish().unwrap();
    let mut out = [0; 64];
    let bytes = encode(built, &mut out).unwrap();
    assert_eq!(starts(built.check().unwrap().records()), [0, 0, 0, 0]);

    for start in [1, 2, 6, 7, u32::MAX] {
        with_start(built, start, |other, packet| {
            assert_eq!(encode(other, &mut [0; 64]), Ok(bytes));
            assert_eq!(starts(packet.records()), [start as usize; 4]);
            // The source has 6 bytes: what does not end there is not given.
            let data: Vec<_> = packet.records().map(|record| record.data()).collect();
            let due = |n: usize| b"/atext".get(start as usize..start as usize + n);
            assert_eq!(data, [due(7), due(2), due(4), due(4)]);
        });
    }
}
