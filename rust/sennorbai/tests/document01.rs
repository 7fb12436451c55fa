//! Document 01's examples, limits and refusals over lent buffers; depth as Ticket 4 has it, short fields as Ticket 2, and padding
//! that is not zero as Ticket 8. Streams are those of edition 1; editions.rs has edition 2.

use sennorbai::{
    decode_tcp, decode_tcp_vec, decode_udp, encode, encode_string, encode_tcp, look, pad, Builder, Decoded, Edition, Field,
    Refusal, Table, Time, Value, DEEPEST, LONGEST, RECORD,
};

/// Bytes from hex digits with spaces between.
fn hex(digits: &str) -> Vec<u8> {
    let digits: String = digits.split_whitespace().collect();
    (0..digits.len() / 2).map(|i| u8::from_str_radix(&digits[2 * i..2 * i + 2], 16).unwrap()).collect()
}

/// What `decode_udp` gives: the values with their ends, and the number of bytes left.
fn udp(digits: &str) -> Result<(String, usize), Refusal> {
    let mut table = [0xAA; 256];
    let msg = hex(digits);
    let packet = decode_udp(&msg, &mut table, DEEPEST)?;
    Ok((format!("{:?}", packet.records()), packet.left()))
}

#[test]
fn examples_that_are_refused() {
    let cases = [
        ("", 2),
        ("2F000000", 18),
        ("2F610000 2C5D0000", 6),
        ("2F610000 2C780000", 7),
        ("2F610000 2C630000 0000D800", 8),
        ("2FFF0000", 4),
        ("61000000", 5),
    ];
    for (digits, number) in cases {
        assert_eq!(udp(digits).unwrap_err().number(), number, "{digits}");
    }
}

#[test]
fn examples_that_are_read() {
    let message = |inside: &str, left| Ok((format!("[{inside}]"), left));
    let five = message("0..2 Message(\"/a\"), 1..2 Int(5)", 0);
    assert_eq!(udp("2F610000 2C690000 00000005"), five);
    assert_eq!(udp("2F610000 58690000 00000005"), five);
    assert_eq!(udp("2F610000 00000000"), message("0..1 Message(\"/a\")", 0));
    let two = message("0..2 Message(\"/a\"), 1..2 Int(2)", 0);
    assert_eq!(udp("2F610000 2C695B69 00000000 00000001 00000002"), two);
    let bundle = message("0..1 Bundle(Time { seconds: 0, fractional: 1 })", 4);
    assert_eq!(udp("2362756E 646C6500 00000000 00000001 00000000"), bundle);
}

#[test]
fn example_3_byte_for_byte() {
    let mut table = [0xAA; 3 * RECORD];
    let msg = hex("2F610000 2C690000 00000005");
    let packet = decode_udp(&msg, &mut table, DEEPEST).unwrap();
    assert_eq!((packet.count(), packet.rest()), (2, &b""[..]));
    let due = hex("2F000000 00000002 00000000 00000002 00000000 69000000 00000002 00000005 00000000 00000008");
    assert_eq!(packet.table(), Table { bytes: &due, count: 2, source: &msg });
    assert_eq!(table[2 * RECORD..], [0xAA; RECORD]);
}

#[test]
fn examples_13_and_14() {
    let mut table = [0xAA; 64];
    let refusal = Refusal::Short { field: Field::TypeText, at: 8 };
    assert_eq!(decode_tcp(Edition::Rosc, &hex("00000008 2F610000"), &mut table, DEEPEST).unwrap_err(), refusal);
    assert!(matches!(decode_tcp(Edition::Rosc, &hex("00000009 2F610000"), &mut table, DEEPEST), Ok(Decoded::Waiting)));
    let list = decode_tcp_vec(Edition::Rosc, b"\0\0\0\x09/a\0\0", &mut table, DEEPEST).unwrap().packets();
    assert_eq!((list.count(), list.left(), list.roots().count()), (0, 8, 0));
    assert_eq!(table, [0xAA; 64]);
}

/// `levels` bundles, each in the one before.
fn nested(levels: usize) -> Vec<u8> {
    in_bundles(levels - 1, b"#bundle\0\0\0\0\0\0\0\0\x01".to_vec())
}

/// A packet in `levels` bundles.
fn in_bundles(levels: usize, packet: Vec<u8>) -> Vec<u8> {
    (0..levels).fold(packet, |inside, _| {
        [b"#bundle\0\0\0\0\0\0\0\0\x01", &(inside.len() as u32).to_be_bytes()[..], &inside].concat()
    })
}

/// A message with these type tags, which have no data.
fn tagged(tags: &str) -> Vec<u8> {
    let mut bytes = [b"/a\0\0,", tags.as_bytes(), b"\0"].concat();
    bytes.resize(bytes.len().next_multiple_of(4), 0);
    bytes
}

/// A message with `levels` arrays, each in the one before.
fn arrays(levels: usize) -> Vec<u8> {
    tagged(&("[".repeat(levels) + &"]".repeat(levels)))
}

/// How many records each decoder gives for a packet at a limit, where they agree.
fn records(packet: &[u8], limit: u64) -> Result<usize, Refusal> {
    let mut table = vec![0; RECORD * 2_000];
    let frame = [&(packet.len() as u32).to_be_bytes(), packet].concat();
    let udp = decode_udp(packet, &mut table, limit).map(|packet| packet.count());
    let list = decode_tcp_vec(Edition::Rosc, &frame, &mut table, limit).map(|list| list.packets().count());
    let tcp = decode_tcp(Edition::Rosc, &frame, &mut table, limit).map(|decoded| match decoded {
        Decoded::Packet(packet) => packet.count(),
        Decoded::Waiting => 0,
    });
    assert_eq!((tcp, list), (udp, udp));
    udp
}

#[test]
fn depth_counts_bundles_and_arrays_together() {
    for (bundles, inside) in [(0, 64), (1, 63), (32, 32), (63, 1), (64, 0)] {
        let packet = in_bundles(bundles, arrays(inside));
        assert_eq!(records(&packet, 64), Ok(65), "{bundles} bundles");
        assert_eq!(records(&packet, 63), Err(Refusal::TooDeep), "{bundles} bundles");
        let packet = in_bundles(bundles, arrays(inside + 1));
        assert_eq!(records(&packet, 64), Err(Refusal::TooDeep), "{bundles} bundles");
    }
    assert_eq!(records(&arrays(900), 64), Err(Refusal::TooDeep));
    assert_eq!((records(&arrays(1), 1), records(&arrays(1), 0)), (Ok(2), Err(Refusal::TooDeep)));
    // Side by side they do not add up, and the deepest decides wherever it stands.
    assert_eq!(records(&tagged("[][][T]"), 1), Ok(5));
    for tags in ["[[]][]T", "T[][[]]"] {
        assert_eq!((records(&tagged(tags), 2), records(&tagged(tags), 1)), (Ok(5), Err(Refusal::TooDeep)));
    }
    // 9 comes before 10, and after what else is wrong with the packet.
    assert_eq!(decode_udp(&arrays(2), &mut [], 1).unwrap_err(), Refusal::TooDeep);
    assert_eq!(records(&tagged("[[]]x"), 0), Err(Refusal::UnknownTag));
}

#[test]
fn what_is_lost_does_not_count() {
    // The example P6, where the array is not closed.
    assert_eq!(records(&hex("2F610000 2C695B69 00000000 00000001 00000002"), 0), Ok(2));
    // [T] is kept, and the bracket around it is not closed.
    let packet = hex("2F610000 2C5B5B54 5D000000");
    assert_eq!((records(&packet, 1), records(&packet, 0)), (Ok(3), Err(Refusal::TooDeep)));
    // Arrays that were closed and then lost, and brackets alone.
    assert_eq!(records(&tagged("[[[]]][T"), 0), Ok(2));
    assert_eq!(records(&tagged(&("[".repeat(900) + &"]".repeat(835))), 64), Err(Refusal::TooDeep));
    assert_eq!(records(&tagged(&("[".repeat(900) + &"]".repeat(64))), 64), Ok(65));
    assert_eq!(records(&tagged(&"[".repeat(900)), 0), Ok(1));
}

/// What the encoders say of a message with so many arrays in each other, in so many bundles.
fn encoded(bundles: usize, arrays: usize) -> Result<Vec<u8>, Refusal> {
    let (mut table, mut source, mut out) = (vec![0; RECORD * 33_000], [0; 2], vec![0; LONGEST]);
    let mut builder = Builder::new(&mut table, &mut source);
    for _ in 0..bundles {
        builder.push(Value::Bundle(Time { seconds: 0, fractional: 1 })).unwrap();
    }
    builder.push(Value::Message("/a")).unwrap();
    for _ in 0..arrays {
        builder.array().unwrap();
    }
    for _ in 0..bundles + 1 + arrays {
        builder.close().unwrap();
    }
    let table = builder.finish().unwrap();
    assert!(table.check().is_ok(), "a table may be well formed and too deep");
    let bytes = encode(table, &mut out).map(<[u8]>::to_vec);
    for (edition, prefix) in [(Edition::Rosc, if bundles == 0 { 4 } else { 0 }), (Edition::Standard, 4)] {
        let framed = encode_tcp(edition, table, &mut out).map(<[u8]>::len);
        assert_eq!(framed, bytes.as_ref().map(|bytes| prefix + bytes.len()).map_err(|refusal| *refusal));
    }
    bytes
}

#[test]
fn encoders_go_64_deep() {
    for (bundles, inside) in [(0, 64), (1, 63), (32, 32), (63, 1), (64, 0)] {
        assert_eq!(encoded(bundles, inside), Ok(in_bundles(bundles, arrays(inside))), "{bundles} bundles");
        assert_eq!(encoded(bundles, inside + 1), Err(Refusal::TooDeep), "{bundles} bundles");
    }
    // 9 comes before 1.
    for inside in [900, 32_763, 32_900] {
        assert_eq!(encoded(0, inside), Err(Refusal::TooDeep));
    }
}

#[test]
fn limits_of_decoders() {
    let mut table = vec![0; RECORD * 65_535];
    let mut msg = b"/a\0\0,b\0\0\0\0\xFF\xF0".to_vec();
    msg.resize(LONGEST, 7);
    let packet = decode_udp(&msg, &mut table, DEEPEST).unwrap();
    assert_eq!(packet.root().inside().next().unwrap().value(), Value::Blob(&msg[12..12 + 65_520]));
    assert_eq!(packet.left(), 3);
    msg.push(7);
    assert_eq!(decode_udp(&msg, &mut table, DEEPEST).unwrap_err(), Refusal::TooLong);

    assert_eq!(decode_udp(&nested(64), &mut table, 64).unwrap().count(), 64);
    assert_eq!(decode_udp(&nested(64), &mut table, 63).unwrap_err(), Refusal::TooDeep);
    assert_eq!(decode_udp(&nested(65), &mut table, 64).unwrap_err(), Refusal::TooDeep);
    assert_eq!(decode_udp(&nested(1), &mut table, 65).unwrap_err(), Refusal::DepthLimit);

    let msg = b"/a\0\0,TFN\0\0\0\0";
    assert_eq!(decode_udp(msg, &mut table[..4 * RECORD], DEEPEST).unwrap().count(), 4);
    table.fill(0xAA);
    assert_eq!(decode_udp(msg, &mut table[..4 * RECORD - 1], DEEPEST).unwrap_err(), Refusal::TableFull);
    assert!(table.iter().all(|&byte| byte == 0xAA));
}

#[test]
fn limits_of_encoders() {
    let mut table = [0; 64];
    let msg = b"/a\0\0,i\0\0\0\0\0\x05";
    let packet = decode_udp(msg, &mut table, DEEPEST).unwrap().table();
    let mut out = [0xAA; 17];
    assert_eq!(encode(packet, &mut out[..11]), Err(Refusal::OutputShort));
    assert_eq!(encode_tcp(Edition::Rosc, packet, &mut out[..15]), Err(Refusal::OutputShort));
    assert_eq!(out, [0xAA; 17]);
    assert_eq!(encode(packet, &mut out[..12]), Ok(&msg[..]));
    assert_eq!(encode_tcp(Edition::Rosc, packet, &mut out), Ok(&b"\0\0\0\x0C/a\0\0,i\0\0\0\0\0\x05"[..]));
    assert_eq!(out[16], 0xAA);
    assert_eq!(encode(Table { count: 3, ..packet }, &mut out), Err(Refusal::BadTable));

    let mut out = vec![0; LONGEST + 1];
    assert_eq!(encode_string(&vec![b'a'; 65_531], &mut out).unwrap().len(), 65_532);
    assert_eq!(encode_string(&vec![b'a'; 65_532], &mut out), Err(Refusal::TooLong));
    assert_eq!(encode_string(b"\xC3", &mut out), Err(Refusal::NotUtf8));
    assert_eq!(pad(u64::MAX - 3), Ok(u64::MAX - 3));
    assert_eq!(pad(u64::MAX - 2), Err(Refusal::PadOverflow));
    assert_eq!(look(packet.bytes, 1), Ok(b'i'));
    assert_eq!(look(packet.bytes, 2), Err(Refusal::BadTable));
}

#[test]
fn values_of_every_kind() {
    let msg = hex(
        "2F610000 2C696673 62746864 63726D54 464E495B 545D0000 FFFFFFFE 7FC00001 C3A90000 00000003 01020300 00000001 00000002 \
         80000000 00000000 7FF80000 00000001 0001F600 01020304 05060708",
    );
    let mut table = [0; 32 * RECORD];
    let packet = decode_udp(&msg, &mut table, DEEPEST).unwrap();
    let values: Vec<Value<'_>> = packet.root().inside().map(|record| record.value()).collect();
    let bits = |value: &Value<'_>| match *value {
        Value::Float(x) => x.to_bits() as u64,
        Value::Double(x) => x.to_bits(),
        _ => panic!("no float"),
    };
    assert_eq!((bits(&values[1]), bits(&values[6])), (0x7FC0_0001, 0x7FF8_0000_0000_0001));
    assert_eq!((values[0], values[2]), (Value::Int(-2), Value::Text("é")));
    assert_eq!((values[3], values[7]), (Value::Blob(&[1, 2, 3]), Value::Char('😀')));
    assert_eq!((values[4], values[5]), (Value::Time(Time { seconds: 1, fractional: 2 }), Value::Long(i64::MIN)));
    let rest =
        "[Color(Color { red: 1, green: 2, blue: 3, alpha: 4 }), Midi(Midi { port: 5, status: 6, data1: 7, data2: 8 }), \
                Bool(true), Bool(false), Nil, Inf, Array]";
    assert_eq!(format!("{:?}", &values[8..]), rest);
    let array = packet.root().inside().last().unwrap();
    assert_eq!((array.kind(), array.index(), array.end(), array.below().len()), (b'[', 15, 17, 1));
    let mut out = [0; 256];
    assert_eq!(encode(packet.table(), &mut out), Ok(&msg[..]));
}

#[test]
fn refusals_print_number_and_words() {
    let numbers = [1, 2, 4, 5, 6, 7, 8, 9, 10, 11, 12, 13, 14, 15, 16, 17, 18, 19, 20, 21, 26, 27, 28];
    assert_eq!(Refusal::ALL.map(Refusal::number), numbers);
    assert!(Refusal::ALL.is_sorted());
    for refusal in Refusal::ALL {
        let (number, words) = (refusal.number(), refusal.words());
        let is_short = matches!(refusal, Refusal::Short { .. });
        let short = if is_short { " at offset 0 is not all there" } else { "" };
        assert_eq!(refusal.to_string(), format!("{number}: {words}{short}"));
        assert_eq!((refusal.offset(), is_short), (is_short.then_some(0), (17..=21).contains(&number)));
        let error: &dyn std::error::Error = &refusal;
        assert!(error.source().is_none());
    }
    assert_eq!(Refusal::TooDeep.to_string(), "9: bundles and arrays nested deeper than the limit");
    assert_eq!(Refusal::DepthLimit.to_string(), "13: depth limit over 64");
    assert_eq!(Refusal::BytesLeft.to_string(), "15: bytes left in the frame");
    assert_eq!(Refusal::OddLength.to_string(), "16: frame length not a multiple of 4");
    let refusal = Refusal::Short { field: Field::Data, at: 65_532 };
    assert_eq!(refusal.to_string(), "19: the argument data at offset 65532 is not all there");
}

#[test]
fn short_fields() {
    let mut table = [0xAA; 8 * RECORD];
    for (number, at, input) in [
        (17, 0, "2F61"),
        (17, 0, "23"),
        (20, 2, "2F00"),
        (20, 2, "2F0000"),
        (18, 4, "2F000000"),
        (18, 4, "2F610000 2C6969"),
        (20, 6, "2F610000 2C0000"),
        (19, 8, "2F610000 2C620000 00000003 6162"),
        (20, 13, "2F610000 2C620000 00000001 61"),
        (19, 8, "2F610000 2C730000 616263"),
        (21, 8, "2362756E 646C6500 00000000"),
    ] {
        let refusal = decode_udp(&hex(input), &mut table, DEEPEST).unwrap_err();
        assert_eq!((refusal.number(), refusal.offset()), (number, Some(at)), "{input}");
    }
    for (field, at, input) in [
        (Field::Head, 0, ""),
        (Field::Head, 0, "0000"),
        (Field::Head, 16, "0000000C 2F610000 2C690000 00000007 0000"),
        (Field::Address, 20, "0000000C 2F610000 2C690000 00000007 00000004 2F616263"),
    ] {
        let refusal = decode_tcp_vec(Edition::Rosc, &hex(input), &mut table, DEEPEST).unwrap_err();
        assert_eq!(refusal, Refusal::Short { field, at }, "{input}");
    }
    // What a bundle swallows is told by no refusal.
    let swallowed = hex("2362756E 646C6500 00000000 00000001 00000004 2F616263");
    assert_eq!(decode_udp(&swallowed, &mut [0; RECORD], DEEPEST).unwrap().left(), 8);
    assert_eq!(table, [0xAA; 8 * RECORD]);
}

/// How many bytes of padding were not zero in a UDP packet.
fn dirty(digits: &str) -> usize {
    let mut table = [0; 16 * RECORD];
    decode_udp(&hex(digits), &mut table, DEEPEST).unwrap().dirty()
}

/// The same in a list.
fn dirty_list(digits: &str) -> usize {
    let mut table = [0; 16 * RECORD];
    decode_tcp_vec(Edition::Rosc, &hex(digits), &mut table, DEEPEST).unwrap().packets().dirty()
}

#[test]
fn dirty_padding_of_a_message() {
    for (due, input) in [
        (0, "2F610000 2C690000 00000005"),
        (0, "2F616200 2C000000"),
        (1, "2F610001 2C000000"),
        (2, "2F610000 2C00FF02"),
        (1, "2F610000 2C000001"),
        (3, "2F610000 00010203"),
        (2, "2F610000 2C730000 61000203"),
        (3, "2F610000 2C620000 00000001 61010203"),
        (4, "2F610001 2C736200 61000203 00000003 61626304"),
        // Bytes of a blob and those left over are no padding.
        (0, "2F610000 2C620000 00000004 61626364 FFFFFFFF"),
        // What an unclosed array loses does not count; the type text and what is kept do.
        (0, "2F610000 2C735B00 61000101"),
        (2, "2F610000 2C735B73 00010000 61000101 62000001"),
        (3, "2F610000 2C5B735D 73000000 61000101 62000001"),
    ] {
        assert_eq!(dirty(input), due, "{input}");
        assert_eq!(dirty_list(&format!("00000000 {input}")), due, "{input} in a frame");
    }
}

#[test]
fn dirty_padding_of_bundles_and_lists() {
    let bundle = "2362756E 646C6500 00000000 00000001";
    // A byte too many in an element has what follows begin at an odd place.
    let odd = format!("{bundle} 00000009 2F610001 2C000000 FF");
    assert_eq!(dirty(&odd), 1);
    // An element that fails, and `#bundle` at an odd place, which has padding there.
    assert_eq!(dirty(&format!("{bundle} 00000008 2F610001 2C780001")), 0);
    assert_eq!(dirty(&format!("{odd} 00000007 2F0001 2C780001")), 1);
    assert_eq!(dirty(&format!("{odd} 00000013 2362756E646C6500 010002 0000000000000001")), 3);
    // In a list padding counts from each prefix.
    assert_eq!(dirty_list(&format!("00000000 {odd} 00000000 2F610001 2C000002")), 3);
    assert_eq!(dirty_list("00000008 2F610001 2C000000 00000009 2F610001"), 1);
    assert_eq!(dirty_list("0000000D 2F610001 2C000000"), 0);
}

#[test]
fn dirty_padding_of_one_frame_and_of_a_table() {
    let mut table = [0; 2 * RECORD];
    let frame = hex("00000008 2F610001 2C000000 FF");
    match decode_tcp(Edition::Rosc, &frame, &mut table, DEEPEST) {
        Ok(Decoded::Packet(packet)) => {
            assert_eq!((packet.dirty(), packet.left()), (1, 1));
            assert_eq!(packet.table().check().unwrap().dirty(), 0);
            assert_eq!(format!("{packet:?}"), "Packet { left: 1, dirty: 1, records: [0..1 Message(\"/a\")] }");
        }
        other => panic!("{other:?}"),
    }
    // A refusal says nothing of padding, and still where a field was short.
    let refusal = Refusal::Short { field: Field::TypeText, at: 4 };
    assert_eq!(decode_udp(&hex("2F610001"), &mut table, DEEPEST).unwrap_err(), refusal);
}
