//! A table's time tags, shifted and shifted back.

use sennorbai::{decode_udp, encode, Refusal, Table, Value, DEEPEST, RECORD};

/// A bundle in a bundle; in it a message with a time tag in an array, and an `h`.
const ACT: &[u8] = b"#bundle\0\0\0\0\0\0\0\0\x01\0\0\0\x30#bundle\0\xFF\xFF\xFF\xFF\x80\0\0\0\0\0\0\x1C/a\0\0,[t]h\0\0\0\
    \x01\x02\x03\x04\xFF\xFF\xFF\xFF\0\0\0\0\xFF\xFF\xFF\xFF";
/// Where its three tags stand.
const TAGS: [usize; 3] = [8, 28, 52];

fn tags(bytes: &[u8]) -> [u64; 3] {
    TAGS.map(|at| u64::from_be_bytes(bytes[at..at + 8].try_into().unwrap()))
}

#[test]
fn tags_alone_are_shifted() {
    let mut table = [0; 10 * RECORD];
    let count = decode_udp(ACT, &mut table, DEEPEST).unwrap().count();
    let before = table;
    let mut plain = [0; 100];
    let length = encode(Table { bytes: &table, count, source: ACT }, &mut plain).unwrap().len();
    for by in [0, 1, 1 << 31, 1 << 32, u64::MAX, 0x1234_5678_9ABC_DEF0] {
        assert_eq!(Table::shift(&mut table, count, by), Ok(3));
        let mut out = [0; 100];
        assert_eq!(encode(Table { bytes: &table, count, source: ACT }, &mut out).unwrap().len(), length);
        assert_eq!(tags(&out), tags(&plain).map(|tag| tag.wrapping_add(by)));
        TAGS.iter().for_each(|at| out[*at..at + 8].copy_from_slice(&plain[*at..at + 8]));
        assert_eq!(out, plain);
        assert_eq!(Table::shift(&mut table, count, 0u64.wrapping_sub(by)), Ok(3));
        assert_eq!(table, before);
    }
}

#[test]
fn a_shifted_table_is_well_formed() {
    let mut table = [0; 10 * RECORD];
    let count = decode_udp(ACT, &mut table, DEEPEST).unwrap().count();
    Table::shift(&mut table, count, 1).unwrap();
    let packet = Table { bytes: &table, count, source: ACT }.check().unwrap();
    let Value::Bundle(time) = packet.root().value() else { panic!("the root is a bundle") };
    assert_eq!((time.seconds, time.fractional), (0, 2));
}

#[test]
fn the_first_records_alone_are_looked_at() {
    let mut table = [0; 10 * RECORD];
    let count = decode_udp(ACT, &mut table, DEEPEST).unwrap().count();
    table[RECORD * (count - 1)] = b'x';
    let before = table;
    assert_eq!(Table::shift(&mut table, count, 1), Err(Refusal::BadTable));
    assert_eq!(Table::shift(&mut table, 11, 1), Err(Refusal::BadTable));
    assert_eq!(Table::shift(&mut table, usize::MAX, 1), Err(Refusal::BadTable));
    assert_eq!(table, before);
    assert_eq!(Table::shift(&mut table, count - 1, 1), Ok(3));
    assert_eq!(table[RECORD * (count - 1)..], before[RECORD * (count - 1)..]);
    assert_eq!(Table::shift(&mut [], 0, 1), Ok(0));
}
