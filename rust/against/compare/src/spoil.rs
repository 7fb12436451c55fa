//! Tables that break a rule, and records for `look`.

use crate::ask::Asked;
use crate::met::KINDS;
use crate::random::Random;
use crate::table::{word, RECORD};

/// Bytes for a record: numbers, kinds, and what is part of a surrogate or of no number.
const BYTES: &[u8] = &[0, 1, 2, 4, 0x10, 0x11, b'/', b'#', b'[', b'T', b's', b'c', b'i', b'x', 0xD8, 0xDF, 0xE0, 0xFF];

/// Counts that no table has, also where 20 times the count is over 2^64, and little over a multiple of it.
const COUNTS: &[u64] = &[0, 65_535, 65_536, 1 << 32, 1 << 60, 1 << 62, (1 << 62) + 1, u64::MAX];

/// Spoils one thing about a call to an encoder. The table may be well formed still: the rules tell.
pub fn table(r: &mut Random, asked: &mut Asked) {
    let records = asked.first.len() / RECORD;
    let at = RECORD * r.below(records);
    match r.below(12) {
        0 => asked.first[at] = r.pick(KINDS),
        1 => asked.first[at] = r.pick(BYTES),
        2 => asked.first[at + 1 + r.below(3)] = r.pick(BYTES),
        3 => shift(r, &mut asked.first, at + 4, 2),
        4 => shift(r, &mut asked.first, at + 8, 9),
        5 => shift(r, &mut asked.first, at + 12, 9),
        6 => asked.first[at + 4 + r.below(RECORD - 4)] = r.pick(BYTES),
        7 => asked.number = if r.one_in(2) { r.pick(COUNTS) } else { asked.number + 1 - 2 * r.below(2) as u64 },
        8 => {
            let length = asked.first.len() - r.below(RECORD + 2);
            asked.first.truncate(length);
        }
        9 => asked.first.extend((0..r.below(40)).map(|_| r.next() as u8)),
        10 => source(r, &mut asked.second),
        _ => scalar(r, &mut asked.first[at..at + RECORD]),
    }
}

/// Makes the number at a place somewhat higher or lower.
fn shift(r: &mut Random, table: &mut [u8], at: usize, most: usize) {
    let by = 1 + r.below(most) as u32;
    let number = word(table, at);
    let number = if r.one_in(2) { number.wrapping_add(by) } else { number.wrapping_sub(by) };
    table[at..at + 4].copy_from_slice(&number.to_be_bytes());
}

/// Cuts the source, appends to it or puts in a byte that is part of a longer sequence.
fn source(r: &mut Random, source: &mut Vec<u8>) {
    match r.below(3) {
        0 => drop(source.pop()),
        1 => source.push(b'x'),
        _ if !source.is_empty() => {
            let at = r.below(source.len());
            source[at] = r.pick(&[0, b'x', 0x80, 0xC3, 0xED, 0xF4, 0xFF]);
        }
        _ => {}
    }
}

/// Numbers around the borders of what `c` may hold.
const SCALARS: &[u32] = &[0, 0xD7FF, 0xD800, 0xDFFF, 0xE000, 0x10_FFFF, 0x11_0000, u32::MAX];

/// Makes the record a character on either side of a border.
fn scalar(r: &mut Random, record: &mut [u8]) {
    record[0] = b'c';
    record[8..12].copy_from_slice(&r.pick(SCALARS).to_be_bytes());
    record[12..16].copy_from_slice(&[0; 4]);
}

/// A few records of any kind byte, some with a field or zero byte set, and an index around the capacity.
pub fn records(r: &mut Random, asked: &mut Asked) {
    let records = r.below(4);
    for _ in 0..records {
        let mut record = [0; RECORD];
        record[0] = if r.one_in(3) { r.next() as u8 } else { r.pick(KINDS) };
        for at in [4, 16] {
            record[at..at + 4].copy_from_slice(&(r.next() as u32).to_be_bytes());
        }
        match r.below(6) {
            0 => record[1 + r.below(3)] = 1 << r.below(8),
            1 => record[8 + r.below(8)] = 1 << r.below(8),
            2 => scalar(r, &mut record),
            3 => record[8..16].copy_from_slice(&r.next().to_be_bytes()),
            _ => {}
        }
        asked.first.extend_from_slice(&record);
    }
    asked.first.resize(RECORD * records + r.below(RECORD), 0);
    asked.number = match r.below(12) {
        0 => r.pick(&[1 << 30, 1 << 32, 1 << 62, u64::MAX]),
        1 | 2 => (records + r.below(2)) as u64,
        _ => r.below(records.max(1)) as u64,
    };
}
