//! What docs/DIFFERENCES.md says of writing is so: each of its rows is a table with its source and what `encode` writes.

use sennorbai::{encode, Table, LONGEST, RECORD};

const DOCUMENT: &str = include_str!("../../../docs/DIFFERENCES.md");

/// The bytes of the hex digits in a cell; what else stands there is passed over.
fn bytes(cell: &str) -> Vec<u8> {
    let digits: Vec<u8> = cell.chars().filter_map(|digit| digit.to_digit(16)).map(|digit| digit as u8).collect();
    digits.chunks(2).map(|pair| 16 * pair[0] + pair[1]).collect()
}

#[test]
fn what_is_written_is_what_the_document_says() {
    let (_, part) = DOCUMENT.split_once("\n## Written though OSC 1.0 forbids it, both\n").expect("the part on writing");
    let (part, _) = part.split_once("\n## ").expect("the part after it");
    let rows: Vec<Vec<&str>> =
        part.lines().filter(|line| line.starts_with("| ")).map(|line| line.split('|').collect()).collect();
    assert_eq!(rows.len(), 11, "the head and ten rows");
    for row in &rows[1..] {
        let [table, source, due] = [row[3], row[4], row[5]].map(bytes);
        let (mut out, count) = (vec![0; LONGEST], table.len() / RECORD);
        let written = encode(Table { bytes: &table, count, source: &source }, &mut out);
        assert_eq!(written, Ok(&due[..]), "{}: {}", row[1], row[2]);
    }
}
