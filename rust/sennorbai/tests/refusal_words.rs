//! A refusal says here what the program `osc` says: its words are those of the program's own table.
#![cfg(feature = "std")]

use sennorbai::index::{Error, INDEX_DIFFERS};
use sennorbai::Refusal;

/// The program's source, whose table has the line for each refusal at its number, and an empty one where no refusal has it.
const SOURCE: &str = include_str!("../../../crates/telling/src/refusals.rt");

/// The lines of that table.
fn table() -> Vec<&'static str> {
    let (_, table) = SOURCE.split_once("const REFUSALS: ").expect("the table of the refusals");
    let (_, lines) = table.split_once(" = [\n").expect("its first line");
    let (lines, _) = lines.split_once("\n];").expect("its last");
    let line = |line: &'static str| line.trim().strip_prefix("b\"")?.strip_suffix("\\n\",");
    lines.lines().map(|text| line(text).expect("a line of text that ends")).collect()
}

/// What `osc` says: a form whose marks stand for these numbers.
fn filled(form: &str, numbers: &[u64]) -> String {
    let mut numbers = numbers.iter();
    form.split('%').enumerate().fold(String::new(), |said, (i, part)| match i {
        0 => part.to_string(),
        _ => said + &numbers.next().expect("a number for each mark").to_string() + part,
    })
}

#[test]
fn the_words_are_those_of_the_program() {
    let table = table();
    let mut numbers = Vec::new();
    for refusal in Refusal::ALL {
        let at = refusal.offset().map(|_| 65_532);
        let refusal = match refusal {
            Refusal::Short { field, .. } => Refusal::Short { field, at: 65_532 },
            other => other,
        };
        let said = filled(table[refusal.number() as usize], &[refusal.number() as u64, at.unwrap_or(0)]);
        assert_eq!(format!("refused {refusal}"), said);
        numbers.push(refusal.number());
    }
    let differs = Error::Differs { record: 7 };
    assert_eq!(format!("refused {differs}"), filled(table[INDEX_DIFFERS as usize], &[INDEX_DIFFERS as u64, 7]));
    numbers.push(INDEX_DIFFERS);
    numbers.sort();

    // No refusal of the program's is left out.
    let listed: Vec<u8> = (0..table.len()).filter(|&i| !table[i].is_empty()).map(|i| i as u8).collect();
    assert_eq!(numbers, listed);
}
