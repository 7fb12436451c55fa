//! Document 01's rules of a record and of a well-formed table, written a second time and not from the port.

use crate::met::Rule;
use crate::table::{word, RECORD};

/// How a record breaks its own rules.
pub enum Breach {
    Kind,
    Zeros,
    Field,
    Scalar,
}

/// A record's own rules: its kind, or what it breaks.
pub fn own(record: &[u8]) -> Result<u8, Breach> {
    let (kind, a, b) = (record[0], word(record, 8), word(record, 12));
    let zero_fields = match kind {
        b'/' | b'#' | b's' | b'b' | b'h' | b'd' | b't' => true,
        b'i' | b'f' | b'c' | b'r' | b'm' => b == 0,
        b'T' | b'F' | b'N' | b'I' | b'[' => a == 0 && b == 0,
        _ => return Err(Breach::Kind),
    };
    if record[1..4] != [0, 0, 0] {
        return Err(Breach::Zeros);
    }
    if !zero_fields {
        return Err(Breach::Field);
    }
    if kind == b'c' && (a > 1_114_111 || (55_296..=57_343).contains(&a)) {
        return Err(Breach::Scalar);
    }
    Ok(kind)
}

/// What `look` must find: a kind, or the rule that makes it 11.
pub fn look(table: &[u8], index: u64) -> Result<u8, Rule> {
    if index >= (table.len() / RECORD) as u64 {
        return Err(Rule::LookIndex);
    }
    own(&table[RECORD * index as usize..][..RECORD]).map_err(|breach| match breach {
        Breach::Kind => Rule::LookKind,
        Breach::Zeros => Rule::LookZeros,
        Breach::Field => Rule::LookField,
        Breach::Scalar => Rule::LookScalar,
    })
}

/// Whether a container of one kind may contain a node of another.
fn may_contain(container: u8, kind: u8) -> bool {
    let packet = matches!(kind, b'/' | b'#');
    match container {
        b'#' => packet,
        _ => !packet,
    }
}

/// The rules of a whole table of `count` records over its source.
pub fn well_formed(table: &[u8], count: u64, source: &[u8]) -> Result<(), Rule> {
    if count == 0 || count > 65_535 || table.len() < RECORD * count as usize {
        return Err(Rule::BrokenCount);
    }
    let count = count as usize;
    // The containers that are open, each with where it ends.
    let mut open: Vec<(u8, usize)> = Vec::new();
    for (index, record) in table.chunks_exact(RECORD).take(count).enumerate() {
        let kind = own(record).map_err(|breach| match breach {
            Breach::Kind => Rule::BrokenKind,
            Breach::Zeros => Rule::BrokenZeros,
            Breach::Field => Rule::BrokenField,
            Breach::Scalar => Rule::BrokenScalar,
        })?;
        let end = word(record, 4) as usize;
        if index == 0 && (!matches!(kind, b'/' | b'#') || end != count) {
            return Err(Rule::BrokenRoot);
        }
        while open.last().is_some_and(|(_, end)| *end <= index) {
            open.pop();
        }
        let (container, last) = open.last().copied().unwrap_or((b'#', count));
        if !may_contain(container, kind) {
            return Err(Rule::BrokenInside);
        }
        let contains = matches!(kind, b'/' | b'#' | b'[');
        if end <= index || end > last || (!contains && end != index + 1) {
            return Err(Rule::BrokenEnd);
        }
        if contains {
            open.push((kind, end));
        }
        range(record, source)?;
    }
    Ok(())
}

/// The range of an address, text or blob lies in the source, and text is UTF-8.
fn range(record: &[u8], source: &[u8]) -> Result<(), Rule> {
    if !matches!(record[0], b'/' | b's' | b'b') {
        return Ok(());
    }
    let (from, length) = (word(record, 8) as usize, word(record, 12) as usize);
    let bytes = source.get(from..from + length).ok_or(Rule::BrokenRange)?;
    if record[0] != b'b' && std::str::from_utf8(bytes).is_err() {
        return Err(Rule::BrokenText);
    }
    Ok(())
}
