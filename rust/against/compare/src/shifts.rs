//! Shifting the time tags of a table: Ticket 13. The model goes by the two halves of a tag, each with 32 bits, and a carry between them;
//! what a record's own rules are it asks of the rules for `look`.

use crate::ask::{Asked, Call, Due};
use crate::met::{Rule, Seen};
use crate::portions::Step;
use crate::random::Random;
use crate::rules;
use crate::table::{word, RECORD};

/// The first count that the boundary does not take.
const TOO_MANY: u64 = 1 << 32;

/// An amount: seconds, fractions, both, none, or back by some.
pub fn amount(r: &mut Random) -> u64 {
    match r.below(8) {
        0 => 0,
        1 => (r.below(4) as u64) << 32,
        2 => r.next() >> 32,
        3 => 1 << 31,
        4 => r.below(4) as u64,
        5 => 0u64.wrapping_sub(r.next() >> (1 + r.below(63))),
        _ => r.next(),
    }
}

/// How many records are asked for: those there are, fewer, or more than a table has.
pub fn count(r: &mut Random, there: u64, asked: u64) -> u64 {
    match r.below(12) {
        0 | 1 => r.below(there as usize + 2) as u64,
        2 if r.one_in(4) => r.pick(&[TOO_MANY, TOO_MANY + there, u64::MAX]),
        _ => asked,
    }
}

/// A number of 32 bits at a place.
fn put(table: &mut [u8], at: usize, number: u32) {
    table[at..at + 4].copy_from_slice(&number.to_be_bytes());
}

/// What `shift_table` must answer and leave. The table is `first`, its count the number, and the amount the 8 bytes of `second`.
pub fn judge(asked: &Asked, due: &mut Due, seen: &mut Seen) {
    due.refuse(11);
    due.wrote.extend_from_slice(&asked.first);
    if asked.number >= TOO_MANY {
        return seen.note(Rule::ShiftOver);
    }
    if let Some(breach) = (0..asked.number).find_map(|index| rules::look(&asked.first, index).err()) {
        return seen.note(if breach == Rule::LookIndex { Rule::ShiftAbsent } else { Rule::ShiftBroken });
    }
    due.answer = 0;
    let (on, by) = (word(&asked.second, 0), word(&asked.second, 4));
    for at in (0..asked.number as usize).map(|index| RECORD * index) {
        let (kind, a, b) = (asked.first[at], word(&asked.first, at + 8), word(&asked.first, at + 12));
        if kind != b'#' && kind != b't' {
            seen.note_if(Rule::ShiftLong, kind == b'h');
            continue;
        }
        let (fraction, carry) = b.overflowing_add(by);
        let (seconds, over) = a.overflowing_add(on);
        put(&mut due.wrote, at + 8, seconds.wrapping_add(carry as u32));
        put(&mut due.wrote, at + 12, fraction);
        due.answer += 1;
        seen.note_if(Rule::ShiftCarry, carry);
        seen.note_if(Rule::ShiftWrap, over || (carry && seconds == u32::MAX));
        seen.note_if(Rule::ShiftNested, kind == b'#' && at > 0);
        seen.note_if(Rule::ShiftImmediate, (a, b) == (0, 1));
    }
    seen.note_if(Rule::ShiftFew, asked.number < (asked.first.len() / RECORD) as u64);
}

/// The step back: by the opposite the table is as it was before, and as many tags are moved.
pub fn back(asked: &Asked, due: &Due) -> Step {
    let by = u64::from(word(&asked.second, 0)) << 32 | u64::from(word(&asked.second, 4));
    let mut step = Step { asked: asked.clone(), due: due.clone() };
    step.asked.call = Call::Shift;
    step.asked.first.clone_from(&due.wrote);
    step.asked.second = 0u64.wrapping_sub(by).to_be_bytes().to_vec();
    step.due.wrote.clone_from(&asked.first);
    step
}
