//! The index of a recording, written through rows of buffers, checked, whole and in parts, and with cues looked up in it: Ticket 5. What
//! is due is the model's.

use crate::ask::{Asked, Call, Due};
use crate::cues::{self, Index, ENTRY, FRAMES, TOO_HIGH, TOP};
use crate::judge::LONGEST;
use crate::met::{Rule, Seen};
use crate::portions::Step;
use crate::random::Random;

/// After so many steps the next buffers are as long as they may be.
const SHORT_BUFFERS: usize = 6;

/// A call with what it is given, of which nothing is due yet.
fn ask(call: Call, number: u64, first: &[u8], second: &[u8]) -> Step {
    let mut step = Step { asked: Asked::new(), due: Due::new() };
    step.asked.begin(call);
    step.asked.number = number;
    step.asked.first.extend_from_slice(first);
    step.asked.second.extend_from_slice(second);
    step
}

/// Some bytes.
fn any_bytes(r: &mut Random, many: usize) -> Vec<u8> {
    (0..many).map(|_| r.next() as u8).collect()
}

// ---- writing an index

/// Where the first byte of a recording of so many bytes is said to stand: mostly at 0, else around 2^32, at the highest place or at any.
pub fn base(r: &mut Random, bytes: usize) -> u64 {
    let highest = TOP - bytes as u64;
    match r.below(8) {
        0 => (1 << 32) - r.below(bytes + 1) as u64,
        1 => highest,
        2 => r.next() % highest,
        3 => (r.next() % highest) >> r.below(63),
        _ => 0,
    }
}

/// An output with room for so many bytes: for no more, for a part of a record more, for all that there can be, or for some more.
fn ample(r: &mut Random, needed: usize) -> usize {
    match r.below(8) {
        0..=2 => needed,
        3 => needed + r.below(ENTRY),
        4 => ENTRY * FRAMES,
        _ => needed + r.below(200),
    }
}

/// An output on either side of what is needed.
pub fn room(r: &mut Random, needed: usize) -> usize {
    match r.below(8) {
        0 => needed.saturating_sub(1),
        1 => r.below(needed + 1),
        2 => 0,
        _ => ample(r, needed),
    }
}

/// The steps over a recording, whose first byte stands where the whole is said to, through a row of buffers: each has what the one before
/// it did not use, and a portion more. Beside some stand the same with an output that may be too short, or too far on.
pub fn row(r: &mut Random, whole: &Asked, index: &Index, seen: &mut Seen) -> Vec<Step> {
    let (recording, mut steps, mut from, mut to) = (&whole.first, Vec::new(), 0, 0);
    loop {
        let before = to;
        to = next_place(r, index, to, recording.len().min(from + LONGEST), steps.len());
        index.note_buffer(from, before, to, seen);
        let (bytes, base) = (&recording[from..to], whole.number + from as u64);
        let cues = index.between(from, to);
        let mut push = |base: u64, room: usize| {
            let mut step = ask(Call::IndexStep, base, bytes, &[]);
            step.asked.room = room;
            index.step(&step.asked, from, &mut step.due, seen);
            steps.push(step);
        };
        if r.one_in(3) {
            push(base, room(r, ENTRY * cues.len()));
        }
        if r.one_in(6) {
            push(too_far(r, bytes.len()), ample(r, ENTRY * cues.len()));
        }
        push(base, ample(r, ENTRY * cues.len()));
        if to == recording.len() || (index.ends_by(to) && r.one_in(2)) {
            return steps;
        }
        from = cues.last().map_or(from, |cue| cue.end);
    }
}

/// Where the next buffer ends: around any place, or around a frame's end. It has at most so many bytes, and after some buffers it has
/// them all.
fn next_place(r: &mut Random, index: &Index, before: usize, most: usize, steps: usize) -> usize {
    let place = match r.below(8) {
        _ if steps > SHORT_BUFFERS => most,
        0 => before,
        1 | 2 => before + r.below(13),
        3 | 4 if !index.cues.is_empty() => (index.cues[r.below(index.cues.len())].end + r.below(9)).saturating_sub(4),
        5 => most,
        _ => before + r.below(most - before + 1),
    };
    place.clamp(before, most)
}

/// An offset at which so many bytes are too many: just so, or such that their sum is over 2^64, or any.
fn too_far(r: &mut Random, bytes: usize) -> u64 {
    let first = TOP - bytes as u64 + 1;
    match r.below(4) {
        0 | 1 => first,
        2 => u64::MAX - r.below(bytes + 1) as u64,
        _ => first + r.next() % (u64::MAX - first),
    }
}

/// The step over the first 65,536 bytes of a recording, or of more, which are too many.
pub fn too_long(whole: &Asked, index: &Index, seen: &mut Seen) -> Option<Step> {
    let bytes = whole.first.get(..LONGEST + 1)?;
    let mut step = ask(Call::IndexStep, whole.number, bytes, &[]);
    step.asked.room = ENTRY * FRAMES;
    index.step(&step.asked, 0, &mut step.due, seen);
    Some(step)
}

// ---- checking one

/// Makes another index of one, or none: a byte, a record or the end is another.
fn alter(r: &mut Random, index: &mut Vec<u8>) {
    let (bytes, records) = (index.len(), index.len() / ENTRY);
    match r.below(12) {
        0..=3 if bytes > 0 => {
            let at = r.below(bytes);
            index[at] ^= 1 << r.below(8);
        }
        4 => index.truncate(r.below(bytes + 1)),
        5 => index.truncate(ENTRY * r.below(records + 1)),
        6 => {
            let many = 1 + r.below(ENTRY - 1);
            index.extend(any_bytes(r, many));
        }
        7 => {
            let many = ENTRY * (1 + r.below(3));
            index.extend(any_bytes(r, many));
        }
        8 if records > 1 => {
            let at = ENTRY * r.below(records - 1);
            index[at..at + 2 * ENTRY].rotate_left(ENTRY);
        }
        9 if records > 0 => {
            let at = ENTRY * r.below(records);
            index.drain(at..at + ENTRY);
        }
        _ => {}
    }
}

/// The checks of an index that may be another than the one written afresh: all of it, from any number on, and in parts.
pub fn checks(r: &mut Random, index: &Index, seen: &mut Seen) -> Vec<Step> {
    let fresh = index.bytes();
    let mut given = fresh.clone();
    alter(r, &mut given);
    let from = match r.below(12) {
        0 => TOO_HIGH - 1,
        1 => r.pick(&[TOO_HIGH, TOO_HIGH, 1 << 56, u64::MAX]),
        2 => r.next() % TOO_HIGH,
        _ => 0,
    };
    // What is written afresh has no part of a record at its end, but the call takes one.
    let end = if r.one_in(8) { r.below(fresh.len() + 1) } else { fresh.len() };
    let mut whole = ask(Call::IndexCheck, from, &fresh[..end], &given);
    cues::judge(&whole.asked, &mut whole.due, seen);
    let first = if r.one_in(3) { r.next() % (TOO_HIGH >> 1) } else { 0 };
    let mut steps = parts(r, &fresh, &given, first, seen);
    steps.push(whole);
    steps
}

/// The checks of an index in parts, of which the first record has this number: each has as many bytes of both or, where the index has no
/// more, fewer; then what it still has against nothing. They end where a record is another.
fn parts(r: &mut Random, fresh: &[u8], given: &[u8], first: u64, seen: &mut Seen) -> Vec<Step> {
    let (other, records) = (cues::first_other(fresh, given), fresh.len() / ENTRY);
    let (mut steps, mut from) = (Vec::new(), 0);
    while from < records {
        let most = 1 + r.below(records);
        let to = (from + 1 + r.below(most)).min(records);
        let part = |index: &[u8]| index[index.len().min(ENTRY * from)..index.len().min(ENTRY * to)].to_vec();
        let mut step = ask(Call::IndexCheck, first + from as u64, &part(fresh), &part(given));
        let here = other.filter(|record| *record < to);
        step.due.answer = cues::told(here.is_none(), first + here.unwrap_or(to) as u64);
        steps.push(step);
        if here.is_some() {
            seen.note_if(Rule::CheckLater, from > 0);
            return steps;
        }
        from = to;
    }
    let mut last = ask(Call::IndexCheck, first + records as u64, &[], &given[fresh.len()..]);
    last.due.answer = cues::told(other.is_none(), first + records as u64);
    seen.note_if(Rule::CheckParts, other.is_none() && steps.len() > 1);
    seen.note_if(Rule::CheckAfter, other.is_some());
    steps.push(last);
    steps
}

// ---- looking up a cue

/// Looks up a cue in the index, which may have a part of a record at its end, and one in an index that no recording has.
pub fn lookups(r: &mut Random, index: &Index, seen: &mut Seen) -> Vec<Step> {
    let mut own = index.bytes();
    if r.one_in(3) {
        let many = 1 + r.below(ENTRY - 1);
        own.extend(any_bytes(r, many));
    }
    let any = (0..1 + r.below(3)).flat_map(|_| any_entry(r)).collect();
    let mut steps = Vec::new();
    for bytes in [own, any] {
        let records = bytes.len() / ENTRY;
        let k = match r.below(8) {
            0 => 0,
            1 => records.saturating_sub(1) as u64,
            2 => records as u64,
            3 => r.pick(&[1 << 59, 1 << 60, (1 << 60) + 1, 1 << 63, u64::MAX]),
            _ => r.below(records + 1) as u64,
        };
        let mut step = ask(Call::Cue, k, &bytes, &[]);
        cues::judge(&step.asked, &mut step.due, seen);
        steps.push(step);
    }
    steps
}

/// A record with any numbers: those of its table may have no room in an answer.
fn any_entry(r: &mut Random) -> Vec<u8> {
    let records = r.pick(&[0, 1, 3_276, 0xFF_FFFF, 0xFF_FFFF, 0x100_0000, 0x100_0000, u32::MAX]);
    [&r.next().to_be_bytes()[..], &(r.next() as u32).to_be_bytes(), &records.to_be_bytes()].concat()
}
