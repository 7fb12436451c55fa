//! Streams of edition 2 that come in portions: Ticket 14. The model of edition 2 judges the stream as a whole, and no portion by itself.
//! What each step over it must give is taken from that: the frames that have become whole, with offsets moved back by the bytes consumed
//! and ends by the records given.

use crate::ask::{Asked, Call, Due};
use crate::met::{Met, Rule, Seen};
use crate::port::Bench;
use crate::random::Random;
use crate::standard::Mark;
use crate::table::{word, RECORD};

/// Up to so many bytes a stream may be cut before each of them.
const BYTE_BY_BYTE: usize = 100;
/// Bytes consumed that are many.
const FAR: usize = 1 << 15;

/// A step over what was kept and a portion, and what it must give.
pub struct Step {
    pub asked: Asked,
    pub due: Due,
}

impl Step {
    /// Counts its answer.
    pub fn count(&self, met: &mut Met) {
        let call = self.asked.call;
        met.count(call as usize, self.due.refusal(call), self.due.stopped(call), Seen::default());
    }

    /// Asks the port; the words say what differs.
    pub fn differs(&self, bench: &mut Bench) -> Option<String> {
        bench.differs(&self.asked, &self.due).map(|words| format!("{words}: {}, a step over", self.asked.shown()))
    }
}

/// Places to cut at, in order: any ones, some around the ends of frames, some twice, now and then all.
pub fn places(r: &mut Random, length: usize, marks: &[Mark]) -> Vec<usize> {
    if length <= BYTE_BY_BYTE && r.one_in(8) {
        return (0..length).collect();
    }
    let mut places = Vec::new();
    for _ in 0..1 + r.below(5) {
        let place = match r.below(3) {
            0 if !marks.is_empty() => {
                let end = marks[r.below(marks.len())].at;
                if r.one_in(3) {
                    end
                } else {
                    (end + r.below(12)).saturating_sub(4)
                }
            }
            1 => places.last().map_or(0, |last| last + r.below(6)),
            _ => r.below(length + 1),
        };
        places.push(place.min(length));
    }
    places.sort();
    places
}

/// The steps over a stream that is cut at these places, from what is due for all of it, which is no refusal of the call. `marks` are the
/// ends of its frames. What they show is noted.
pub fn steps(whole: &Asked, due: &Due, marks: &[Mark], places: &[usize], seen: &mut Seen) -> Vec<Step> {
    let (used, number, field) = (due.answer as u32 as usize, due.more >> 48, (due.more >> 32) as u16 as usize);
    let stream = &whole.first;
    // A length that is refused is so once it is there, and every other frame once it is whole.
    let known = match number {
        0 => usize::MAX,
        1 | 16 => used + 4,
        _ => used + 4 + word(stream, used) as usize,
    };
    let (mut steps, mut before, mut from) = (Vec::new(), Mark::default(), 0);
    for to in places.iter().copied().chain([stream.len()]) {
        let now = marks.iter().take_while(|mark| mark.at <= to.min(used)).last().copied().unwrap_or_default();
        let mut asked = Asked::new();
        asked.begin(Call::Portion);
        (asked.number, asked.room) = (whole.number, whole.room);
        asked.first.extend_from_slice(&stream[before.at..to]);
        let mut more = (now.dirty - before.dirty) as u64;
        if to >= known {
            more |= number << 48 | (field.saturating_sub(before.at) as u64) << 32;
        }
        let answer = ((now.records - before.records) as u64) << 32 | (now.at - before.at) as u64;
        let wrote = moved_back(&due.wrote[RECORD * before.records..RECORD * now.records], before);
        steps.push(Step { asked, due: Due { answer, more, wrote } });
        note_ended(from, to, known, field, before, seen);
        note_cut(to, used, marks, stream.len(), seen);
        seen.note_if(Rule::CutNothing, from == to);
        seen.note_if(Rule::CutSeveral, before.records > 0 && now.records > before.records);
        seen.note_if(Rule::CutDirty, before.dirty > 0 && now.dirty > before.dirty);
        seen.note_if(Rule::CutFar, before.at >= FAR && now.records > before.records);
        (before, from) = (now, to);
    }
    // Two steps give nothing and a third does, each with more bytes: a frame came in three portions at least.
    let thrice = |three: &[Step]| three[..2].iter().all(|step| step.due.answer == 0) && three[2].due.answer > 0;
    let lengths = |three: &[Step]| [0, 1, 2].map(|n| three[n].asked.first.len());
    let grows = |three: &[Step]| matches!(lengths(three), [a, b, c] if 0 < a && a < b && b < c);
    seen.note_if(Rule::CutThrice, steps.windows(3).any(|three| thrice(three) && grows(three)));
    seen.note_if(Rule::CutLeft, number == 0 && used < stream.len() && used > 0);
    steps
}

/// Records of a stream as a step gives them that has a mark before it: only of an address, text or blob is `a` an offset.
fn moved_back(records: &[u8], before: Mark) -> Vec<u8> {
    let mut wrote = records.to_vec();
    for record in wrote.chunks_exact_mut(RECORD) {
        let range = if matches!(record[0], b'/' | b's' | b'b') { before.at } else { 0 };
        for (at, by) in [(4, before.records), (8, range), (16, before.at)] {
            let number = word(record, at) - by as u32;
            record[at..at + 4].copy_from_slice(&number.to_be_bytes());
        }
    }
    wrote
}

/// Notes how a step comes to the refused frame, which is known from a place on.
fn note_ended(from: usize, to: usize, known: usize, field: usize, before: Mark, seen: &mut Seen) {
    let first = from < known && known <= to;
    seen.note_if(Rule::CutEnded, first && before.records > 0);
    seen.note_if(Rule::CutField, first && field > 0 && before.at > 0);
    seen.note_if(Rule::CutAgain, from >= known && from < to);
    seen.note_if(Rule::CutLate, first && from > before.at);
}

/// Notes where a cut stands among the frames that are read.
fn note_cut(to: usize, used: usize, marks: &[Mark], length: usize, seen: &mut Seen) {
    if to == 0 || to >= used || to == length {
        return;
    }
    let start = marks.iter().map(|mark| mark.at).take_while(|at| *at <= to).last().unwrap_or(0);
    seen.note(match to - start {
        0 => Rule::CutBetween,
        1..=3 => Rule::CutLength,
        _ => Rule::CutPacket,
    });
}

#[cfg(test)]
mod tests {
    use super::*;
    use crate::judge::DEEPEST;
    use crate::standard;

    /// A message with dirty padding and a text, a bundle, and a frame that has no type text.
    const STREAM: &[u8] = b"\0\0\0\x0C/a\0\x01,s\0\0hi\0\0\
        \0\0\0\x1C#bundle\0\0\0\0\0\0\0\0\x01\0\0\0\x08/b\0\x01,T\0\0\
        \0\0\0\x04/a\0\0\0\0\0\x08/c\0\0,\0\0\0";

    fn cut(places: &[usize]) -> (Vec<Step>, Seen) {
        let (mut asked, mut due, mut seen) = (Asked::new(), Due::new(), Seen::default());
        asked.begin(Call::Portion);
        (asked.number, asked.room) = (DEEPEST, 9 * RECORD);
        asked.first.extend_from_slice(STREAM);
        let stream = standard::find(asked.call, &asked.first, &mut due.wrote);
        standard::decode(&asked, &stream, &mut due, &mut seen);
        let marks = stream.marks();
        assert_eq!((due.answer, due.more), (5 << 32 | 48, 18 << 48 | 56 << 32 | 2));
        (steps(&asked, &due, &marks, places, &mut seen), seen)
    }

    #[test]
    fn a_step_gives_what_has_become_whole() {
        let (steps, seen) = cut(&[3, 20, 55]);
        let told: Vec<_> = steps.iter().map(|step| (step.asked.first.len(), step.due.answer, step.due.more)).collect();
        let ended = 18 << 48 | 8 << 32;
        assert_eq!(told, [(3, 0, 0), (20, 2 << 32 | 16, 1), (39, 3 << 32 | 32, 1), (20, 0, ended)]);
        assert!([Rule::CutLength, Rule::CutPacket, Rule::CutDirty, Rule::CutLate, Rule::CutField]
            .iter()
            .all(|rule| seen.has(*rule)));
        // The bundle's own numbers are no offsets; the message in it has one beside its start.
        let due = b"#\0\0\0\0\0\0\x03\0\0\0\0\0\0\0\x01\0\0\0\x04/\0\0\0\0\0\0\x03\0\0\0\x18\0\0\0\x02\0\0\0\x18";
        assert_eq!(steps[2].due.wrote[..2 * RECORD], *due);
    }

    #[test]
    fn an_end_is_told_again() {
        let (steps, seen) = cut(&[56, 60]);
        let told: Vec<_> = steps.iter().map(|step| (step.asked.first.len(), step.due.answer, step.due.more)).collect();
        let ended = 18 << 48 | 8 << 32;
        assert_eq!(told, [(56, 5 << 32 | 48, 18 << 48 | 56 << 32 | 2), (12, 0, ended), (20, 0, ended)]);
        assert!(seen.has(Rule::CutAgain) && !seen.has(Rule::CutEnded));
    }

    #[test]
    fn the_port_steps_so() {
        for place in 0..=STREAM.len() {
            for step in cut(&[place]).0 {
                assert_eq!(step.differs(&mut Bench::new()), None);
            }
        }
    }
}
