//! The clock in every run: the port, its types `Time` and `OscTime` and the crate's `OscTime` against the model. Every multiple of 1,000
//! nanoseconds, every pair of edges, and random times, tags and shifts.

use crate::ask::Call;
use crate::clock::{self, float_is_high, Rule as By, EPOCH, FRACTIONS, NANOS, RULES};
use crate::met::{Met, Rule, Seen};
use crate::random::Random;
use sennorbai::rosc_compat as compat;
use sennorbai::{boundary, Refusal, Time};
use std::sync::atomic::{AtomicU64, Ordering};
use std::thread;
use std::time::{Duration, SystemTime, UNIX_EPOCH};

/// A batch has so many multiples of 1,000 nanoseconds, and so many random times, tags and shifts.
const MULTIPLES: u64 = 1_000;
const RANDOM: u64 = 10_000;
/// So many batches have all multiples of a second, and 10^7 random ones.
const BATCHES: u64 = 1_000;
/// A long run has a batch for so many of its cases.
const CASES: u64 = 20_000;
const WORKERS: usize = 2;
/// The numbers of the calls in the counts, after those that lend a slice.
const FIRST: usize = Call::Shift as usize + 1;
const TAG: [usize; 2] = [FIRST, FIRST + 1];
const UNIX: [usize; 2] = [FIRST + 2, FIRST + 3];
const SHIFT: usize = FIRST + 4;
const DIFFERENCE: usize = FIRST + 5;

/// Seconds around which something changes: 1970, the last of each rule, and what 32, 63 and 64 bits hold.
const SECONDS: &[i64] =
    &[0, 2_085_978_495, 4_233_462_143, -2_208_988_800, 1 << 31, 1 << 32, 1 << 62, i64::MAX - 2, i64::MIN + 2];
/// The same of nanoseconds; for 500,355,614 and 998,402,489 the crate's float is one too high, and for 498,402,489 it is not.
const NANO_EDGES: &[u64] =
    &[2, 498_402_489, 500_355_614, 998_402_489, 500_000_000, NANOS - 1, NANOS + 1, 1 << 32, u64::MAX - 2];
/// The same of a tag's seconds and of its fractions, of which 2^22 and 2^32 - 2^22 lie halfway between two nanoseconds.
const FIELDS: &[u64] = &[2, 1 << 31, EPOCH, FRACTIONS - 3];
const FRACTION_EDGES: &[u64] = &[2, 1 << 22, 3 << 22, 1 << 31, FRACTIONS - (1 << 22), FRACTIONS - 3];
/// How far around an edge.
const AROUND: i64 = 2;

/// What a sweep has found.
pub struct Swept {
    pub met: Met,
    pub asked: u64,
    pub differences: Vec<String>,
}

impl Swept {
    fn new() -> Swept {
        Swept { met: Met::new(), asked: 0, differences: Vec::new() }
    }

    fn add(&mut self, other: Swept) {
        self.met.add(&other.met);
        self.asked += other.asked;
        self.differences.extend(other.differences);
    }

    /// Counts a call, and notes it where something that was asked differs.
    fn hold(&mut self, call: usize, refusal: u8, seen: Seen, same: bool, words: impl FnOnce() -> String) {
        self.met.count(call, refusal, false, seen);
        self.asked += 1;
        if !same {
            self.differences.push(words());
        }
    }

    /// A Unix time on its way to a tag, by both rules, and back.
    fn time(&mut self, seconds: i64, nanos: u64) {
        let dues = RULES.map(|rule| clock::tag(rule, seconds, nanos));
        for ((rule, call), due) in RULES.into_iter().zip(TAG).zip(dues) {
            let mut seen = Seen::default();
            note_time(rule, seconds, nanos, due, &mut seen);
            // It returns unchanged, and where rule A has a tag, rule B has the same.
            let sound = due.is_ok_and(|tag| dues[1] == Ok(tag) && clock::unix(rule, tag) == Ok((seconds, nanos)));
            let same = (sound || due.is_err())
                && tag_is(rule, seconds, nanos, due)
                && system_time(seconds, nanos).is_none_or(|time| tag_types(rule, time, nanos, due));
            self.hold(call, due.err().unwrap_or(0), seen, same, || {
                format!("clock: {rule:?} {seconds} s {nanos} ns, due {due:?}")
            });
        }
        if let Ok(tag) = dues[1] {
            self.tag(tag);
        }
    }

    /// A tag on its way to Unix time, by both rules.
    fn tag(&mut self, tag: u64) {
        for (rule, call) in RULES.into_iter().zip(UNIX) {
            let due = clock::unix(rule, tag);
            let mut seen = Seen::default();
            note_tag(rule, tag, due, &mut seen);
            let same = unix_is(rule, tag, due) && unix_types(rule, tag, due);
            self.hold(call, due.err().unwrap_or(0), seen, same, || format!("clock: {rule:?} tag {tag:#018X}, due {due:?}"));
        }
    }

    /// A shift, and the difference of two tags.
    fn pair(&mut self, tag: u64, other: u64) {
        let (due, mut seen) = (clock::shift(tag, other), Seen::default());
        seen.note_if(Rule::ShiftWraps, due < tag);
        seen.note_if(Rule::ShiftNothing, other == 0);
        let same = boundary::shift(tag, other) == due && Time::from_bits(tag).wrapping_shift(other).to_bits() == due;
        self.hold(SHIFT, 0, seen, same, || format!("clock: {tag:#018X} shifted by {other:#018X}"));
        let (due, mut seen) = (clock::difference(tag, other), Seen::default());
        seen.note_if(Rule::DifferenceLowest, due == i64::MIN);
        seen.note_if(Rule::DifferenceHighest, due == i64::MAX);
        seen.note_if(Rule::DifferenceAhead, due > 0 && tag < other);
        seen.note_if(Rule::DifferenceBehind, due < 0 && due > i64::MIN && tag > other);
        let same = boundary::difference(tag, other) == due
            && Time::from_bits(tag).wrapping_difference(Time::from_bits(other)) == due;
        self.hold(DIFFERENCE, 0, seen, same, || format!("clock: {tag:#018X} from {other:#018X}"));
    }

    /// Every pair of edges.
    fn edges(&mut self) {
        let fields: Vec<u64> = around(FIELDS).collect();
        let fractions: Vec<u64> = around(FRACTION_EDGES).collect();
        for seconds in SECONDS.iter().flat_map(|edge| (-AROUND..=AROUND).map(move |off| edge + off)) {
            around(NANO_EDGES).for_each(|nanos| self.time(seconds, nanos));
        }
        let tags: Vec<u64> =
            fields.iter().flat_map(|field| fractions.iter().map(move |fraction| field << 32 | fraction)).collect();
        for tag in &tags {
            self.tag(*tag);
            for other in tags.iter().chain(&[0, 1 << 63, u64::MAX]) {
                self.pair(*tag, *other);
                self.pair(*tag, tag ^ 1 << 63);
            }
        }
    }

    fn batch(&mut self, batch: u64, seed: u64) {
        if batch == 0 {
            self.edges();
        }
        let mut r = Random::new(seed, batch);
        for n in 0..MULTIPLES {
            self.time((r.next() % (By::B.last() as u64 + 1)) as i64, (batch % BATCHES * MULTIPLES + n) * 1_000);
        }
        for _ in 0..RANDOM {
            let (seconds, nanos) = time(&mut r);
            self.time(seconds, nanos);
            let (one, other) = (tag(&mut r), amount(&mut r));
            self.tag(one);
            self.pair(one, if r.one_in(16) { one ^ 1 << 63 } else { other });
            self.pair(one, one.wrapping_sub(other));
        }
    }
}

fn around(edges: &[u64]) -> impl Iterator<Item = u64> + '_ {
    edges.iter().flat_map(|edge| (-AROUND..=AROUND).map(move |off| edge.wrapping_add_signed(off)))
}

fn off(r: &mut Random) -> i64 {
    r.below(2 * AROUND as usize + 1) as i64 - AROUND
}

fn near(r: &mut Random, edges: &[u64]) -> u64 {
    r.pick(edges).wrapping_add_signed(off(r))
}

/// A random time; now and then the first or the last that a rule allows, or the one before 1970.
fn time(r: &mut Random) -> (i64, u64) {
    let last = NANOS - 1;
    match r.below(256) {
        0 => r.pick(&[(0, 0), (-1, last), (By::A.last(), last), (By::B.last(), last)]),
        _ => (seconds(r), nanos(r)),
    }
}

/// Random seconds: those of either rule, any at all, or such around an edge.
fn seconds(r: &mut Random) -> i64 {
    match r.below(8) {
        0 => r.next() as i64,
        1 => -((r.next() >> 31) as i64),
        2..=4 => r.pick(SECONDS) + off(r),
        _ => (r.next() % (By::B.last() as u64 + 1)) as i64,
    }
}

/// Random nanoseconds: those of a second, any at all, such around an edge, and such of which the exact result is just below a half or just
/// above it.
fn nanos(r: &mut Random) -> u64 {
    match r.below(16) {
        0 => r.next(),
        1 => NANOS + r.next() % NANOS,
        2 | 3 => near(r, NANO_EDGES),
        4 => r.pick(&[355_614, 1_597_511]) + 1_953_125 * r.below(512) as u64,
        _ => r.next() % NANOS,
    }
}

/// A random tag; its seconds and fractions may be around an edge, and its fraction halfway between two nanoseconds.
fn tag(r: &mut Random) -> u64 {
    let field = if r.one_in(3) { near(r, FIELDS) } else { r.next() % FRACTIONS };
    let fraction = match r.below(8) {
        0 | 1 => near(r, FRACTION_EDGES),
        2 => (2 * r.below(512) as u64 + 1) << 22,
        _ => r.next() % FRACTIONS,
    };
    field << 32 | fraction
}

/// A random amount: any at all, or one around an edge.
fn amount(r: &mut Random) -> u64 {
    match r.below(4) {
        0 => near(r, &[0, 1 << 32, 1 << 63, u64::MAX]),
        1 => r.next() >> 32,
        _ => r.next(),
    }
}

/// Notes what a time on its way to a tag shows.
fn note_time(rule: By, seconds: i64, nanos: u64, due: Result<u64, u8>, seen: &mut Seen) {
    let last = rule.last();
    seen.note_if(Rule::ClockMost, nanos == NANOS);
    seen.note_if(Rule::ClockOver32, nanos > u64::from(u32::MAX));
    seen.note_if(Rule::ClockNanosLate, due == Err(26) && seconds > last);
    seen.note_if(Rule::ClockNanosEarly, due == Err(26) && seconds < 0);
    seen.note_if(Rule::ClockLate, due == Err(27) && seconds == last + 1);
    seen.note_if(Rule::ClockEarly, due == Err(28) && seconds == -1 && nanos == NANOS - 1);
    if due.is_ok() {
        let exact = nanos * FRACTIONS % NANOS;
        seen.note_if(Rule::ClockMultiple, nanos.is_multiple_of(1_000));
        seen.note_if(Rule::ClockFirst, seconds == 0 && nanos == 0);
        seen.note_if(Rule::ClockLast, seconds == last && nanos == NANOS - 1);
        seen.note_if(Rule::ClockWrapped, rule == By::B && seconds > By::A.last());
        seen.note_if(Rule::ClockBelow, exact == 499_999_744 && nanos < 500_000_000);
        seen.note_if(Rule::ClockFloatHigh, float_is_high(nanos));
        seen.note_if(Rule::ClockAbove, exact == 500_000_256);
    }
}

/// Notes what a tag on its way to Unix time shows.
fn note_tag(rule: By, tag: u64, due: Result<(i64, u64), u8>, seen: &mut Seen) {
    let (field, fraction) = (tag >> 32, tag % FRACTIONS);
    let carried = fraction >= FRACTIONS - 2;
    seen.note_if(Rule::ClockUncarried, due.is_ok() && fraction == FRACTIONS - 3);
    seen.note_if(Rule::ClockCarried, due.is_ok() && carried);
    seen.note_if(Rule::ClockCarriedLast, carried && due == Ok((rule.last() + 1, 0)));
    seen.note_if(Rule::ClockCarriedFirst, carried && due == Ok((0, 0)));
    seen.note_if(Rule::ClockCarriedEarly, carried && due == Err(28));
    seen.note_if(Rule::ClockHalf, due.is_ok() && fraction % (1 << 23) == 1 << 22);
    seen.note_if(Rule::ClockTopClear, rule == By::B && field == (1 << 31) - 1);
    seen.note_if(Rule::ClockTopSet, rule == By::B && field == 1 << 31);
    seen.note_if(Rule::ClockImmediate, tag == 1);
}

/// The port's rule.
fn ours(rule: By) -> sennorbai::Rule {
    match rule {
        By::A => sennorbai::Rule::A,
        By::B => sennorbai::Rule::B,
    }
}

/// Whether the boundary and `Time` give the tag or the refusal, and write nothing beside the one number.
fn tag_is(rule: By, seconds: i64, nanos: u64, due: Result<u64, u8>) -> bool {
    let mut room = [0xA5A5_A5A5_A5A5_A5A5_u64; 3];
    let [before, tag, after] = &mut room;
    let answer = match rule {
        By::A => boundary::tag_a(seconds, nanos, tag),
        By::B => boundary::tag_b(seconds, nanos, tag),
    };
    let kept = before == after && *before == 0xA5A5_A5A5_A5A5_A5A5;
    let made = Time::from_unix(ours(rule), seconds, nanos).map(Time::to_bits).map_err(Refusal::number);
    kept && (answer, *tag) == (u64::from(due.err().unwrap_or(0)) << 56, due.unwrap_or(0)) && made == due
}

/// The same of the Unix time or the refusal.
fn unix_is(rule: By, tag: u64, due: Result<(i64, u64), u8>) -> bool {
    let mut room = [-7_i64; 3];
    let [before, seconds, after] = &mut room;
    let answer = match rule {
        By::A => boundary::unix_a(tag, seconds),
        By::B => boundary::unix_b(tag, seconds),
    };
    let told = due.map_or_else(|number| (u64::from(number) << 56, 0), |(seconds, nanos)| (nanos, seconds));
    let made = Time::from_bits(tag).to_unix(ours(rule)).map_err(Refusal::number);
    (*before, *after) == (-7, -7)
        && (answer, *seconds) == told
        && made == due.map(|(seconds, nanos)| (seconds, nanos as u32))
}

/// The time of the system's clock, if it has one.
fn system_time(seconds: i64, nanos: u64) -> Option<SystemTime> {
    let whole = Duration::from_secs(seconds.unsigned_abs());
    let second = if seconds < 0 { UNIX_EPOCH.checked_sub(whole) } else { UNIX_EPOCH.checked_add(whole) };
    (nanos < NANOS).then_some(second?.checked_add(Duration::from_nanos(nanos))?)
}

/// Whether the types of the port, and by rule A that of the crate, convert a time of the system's clock so. The crate's float may be one
/// fraction over.
fn tag_types(rule: By, time: SystemTime, nanos: u64, due: Result<u64, u8>) -> bool {
    let since = time.duration_since(UNIX_EPOCH).ok();
    let by_duration =
        since.is_none_or(|since| Time::from_duration(ours(rule), since).map(Time::to_bits).map_err(Refusal::number) == due);
    if !by_duration || Time::from_system_time(ours(rule), time).map(Time::to_bits).map_err(Refusal::number) != due {
        return false;
    }
    if rule == By::B {
        return true;
    }
    let bits = |seconds: u32, fractional: u32| u64::from(seconds) << 32 | u64::from(fractional);
    match (due, compat::OscTime::try_from(time), rosc::OscTime::try_from(time)) {
        (Ok(tag), Ok(ours), Ok(theirs)) => {
            let high = u64::from(float_is_high(nanos));
            bits(ours.seconds, ours.fractional) == tag && bits(theirs.seconds, theirs.fractional) == tag + high
        }
        (Err(number), Err(ours), Err(theirs)) => {
            let words = ["time overflows what OSC time can store", "time is before the unix epoch and cannot be stored"];
            ours.to_string() == theirs.to_string() && ours.to_string() == words[usize::from(number) - 27]
        }
        _ => false,
    }
}

/// The same of a tag. The crate panics before 1970, where `rosc_compat` has the time of that year.
fn unix_types(rule: By, tag: u64, due: Result<(i64, u64), u8>) -> bool {
    let time = due.ok().and_then(|(seconds, nanos)| system_time(seconds, nanos));
    let mine = Time::from_bits(tag);
    let since = due.map(|(seconds, nanos)| Duration::new(seconds as u64, nanos as u32));
    if mine.to_duration(ours(rule)).map_err(Refusal::number) != since || mine.to_system_time(ours(rule)).ok() != time {
        return false;
    }
    if rule == By::B {
        return true;
    }
    let (seconds, fractional) = (mine.seconds, mine.fractional);
    let compat = SystemTime::from(compat::OscTime { seconds, fractional });
    match time {
        Some(time) => compat == time && SystemTime::from(rosc::OscTime { seconds, fractional }) == time,
        None => compat == before_1970(tag),
    }
}

/// The time of a tag before 1970.
fn before_1970(tag: u64) -> SystemTime {
    let nanos = clock::nearest(tag % FRACTIONS, FRACTIONS, NANOS);
    UNIX_EPOCH - Duration::from_secs(EPOCH) + Duration::from_secs(tag >> 32) + Duration::from_nanos(nanos)
}

/// All multiples, all edges, and 10^7 random times, tags and shifts, or more in a long run.
pub fn sweep(cases: u64, seed: u64) -> Swept {
    let (batches, next) = (BATCHES.max(cases / CASES), AtomicU64::new(0));
    let work = || {
        let mut swept = Swept::new();
        loop {
            match next.fetch_add(1, Ordering::Relaxed) {
                batch if batch < batches => swept.batch(batch, seed),
                _ => return swept,
            }
        }
    };
    thread::scope(|scope| {
        let workers: Vec<_> = (0..WORKERS).map(|_| scope.spawn(work)).collect();
        workers.into_iter().fold(Swept::new(), |mut all, worker| {
            all.add(worker.join().expect("a worker that ended by itself"));
            all
        })
    })
}

#[cfg(test)]
mod tests {
    use super::*;

    #[test]
    fn the_edges_and_a_batch_are_the_same() {
        let mut swept = Swept::new();
        swept.batch(0, 1);
        assert_eq!(swept.differences, [""; 0]);
        assert!(swept.asked > 100_000);
    }

    #[test]
    fn a_wrong_model_is_seen() {
        assert!(tag_is(By::A, 0, 1, Ok(EPOCH << 32 | 4)));
        assert!(!tag_is(By::A, 0, 1, Ok(EPOCH << 32 | 5)));
        assert!(!tag_is(By::A, 0, NANOS, Err(27)));
        assert!(unix_is(By::A, EPOCH << 32 | 1 << 22, Ok((0, 976_563))));
        assert!(!unix_is(By::A, EPOCH << 32 | 1 << 22, Ok((0, 976_562))));
        let time = UNIX_EPOCH + Duration::from_nanos(500_355_614);
        assert!(tag_types(By::A, time, 500_355_614, clock::tag(By::A, 0, 500_355_614)));
        assert!(!tag_types(By::A, time, 500_355_613, clock::tag(By::A, 0, 500_355_614)));
    }

    /// The crate has no time before 1970.
    #[test]
    fn the_crate_panics_before_1970() {
        let panics = |seconds, fractional| {
            std::panic::catch_unwind(|| SystemTime::from(rosc::OscTime { seconds, fractional })).is_err()
        };
        assert!(panics(0, 0) && panics(0, 1) && panics(2_208_988_799, u32::MAX - 2));
        assert!(!panics(2_208_988_799, u32::MAX - 1) && !panics(2_208_988_800, 0));
    }
}
