//! The crate's floats and the port against the nearest, over every nanosecond of a second and every fraction of one.
//!
//!     cargo run --release --offline -p compare -- clock
//!
//! prints how often, by how much and where first the crate differs. It ends with status 1 where the port differs, or where the crate does
//! otherwise than docs/DIFFERENCES.md says.

use crate::clock::{float_is_high, nearest, EPOCH, FRACTIONS, NANOS};
use rosc::OscTime;
use sennorbai::boundary;
use std::collections::BTreeMap;
use std::thread;
use std::time::{Duration, SystemTime, UNIX_EPOCH};

const WORKERS: u64 = 2;

/// How often the crate is off by one amount, and the first and the last such input with the crate's result and the exact one.
#[derive(Clone, Debug)]
struct Off {
    times: u64,
    first: [u64; 3],
    last: [u64; 3],
}

/// What a sweep has found.
#[derive(Default)]
struct Found {
    by: BTreeMap<i64, Off>,
    /// How often the crate differs otherwise than by the rule.
    unruled: u64,
    /// How often the port differs.
    port: u64,
}

impl Found {
    /// Notes an input with the crate's result, what the rule says of the crate, the port's result and the exact one.
    fn note(&mut self, input: u64, crate_s: u64, ruled: u64, ports: u64, exact: u64) {
        self.unruled += u64::from(crate_s != ruled);
        self.port += u64::from(ports != exact);
        if crate_s != exact {
            let now = [input, crate_s, exact];
            let off = self.by.entry(crate_s as i64 - exact as i64).or_insert(Off { times: 0, first: now, last: now });
            off.times += 1;
            off.last = now;
        }
    }

    /// Adds what was found of later inputs.
    fn add(&mut self, later: Found) {
        self.unruled += later.unruled;
        self.port += later.port;
        for (by, its) in later.by {
            let off = self.by.entry(by).or_insert(Off { times: 0, ..its.clone() });
            off.times += its.times;
            off.last = its.last;
        }
    }

    /// Prints it, and says whether all is as it should be.
    fn report(&self, what: &str, all: u64) -> bool {
        println!("{what}: {all} values, the port differs on {}", self.port);
        println!("{what}: the crate differs on {}", self.by.values().map(|off| off.times).sum::<u64>());
        for (by, Off { times, first, last }) in &self.by {
            let said = |[input, crate_s, exact]: &[u64; 3]| format!("{input} (crate {crate_s}, exact {exact})");
            println!("{what}: by {by:+} on {times}, from {} to {}", said(first), said(last));
        }
        println!("{what}: the crate is otherwise than its rule on {}", self.unruled);
        self.unruled == 0 && self.port == 0
    }
}

/// A nanosecond of the first second of 1970 on its way to a tag.
fn nanosecond(found: &mut Found, n: u64) {
    let exact = nearest(n, NANOS, FRACTIONS);
    let theirs = OscTime::try_from(UNIX_EPOCH + Duration::new(0, n as u32)).expect("a time of 1970");
    let theirs = u64::from(theirs.seconds) << 32 | u64::from(theirs.fractional);
    let mut ours = 0;
    let answer = boundary::tag_a(0, n, &mut ours);
    let since = |tag: u64| tag.wrapping_sub(EPOCH << 32);
    found.note(n, since(theirs), exact + u64::from(float_is_high(n)), since(ours) | answer, exact);
}

/// A fraction of the first second of 1970 on its way to Unix time, in nanoseconds; a carry is 10^9 of them.
fn fraction(found: &mut Found, fraction: u64) {
    let exact = nearest(fraction, FRACTIONS, NANOS);
    let theirs = SystemTime::from(OscTime { seconds: EPOCH as u32, fractional: fraction as u32 });
    let theirs = theirs.duration_since(UNIX_EPOCH).expect("a time of 1970").as_nanos() as u64;
    let mut seconds = -1;
    let answer = boundary::unix_a(EPOCH << 32 | fraction, &mut seconds);
    found.note(fraction, theirs, exact, (seconds as u64).wrapping_mul(NANOS).wrapping_add(answer), exact);
}

/// Goes through all numbers below `all`, each worker through its share.
fn sweep(all: u64, one: fn(&mut Found, u64)) -> Found {
    let share = |worker: u64| worker * all / WORKERS..(worker + 1) * all / WORKERS;
    let work = |numbers: std::ops::Range<u64>| {
        let mut found = Found::default();
        numbers.for_each(|n| one(&mut found, n));
        found
    };
    thread::scope(|scope| {
        let workers: Vec<_> = (0..WORKERS).map(|worker| scope.spawn(move || work(share(worker)))).collect();
        workers.into_iter().fold(Found::default(), |mut all, worker| {
            all.add(worker.join().expect("a worker that ended by itself"));
            all
        })
    })
}

/// All 10^9 nanoseconds and all 2^32 fractions; true where the port is exact and the crate as the rule says.
pub fn every() -> bool {
    let there = sweep(NANOS, nanosecond).report("nanoseconds to fractions", NANOS);
    let back = sweep(FRACTIONS, fraction).report("fractions to nanoseconds", FRACTIONS);
    there && back
}
