//! A run: workers take batches by number, and a batch's cases depend on the seed and its number only.

use crate::cases::Case;
use crate::compat;
use crate::met::Met;
use crate::peers::Peers;
use crate::port::Bench;
use crate::random::Random;
use crate::short;
use crate::times;
use std::ops::Range;
use std::sync::atomic::{AtomicU64, Ordering};
use std::thread;
use std::time::{Duration, Instant};

/// Cases of a batch.
const BATCH: u64 = 1000;
const WORKERS: usize = 2;
/// Of every twenty batches, nine are of short inputs and one of those for edition 2, as long as there are any; three more are of random
/// inputs for edition 2, one of streams in portions, one of cue indexes, one of shifted tables, and the others of random inputs for the
/// other calls.
const ROUND: u64 = 20;
const SHORT: Range<u64> = 0..9;
const SHORT_STANDARD: Range<u64> = 9..10;
const STANDARD: Range<u64> = 10..13;
const PORTIONS: Range<u64> = 13..14;
const CUES: Range<u64> = 14..15;
const SHIFTS: Range<u64> = 15..16;
/// Of the random cases, one in so many is for `rosc_compat` and not for the boundary.
const COMPAT: usize = 8;
/// The crate recurses over nested input: its threads have room for that.
const STACK: usize = 1 << 30;
/// How many differences are shown.
const SHOWN: usize = 20;

/// What is asked for, and how far it is.
struct Plan {
    cases: u64,
    seed: u64,
    peers: Peers,
    next: AtomicU64,
    done: AtomicU64,
}

/// What a worker has found.
struct Findings {
    met: Met,
    short: u64,
    short_standard: u64,
    differences: Vec<(u64, String)>,
}

impl Findings {
    fn new() -> Findings {
        Findings { met: Met::new(), short: 0, short_standard: 0, differences: Vec::new() }
    }
}

/// The number of a case among those of its share of the batches, if its batch is one of them.
fn nth(share: Range<u64>, batch: u64, n: u64) -> Option<u64> {
    let (round, turn) = (batch / ROUND, batch % ROUND);
    let before = round * (share.end - share.start) + turn.checked_sub(share.start)?;
    share.contains(&turn).then_some(before * BATCH + n)
}

impl Plan {
    /// Does batches until none is left.
    fn work(&self) -> Findings {
        let mut found = Findings::new();
        let (mut case, mut bench) = (Case::new(), Bench::new());
        loop {
            let batch = self.next.fetch_add(1, Ordering::Relaxed);
            let from = batch * BATCH;
            if from >= self.cases {
                return found;
            }
            let mut r = Random::new(self.seed, batch);
            let many = BATCH.min(self.cases - from);
            for n in 0..many {
                if let Some(words) = self.one(batch, n, &mut r, &mut case, &mut bench, &mut found) {
                    found.differences.push((from + n, format!("{words}: {}", case.asked.shown())));
                }
            }
            self.done.fetch_add(many, Ordering::Relaxed);
        }
    }

    /// Does one case of a batch; the words say what differs.
    fn one(
        &self,
        batch: u64,
        n: u64,
        r: &mut Random,
        case: &mut Case,
        bench: &mut Bench,
        found: &mut Findings,
    ) -> Option<String> {
        if nth(SHORT, batch, n).is_some_and(|n| case.short(short::STAGES, n)) {
            found.short += 1;
        } else if nth(SHORT_STANDARD, batch, n).is_some_and(|n| case.short(short::STANDARD_STAGES, n)) {
            found.short_standard += 1;
        } else if nth(SHORT_STANDARD.start..STANDARD.end, batch, n).is_some() {
            case.standard(r, &self.peers);
        } else if nth(PORTIONS, batch, n).is_some() {
            let steps = case.portions(r, &self.peers);
            case.count(&mut found.met);
            let whole = bench.differs(&case.asked, &case.due);
            return whole.or_else(|| steps.iter().find_map(|step| step.differs(bench)));
        } else if nth(CUES, batch, n).is_some() {
            let steps = case.cues(r, &self.peers);
            case.count(&mut found.met);
            steps.iter().for_each(|step| step.count(&mut found.met));
            let whole = bench.differs(&case.asked, &case.due);
            return whole.or_else(|| steps.iter().find_map(|step| step.differs(bench)));
        } else if nth(SHIFTS, batch, n).is_some() {
            let back = case.shifts(r);
            case.count(&mut found.met);
            return bench.differs(&case.asked, &case.due).or_else(|| back.differs(bench));
        } else {
            case.random(r, &self.peers);
            // What `rosc_compat` has no place for is a case of the boundary still.
            let outcome = if r.one_in(COMPAT) { compat::compare(&case.asked) } else { Ok(None) };
            if let Some(outcome) = outcome.transpose() {
                return outcome.map(|outcome| found.met.count_compat(case.asked.call as usize, outcome.number())).err();
            }
        }
        case.count(&mut found.met);
        bench.differs(&case.asked, &case.due)
    }

    /// Says how far it is until the workers have ended.
    fn watch(&self, ended: impl Fn() -> bool) {
        let (began, mut said) = (Instant::now(), Instant::now());
        loop {
            let last = ended();
            if last || said.elapsed().as_secs() >= 5 {
                said = Instant::now();
                let done = self.done.load(Ordering::Relaxed);
                println!("{done} of {}, {:.0} cases per second", self.cases, done as f64 / began.elapsed().as_secs_f64());
            }
            if last {
                return;
            }
            thread::sleep(Duration::from_millis(20));
        }
    }
}

/// Does something on a thread of its own with room for the crate.
pub fn alone<T: Send + 'static>(what: impl FnOnce() -> T + Send + 'static) -> T {
    let thread = thread::Builder::new().stack_size(STACK).spawn(what).expect("a thread");
    thread.join().expect("a thread that ended by itself")
}

/// Compares that many cases; true where there is no difference and all was met often enough.
pub fn run(cases: u64, seed: u64) -> Result<bool, String> {
    let plan = Plan { cases, seed, peers: Peers::load(seed)?, next: AtomicU64::new(0), done: AtomicU64::new(0) };
    let mut all = Findings::new();
    thread::scope(|scope| {
        let start = |_| thread::Builder::new().stack_size(STACK).spawn_scoped(scope, || plan.work()).expect("a thread");
        let workers: Vec<_> = (0..WORKERS).map(start).collect();
        plan.watch(|| workers.iter().all(|worker| worker.is_finished()));
        for worker in workers {
            let one = worker.join().expect("a worker that ended by itself");
            all.met.add(&one.met);
            all.short += one.short;
            all.short_standard += one.short_standard;
            all.differences.extend(one.differences);
        }
    });
    all.differences.sort();
    let clock = times::sweep(cases, seed);
    all.met.add(&clock.met);
    let enough = all.met.report(cases, &plan.peers.missing());
    short::report(short::STAGES, all.short);
    short::report(short::STANDARD_STAGES, all.short_standard);
    for (case, words) in all.differences.iter().take(SHOWN) {
        println!("case {case}: {words}");
    }
    clock.differences.iter().take(SHOWN).for_each(|words| println!("{words}"));
    println!("{} calls of the clock beside the cases", clock.asked);
    let differences = all.differences.len() + clock.differences.len();
    println!("{cases} cases, {differences} differences");
    Ok(enough && differences == 0)
}
