//! Times: the sides take turns, so that noise hits all alike, and the median of the rounds counts.

use crate::inputs::Input;
use crate::spent::spent;
use crate::work::{work, Side, Task, Work, SIDES};
use std::time::Duration;

/// How often each side has its turn.
pub const ROUNDS: usize = 51;

/// How long a turn takes, at least: so short that few turns are interrupted.
const TURN: Duration = Duration::from_micros(300);

/// How long a call may take that is made more than once.
const LONG: Duration = Duration::from_millis(100);

/// What a side took for an input.
#[derive(Clone, Copy)]
pub struct Figure {
    /// Nanoseconds, or instructions.
    pub per_call: f64,
    pub agrees: bool,
}

/// An input's figures, one for each side; none where there was nothing to do.
pub struct Row {
    pub name: &'static str,
    pub bytes: usize,
    pub figures: Vec<Option<Figure>>,
}

impl Row {
    /// A side's figure.
    pub fn of(&self, side: Side) -> Option<Figure> {
        self.figures[SIDES.iter().position(|&one| one == side)?]
    }
}

/// Times every side on an input.
pub fn time(task: Task, input: &Input) -> Row {
    let figures = alternate(SIDES.iter().map(|&side| work(side, task, input)).collect());
    Row { name: input.name, bytes: input.bytes.len(), figures }
}

/// Times pieces of work that take turns.
pub fn alternate(all: Vec<Option<Work>>) -> Vec<Option<Figure>> {
    let mut turns: Vec<Option<Turns>> = all.into_iter().map(|work| work.map(Turns::new)).collect();
    for _ in 0..ROUNDS {
        turns.iter_mut().flatten().for_each(Turns::take);
    }
    turns.into_iter().map(|turns| turns.map(Turns::median)).collect()
}

/// A side's turns.
struct Turns<'a> {
    work: Work<'a>,
    /// Calls in a turn; none where the first call was long and is all that counts.
    calls: u32,
    /// Nanoseconds per call of each turn.
    taken: Vec<f64>,
}

impl<'a> Turns<'a> {
    /// Finds out how many calls fill a turn.
    fn new(mut work: Work<'a>) -> Turns<'a> {
        let first = taken(&mut work, 1);
        if first > LONG {
            return Turns { work, calls: 0, taken: vec![first.as_nanos() as f64] };
        }
        let mut calls = 1;
        while taken(&mut work, calls) < TURN {
            calls *= 2;
        }
        Turns { work, calls, taken: Vec::new() }
    }

    fn take(&mut self) {
        if self.calls > 0 {
            let taken = taken(&mut self.work, self.calls);
            self.taken.push(taken.as_nanos() as f64 / self.calls as f64);
        }
    }

    fn median(mut self) -> Figure {
        self.taken.sort_by(f64::total_cmp);
        Figure { per_call: self.taken[self.taken.len() / 2], agrees: self.work.agrees }
    }
}

/// What so many calls take.
fn taken(work: &mut Work, calls: u32) -> Duration {
    let start = spent();
    (work.times)(calls);
    spent() - start
}
