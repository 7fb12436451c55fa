//! Feeds rosc and the port the same inputs and compares every result: accept or refuse and the class of refusal, tree, bytes
//! left, bytes written and bytes not written. Which field was short, where it began and how many bytes of padding are not zero is
//! judged by a reader of its own; the padding is counted over rosc's packets too. Edition 2 of TCP framing, which rosc does not have, is
//! judged by a model of its own that hands rosc each frame alone; streams in portions by what that model makes of the whole stream, and a
//! cue index by what it makes of the recording's frames. A table with its time tags shifted is judged by a model of halves and a carry, the
//! clock by a model in whole numbers, and so are rosc's floats.
//!
//!     cargo run --release --offline -p compare -- --cases N --seed S
//!
//! The last line is `N cases, D differences`. It ends with status 1 where there is a difference, or where some refusal, kind
//! or rule was not met often enough.
//!
//!     cargo run --release --offline -p compare -- record
//!
//! writes the sample of the oracle's answers that the gate replays.
//!
//!     cargo run --release --offline -p compare -- clock
//!
//! goes through every nanosecond and every fraction of a second, for which the crate uses floats.

mod ask;
mod cases;
mod clock;
mod compat;
mod cues;
mod edges;
mod fields;
mod floats;
mod inputs;
mod judge;
mod met;
mod oracle;
mod padding;
mod peers;
mod port;
mod portions;
mod random;
mod reached;
mod record;
mod recordings;
mod rules;
mod run;
mod shifts;
mod short;
mod soiled;
mod spoil;
mod standard;
mod streams;
mod table;
mod times;
mod walk;
mod words;

use words::Wanted;

fn main() {
    let words: Vec<String> = std::env::args().skip(1).collect();
    let done = match words::wanted(&words) {
        Some(Wanted::Compare { cases, seed }) => run::run(cases, seed),
        Some(Wanted::Record { seed }) => run::alone(move || record::record(seed)),
        Some(Wanted::Clock) => Ok(floats::every()),
        None => Err(words::USAGE.to_string()),
    };
    match done {
        Ok(true) => {}
        Ok(false) => std::process::exit(1),
        Err(words) => {
            eprintln!("{words}");
            std::process::exit(2);
        }
    }
}
