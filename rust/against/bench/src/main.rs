//! Times the port against rosc, liblo, oscpack and memcpy on the same inputs, and counts instructions.
//!
//!     cargo run --release --offline -p bench
//!
//! `--count` prints the counts only, `--time` the times only and `--text` the times of texts only; `--chart` prints the times and
//! draws them anew in docs/benchmark.svg. A run takes some two minutes.
//! Which functions the instructions go to:
//!
//!     valgrind --tool=callgrind --toggle-collect=counted target/release/bench --one decode port "60 KB bundle"
//!     callgrind_annotate callgrind.out.*

mod chart;
mod clock;
mod count;
mod inputs;
mod origin;
mod peer;
mod port;
mod report;
mod spent;
mod text;
mod trees;
mod work;

use clock::Row;
use inputs::Input;
use work::{Task, TASKS};

/// rosc and oscpack recurse: as deep as the hostile inputs go.
const STACK: usize = 1 << 30;

const NOTES: &str = "\
compat is the port by `sennorbai::rosc_compat`, with rosc's types and signatures. `rosc into` and `compat into` are `encode_into`
into a vector that is cleared and used again; rosc and compat are `encode`, which makes a vector for each call.
All Rust code is built with LTO and one codegen unit, so rosc is compiled into its caller; the port's library is linked as it is.
Buffers: the port's table (1.3 MB) and each output are lent again for every call and never cleared. rosc and compat allocate a
tree for each decode, liblo a message; freeing counts. compat keeps a table between calls. oscpack reads in place.
Decode reads every argument: its number, or the length and the last byte of its text; all sides sum these up alike.
Encode starts from what a program holds: the port's from a table, rosc's and liblo's from built packets, oscpack's from values.
The port checks UTF-8 in both directions, rosc when it decodes, liblo and oscpack never.
The two tables have 65,534 texts that are all one range of 64 KiB: the port judges it for each and refuses the table. They are
timed once, in millions (M).
* not rosc's answer: the port refuses bundles and arrays over 64 deep; liblo has neither arrays nor colours; liblo and oscpack
  refuse bytes left over and elements that fail, so all hostile inputs, oscpack at once by their length.
- nothing to encode, an argument that the library lacks, or a table, which only the port has.";

const TEXT_NOTES: &str = "\
Texts: the characters stand in no order, those that are not ASCII have 2 to 4 bytes. A text below 100 % has one of them at least.";

const COUNT_NOTES: &str = "\
Counted by valgrind's callgrind: one call after one to warm up, with some 20 instructions of the benchmark's own. A long memcpy
is one repeated instruction, which counts once for each byte. Counts don't show what waits for memory or for a step before.
The two tables are not counted, since callgrind would take many minutes.";

const USAGE: &str = "usage: bench [--time | --count | --text | --chart], or bench --one TASK SIDE INPUT";

fn main() {
    let thread = std::thread::Builder::new().stack_size(STACK).spawn(run).expect("a thread");
    if !thread.join().expect("the benchmark ends") {
        eprintln!("{USAGE}");
        std::process::exit(2);
    }
}

/// Does what the words of the command ask for; false where they are not known.
fn run() -> bool {
    let inputs = inputs::all();
    let words: Vec<String> = std::env::args().skip(1).collect();
    match words.iter().map(String::as_str).collect::<Vec<_>>()[..] {
        [] => {
            times(&inputs);
            counts(&inputs);
        }
        ["--time"] => drop(times(&inputs)),
        ["--count"] => counts(&inputs),
        ["--text"] => text_times(),
        ["--chart"] => match chart::draw(&times(&inputs)) {
            Ok(place) => println!("\nchart: {place}"),
            Err(error) => println!("\nno chart: {error}"),
        },
        ["--one", task, side, input] => return count::one(&inputs, task, side, input),
        [count::CHILD] => count::child(&inputs),
        _ => return false,
    }
    true
}

/// The times of each task, which are printed.
fn times(inputs: &[Input]) -> Vec<(Task, Vec<Row>)> {
    println!("{}", origin::origin());
    println!("release build; processor time, median of {} rounds in which the sides take turns", clock::ROUNDS);
    let timed: Vec<(Task, Vec<Row>)> = TASKS.map(|task| (task, rows(task, inputs))).into();
    for (task, rows) in &timed {
        report::print(*task, "ns", rows);
    }
    println!("\n{NOTES}");
    text_times();
    timed
}

fn rows(task: Task, inputs: &[Input]) -> Vec<Row> {
    inputs.iter().filter(|input| task.takes(input)).map(|input| clock::time(task, input)).collect()
}

fn text_times() {
    report::print_texts("ns", &text::time(&text::all()));
    println!("\n{TEXT_NOTES}");
}

fn counts(inputs: &[Input]) {
    match count::count(inputs) {
        Ok(counted) => {
            for (task, rows) in &counted.tasks {
                report::print(*task, "instructions", rows);
            }
            report::print_texts("instructions", &counted.texts);
            println!("\n{COUNT_NOTES}");
        }
        Err(reason) => println!("\nno instructions counted: {reason}"),
    }
}
