//! Instructions, which noise doesn't move: the benchmark runs itself under valgrind's callgrind, which writes a file of counts
//! whenever `counted` is left.

use crate::clock::{Figure, Row};
use crate::inputs::Input;
use crate::text;
use crate::work::{work, Task, Work, SIDES, TASKS};
use std::fs;
use std::path::{Path, PathBuf};
use std::process::Command;

/// The argument that makes the benchmark do each piece of work once to be counted.
pub const CHILD: &str = "--counted";

/// One call, between the two moments at which callgrind starts and stops.
#[no_mangle]
#[inline(never)]
pub extern "Rust" fn counted(work: &mut Work) {
    (work.times)(1);
}

/// Under callgrind: each piece of work, in the order of the rows. Tables would take many minutes and are left out.
pub fn child(inputs: &[Input]) {
    for task in TASKS {
        for input in inputs.iter().filter(|input| input.is_packet()) {
            SIDES.iter().filter_map(|&side| work(side, task, input)).for_each(once);
        }
    }
    text::all().iter().map(|text| text::work(text)).for_each(once);
}

/// Under callgrind by hand: the work of one side on one input, to see which functions the instructions go to; false where there is
/// none of these names, which are those of the tables.
pub fn one(inputs: &[Input], task: &str, side: &str, input: &str) -> bool {
    let input = inputs.iter().find(|one| one.name == input);
    let task = TASKS.into_iter().find(|one| one.name() == task);
    let side = SIDES.into_iter().find(|one| one.name() == side);
    let (Some(input), Some(task), Some(side)) = (input, task, side) else { return false };
    work(side, task, input).into_iter().for_each(once);
    true
}

/// Does the work once to warm up and once to be counted.
fn once(mut work: Work) {
    (work.times)(1);
    counted(&mut work);
}

/// What was counted: the rows of each task, and a figure for each text.
pub struct Counted {
    pub tasks: Vec<(Task, Vec<Row>)>,
    pub texts: Vec<Figure>,
}

/// Counts every side on every packet, and every text, or says why not.
pub fn count(inputs: &[Input]) -> Result<Counted, String> {
    let place = std::env::temp_dir().join(format!("sennorbai-counts-{}", std::process::id()));
    fs::create_dir(&place).map_err(|error| format!("{}: {error}", place.display()))?;
    let file = place.join("counts");
    let counted = under_callgrind(&file).and_then(|()| Counts { file, next: 1 }.all(inputs));
    fs::remove_dir_all(&place).map_err(|error| format!("{}: {error}", place.display()))?;
    counted
}

fn under_callgrind(file: &Path) -> Result<(), String> {
    let program = std::env::current_exe().map_err(|error| error.to_string())?;
    let output = Command::new("valgrind")
        .args(["--tool=callgrind", "--toggle-collect=counted", "--dump-after=counted"])
        .arg(format!("--callgrind-out-file={}", file.display()))
        .arg(program)
        .arg(CHILD)
        .output();
    match output {
        Ok(output) if output.status.success() => Ok(()),
        Ok(output) => Err(format!("valgrind ended with {}\n{}", output.status, String::from_utf8_lossy(&output.stderr))),
        Err(error) => Err(format!("valgrind: {error}")),
    }
}

/// Callgrind's files: `file.1`, `file.2` and so on, one for each piece of work.
struct Counts {
    file: PathBuf,
    next: usize,
}

impl Counts {
    /// The counts in the order of `child`.
    fn all(mut self, inputs: &[Input]) -> Result<Counted, String> {
        let tasks = TASKS.iter().map(|&task| Ok((task, self.rows(task, inputs)?))).collect::<Result<_, String>>()?;
        let texts = text::all().iter().map(|text| self.figure(text::work(text).agrees)).collect::<Result<_, String>>()?;
        Ok(Counted { tasks, texts })
    }

    fn rows(&mut self, task: Task, inputs: &[Input]) -> Result<Vec<Row>, String> {
        inputs.iter().filter(|input| input.is_packet()).map(|input| self.row(task, input)).collect()
    }

    fn row(&mut self, task: Task, input: &Input) -> Result<Row, String> {
        let figures = SIDES.iter().map(|&side| work(side, task, input).map(|work| self.figure(work.agrees)).transpose());
        Ok(Row { name: input.name, bytes: input.bytes.len(), figures: figures.collect::<Result<_, String>>()? })
    }

    fn figure(&mut self, agrees: bool) -> Result<Figure, String> {
        let file = self.file.with_extension(self.next.to_string());
        let text = fs::read_to_string(&file).map_err(|error| format!("callgrind's file {}: {error}", self.next))?;
        self.next += 1;
        let total = text.lines().find_map(|line| line.strip_prefix("totals: "));
        let per_call = total.and_then(|total| total.trim().parse().ok()).ok_or("callgrind's file has no totals")?;
        Ok(Figure { per_call, agrees })
    }
}
