//! The chart, docs/benchmark.svg: for each input, how many times the port's time the others take, on a scale of powers of 10.

use crate::clock::Row;
use crate::origin;
use crate::work::{Side, Task, SIDES};
use std::path::Path;

const PLACE: &str = "docs/benchmark.svg";
const TITLE: &str = "Time per call, as a multiple of the port's (right of 1: the port is faster)";
const REMARKS: [&str; 2] = [
    "rosc into: `encode_into` a vector that is used again. compat: the port by `rosc_compat`. Dashed: the goal against rosc.",
    "An empty place: the port or that side gives another answer than rosc, lacks an argument, or has nothing to encode.",
];
const ROW: f64 = 26.0;
const TOP: f64 = 166.0;
const LABELS: f64 = 215.0;
const PANEL: f64 = 400.0;
const VALUES: f64 = 80.0;

/// What is drawn for a side: its colour. memcpy has none, since it would squeeze the scale, and compat has one mark.
fn colour(side: Side) -> Option<&'static str> {
    match side {
        Side::Rosc => Some("#4878a8"),
        Side::RoscInto => Some("#7fc4ea"),
        Side::Liblo => Some("#c8641e"),
        Side::Oscpack => Some("#3c8c50"),
        Side::Compat => Some("#8e5ba6"),
        Side::Port | Side::CompatInto | Side::Memcpy => None,
    }
}

/// Draws the chart and answers where it is.
pub fn draw(timed: &[(Task, Vec<Row>)]) -> Result<&'static str, String> {
    let root = Path::new(env!("CARGO_MANIFEST_DIR")).join("../../..");
    std::fs::write(root.join(PLACE), svg(timed)).map_err(|error| error.to_string())?;
    Ok(PLACE)
}

/// Both panels have the rows of the first, which are the packets: a table has only the port's time.
fn svg(timed: &[(Task, Vec<Row>)]) -> String {
    let rows = &timed[0].1;
    let count = rows.len();
    let width = LABELS + timed.len() as f64 * (PANEL + VALUES) + 10.0;
    let height = TOP + ROW * count as f64 + 40.0;
    let mut svg = format!(
        "<svg xmlns='http://www.w3.org/2000/svg' viewBox='0 0 {width} {height}' width='{width}' height='{height}' \
         font-family='DejaVu Sans, Arial, sans-serif' font-size='13'>\n<rect width='{width}' height='{height}' fill='white'/>\n"
    );
    svg += &text(12.0, 26.0, "start", "font-size='17' font-weight='bold'", TITLE);
    svg += &text(12.0, 50.0, "start", "", &escaped(&origin::origin()));
    svg += &legend();
    for (i, remark) in REMARKS.iter().enumerate() {
        svg += &text(12.0, 100.0 + 18.0 * i as f64, "start", "fill='#555'", remark);
    }
    for (i, row) in rows.iter().enumerate() {
        if i % 2 == 1 {
            svg += &format!("<rect x='0' y='{}' width='{width}' height='{ROW}' fill='#f3f3f3'/>\n", TOP + ROW * i as f64);
        }
        svg += &text(LABELS - 12.0, middle(i) + 4.0, "end", "", row.name);
    }
    for (i, (task, rows)) in timed.iter().enumerate() {
        let left = LABELS + i as f64 * (PANEL + VALUES);
        svg += &Panel { left, scale: Scale::of(rows), task: *task }.drawn(&rows[..count]);
    }
    svg + "</svg>\n"
}

fn text(x: f64, y: f64, anchor: &str, style: &str, words: &str) -> String {
    format!("<text x='{x:.1}' y='{y:.1}' text-anchor='{anchor}' {style}>{words}</text>\n")
}

/// Words that come from elsewhere, as SVG has them.
fn escaped(words: &str) -> String {
    words.replace('&', "&amp;").replace('<', "&lt;")
}

fn line(x: f64, y0: f64, y1: f64, style: &str) -> String {
    format!("<line x1='{x:.1}' y1='{y0:.1}' x2='{x:.1}' y2='{y1:.1}' {style}/>\n")
}

/// The middle of a row.
fn middle(row: usize) -> f64 {
    TOP + ROW * (row as f64 + 0.5)
}

fn legend() -> String {
    let mut legend = String::new();
    let mut x = 12.0;
    for (side, colour) in SIDES.iter().filter_map(|&side| Some((side, colour(side)?))) {
        let words = if side.installed() { side.name().to_string() } else { format!("{} (not installed)", side.name()) };
        legend += &mark(side, x + 8.0, 71.0, x, colour);
        legend += &text(x + 24.0, 76.0, "start", "", &words);
        x += 40.0 + 9.0 * words.len() as f64;
    }
    legend
}

/// A bar from `from` for rosc, a dot for the others.
fn mark(side: Side, x: f64, y: f64, from: f64, colour: &str) -> String {
    if side == Side::Rosc {
        let (left, right) = (x.min(from), x.max(from));
        return format!(
            "<rect x='{left:.1}' y='{:.1}' width='{:.1}' height='12' fill='{colour}'/>\n",
            y - 6.0,
            right - left
        );
    }
    format!("<circle cx='{x:.1}' cy='{y:.1}' r='4.5' fill='{colour}' stroke='white'/>\n")
}

/// How many times the port's figure a side's is, where both give rosc's answer.
fn ratio(row: &Row, side: Side) -> Option<f64> {
    let (port, other) = (row.of(Side::Port)?, row.of(side)?);
    (port.agrees && other.agrees).then_some(other.per_call / port.per_call)
}

/// The powers of 10 that a panel goes from and to.
struct Scale {
    low: i32,
    high: i32,
}

impl Scale {
    fn of(rows: &[Row]) -> Scale {
        let drawn = SIDES.iter().filter(|&&side| colour(side).is_some());
        let ratios = drawn.flat_map(|&side| rows.iter().filter_map(move |row| ratio(row, side)));
        let logs: Vec<f64> = ratios.map(f64::log10).collect();
        let low = logs.iter().fold(-1.0, |a: f64, &b| a.min(b));
        let high = logs.iter().fold(1.0, |a: f64, &b| a.max(b));
        Scale { low: low.floor() as i32, high: high.ceil() as i32 }
    }

    /// The part of a panel's width at which a ratio stands.
    fn at(&self, ratio: f64) -> f64 {
        (ratio.log10() - self.low as f64) / (self.high - self.low) as f64
    }
}

/// One task's half of the chart.
struct Panel {
    left: f64,
    scale: Scale,
    task: Task,
}

impl Panel {
    fn x(&self, ratio: f64) -> f64 {
        self.left + PANEL * self.scale.at(ratio)
    }

    fn drawn(&self, rows: &[Row]) -> String {
        let bottom = TOP + ROW * rows.len() as f64;
        let mut drawn = text(self.left, TOP - 12.0, "start", "font-weight='bold'", self.task.title());
        drawn += &text(self.left + PANEL + VALUES - 14.0, TOP - 12.0, "end", "fill='#555'", "rosc/port");
        for power in self.scale.low..=self.scale.high {
            let ratio = 10f64.powi(power);
            drawn += &line(self.x(ratio), TOP, bottom, if power == 0 { "stroke='black'" } else { "stroke='#ccc'" });
            drawn += &text(self.x(ratio), bottom + 18.0, "middle", "fill='#555'", &ratio.to_string());
        }
        for (i, row) in rows.iter().enumerate() {
            drawn += &self.row(i, row);
        }
        drawn + &line(self.x(self.task.goal()), TOP, bottom, "stroke='#b00' stroke-dasharray='4 3'")
    }

    fn row(&self, i: usize, row: &Row) -> String {
        let mut drawn = String::new();
        for side in SIDES {
            let (Some(colour), Some(ratio)) = (colour(side), ratio(row, side)) else { continue };
            drawn += &mark(side, self.x(ratio), middle(i), self.x(1.0), colour);
            if side == Side::Rosc {
                drawn += &text(self.left + PANEL + VALUES - 14.0, middle(i) + 4.0, "end", "", &format!("{ratio:.2}"));
            }
        }
        drawn
    }
}
