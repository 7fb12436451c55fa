//! The table in print.

use crate::clock::{Figure, Row};
use crate::text::{LENGTHS, SHARES};
use crate::work::{Side, Task, SIDES};

/// Prints the rows of a task: each side's figure, and how many times one side's another's is.
pub fn print(task: Task, unit: &str, rows: &[Row]) {
    println!("\n{}: {unit} per call", task.title());
    let sides: Vec<Side> = SIDES.into_iter().filter(|side| side.does(task)).collect();
    let pairs: Vec<(Side, Side)> = PAIRS.into_iter().filter(|(a, b)| a.does(task) && b.does(task)).collect();
    let above: String = pairs.iter().map(|(a, _)| format!("{:>9}", a.last_word())).collect();
    println!("{:<28}{:>7}{}{above}", "", "", " ".repeat(12 * sides.len()));
    let heads: String = sides.iter().map(|side| format!("{:>12}", side.name())).collect();
    let below: String = pairs.iter().map(|(_, b)| format!("{:>9}", format!("/{}", b.last_word()))).collect();
    println!("{:<28}{:>7}{heads}{below}", "input", "bytes");
    for row in rows {
        let figures: String = sides.iter().map(|&side| format!("{:>12}", cell(side, row.of(side)))).collect();
        let ratios: String = pairs.iter().map(|&(a, b)| format!("{:>9}", ratio(row.of(a), row.of(b)))).collect();
        println!("{:<28}{:>7}{figures}{ratios}", row.name, row.bytes);
    }
    print_goal(task, rows);
}

/// Prints the figures of the texts for each byte, a row for each share of ASCII.
pub fn print_texts(unit: &str, figures: &[Figure]) {
    println!("\ntexts by encode_string, which tests UTF-8: {unit} per byte");
    let heads: String = LENGTHS.iter().map(|length| format!("{:>12}", format!("{length} bytes"))).collect();
    println!("{:<28}{heads}", "bytes that are ASCII");
    for (share, row) in SHARES.iter().zip(figures.chunks(LENGTHS.len())) {
        let cells = row.iter().zip(LENGTHS).map(|(figure, length)| figure.per_call / length as f64);
        let cells: String = cells.map(|per_byte| format!("{per_byte:>12.3}")).collect();
        println!("{:<28}{cells}", format!("{share} %"));
    }
}

/// Says where rosc takes fewer times the port's figure than it should.
fn print_goal(task: Task, rows: &[Row]) {
    let falls_short = |row: &&Row| match (row.of(Side::Port), row.of(Side::Rosc)) {
        (Some(port), Some(rosc)) => rosc.per_call < task.goal() * port.per_call && !task.exempts(row.name),
        _ => false,
    };
    let short: Vec<&str> = rows.iter().filter(falls_short).map(|row| row.name).collect();
    let short = if short.is_empty() { "nowhere".to_string() } else { short.join("; ") };
    println!("rosc/port below the goal, {}: {short}", task.goal());
}

/// The ratios.
const PAIRS: [(Side, Side); 7] = [
    (Side::Rosc, Side::Port),
    (Side::RoscInto, Side::Port),
    (Side::Rosc, Side::Compat),
    (Side::RoscInto, Side::CompatInto),
    (Side::Liblo, Side::Port),
    (Side::Oscpack, Side::Port),
    (Side::Port, Side::Memcpy),
];

/// A figure, from 100 million on in millions; a star where the side's answer is not rosc's.
fn cell(side: Side, figure: Option<Figure>) -> String {
    match figure {
        Some(figure) if figure.per_call < 999.5 => format!("{:.1}{}", figure.per_call, star(figure)),
        Some(figure) if figure.per_call < 1e8 => format!("{}{}", grouped(figure.per_call), star(figure)),
        Some(figure) => format!("{} M{}", grouped(figure.per_call / 1e6), star(figure)),
        None if side.installed() => "-".to_string(),
        None => "not there".to_string(),
    }
}

fn star(figure: Figure) -> &'static str {
    if figure.agrees {
        " "
    } else {
        "*"
    }
}

fn ratio(above: Option<Figure>, below: Option<Figure>) -> String {
    let (Some(above), Some(below)) = (above, below) else { return "-".to_string() };
    let both = Figure { per_call: above.per_call / below.per_call, agrees: above.agrees && below.agrees };
    format!("{:.2}{}", both.per_call, star(both))
}

/// A number of thousands, its digits in threes.
fn grouped(x: f64) -> String {
    let digits = format!("{x:.0}");
    let first = digits.len() % 3;
    let mut text = digits[..first].to_string();
    for three in digits.as_bytes()[first..].chunks(3) {
        if !text.is_empty() {
            text.push(',');
        }
        text.extend(three.iter().map(|&digit| digit as char));
    }
    text
}
