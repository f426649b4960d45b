//! Times the published Rust and the port on the same inputs, in one process. oracle/bench builds and runs it.

mod alone;
mod clock;
mod held;
mod ours;
mod rows;
mod rust;
mod side;
mod stand;
mod wire;

use clock::Figures;
use side::{give_up, Side};
use std::fmt::Write as _;
use std::io::Write;

#[global_allocator]
static ALLOCATOR: held::Counting = held::Counting;

/// What was found of one row: the Rust's figures and the port's, if it has the calls.
struct Line {
    name: &'static str,
    rust: Option<Figures>,
    ours: Option<Figures>,
}

impl Line {
    fn ratio(&self) -> Option<f64> {
        match (self.rust, self.ours) {
            (Some(rust), Some(ours)) => Some(ours.least / rust.least),
            _ => None,
        }
    }
}

fn main() {
    let (mut csv, mut progress) = (false, false);
    for word in std::env::args().skip(1) {
        match word.as_str() {
            "--csv" => csv = true,
            "--progress" => progress = true,
            _ => {
                eprintln!("bench: unknown word '{}'", word);
                std::process::exit(2)
            }
        }
    }
    let held = held::figures();
    let lines = time_all(progress);
    let alone = time_alone();
    let text = if csv { as_csv(&lines, &held, &alone) } else { as_tables(&lines, &held, &alone) };
    // In one piece and at the end, so that whoever reads it gets all or nothing.
    if let Err(error) = std::io::stdout().write_all(text.as_bytes()) {
        give_up(&format!("the table could not be written: {}", error));
    }
}

fn time_all(progress: bool) -> Vec<Line> {
    let clock = clock::cost();
    let mut lines = Vec::new();
    let (rust, ours) = (rows::all::<rust::Rust>(), rows::all::<ours::Ours>());
    let count = rust.len();
    for (i, (rust, ours)) in rust.into_iter().zip(ours).enumerate() {
        let name = rust.name;
        if progress {
            eprint!("\r\x1b[Kbench: row {} of {}, {}", i + 1, count, name);
        }
        let figures = clock::rounds(vec![rust.ready(), ours.ready()], clock);
        if figures[0].is_none() {
            give_up("the Rust was not timed");
        }
        lines.push(Line { name, rust: figures[0], ours: figures[1] });
    }
    if progress {
        eprint!("\r\x1b[K");
    }
    lines
}

/// Ours alone: there is nothing of the Rust's to compare with.
fn time_alone() -> Vec<Line> {
    let clock = clock::cost();
    let time = |(name, ours)| {
        let figures = clock::rounds(vec![Some(ours)], clock);
        Line { name, rust: None, ours: figures[0] }
    };
    alone::all().into_iter().map(time).collect()
}

fn csv_figures(text: &mut String, figures: Option<Figures>) {
    let _ = match figures {
        Some(Figures { least, median }) => write!(text, "{:.1},{:.1},", least, median),
        None => write!(text, ",,"),
    };
}

fn as_csv(lines: &[Line], held: &[(&str, usize)], alone: &[Line]) -> String {
    let mut text = String::new();
    for line in lines.iter().chain(alone) {
        let _ = write!(text, "{},", line.name);
        csv_figures(&mut text, line.rust);
        csv_figures(&mut text, line.ours);
        let _ = match line.ratio() {
            Some(ratio) => writeln!(text, "{:.2}", ratio),
            None => writeln!(text),
        };
    }
    for (name, bytes) in held {
        let _ = write!(text, "{},{},{},", name, bytes, bytes);
        let _ = match ours::Ours::fixed_bytes() {
            Some(ours) => writeln!(text, "{},{},{:.2}", ours, ours, ours as f64 / *bytes as f64),
            None => writeln!(text, ",,"),
        };
    }
    text
}

fn table_figures(text: &mut String, figures: Option<Figures>, none: &str) {
    let _ = match figures {
        Some(Figures { least, median }) => write!(text, "{:12.1}{:12.1}", least, median),
        None => write!(text, "{:>12}{:>12}", none, ""),
    };
}

fn table(text: &mut String, title: &str, lines: &[Line], none: [&str; 2]) {
    let _ = writeln!(text, "{:36}{:>12}{:>12}{:>12}{:>12}{:>8}", title, "Rust least", "median", "ours least", "median", "ratio");
    for line in lines {
        let _ = write!(text, "{:36}", line.name);
        table_figures(text, line.rust, none[0]);
        table_figures(text, line.ours, none[1]);
        let _ = match line.ratio() {
            Some(ratio) => writeln!(text, "{:8.2}", ratio),
            None => writeln!(text),
        };
    }
}

fn as_tables(lines: &[Line], held: &[(&str, usize)], alone: &[Line]) -> String {
    let mut text = String::new();
    table(&mut text, "row, ns", lines, ["", "not yet"]);
    let _ = writeln!(text, "\n{:36}{:>12}{:>24}", "bytes a connection", "Rust", "ours");
    for (name, bytes) in held {
        let _ = write!(text, "{:36}{:12}", name, bytes);
        let _ = match ours::Ours::fixed_bytes() {
            Some(ours) => writeln!(text, "{:24}{:20.2}", ours, ours as f64 / *bytes as f64),
            None => writeln!(text, "{:>24}", "not yet"),
        };
    }
    if !alone.is_empty() {
        text.push('\n');
        table(&mut text, "ours alone, ns", alone, ["-", ""]);
    }
    // All depend on it: on its code, and on how its library's lists grow.
    let _ = writeln!(text, "\nThe Rust built by {}", option_env!("BUILT_BY").unwrap_or("an unknown compiler"));
    text
}
