//! The library's speed through its C interface, beside straightforward code in Rust: medians of several runs.
//!
//! `bench [RUNS] [--markdown] [--only TEXT]` measures the rows whose names contain the text.
//! `bench --list` names the rows. `bench --row NAME --side ours|reference --count N` makes so many calls and says how
//! many they were, for counting instructions.

mod data;
mod describe;
mod house;
mod measure;
mod ours;
mod print;
mod rows;
mod undo;

use measure::{measure, Row};
use std::process::ExitCode;

#[derive(Default)]
struct Options {
    runs: Option<usize>,
    markdown: bool,
    list: bool,
    only: Option<String>,
    row: Option<String>,
    side: Side,
    count: u64,
}

#[derive(Default)]
enum Side {
    #[default]
    Ours,
    Reference,
}

fn read_side(word: &str) -> Option<Side> {
    match word {
        "ours" => Some(Side::Ours),
        "reference" => Some(Side::Reference),
        _ => None,
    }
}

fn options() -> Option<Options> {
    let mut options = Options::default();
    let mut words = std::env::args().skip(1);
    while let Some(word) = words.next() {
        match word.as_str() {
            "--markdown" => options.markdown = true,
            "--list" => options.list = true,
            "--only" => options.only = Some(words.next()?),
            "--row" => options.row = Some(words.next()?),
            "--side" => options.side = read_side(&words.next()?)?,
            "--count" => options.count = words.next()?.parse().ok()?,
            runs => options.runs = Some(runs.parse().ok().filter(|&runs| runs > 0)?),
        }
    }
    Some(options)
}

/// Makes calls of one side of a row.
fn make_calls(row: &Row, side: Side, count: u64) {
    let mut sides = (row.make)();
    let made = match side {
        Side::Ours => (sides.ours)(count),
        Side::Reference => (sides.reference)(count),
    };
    println!("calls {}", made.calls);
}

fn main() -> ExitCode {
    let Some(options) = options() else {
        eprintln!("bench [RUNS] [--markdown] [--only TEXT] | --list | --row NAME --side ours|reference --count N");
        return ExitCode::FAILURE;
    };
    let mut rows = rows::all();
    if let Some(name) = options.row {
        let Some(row) = rows.iter().find(|row| row.name == name) else {
            eprintln!("no row {name}");
            return ExitCode::FAILURE;
        };
        make_calls(row, options.side, options.count);
        return ExitCode::SUCCESS;
    }
    if let Some(text) = options.only {
        rows.retain(|row| row.name.contains(&text));
    }
    if options.list {
        rows.iter().for_each(|row| println!("{}", row.name));
        return ExitCode::SUCCESS;
    }
    print::head(options.markdown);
    for row in &rows {
        print::row(row, &measure(row, options.runs.unwrap_or(9)), options.markdown);
    }
    ExitCode::SUCCESS
}
