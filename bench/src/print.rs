//! The table as text or as Markdown.

use crate::measure::{Figures, Row, Spread};
use std::io::Write;

pub fn head(markdown: bool) {
    if markdown {
        println!("| Row | Unit | Ours | Least–most | Reference | Least–most | Ratio | memcpy |");
        println!("|---|---|---:|---:|---:|---:|---:|---:|");
    } else {
        println!(
            "{:<44} {:>6} {:>9} {:>19} {:>9} {:>19} {:>6} {:>8}",
            "row", "unit", "ours", "least-most", "reference", "least-most", "ratio", "memcpy"
        );
    }
}

/// Three digits that count.
fn number(x: f64) -> String {
    let places = match x {
        x if x < 1.0 => 3,
        x if x < 10.0 => 2,
        x if x < 100.0 => 1,
        _ => 0,
    };
    format!("{x:.places$}")
}

fn range(spread: &Spread, dash: &str) -> String {
    format!("{}{dash}{}", number(spread.least), number(spread.most))
}

pub fn row(row: &Row, figures: &Figures, markdown: bool) {
    let Figures { ours, reference, limit, ratio } = figures;
    let ratio = format!("{:.2}", ratio.median);
    let limit = limit.as_ref().map_or(String::new(), |limit| number(limit.median));
    let (own, other) = (number(ours.median), number(reference.median));
    let (name, unit) = (&row.name, row.unit.word());
    if markdown {
        let (own_range, other_range) = (range(ours, "–"), range(reference, "–"));
        println!("| {name} | {unit} | {own} | {own_range} | {other} | {other_range} | {ratio} | {limit} |");
    } else {
        let (own_range, other_range) = (range(ours, "-"), range(reference, "-"));
        println!("{name:<44} {unit:>6} {own:>9} {own_range:>19} {other:>9} {other_range:>19} {ratio:>6} {limit:>8}");
    }
    let _ = std::io::stdout().flush();
}
