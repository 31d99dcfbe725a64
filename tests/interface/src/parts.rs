//! The parts of the tests. Each is run for many seeds.

use crate::tally::{Outcome, Tally};
use crate::{damage, descriptions, files, judgements, limits, opening, planted, strings, table};

pub struct Part {
    pub name: &'static str,
    /// How many seeds it has, when so many are asked for.
    pub jobs: fn(u64) -> u64,
    /// A seed, with about so many calls.
    pub run: fn(u64, usize, &mut Tally) -> Outcome,
}

pub const PARTS: [Part; 9] = [
    Part { name: "planted", jobs: planted::jobs, run: planted::run },
    Part { name: "limits", jobs: limits::jobs, run: limits::run },
    Part { name: "opening", jobs: opening::jobs, run: opening::run },
    Part { name: "files", jobs: as_asked, run: files::run },
    Part { name: "judgements", jobs: as_asked, run: judgements::run },
    Part { name: "descriptions", jobs: as_asked, run: descriptions::run },
    Part { name: "strings", jobs: as_asked, run: strings::run },
    Part { name: "table", jobs: as_asked, run: table::run },
    Part { name: "damage", jobs: as_asked, run: damage::run },
];

fn as_asked(seeds: u64) -> u64 {
    seeds
}
