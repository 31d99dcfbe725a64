//! The C interface beside the second program, call by call.
//!
//!     interface [SEEDS] [LENGTH]          every part, for so many seeds, lists of about so many calls
//!     interface only PART SEED [LENGTH]   one seed of one part again
//!
//! Prints how often each call was answered with each number; with at least as many seeds and calls as stand below, each
//! number that a call can answer must occur. The last line is `N passed, M failed`.

mod answer;
mod book;
mod calls;
mod crew;
mod damage;
mod descriptions;
mod fence;
mod files;
mod guarded;
mod judgements;
mod limits;
mod opening;
mod parts;
mod planted;
mod questions;
mod raw;
mod sound;
mod strings;
mod table;
mod tally;
mod watch;

use crew::{Ended, Job};
use parts::PARTS;
use std::process::ExitCode;
use std::sync::Mutex;
use tally::{Tally, LEGAL};

/// Enough for every D and every J.
const SEEDS: u64 = 73;
const LENGTH: usize = 1500;

fn main() -> ExitCode {
    let words: Vec<String> = std::env::args().skip(1).collect();
    let words: Vec<&str> = words.iter().map(String::as_str).collect();
    let Some(asked) = read_words(&words) else {
        eprintln!("interface: [SEEDS] [LENGTH], or: only PART SEED [LENGTH]");
        return ExitCode::from(2);
    };
    watch::catch_crashes();
    let report = Mutex::new(Report::new(&asked.jobs));
    crew::run(&asked.jobs, |ended| report.lock().expect("no report panics").add(ended));
    let mut report = report.into_inner().expect("no report panics");
    if asked.jobs.len() > 1 {
        report.print_numbers();
    }
    if asked.whole {
        report.count_numbers();
    }
    println!("{} passed, {} failed", report.passed, report.failed);
    ExitCode::from(u8::from(report.failed > 0 || report.passed == 0))
}

/// The jobs, and whether there are enough of them for every answer to occur.
struct Asked {
    jobs: Vec<Job>,
    whole: bool,
}

fn read_words(words: &[&str]) -> Option<Asked> {
    let length = |word: Option<&&str>| word.map_or(Some(LENGTH), |word| word.parse().ok());
    if let ["only", name, seed, rest @ ..] = words {
        let part = PARTS.iter().position(|part| part.name == *name)?;
        let job = Job { part, seed: seed.parse().ok()?, length: length(rest.first())? };
        return Some(Asked { jobs: vec![job], whole: false });
    }
    let seeds = words.first().map_or(Some(SEEDS), |word| word.parse().ok())?;
    let length = length(words.get(1))?;
    let jobs = |(part, kind): (usize, &parts::Part)| {
        (0..(kind.jobs)(seeds)).map(move |seed| Job { part, seed, length }).collect::<Vec<Job>>()
    };
    let jobs = PARTS.iter().enumerate().flat_map(jobs).collect();
    Some(Asked { jobs, whole: seeds >= SEEDS && length >= LENGTH })
}

struct Report {
    passed: u64,
    failed: u64,
    /// Of all parts.
    tally: Tally,
    /// Of each part: seeds still to come, seeds made, calls made.
    parts: Vec<(u64, u64, u64)>,
}

impl Report {
    fn new(jobs: &[Job]) -> Report {
        let left = |part: usize| jobs.iter().filter(|job| job.part == part).count() as u64;
        let parts = (0..PARTS.len()).map(|part| (left(part), 0, 0)).collect();
        Report { passed: 0, failed: 0, tally: Tally::default(), parts }
    }

    fn add(&mut self, ended: Ended) {
        let Ended { job: Job { part, seed, length }, outcome, tally } = ended;
        let name = PARTS[part].name;
        match outcome {
            Ok(()) => self.passed += 1,
            Err(fault) => {
                self.failed += 1;
                println!("{name}, seed {seed}, call {}: {fault}", tally.calls);
                println!("  again: tests/interface/run only {name} {seed} {length}");
            }
        }
        let (left, seeds, calls) = &mut self.parts[part];
        *left -= 1;
        *seeds += 1;
        *calls += tally.calls;
        if *left == 0 {
            println!("{name}: {seeds} seeds, {calls} calls");
        }
        self.tally.add(tally);
    }

    /// How often each number was the answer.
    fn print_numbers(&self) {
        for (call, numbers) in LEGAL {
            let times = |&number: &u8| format!("{number} {}", self.tally.times(call, number));
            println!("{call}: {}", numbers.iter().map(times).collect::<Vec<String>>().join(", "));
        }
    }

    /// A number that a call can answer and never did is a failure.
    fn count_numbers(&mut self) {
        for (call, numbers) in LEGAL {
            for &number in numbers {
                if self.tally.times(call, number) > 0 {
                    self.passed += 1;
                } else {
                    self.failed += 1;
                    println!("{call}: {number} was never the answer");
                }
            }
        }
    }
}
