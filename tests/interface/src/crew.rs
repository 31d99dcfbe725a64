//! Jobs on all cores, watched.

use crate::parts::{Part, PARTS};
use crate::tally::{Outcome, Tally};
use crate::watch;
use std::panic::{self, AssertUnwindSafe};
use std::sync::atomic::{AtomicUsize, Ordering};
use std::sync::Mutex;
use std::thread;
use std::time::Duration;

/// A seed of a part.
#[derive(Clone, Copy)]
pub struct Job {
    pub part: usize,
    pub seed: u64,
    pub length: usize,
}

/// A job that ended: what differs, and the calls that it made.
pub struct Ended {
    pub job: Job,
    pub outcome: Outcome,
    pub tally: Tally,
}

/// A call that takes longer than this does not return.
const PATIENCE: Duration = Duration::from_secs(120);

/// Makes all jobs; each is told as it ends.
pub fn run(jobs: &[Job], tell: impl Fn(Ended) + Sync) {
    let next = AtomicUsize::new(0);
    let left = Mutex::new(jobs.len());
    let workers = thread::available_parallelism().map_or(1, |n| n.get()).min(watch::SLOTS);
    thread::scope(|scope| {
        for slot in 0..workers {
            let (next, left, tell) = (&next, &left, &tell);
            scope.spawn(move || {
                while let Some(job) = jobs.get(next.fetch_add(1, Ordering::Relaxed)) {
                    tell(make(slot, *job));
                    *left.lock().expect("no worker panics") -= 1;
                }
            });
        }
        scope.spawn(|| wait(&left));
    });
}

fn make(slot: usize, job: Job) -> Ended {
    let part: &Part = &PARTS[job.part];
    let mut tally = Tally::new(slot);
    watch::begin(slot, job.part, job.seed);
    let run = || (part.run)(job.seed, job.length, &mut tally);
    let outcome = panic::catch_unwind(AssertUnwindSafe(run)).unwrap_or(Err("the comparison itself failed".to_string()));
    watch::end(slot);
    Ended { job, outcome, tally }
}

/// Ends the program where nothing moves any more.
fn wait(left: &Mutex<usize>) {
    let tick = Duration::from_millis(50);
    let (mut before, mut still) = (watch::places(), Duration::ZERO);
    while *left.lock().expect("no worker panics") > 0 {
        thread::sleep(tick);
        let now = watch::places();
        still = if now == before { still + tick } else { Duration::ZERO };
        before = now;
        if still > PATIENCE {
            watch::print_places("a call does not return");
            std::process::exit(1);
        }
    }
}
