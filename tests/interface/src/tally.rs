//! How often each call was answered with each number.

use crate::watch;
use homie5::sys::homie5_number;
use std::collections::BTreeMap;

/// What every part of the tests answers: nothing, or what differs.
pub type Outcome = Result<(), String>;

#[derive(Default)]
pub struct Tally {
    pub calls: u64,
    answers: BTreeMap<(&'static str, u8), u64>,
    /// Where the watch looks.
    slot: usize,
}

/// The numbers that each call can answer. Each must occur in a whole run.
pub const LEGAL: [(&str, &[u8]); 28] = [
    ("trace_check", &[0, 1, 2]),
    ("trace_read", &[0, 1, 2, 3]),
    ("trace_next", &[0, 1, 2, 3]),
    ("trace_empty", &[0, 4]),
    ("trace_append", &[0, 1, 2, 4, 7, 9]),
    ("topic_read", &[0, 8, 9]),
    ("topic_flag", &[0, 8, 9]),
    ("is_datatype", &[0, 1]),
    ("is_format", &[0, 1]),
    ("is_payload", &[0, 1]),
    ("description_judge", &[0, 21, 22, 23, 24, 25]),
    ("description_read", &[0, 21, 22, 23, 24, 25]),
    ("description_property", &[0, 3, 21, 22, 23, 24, 25]),
    ("description_string", &[0, 21, 22, 25]),
    ("open", &[0, 5]),
    ("message", &[0, 6, 7, 8, 9, 10, 11, 12, 13, 14, 16, 17, 21, 22, 23, 24, 25]),
    ("step_back", &[0, 6, 18]),
    ("device_count", &[0, 6]),
    ("device_at", &[0, 3, 6]),
    ("states", &[0, 6, 12]),
    ("root", &[0, 6, 12]),
    ("parent", &[0, 6, 12]),
    ("version", &[0, 6, 12]),
    ("values_held", &[0, 6, 12]),
    ("property", &[0, 3, 6, 12]),
    ("lane", &[0, 6, 12, 16]),
    ("last_time", &[0, 6]),
    ("steps", &[0, 6]),
];

pub fn is_legal(call: &str, number: u8) -> bool {
    LEGAL.iter().any(|(name, numbers)| *name == call && numbers.contains(&number))
}

impl Tally {
    pub fn new(slot: usize) -> Tally {
        Tally { slot, ..Tally::default() }
    }

    /// One more call is made, and what it returned is known.
    pub fn count(&mut self, call: &'static str, returned: u32) {
        self.calls += 1;
        watch::moved(self.slot, self.calls);
        *self.answers.entry((call, homie5_number(returned))).or_default() += 1;
    }

    pub fn add(&mut self, other: Tally) {
        self.calls += other.calls;
        for (key, times) in other.answers {
            *self.answers.entry(key).or_default() += times;
        }
    }

    pub fn times(&self, call: &'static str, number: u8) -> u64 {
        self.answers.get(&(call, number)).copied().unwrap_or(0)
    }
}
