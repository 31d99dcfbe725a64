//! Seeded pseudo-random input for the three programs: valid and damaged, near
//! the limits. The same seed and count give the same output.
//!
//! The output is never longer than what the program reads, so it may hold
//! fewer lines than asked for.

mod calls;
pub mod descriptions;
pub mod edits;
pub mod escapes;
pub mod faulty;
mod floats;
mod judge;
pub mod messages;
pub mod payloads;
mod replay;
pub mod republish;
pub mod texts;
pub mod topics;
pub mod traces;

use crate::random::Random;

/// The output for a program, or none if there is no such program.
pub fn run(program: &str, seed: u64, count: usize) -> Option<Vec<u8>> {
    let mut random = Random::new(seed);
    match program {
        "judge" => Some(judge::lines(&mut random, count).into_bytes()),
        "calls" => Some(calls::lines(&mut random, count).into_bytes()),
        "replay" => Some(replay::trace(&mut random, count)),
        _ => None,
    }
}

/// The lines as one text, as many as stay within the limit.
fn join_within(lines: impl IntoIterator<Item = String>, limit: usize) -> String {
    let mut text = String::new();
    for line in lines {
        if text.len() + line.len() + 1 > limit {
            break;
        }
        text += &line;
        text.push('\n');
    }
    text
}

#[cfg(test)]
mod tests {
    use super::run;
    use crate::{calls, count, judge, replay};

    fn outputs(program: &str, answer: impl Fn(&[u8]) -> String, seeds: u64, lines: usize) -> String {
        (1..=seeds).map(|seed| answer(&run(program, seed, lines).unwrap())).collect()
    }

    #[test]
    fn every_refusal_number_occurs() {
        let answers = outputs("judge", judge::run, 10, 300) + &outputs("calls", calls::run, 15, 300);
        let counts = count::run(answers.as_bytes());
        for line in counts.lines() {
            assert!(!line.ends_with(": 0"), "{counts}");
        }
        assert!(!answers.contains("too long"));
    }

    #[test]
    fn traces_are_replayed() {
        let answers = outputs("replay", replay::run, 20, 40);
        assert!(answers.contains("events ") && answers.contains("refused 2"));
    }

    #[test]
    fn the_same_seed_gives_the_same_output() {
        for program in ["judge", "calls", "replay"] {
            assert_eq!(run(program, 7, 50), run(program, 7, 50));
            assert_ne!(run(program, 7, 50), run(program, 8, 50));
        }
        assert_eq!(run("else", 7, 50), None);
    }
}
