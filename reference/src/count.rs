//! `count`: how often each kind of answer stands in the output of the line
//! programs. Every refusal number is listed, also with 0.

use crate::refusal::ALL;
use std::collections::BTreeMap;

/// Answers that are counted by their first word.
const WORDS: [&str; 18] = [
    "?",
    "yes",
    "no",
    "taken",
    "empty",
    "none",
    "events",
    "used",
    "too",
    "state",
    "description",
    "value",
    "set",
    "target",
    "alert",
    "log",
    "broadcast",
    "other",
];

pub fn run(input: &[u8]) -> String {
    let text = String::from_utf8_lossy(input);
    let mut counts: BTreeMap<String, usize> = BTreeMap::new();
    for line in text.lines() {
        *counts.entry(kind(line)).or_default() += 1;
    }
    let refusals: Vec<String> = ALL.iter().map(|refusal| format!("refused {refusal}")).collect();
    let others = counts.keys().filter(|kind| !refusals.contains(kind));
    let line = |kind: &String| format!("{kind}: {}\n", counts.get(kind).unwrap_or(&0));
    refusals.iter().chain(others).map(line).collect()
}

/// Of a refusal the number, without the place.
fn kind(line: &str) -> String {
    let words: Vec<&str> = line.split(' ').collect();
    let first = words[0];
    if first == "refused" {
        words[..words.len().min(2)].join(" ")
    } else if WORDS.contains(&first) {
        first.to_string()
    } else {
        "an answer with a value".to_string()
    }
}

#[cfg(test)]
mod tests {
    #[test]
    fn counts() {
        let output = super::run(b"refused 3\nyes\nrefused 3\nrefused 22 7\nrefused 22 17\n12 - 1 -\n?\n");
        assert!(output.starts_with("refused 1: 0\nrefused 2: 0\nrefused 3: 2\n"));
        assert!(output.contains("refused 14: 0\nrefused 16: 0\nrefused 17: 0\nrefused 18: 0\nrefused 21: 0\n"));
        assert!(output.ends_with(
            "refused 22: 2\nrefused 23: 0\nrefused 24: 0\nrefused 25: 0\n?: 1\nan answer with a value: 1\nyes: 1\n"
        ));
    }
}
