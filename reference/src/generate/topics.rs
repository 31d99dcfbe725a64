//! Topics of every form, and damaged ones.

use super::edits::maybe_edit;
use super::texts::{id, utf8};
use crate::random::Random;

/// The levels after the first two, for a topic with some form.
fn rest(random: &mut Random) -> Vec<Vec<u8>> {
    let (a, b, c) = (id(random), id(random), id(random));
    let word = |text: &str| text.as_bytes().to_vec();
    match random.below(10) {
        0 => vec![a, word("$state")],
        1 => vec![a, word("$description")],
        2 => vec![a, b, c],
        3 => vec![a, b, c, word("set")],
        4 => vec![a, b, c, word("$target")],
        5 => vec![a, word("$alert"), b],
        6 => vec![
            a,
            word("$log"),
            word(random.mostly(4, &["debug", "info", "warn", "error", "fatal"], &["trace", "Info"])),
        ],
        7 => [vec![word("$broadcast")], some_ids(random)].concat(),
        8 => [vec![a, word(attribute(random))], some_ids(random)].concat(),
        _ => vec![a, [word("$"), b].concat(), other_level(random)],
    }
}

/// First words for the form `other`, and some that have no form.
fn attribute(random: &mut Random) -> &'static str {
    const FREE: [&str; 6] = ["$fw", "$target", "$broadcast", "$set", "$states", "$-"];
    const TAKEN: [&str; 6] = ["$state", "$description", "$alert", "$log", "$", "$A"];
    random.mostly(3, &FREE, &TAKEN)
}

fn some_ids(random: &mut Random) -> Vec<Vec<u8>> {
    (0..random.below(4)).map(|_| id(random)).collect()
}

/// A level of any bytes but the slash; now and then empty.
fn other_level(random: &mut Random) -> Vec<u8> {
    let length = random.below(4);
    utf8(random, length)
}

/// One level taken out, doubled, emptied or put in.
fn damage_levels(random: &mut Random, levels: &mut Vec<Vec<u8>>) {
    let at = random.below(levels.len());
    match random.below(4) {
        0 => {
            levels.remove(at);
        }
        1 => levels.insert(at, levels[at].clone()),
        2 => levels[at].clear(),
        _ => levels.truncate(at),
    }
}

/// A topic for the domain, valid or damaged.
pub fn near_topic(random: &mut Random, domain: &[u8]) -> Vec<u8> {
    let mut levels = vec![domain.to_vec(), b"5".to_vec()];
    levels.extend(rest(random));
    if random.once_in(5) {
        damage_levels(random, &mut levels);
    }
    if let Some(first) = levels.first_mut().filter(|_| random.once_in(12)) {
        *first = id(random);
    }
    let topic = levels.join(&b'/');
    maybe_edit(random, 5, topic)
}
