//! IDs and UTF-8.

use super::edits::maybe_edit;
use crate::random::Random;

const ID_BYTES: &[u8] = b"abcxyz0189-";

/// A valid ID, mostly short, now and then of 31 or 32 bytes.
pub fn id(random: &mut Random) -> Vec<u8> {
    let length = random.mostly(8, &[1, 2, 3, 5], &[31, 32]);
    (0..length).map(|_| random.pick(ID_BYTES)).collect()
}

/// An ID, or something near one.
pub fn near_id(random: &mut Random) -> Vec<u8> {
    match random.below(10) {
        0 => Vec::new(),
        1 => (0..33).map(|_| random.pick(ID_BYTES)).collect(),
        _ => {
            let good = id(random);
            maybe_edit(random, 2, good)
        }
    }
}

/// Characters of each length, at the ends of their ranges.
const CHARACTERS: [&str; 14] = [
    "a",
    " ",
    "\0",
    "\u{7f}",
    "\u{80}",
    "\u{7ff}",
    "\u{800}",
    "\u{fff}",
    "\u{d7ff}",
    "\u{e000}",
    "\u{ffff}",
    "\u{10000}",
    "\u{10ffff}",
    "\u{feff}",
];

/// Sequences that are no UTF-8.
const BROKEN: [&[u8]; 16] = [
    b"\x80",
    b"\xbf",
    b"\xc0\x80",
    b"\xc1\xbf",
    b"\xc2",
    b"\xc2\x7f",
    b"\xe0\x9f\xbf",
    b"\xe1\x80",
    b"\xed\xa0\x80",
    b"\xed\xbf\xbf",
    b"\xef\xbb",
    b"\xf0\x8f\xbf\xbf",
    b"\xf1\x80\x80",
    b"\xf4\x90\x80\x80",
    b"\xf5\x80\x80\x80",
    b"\xff",
];

pub fn utf8(random: &mut Random, characters: usize) -> Vec<u8> {
    (0..characters).flat_map(|_| random.pick(&CHARACTERS).bytes()).collect()
}

pub fn broken_utf8(random: &mut Random) -> Vec<u8> {
    let (before, after) = (random.below(3), random.below(3));
    [utf8(random, before), random.pick(&BROKEN).to_vec(), utf8(random, after)].concat()
}

/// Text for rule 10: good, broken, or with the mark in front.
pub fn near_utf8(random: &mut Random) -> Vec<u8> {
    let length = random.below(5);
    let good = utf8(random, length);
    match random.below(6) {
        0 => [b"\xef\xbb\xbf".to_vec(), good].concat(),
        1 | 2 => broken_utf8(random),
        _ => maybe_edit(random, 4, good),
    }
}
