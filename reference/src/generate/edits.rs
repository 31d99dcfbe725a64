//! Damage by a single edit.

use crate::random::Random;

/// Bytes that matter somewhere in topics, formats, payloads and JSON.
const TELLING: &[u8] = b"aAzZ09-_/$.,:;eE+ \t\n\r\0\x1f\x7f\x80\xbf\xc0\xff\"\\{}[]tfnTZPSHM";

/// One byte inserted, taken out, replaced, doubled or moved.
pub fn edit(random: &mut Random, bytes: &[u8]) -> Vec<u8> {
    let mut edited = bytes.to_vec();
    let at = random.below(bytes.len() + 1);
    let byte = random.pick(TELLING);
    if at == bytes.len() {
        edited.push(byte);
        return edited;
    }
    match random.below(5) {
        0 => edited.insert(at, byte),
        1 => {
            edited.remove(at);
        }
        2 => edited[at] = byte,
        3 => edited.insert(at, bytes[at]),
        _ => edited.swap(at, bytes.len() - 1),
    }
    edited
}

/// Bytes as they are, or once in so many times with an edit.
pub fn maybe_edit(random: &mut Random, times: usize, bytes: Vec<u8>) -> Vec<u8> {
    if random.once_in(times) {
        edit(random, &bytes)
    } else {
        bytes
    }
}

/// A line that no program takes: wrong hex, wrong words, wrong spaces.
pub fn misshape(random: &mut Random, line: &str) -> String {
    match random.below(7) {
        0 => format!("{line} "),
        1 => format!(" {line}"),
        2 => line.replacen(' ', "  ", 1) + " x",
        3 => format!("{line}a -"),
        4 => format!("{line} 0G"),
        5 => line.to_uppercase(),
        _ => String::new(),
    }
}
