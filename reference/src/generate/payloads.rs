//! Formats and payloads of every datatype, near their limits.

use super::edits::{edit, maybe_edit};
use super::floats::{beside, bound, crossed, read, spell, step, stepped_format, stepped_payload, Number};
use super::texts::{broken_utf8, utf8};
use crate::payload::Datatype;
use crate::random::Random;

pub fn datatype(random: &mut Random) -> Datatype {
    random.pick(&Datatype::ALL)
}

// Formats

/// A format for the datatype, mostly valid.
pub fn format(random: &mut Random, datatype: Datatype) -> Vec<u8> {
    let text = match datatype {
        Datatype::Integer => integer_format(random),
        Datatype::Float => float_format(random),
        Datatype::Boolean => random
            .mostly(8, &["false,true", "off,on", "a,b", " ,a"], &["a", "a,a", "a,b,c", ",a", "a,", ","])
            .to_string(),
        Datatype::Enum => enum_format(random),
        Datatype::Color => random
            .mostly(8, &["rgb", "hsv", "xyz", "rgb,hsv", "xyz,rgb,hsv"], &["rgb,rgb", "RGB", "rgb,", "rgb hsv"])
            .to_string(),
        _ => random.pick(&["", "x", "1:2", "any, thing,,"]).to_string(),
    };
    text.into_bytes()
}

/// A format, valid or damaged.
pub fn near_format(random: &mut Random, datatype: Datatype) -> Vec<u8> {
    let good = format(random, datatype);
    match random.below(12) {
        0 => Vec::new(),
        1 => stretched(random, good),
        _ => maybe_edit(random, 4, good),
    }
}

/// A format of 63 to 65 bytes.
fn stretched(random: &mut Random, mut format: Vec<u8>) -> Vec<u8> {
    let length = random.between(63, 65);
    let filler = random.pick(b"0a");
    while format.len() < length {
        format.insert(0, filler);
    }
    format
}

fn integer_text(random: &mut Random) -> i64 {
    if random.once_in(10) {
        return random.pick(&[i64::MIN, i64::MIN + 1, i64::MAX - 1, i64::MAX, 1 << 62]);
    }
    random.below(25) as i64 - 12
}

fn integer_format(random: &mut Random) -> String {
    let (a, b) = (integer_text(random), integer_text(random));
    let (low, high) = if random.once_in(20) { (b, a) } else { (a.min(b), a.max(b)) };
    let step = match random.below(12) {
        0 => i64::MAX.to_string(),
        1 => random.pick(&["0", "-1", "", "02", "4611686018427387904"]).to_string(),
        _ => random.between(1, 7).to_string(),
    };
    range(random, low.to_string(), high.to_string(), step)
}

fn float_format(random: &mut Random) -> String {
    if random.once_in(2) {
        return stepped_format(random);
    }
    let (low, high, step) = (bound(random), bound(random), step(random));
    let (mut low, mut high) = (spell(random, low), spell(random, high));
    if crossed(&low, &high) && !random.once_in(10) {
        std::mem::swap(&mut low, &mut high);
    }
    let step = spell(random, step);
    range(random, low, high, step)
}

fn range(random: &mut Random, low: String, high: String, step: String) -> String {
    match random.below(8) {
        0 => ":".to_string(),
        1 => format!("{low}:"),
        2 => format!(":{high}"),
        3 => format!("::{step}"),
        4 => format!(":{high}:{step}"),
        5 => format!("{low}::{step}"),
        6 => format!("{low}:{high}"),
        _ => format!("{low}:{high}:{step}"),
    }
}

const ENTRIES: [&str; 12] = ["a", "b", "on", "off", "A", " a", "a ", "é", "low", "lower", "😀", "a/b"];

fn enum_format(random: &mut Random) -> String {
    let mut entries = ENTRIES.to_vec();
    random.shuffle(&mut entries);
    entries.truncate(random.between(1, 5));
    if random.once_in(10) {
        entries.push(random.pick(&["", "a", "on", "low"]));
    }
    let mut format = entries.join(",");
    if random.once_in(12) {
        format += &format!(",{}", "y".repeat(random.between(47, 50)));
    }
    format
}

// Payloads

/// A payload for the datatype and format: valid, or near that.
pub fn near_payload(random: &mut Random, datatype: Datatype, format: &[u8]) -> Vec<u8> {
    let good = payload(random, datatype, format);
    match random.below(24) {
        0 => Vec::new(),
        1 => vec![0],
        2 => random.pick(&["true", "1", "a", "[]", "PT1S", "2024-02-29T00:00:00Z", "rgb,1,2,3"]).as_bytes().to_vec(),
        3 | 4 => edit(random, &good),
        _ => good,
    }
}

/// A payload for the datatype and format, mostly valid.
pub fn payload(random: &mut Random, datatype: Datatype, format: &[u8]) -> Vec<u8> {
    match datatype {
        Datatype::String => string(random),
        Datatype::Integer => integer(random, format).into_bytes(),
        Datatype::Float => float(random, format).into_bytes(),
        Datatype::Boolean => {
            random.mostly(8, &["true", "false"], &["TRUE", "False", "on", "true ", "0"]).as_bytes().to_vec()
        }
        Datatype::Enum => enum_entry(random, format),
        Datatype::Color => color(random, format).into_bytes(),
        Datatype::Datetime => datetime(random).into_bytes(),
        Datatype::Duration => duration(random).into_bytes(),
        Datatype::Json => json(random).into_bytes(),
    }
}

fn string(random: &mut Random) -> Vec<u8> {
    match random.below(10) {
        0 => vec![b'a'; random.between(47, 49)],
        1 => broken_utf8(random),
        2 => "é".repeat(random.between(23, 25)).into_bytes(),
        _ => {
            let characters = random.between(1, 6);
            utf8(random, characters)
        }
    }
}

fn integer(random: &mut Random, format: &[u8]) -> String {
    let anchors: Vec<i128> = String::from_utf8_lossy(format).split(':').filter_map(|part| part.parse().ok()).collect();
    let anchor = if anchors.is_empty() || random.once_in(6) {
        random.pick(&[0, i128::from(i64::MIN), i128::from(i64::MAX)])
    } else {
        random.pick(&anchors)
    };
    let value = anchor + random.below(19) as i128 - 9;
    let zeros = "0".repeat(random.mostly(15, &[0], &[1, 2, 28, 29, 46, 47]));
    let sign = if value < 0 || (value == 0 && random.once_in(3)) { "-" } else { "" };
    format!("{sign}{zeros}{}", value.unsigned_abs())
}

fn float(random: &mut Random, format: &[u8]) -> String {
    let text = String::from_utf8_lossy(format).to_string();
    if let Some(payload) = stepped_payload(random, &text).filter(|_| !random.once_in(6)) {
        return payload;
    }
    let anchors: Vec<_> = text.split(':').filter_map(read).collect();
    let anchor = if anchors.is_empty() || random.once_in(6) { bound(random) } else { random.pick(&anchors) };
    let near = beside(random, anchor);
    spell(random, near)
}

fn enum_entry(random: &mut Random, format: &[u8]) -> Vec<u8> {
    let entries: Vec<&[u8]> = format.split(|&b| b == b',').collect();
    match random.below(8) {
        0 => random.pick(&ENTRIES).as_bytes().to_vec(),
        1 => entries[..random.between(1, entries.len())].join(&b','),
        _ => random.pick(&entries).to_vec(),
    }
}

fn color(random: &mut Random, format: &[u8]) -> String {
    let listed = String::from_utf8_lossy(format).to_string();
    let listed: Vec<&str> = listed.split(',').collect();
    let kind = random.mostly(10, &listed, &["rgb", "hsv", "xyz", "RGB", ""]);
    let limits: &[i64] = match kind {
        "rgb" => &[255, 255, 255],
        "hsv" => &[360, 100, 100],
        _ => &[1, 1],
    };
    let mut parts = vec![kind.to_string()];
    parts.extend(limits.iter().map(|&limit| color_number(random, limit)));
    if random.once_in(15) {
        parts.truncate(random.between(1, parts.len()));
    }
    if random.once_in(15) {
        parts.push("0".to_string());
    }
    parts.join(",")
}

fn color_number(random: &mut Random, limit: i64) -> String {
    if random.once_in(8) {
        let end = Number { digits: random.pick(&[0, limit]), exponent: 0 };
        let near = beside(random, end);
        return spell(random, near);
    }
    match random.below(4) {
        0 => "0".to_string(),
        1 => limit.to_string(),
        2 => "0.5".to_string(),
        _ => "5e-1".to_string(),
    }
}

fn datetime(random: &mut Random) -> String {
    let year = random.mostly(25, &["2023", "2024", "1900", "2000", "0000", "9999"], &["24", "02024", "-001"]);
    let month = random.mostly(20, &["01", "02", "02", "04", "11", "12"], &["00", "13", "2"]);
    let day = random.mostly(20, &["01", "28", "28", "29", "30", "31"], &["00", "32", "1"]);
    let hour = random.mostly(25, &["00", "09", "23"], &["24", "99", "1"]);
    let minute = random.mostly(25, &["00", "30", "59"], &["60", "99"]);
    let second = random.mostly(25, &["00", "30", "59"], &["60", "61"]);
    let letter = random.mostly(40, &["T"], &["t", " "]);
    let fraction = fraction(random);
    let zone =
        random.mostly(12, &["", "Z", "+00:00", "-23:59"], &["z", "+24:00", "-00:60", "+0100", "+01", "ZZ", "+1:00"]);
    format!("{year}-{month}-{day}{letter}{hour}:{minute}:{second}{fraction}{zone}")
}

fn fraction(random: &mut Random) -> String {
    match random.below(4) {
        0 => format!(
            ".{}",
            "123456789".repeat(2).chars().take(random.mostly(3, &[1, 8, 9], &[0, 10])).collect::<String>()
        ),
        1 => ".5".to_string(),
        _ => String::new(),
    }
}

fn duration(random: &mut Random) -> String {
    let mut text = random.mostly(12, &["PT"], &["P", "T", "pt", "PT-"]).to_string();
    let mut letters = vec!['H', 'M', 'S'];
    if random.once_in(10) {
        random.shuffle(&mut letters);
    }
    for letter in letters {
        if random.below(3) > 0 {
            let digits = random.mostly(4, &[1, 2, 3], &[0, 8, 9, 10]);
            text += &"907".repeat(4)[..digits];
            text.push(letter);
        }
    }
    text
}

/// An array or object, or something near one.
fn json(random: &mut Random) -> String {
    if random.once_in(6) {
        let levels = random.between(15, 17);
        return "[".repeat(levels) + &"]".repeat(levels);
    }
    let space = random.pick(&["", " ", "\n", "\t\r"]);
    let value = json_value(random, 2);
    match random.below(3) {
        0 => value,
        1 => format!("{space}[{value},{space}0]{space}"),
        _ => format!("{{\"k\"{space}:{value}}}"),
    }
}

const JSON_VALUES: [&str; 20] = [
    "null",
    "true",
    "false",
    "0",
    "-0",
    "-1.5",
    "1e5",
    "1E+5",
    "2e-05",
    "12345678901234567890",
    "\"\"",
    "\"a\"",
    "\"\\u00e9\"",
    "\"\\\\\\\"\\/\\b\\f\\n\\r\\t\"",
    "\"é\"",
    "[]",
    "{}",
    "[ ]",
    "\"\\ud800\"",
    "\"\u{7f}\"",
];
const JSON_FAULTS: [&str; 22] = [
    "nul",
    "True",
    "01",
    "-",
    "1.",
    ".5",
    "+1",
    "1e",
    "1e+",
    "--1",
    "\"\\x\"",
    "\"\\u12\"",
    "\"\t\"",
    "\"",
    "[1,]",
    "[,]",
    "{,}",
    "{\"a\"}",
    "{\"a\":1,}",
    "{a:1}",
    "",
    "'a'",
];

/// A JSON value, now and then a faulty one.
pub fn json_value(random: &mut Random, levels: usize) -> String {
    if levels == 0 || random.below(3) > 0 {
        return random.mostly(30, &JSON_VALUES, &JSON_FAULTS).to_string();
    }
    let items: Vec<String> = (0..random.below(3)).map(|_| json_value(random, levels - 1)).collect();
    if random.once_in(2) {
        return format!("[{}]", items.join(","));
    }
    let members: Vec<String> =
        items.iter().map(|item| format!("\"{}\":{item}", random.pick(&["a", "b", "\\u0061", ""]))).collect();
    format!("{{{}}}", members.join(","))
}
