//! Spellings of decimals: a whole number times a power of ten, or, where there
//! is a step, whole billionths.

use crate::numbers::float;
use crate::random::Random;
use std::cmp::Ordering;

#[derive(Clone, Copy)]
pub struct Number {
    pub digits: i64,
    pub exponent: i32,
}

/// Numbers that ranges are made of.
const USUAL: [Number; 8] = [
    Number { digits: 0, exponent: 0 },
    Number { digits: 1, exponent: 0 },
    Number { digits: -1, exponent: 0 },
    Number { digits: 1, exponent: -1 },
    Number { digits: 5, exponent: -3 },
    Number { digits: -5, exponent: -1 },
    Number { digits: 1, exponent: 2 },
    Number { digits: -205, exponent: -1 },
];
const EXTREME: [Number; 6] = [
    Number { digits: 0, exponent: 280 },
    Number { digits: 999_999_999_999_999_999, exponent: 0 },
    Number { digits: 1, exponent: 280 },
    Number { digits: -1, exponent: 280 },
    Number { digits: 1, exponent: -280 },
    Number { digits: -1, exponent: -280 },
];

pub fn bound(random: &mut Random) -> Number {
    random.mostly(5, &USUAL, &EXTREME)
}

/// A step, mostly above zero.
pub fn step(random: &mut Random) -> Number {
    let number = bound(random);
    if random.once_in(8) {
        return number;
    }
    Number { digits: number.digits.abs().max(1), ..number }
}

/// The same number, or one just beside it.
pub fn beside(random: &mut Random, number: Number) -> Number {
    let mut near = number;
    for _ in 0..random.below(18) {
        match near.digits.checked_mul(10) {
            Some(more) if more.abs() < 1_000_000_000_000_000_000 => {
                near = Number { digits: more, exponent: near.exponent - 1 };
            }
            _ => break,
        }
    }
    near.digits += random.pick(&[0, 0, 1, -1]);
    near
}

/// One of the ways to write the number; not always a valid one.
pub fn spell(random: &mut Random, number: Number) -> String {
    let sign = if number.digits < 0 || (number.digits == 0 && random.once_in(4)) { "-" } else { "" };
    let fraction = random.mostly(3, &[0, 0, 1, 2], &[3, 10, 17]);
    let mut digits = number.digits.unsigned_abs().to_string();
    while digits.len() <= fraction || (digits.len() < 18 && random.once_in(5)) {
        digits.insert(0, '0');
    }
    if fraction > 0 {
        digits.insert(digits.len() - fraction, '.');
    }
    format!("{sign}{digits}{}", exponent(random, number.exponent + fraction as i32))
}

fn exponent(random: &mut Random, value: i32) -> String {
    if value == 0 && !random.once_in(4) {
        return String::new();
    }
    let letter = random.pick(&["e", "E"]);
    let sign = if value < 0 || (value == 0 && random.once_in(2)) { "-" } else { "" };
    let width = random.mostly(4, &[1, 1, 2], &[3]);
    format!("{letter}{sign}{:0width$}", value.abs(), width = width)
}

/// A text as digits and an exponent, if it is a float of at most 18 digits.
pub fn read(text: &str) -> Option<Number> {
    float(text.as_bytes())?;
    let (mantissa, exponent) = text.split_once(['e', 'E']).unwrap_or((text, "0"));
    let fraction = mantissa.split_once('.').map_or(0, |(_, fraction)| fraction.len());
    let digits = mantissa.replace('.', "").parse().ok()?;
    Some(Number { digits, exponent: exponent.parse::<i32>().ok()? - fraction as i32 })
}

// Numbers in whole billionths, for formats with a step

const BILLION: i64 = 1_000_000_000;
/// The greatest number of the shape, in billionths.
const GREATEST: i64 = BILLION * BILLION - 1;

/// `[min]:[max]:step`, mostly of the shape that a step asks for.
pub fn stepped_format(random: &mut Random) -> String {
    const BOUNDS: [i64; 8] = [0, 5 * BILLION, 30 * BILLION, -500_000_000, 1, -2, 20_500_000_000, -7 * BILLION];
    const STEPS: [i64; 8] = [500_000_000, 100_000_000, 1, 2, 3, BILLION, 333_333_333, 4 * BILLION];
    let mut bound = || random.mostly(5, &BOUNDS, &[GREATEST, -GREATEST, GREATEST - 1, 1 - GREATEST]);
    let (a, b) = (bound(), bound());
    let step = random.mostly(5, &STEPS, &[GREATEST, GREATEST - 1, BILLION * 100_000_000, 0, -1]);
    let (low, high, step) = (plain(random, a.min(b)), plain(random, a.max(b)), plain(random, step));
    match random.below(5) {
        0 => format!("::{step}"),
        1 => format!(":{high}:{step}"),
        2 => format!("{low}::{step}"),
        _ => format!("{low}:{high}:{step}"),
    }
}

/// A number near a tie, a limit or a limit's tie of a format with a step; none
/// for other formats.
pub fn stepped_payload(random: &mut Random, format: &str) -> Option<String> {
    let parts: Vec<&str> = format.split(':').collect();
    let [min, max, step] = parts[..] else { return None };
    let read = |part: &str| float(part.as_bytes()).and_then(|number| number.billionths).map(i128::from);
    let (min, max, step) = (read(min), read(max), read(step)?);
    let base = min.or(max).unwrap_or(0);
    let steps_away = base + step * (random.below(9) as i128 - 4);
    let last = base + (max.unwrap_or(base) - base).div_euclid(step.max(1)) * step;
    let near = random.pick(&[min.unwrap_or(base), max.unwrap_or(base), base, last, steps_away]);
    let value = near + random.pick(&[0, step / 2, step / 2, -step / 2, -step / 2]) + random.pick(&[0, 0, 0, 1, -1]);
    let most = i128::from(GREATEST) + i128::from(random.once_in(10));
    Some(plain(random, value.clamp(-most, most) as i64))
}

/// Billionths as a decimal without exponent, more or fewer zeros around; now
/// and then just outside the shape.
fn plain(random: &mut Random, billionths: i64) -> String {
    let sign = if billionths < 0 || (billionths == 0 && random.once_in(6)) { "-" } else { "" };
    let size = billionths.unsigned_abs();
    let width = random.mostly(12, &[1], &[2, 9, 9, 10]);
    let whole = format!("{:0width$}", size / BILLION as u64);
    let digits = format!("{:09}", size % BILLION as u64);
    let mut fraction = digits.trim_end_matches('0').to_string();
    let length = random.mostly(8, &[0, 0, 1], &[9, 9, 9, 10]);
    while fraction.len() < length {
        fraction.push('0');
    }
    let dot = if fraction.is_empty() { "" } else { "." };
    let exponent = random.mostly(40, &[""], &["e0", "E-0", "e1"]);
    format!("{sign}{whole}{dot}{fraction}{exponent}")
}

/// Whether two spelled floats are in the wrong order for a range.
pub fn crossed(low: &str, high: &str) -> bool {
    match (float(low.as_bytes()), float(high.as_bytes())) {
        (Some(low), Some(high)) => low.compare(&high) == Ordering::Greater,
        _ => false,
    }
}

#[cfg(test)]
mod tests {
    use super::*;
    use crate::payload::{is_format, is_payload, Datatype};
    use std::collections::BTreeMap;

    /// Formats in and out of the shape, and payloads at ties, beside them, and
    /// out of the shape, each with every answer that it can have.
    #[test]
    fn ties_and_limits_of_the_shape_come_up() {
        let mut random = Random::new(3);
        let mut seen: BTreeMap<(&str, bool), usize> = BTreeMap::new();
        for _ in 0..6000 {
            let format = stepped_format(&mut random);
            let good = is_format(Datatype::Float, format.as_bytes());
            let parts: Vec<Option<Number>> = format.split(':').map(read).collect();
            let shaped = format.split(':').all(|part| part.is_empty() || billionths(part).is_some());
            *seen.entry((if shaped { "format" } else { "format out of shape" }, good)).or_default() += 1;
            if !good || parts.len() != 3 {
                continue;
            }
            let payload = stepped_payload(&mut random, &format).unwrap();
            let what = kind(&format, &payload);
            let valid = is_payload(Datatype::Float, format.as_bytes(), payload.as_bytes());
            *seen.entry((what, valid)).or_default() += 1;
        }
        let both = ["beside a tie", "elsewhere", "format", "tie"];
        let mut expected: Vec<(&str, bool)> = both.iter().flat_map(|what| [(*what, false), (*what, true)]).collect();
        expected.extend([("format out of shape", false), ("free", true), ("payload out of shape", false)]);
        expected.sort();
        assert_eq!(seen.keys().copied().collect::<Vec<(&str, bool)>>(), expected, "{seen:?}");
        assert!(seen.values().all(|&times| times >= 20), "{seen:?}");
    }

    fn billionths(text: &str) -> Option<i128> {
        float(text.as_bytes()).and_then(|number| number.billionths).map(i128::from)
    }

    fn kind(format: &str, payload: &str) -> &'static str {
        let parts: Vec<Option<i128>> = format.split(':').map(billionths).collect();
        let step = parts[2].unwrap();
        match (billionths(payload), parts[0].or(parts[1])) {
            (None, _) => "payload out of shape",
            (Some(_), None) => "free",
            (Some(value), Some(base)) => match (2 * (value - base) + step).rem_euclid(2 * step) {
                0 => "tie",
                rest if rest <= 2 || rest >= 2 * step - 2 => "beside a tie",
                _ => "elsewhere",
            },
        }
    }
}
