//! The nine datatypes: their formats and the payloads of properties.

use crate::json::{self, Kind};
use crate::numbers::{float, integer, round_to_step, Decimal};
use crate::text::is_utf8;
use std::cmp::Ordering;

/// The most bytes of a property's payload.
pub const PAYLOAD_LIMIT: usize = 48;
/// The most bytes of a format that is kept.
pub const FORMAT_LIMIT: usize = 64;

#[derive(Clone, Copy, Debug, PartialEq, Eq)]
pub enum Datatype {
    String,
    Integer,
    Float,
    Boolean,
    Enum,
    Color,
    Datetime,
    Duration,
    Json,
}

impl Datatype {
    pub const ALL: [Datatype; 9] = [
        Datatype::String,
        Datatype::Integer,
        Datatype::Float,
        Datatype::Boolean,
        Datatype::Enum,
        Datatype::Color,
        Datatype::Datetime,
        Datatype::Duration,
        Datatype::Json,
    ];

    pub fn word(self) -> &'static str {
        match self {
            Datatype::String => "string",
            Datatype::Integer => "integer",
            Datatype::Float => "float",
            Datatype::Boolean => "boolean",
            Datatype::Enum => "enum",
            Datatype::Color => "color",
            Datatype::Datetime => "datetime",
            Datatype::Duration => "duration",
            Datatype::Json => "json",
        }
    }

    pub fn from_word(word: &[u8]) -> Option<Datatype> {
        Datatype::ALL.into_iter().find(|datatype| datatype.word().as_bytes() == word)
    }

    /// Whether the format of such a property is kept.
    pub fn keeps_format(self) -> bool {
        matches!(self, Datatype::Integer | Datatype::Float | Datatype::Boolean | Datatype::Enum | Datatype::Color)
    }

    /// What stands for a missing format; none where a format is required.
    pub fn missing_format(self) -> Option<&'static [u8]> {
        match self {
            Datatype::Integer | Datatype::Float => Some(b":"),
            Datatype::Boolean => Some(b"false,true"),
            Datatype::Enum | Datatype::Color => None,
            _ => Some(b""),
        }
    }
}

/// Whether a format may stand with a datatype.
pub fn is_format(datatype: Datatype, format: &[u8]) -> bool {
    if datatype.keeps_format() && format.len() > FORMAT_LIMIT {
        return false;
    }
    match datatype {
        Datatype::Integer => integer_range(format).is_some(),
        Datatype::Float => float_range(format).is_some(),
        Datatype::Boolean => is_list(format) && entries(format).len() == 2,
        Datatype::Enum => is_list(format),
        Datatype::Color => is_list(format) && entries(format).iter().all(|entry| is_color_type(entry)),
        _ => true,
    }
}

/// Whether a payload is valid for a datatype with a format; the format must
/// itself be valid.
pub fn is_payload(datatype: Datatype, format: &[u8], payload: &[u8]) -> bool {
    if !is_format(datatype, format) || payload.is_empty() || payload.len() > PAYLOAD_LIMIT {
        return false;
    }
    if payload == [0] {
        return datatype == Datatype::String;
    }
    match datatype {
        Datatype::String => is_utf8(payload),
        Datatype::Integer => is_integer_payload(format, payload),
        Datatype::Float => is_float_payload(format, payload),
        Datatype::Boolean => payload == b"true" || payload == b"false",
        Datatype::Enum => entries(format).contains(&payload),
        Datatype::Color => is_color_payload(format, payload),
        Datatype::Datetime => is_datetime(payload),
        Datatype::Duration => is_duration(payload),
        Datatype::Json => {
            json::read(payload).is_some_and(|value| matches!(value.kind, Kind::Array(_) | Kind::Object(_)))
        }
    }
}

fn entries(list: &[u8]) -> Vec<&[u8]> {
    list.split(|&b| b == b',').collect()
}

/// A comma list without empty entries and without repeats.
fn is_list(list: &[u8]) -> bool {
    let entries = entries(list);
    let repeated = |i: usize| entries[..i].contains(&entries[i]);
    entries.iter().all(|entry| !entry.is_empty()) && !(0..entries.len()).any(repeated)
}

// Numbers

/// `[min]:[max][:step]`, each part as it was read.
struct Range<T> {
    min: Option<T>,
    max: Option<T>,
    step: Option<T>,
}

fn range<T>(format: &[u8], read: impl Fn(&[u8]) -> Option<T>) -> Option<Range<T>> {
    let parts: Vec<&[u8]> = format.split(|&b| b == b':').collect();
    let (min, max, step) = match parts.as_slice() {
        [min, max] => (min, max, None),
        [min, max, step] => (min, max, Some(read(step)?)),
        _ => return None,
    };
    Some(Range { min: bound(min, &read)?, max: bound(max, &read)?, step })
}

/// An empty bound is a missing one; another must be a number.
fn bound<T>(part: &[u8], read: impl Fn(&[u8]) -> Option<T>) -> Option<Option<T>> {
    if part.is_empty() {
        Some(None)
    } else {
        read(part).map(Some)
    }
}

fn integer_range(format: &[u8]) -> Option<Range<i64>> {
    let range = range(format, integer)?;
    let crossed = matches!((range.min, range.max), (Some(min), Some(max)) if min > max);
    let good = !crossed && range.step.is_none_or(|step| step > 0);
    good.then_some(range)
}

fn float_range(format: &[u8]) -> Option<Range<Decimal>> {
    let range = range(format, float)?;
    let crossed = match (&range.min, &range.max) {
        (Some(min), Some(max)) => min.compare(max) == Ordering::Greater,
        _ => false,
    };
    let good = !crossed && range.step.as_ref().is_none_or(Decimal::is_above_zero);
    let has_shape = range.step.is_none() || in_billionths(&range).is_some();
    (good && has_shape).then_some(range)
}

/// The range in whole billionths, if all its numbers have that shape.
fn in_billionths(range: &Range<Decimal>) -> Option<Range<i64>> {
    let part = |number: &Option<Decimal>| match number {
        None => Some(None),
        Some(number) => number.billionths.map(Some),
    };
    Some(Range { min: part(&range.min)?, max: part(&range.max)?, step: part(&range.step)? })
}

fn is_integer_payload(format: &[u8], payload: &[u8]) -> bool {
    let (Some(range), Some(value)) = (integer_range(format), integer(payload)) else {
        return false;
    };
    is_in_range(&range, value)
}

/// Whether a number, rounded to the step, is held by min and max. With neither
/// of them every number is.
fn is_in_range(range: &Range<i64>, value: i64) -> bool {
    let rounded = match (range.min.or(range.max), range.step) {
        (Some(base), Some(step)) => round_to_step(value, base, step),
        _ => i128::from(value),
    };
    range.min.is_none_or(|min| i128::from(min) <= rounded) && range.max.is_none_or(|max| rounded <= i128::from(max))
}

/// With a step the payload has the shape too, and is rounded.
fn is_float_payload(format: &[u8], payload: &[u8]) -> bool {
    let (Some(range), Some(value)) = (float_range(format), float(payload)) else {
        return false;
    };
    if range.step.is_some() {
        let (Some(range), Some(value)) = (in_billionths(&range), value.billionths) else {
            return false;
        };
        return is_in_range(&range, value);
    }
    range.min.is_none_or(|min| min.compare(&value) != Ordering::Greater)
        && range.max.is_none_or(|max| value.compare(&max) != Ordering::Greater)
}

// Colours

/// The largest value of each number of a colour type; the smallest is 0.
fn color_limits(kind: &[u8]) -> Option<&'static [u32]> {
    match kind {
        b"rgb" => Some(&[255, 255, 255]),
        b"hsv" => Some(&[360, 100, 100]),
        b"xyz" => Some(&[1, 1]),
        _ => None,
    }
}

fn is_color_type(kind: &[u8]) -> bool {
    color_limits(kind).is_some()
}

fn is_color_payload(format: &[u8], payload: &[u8]) -> bool {
    let parts = entries(payload);
    let (kind, numbers) = (parts[0], &parts[1..]);
    let Some(limits) = color_limits(kind) else {
        return false;
    };
    entries(format).contains(&kind)
        && numbers.len() == limits.len()
        && numbers.iter().zip(limits).all(|(number, &limit)| is_between_zero_and(limit, number))
}

fn is_between_zero_and(limit: u32, number: &[u8]) -> bool {
    float(number).is_some_and(|value| value.is_within(&Decimal::whole(0), &Decimal::whole(limit)))
}

// Dates, times and durations

const MONTH_LENGTHS: [u32; 12] = [31, 28, 31, 30, 31, 30, 31, 31, 30, 31, 30, 31];

/// `YYYY-MM-DDTHH:MM:SS`, optional `.` and 1 to 9 digits, optional zone.
fn is_datetime(text: &[u8]) -> bool {
    text.len() >= 19
        && has_pattern(&text[..19], b"dddd-dd-ddTdd:dd:dd")
        && is_date(&text[..10])
        && is_time(&text[11..19])
        && is_zone(after_fraction(&text[19..]).unwrap_or(b"?"))
}

/// `d` in the pattern stands for a digit, any other byte for itself.
fn has_pattern(text: &[u8], pattern: &[u8]) -> bool {
    let same = |(&b, &p): (&u8, &u8)| if p == b'd' { b.is_ascii_digit() } else { b == p };
    text.len() == pattern.len() && text.iter().zip(pattern).all(same)
}

fn value_of(digits: &[u8]) -> u32 {
    digits.iter().fold(0, |sum, &d| sum * 10 + u32::from(d - b'0'))
}

fn is_date(text: &[u8]) -> bool {
    let (year, month, day) = (value_of(&text[..4]), value_of(&text[5..7]), value_of(&text[8..]));
    (1..=12).contains(&month) && (1..=month_length(year, month)).contains(&day)
}

fn month_length(year: u32, month: u32) -> u32 {
    let leap_day = month == 2 && is_leap(year);
    MONTH_LENGTHS[month as usize - 1] + u32::from(leap_day)
}

fn is_leap(year: u32) -> bool {
    year.is_multiple_of(4) && (!year.is_multiple_of(100) || year.is_multiple_of(400))
}

/// `HH:MM:SS` or `HH:MM`, of digits already.
fn is_time(text: &[u8]) -> bool {
    let numbers: Vec<u32> = text.split(|&b| b == b':').map(value_of).collect();
    numbers[0] <= 23 && numbers[1..].iter().all(|&number| number <= 59)
}

/// What stands after an optional fraction; none when the fraction is faulty.
fn after_fraction(text: &[u8]) -> Option<&[u8]> {
    let [b'.', rest @ ..] = text else {
        return Some(text);
    };
    let digits = leading_digits(rest);
    (1..=9).contains(&digits).then(|| &rest[digits..])
}

fn is_zone(text: &[u8]) -> bool {
    match text {
        [] | b"Z" => true,
        [b'+' | b'-', rest @ ..] => has_pattern(rest, b"dd:dd") && is_time(rest),
        _ => false,
    }
}

fn leading_digits(text: &[u8]) -> usize {
    text.iter().take_while(|b| b.is_ascii_digit()).count()
}

/// `PT`, then at least one of hours, minutes and seconds, in that order.
fn is_duration(text: &[u8]) -> bool {
    let Some(parts) = text.strip_prefix(b"PT") else {
        return false;
    };
    let mut rest = parts;
    for letter in [b'H', b'M', b'S'] {
        rest = after_part(rest, letter);
    }
    rest.is_empty() && !parts.is_empty()
}

/// What stands after 1 to 9 digits and the letter, if they stand there.
fn after_part(text: &[u8], letter: u8) -> &[u8] {
    let digits = leading_digits(text);
    if (1..=9).contains(&digits) && text.get(digits) == Some(&letter) {
        &text[digits + 1..]
    } else {
        text
    }
}

#[cfg(test)]
mod tests {
    use super::*;
    use Datatype::*;

    fn valid(datatype: Datatype, format: &str, payload: &str) -> bool {
        is_payload(datatype, format.as_bytes(), payload.as_bytes())
    }

    fn check(datatype: Datatype, format: &str, good: &[&str], bad: &[&str]) {
        for text in good {
            assert!(valid(datatype, format, text), "{datatype:?} {format} {text}");
        }
        for text in bad {
            assert!(!valid(datatype, format, text), "{datatype:?} {format} {text}");
        }
    }

    #[test]
    fn strings() {
        check(String, "", &["a", " ", "\0", "a\0", "é", &"a".repeat(48)], &["", &"a".repeat(49)]);
        check(String, "any, thing", &["a"], &[]);
        assert!(!is_payload(String, b"", b"\xff"));
        assert!(is_payload(String, b"", b"\xef\xbb\xbf"));
    }

    #[test]
    fn the_byte_zero_is_for_strings_alone() {
        for datatype in Datatype::ALL {
            let format: &[u8] = match datatype {
                Enum => b"\0",
                Color => b"rgb",
                _ => datatype.missing_format().unwrap(),
            };
            assert!(is_format(datatype, format));
            assert_eq!(is_payload(datatype, format, b"\0"), datatype == String);
        }
    }

    #[test]
    fn integers() {
        check(Integer, ":", &["9223372036854775807", "-0", "007"], &["9223372036854775808", "-", "", "1.0"]);
        check(Integer, "2:6:2", &["1", "2", "3", "6"], &["0", "7", "-1"]);
        check(Integer, ":10:4", &["8", "11", "-9223372036854775808"], &["12"]);
        check(Integer, "::5", &["1", "-9223372036854775808"], &["x"]);
        check(Integer, "3:", &["3", "9223372036854775807"], &["2"]);
        check(Integer, ":3", &["3"], &["4"]);
        let zeros = "0".repeat(47);
        check(Integer, ":", &[&(zeros.clone() + "1")], &[&(zeros + "01")]);
    }

    #[test]
    fn floats() {
        check(Float, ":", &["1E-2", "0.5"], &["1.", "1e+2", "", "nan"]);
        check(Float, "0.1:1", &["0.1", "10e-2", "1.0", "0.7"], &["0.0999", "1.00000000000000001"]);
    }

    // K7

    #[test]
    fn floats_are_rounded_to_a_step_and_ties_go_upward() {
        check(
            Float,
            "5:30:0.5",
            &["5", "30", "30.2", "30.249999999", "4.75", "4.9", "17.123456789", "00030.2"],
            &["30.25", "30.5", "4.749999999", "4.5", "0", "-5"],
        );
        // From max, where there is no min.
        check(Float, ":10:4", &["8", "11.999999999", "-999999999.999999999", "7.9"], &["12", "12.000000001"]);
        check(Float, "2:6:2", &["1", "1.000000000", "2", "6.999999999"], &["0.999999999", "7"]);
        // Steps that do not meet max: 1.9 is the last one.
        check(Float, "1:2:0.3", &["0.85", "1", "2", "2.049999999"], &["0.849999999", "2.05", "2.2"]);
        check(Float, "-1:-0.5:0.25", &["-1.125", "-0.6", "-0.375000001"], &["-1.125000001", "-0.375", "0"]);
        // An odd step has no ties: half of it lies between two billionths.
        check(Float, "0:0:0.000000001", &["0", "-0", "-0.0"], &["0.000000001", "-0.000000001"]);
        check(Float, "0:0:0.000000002", &["0", "-0.000000001"], &["0.000000001", "-0.000000002"]);
        check(Float, "0::3", &["-1.5", "999999999.999999999"], &["-1.500000001"]);
        let widest = "-999999999.999999999:999999999.999999999:999999999.999999999";
        check(Float, widest, &["999999999.999999999", "-999999999.999999999", "0", "123.456"], &["1e0"]);
    }

    /// For whole numbers the two rules are one.
    #[test]
    fn floats_are_rounded_as_integers_are() {
        for format in ["2:6:2", ":10:4", "-7::3", "-3:8:5", "0:0:1", ":-4:7", "::6", "-1:9"] {
            for value in -30..=30 {
                let text = value.to_string();
                assert_eq!(valid(Float, format, &text), valid(Integer, format, &text), "{format} {text}");
            }
        }
    }

    #[test]
    fn floats_with_a_step_have_no_exponent_and_at_most_nine_digits_on_each_side() {
        for format in ["::0.5", "0::0.5", ":999999999:0.5", "-999999999:999999999:0.5"] {
            check(
                Float,
                format,
                &["1", "1.5", "000000001", "0.000000000", "999999999"],
                &["1e0", "1E0", "10e-1", "0000000001", "1234567890", "1.0000000000", "1.", ".5", ""],
            );
        }
        // Without min and max the rest passes.
        check(Float, "::1", &["-999999999.999999999", "0.4"], &["1e1"]);
        // Without a step nothing changes.
        check(Float, "0:", &["1e0", "1234567890.5", "0.0000000001"], &["-1e-280"]);
    }

    #[test]
    fn float_formats_with_a_step_have_that_shape() {
        formats(
            Float,
            &["::1", "1::1", ":1:1", "0.5:1:0.000000001", "-999999999.999999999::999999999", "000000001::01", "1e1:20"],
            &[
                "1e1:20:1",
                "1:2e1:1",
                "1:20:1e0",
                "1:20:1E-1",
                "0000000001::1",
                ":1234567890:1",
                "::1234567890",
                "0.0000000000::1",
                ":0.0000000001:1",
                "::0.0000000001",
                "::0",
                "::0.000000000",
                "::-1",
                "::-0",
                "2:1:1",
                "0.000000002:0.000000001:1",
                "1:2:",
                "::",
            ],
        );
    }

    #[test]
    fn colours_are_as_before() {
        check(Color, "rgb", &["rgb,1e2,0.0000000001,0000000255"], &["rgb,1e3,0,0"]);
    }

    #[test]
    fn booleans_and_enums() {
        check(Boolean, "off,on", &["true", "false"], &["TRUE", "on", ""]);
        check(Enum, "Car, Car,bike", &["Car", " Car", "bike"], &["car", "", "Car, Car", "bik"]);
    }

    #[test]
    fn colors() {
        check(
            Color,
            "rgb",
            &["rgb,0,255,1e2", "rgb,-0,0.5,25.5e1"],
            &["rgb,256,0,0", "rgb,1,2", "rgb,1,2,3,4", "rgb", "rgb,,1,2", "xyz,0,0"],
        );
        check(
            Color,
            "hsv,xyz",
            &["hsv,360,100,100", "xyz,1,0"],
            &["hsv,361,0,0", "hsv,0,101,0", "hsv,0,0,100.1", "xyz,1.01,0", "xyz,-0.1,0", "rgb,0,0,0"],
        );
    }

    #[test]
    fn datetimes() {
        check(
            Datetime,
            "",
            &[
                "2024-02-29T00:00:00Z",
                "2000-02-29T23:59:59",
                "0000-02-29T00:00:00",
                "9999-12-31T00:00:00.123456789+23:59",
                "2023-04-30T00:00:00.1-00:00",
            ],
            &[
                "2023-02-29T00:00:00Z",
                "1900-02-29T00:00:00Z",
                "2023-04-31T00:00:00",
                "2023-00-01T00:00:00",
                "2023-13-01T00:00:00",
                "2023-01-00T00:00:00",
                "2023-01-01T24:00:00",
                "2023-01-01T00:60:00",
                "2023-01-01T00:00:60",
                "2023-01-01T00:00:00.",
                "2023-01-01T00:00:00.1234567890",
                "2023-01-01T00:00:00z",
                "2023-01-01T00:00:00+24:00",
                "2023-01-01T00:00:00+00:60",
                "2023-01-01T00:00:00+0000",
                "2023-01-01",
                "2023-01-01t00:00:00",
                "2023-01-01T00:00:00ZZ",
                "",
            ],
        );
    }

    #[test]
    fn durations() {
        check(
            Duration,
            "",
            &["PT5M", "PT12H5M46S", "PT123456789S", "PT0H", "PT1H2S"],
            &["PT", "PT5", "PT1234567890S", "PTM", "PT1S2M", "P1D", "PT1M1M", "pt5m", "PT1.5S", "PT-1S", "T5M", ""],
        );
    }

    #[test]
    fn json_payloads() {
        check(Json, "x", &["[]", " {\"a\":1}\n"], &["1", "null", "\"a\"", "[]x", ""]);
        check(Json, "", &[&("[".repeat(16) + &"]".repeat(16))], &[&("[".repeat(17) + &"]".repeat(17))]);
    }

    fn formats(datatype: Datatype, good: &[&str], bad: &[&str]) {
        for format in good {
            assert!(is_format(datatype, format.as_bytes()), "{datatype:?} {format}");
        }
        for format in bad {
            assert!(!is_format(datatype, format.as_bytes()), "{datatype:?} {format}");
        }
    }

    #[test]
    fn all_formats() {
        formats(
            Integer,
            &[":", "1:1", "-5:5:1", "::5", "2:", ":2:02"],
            &["", "1", "2:1", "1:2:", "1:2:0", "1:2:-1", "a:", "1.5:", "1:2:3:4", " :"],
        );
        formats(
            Float,
            &[":", "1e1:10", "-0:0", "::0.1", "0.5:1e280"],
            &["", "1:0.99", "1.:2", "1:2:0.0", "1:2:-0", "1:2:", "::", "0.5::1e-280"],
        );
        formats(Boolean, &["false,true", "a,b"], &["", "a", "a,a", "a,", ",a", "a,b,c"]);
        formats(Enum, &["a", "a,b,c", " , a"], &["", "a,,b", "a,b,a", "a,", ","]);
        formats(Color, &["rgb", "xyz,hsv,rgb"], &["", "rgb,rgb", "RGB", "rgb,", "cmyk"]);
        formats(String, &["", "x,,", &"y".repeat(100)], &[]);
        formats(Enum, &[&"y".repeat(64)], &[&"y".repeat(65)]);
    }
}
