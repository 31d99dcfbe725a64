//! Integers, exact decimals, and rounding to a step.

use std::cmp::Ordering;

/// The most digits of a float before its exponent.
const FLOAT_DIGITS: usize = 18;
const EXPONENT_LIMIT: i32 = 280;
/// The most digits on each side of a float's dot, where there is a step.
const SHAPE_DIGITS: usize = 9;

/// An optional `-`, then digits; the value fits a signed 64-bit number.
pub fn integer(text: &[u8]) -> Option<i64> {
    let (negative, digits) = split_sign(text);
    if !are_digits(digits) {
        return None;
    }
    let short = without_leading_zeros(digits);
    if short.len() > 19 {
        return None;
    }
    let size = short.iter().fold(0i128, |sum, &d| sum * 10 + i128::from(d - b'0'));
    i64::try_from(if negative { -size } else { size }).ok()
}

/// b + s * floor((2(v-b)+s) / (2s)); the step is above 0. The numbers are
/// integers, or floats in whole billionths.
pub fn round_to_step(value: i64, base: i64, step: i64) -> i128 {
    let (v, b, s) = (i128::from(value), i128::from(base), i128::from(step));
    b + s * (2 * (v - b) + s).div_euclid(2 * s)
}

/// A decimal number: its digits as a whole number, times ten to the exponent.
#[derive(Clone, Debug)]
pub struct Decimal {
    negative: bool,
    /// Without leading zeros, so zero has none.
    digits: Vec<u8>,
    exponent: i32,
    /// What it is in whole billionths, if it has the shape that goes with a
    /// step: written without an exponent, at most nine digits before a dot and
    /// nine behind it.
    pub billionths: Option<i64>,
}

/// Optional `-`, digits, optionally `.` and digits, optionally `e` or `E`,
/// optional `-` and 1 to 3 digits.
pub fn float(text: &[u8]) -> Option<Decimal> {
    let (negative, unsigned) = split_sign(text);
    let (mantissa, exponent) = split_exponent(unsigned)?;
    let (whole, fraction) = split_fraction(mantissa)?;
    let digits = [whole, fraction].concat();
    if digits.len() > FLOAT_DIGITS {
        return None;
    }
    let has_exponent = mantissa.len() < unsigned.len();
    Some(Decimal {
        negative,
        digits: without_leading_zeros(&digits).to_vec(),
        exponent: exponent - fraction.len() as i32,
        billionths: billionths(negative, whole, fraction).filter(|_| !has_exponent),
    })
}

/// Digits count as written, leading zeros too.
fn billionths(negative: bool, whole: &[u8], fraction: &[u8]) -> Option<i64> {
    let zeros = SHAPE_DIGITS.checked_sub(fraction.len())?;
    if whole.len() > SHAPE_DIGITS {
        return None;
    }
    let digits = [whole, fraction, &vec![b'0'; zeros]].concat();
    let size = digits.iter().fold(0, |sum, &d| sum * 10 + i64::from(d - b'0'));
    Some(if negative { -size } else { size })
}

impl Decimal {
    pub fn whole(value: u32) -> Decimal {
        float(value.to_string().as_bytes()).expect("a few digits")
    }

    pub fn is_above_zero(&self) -> bool {
        !self.negative && !self.digits.is_empty()
    }

    /// The exact order of two decimals.
    pub fn compare(&self, other: &Decimal) -> Ordering {
        let lower = self.exponent.min(other.exponent);
        let (mine, theirs) = (self.digits_at(lower), other.digits_at(lower));
        match (self.is_below_zero(), other.is_below_zero()) {
            (false, false) => compare_digits(&mine, &theirs),
            (true, true) => compare_digits(&theirs, &mine),
            (false, true) => Ordering::Greater,
            (true, false) => Ordering::Less,
        }
    }

    pub fn is_within(&self, low: &Decimal, high: &Decimal) -> bool {
        self.compare(low) != Ordering::Less && self.compare(high) != Ordering::Greater
    }

    fn is_below_zero(&self) -> bool {
        self.negative && !self.digits.is_empty()
    }

    /// The digits when the number is written with a lower exponent.
    fn digits_at(&self, exponent: i32) -> Vec<u8> {
        let mut digits = self.digits.clone();
        if !digits.is_empty() {
            let zeros = (self.exponent - exponent) as usize;
            digits.resize(digits.len() + zeros, b'0');
        }
        digits
    }
}

/// Whole numbers as digits without leading zeros: the longer is the larger.
fn compare_digits(a: &[u8], b: &[u8]) -> Ordering {
    a.len().cmp(&b.len()).then_with(|| a.cmp(b))
}

fn split_sign(text: &[u8]) -> (bool, &[u8]) {
    match text {
        [b'-', rest @ ..] => (true, rest),
        _ => (false, text),
    }
}

fn split_exponent(text: &[u8]) -> Option<(&[u8], i32)> {
    match text.iter().position(|&b| b == b'e' || b == b'E') {
        None => Some((text, 0)),
        Some(at) => Some((&text[..at], exponent(&text[at + 1..])?)),
    }
}

fn exponent(text: &[u8]) -> Option<i32> {
    let (negative, digits) = split_sign(text);
    if !are_digits(digits) || digits.len() > 3 {
        return None;
    }
    let size = digits.iter().fold(0, |sum, &d| sum * 10 + i32::from(d - b'0'));
    (size <= EXPONENT_LIMIT).then_some(if negative { -size } else { size })
}

fn split_fraction(mantissa: &[u8]) -> Option<(&[u8], &[u8])> {
    let (whole, fraction) = match mantissa.iter().position(|&b| b == b'.') {
        None => (mantissa, None),
        Some(at) => (&mantissa[..at], Some(&mantissa[at + 1..])),
    };
    let good = are_digits(whole) && fraction.is_none_or(are_digits);
    good.then(|| (whole, fraction.unwrap_or(&[])))
}

/// At least one digit and nothing else.
fn are_digits(text: &[u8]) -> bool {
    !text.is_empty() && text.iter().all(u8::is_ascii_digit)
}

fn without_leading_zeros(digits: &[u8]) -> &[u8] {
    let zeros = digits.iter().take_while(|&&d| d == b'0').count();
    &digits[zeros..]
}

#[cfg(test)]
mod tests {
    use super::*;

    #[test]
    fn integers() {
        assert_eq!(integer(b"9223372036854775807"), Some(i64::MAX));
        assert_eq!(integer(b"9223372036854775808"), None);
        assert_eq!(integer(b"-9223372036854775808"), Some(i64::MIN));
        assert_eq!(integer(b"-9223372036854775809"), None);
        assert_eq!(integer(b"-0"), Some(0));
        assert_eq!(integer(b"-00000000000000000000000000000000000000000000017"), Some(-17));
        for bad in ["", "-", "--1", "+1", "1-", " 1", "1.0", "0x1", "100000000000000000000"] {
            assert_eq!(integer(bad.as_bytes()), None, "{bad}");
        }
    }

    #[test]
    fn rounding_goes_to_the_nearest_step_and_ties_upward() {
        assert_eq!(round_to_step(1, 2, 2), 2);
        assert_eq!(round_to_step(0, 2, 2), 0);
        assert_eq!(round_to_step(7, 2, 2), 8);
        assert_eq!(round_to_step(8, 10, 4), 10);
        assert_eq!(round_to_step(12, 10, 4), 14);
        assert_eq!(round_to_step(-3, 0, 2), -2);
        assert_eq!(round_to_step(-4, 0, 3), -3);
        assert_eq!(round_to_step(-5, 0, 3), -6);
        assert_eq!(round_to_step(i64::MIN, i64::MAX, i64::MAX), -i128::from(i64::MAX));
    }

    #[test]
    fn float_shapes() {
        for good in ["0", "-0", "1.5", "1E-2", "1e2", "00.10", "123456789012345678", "1e280", "1e-280", "1e007"] {
            assert!(float(good.as_bytes()).is_some(), "{good}");
        }
        let bad = [
            "",
            "-",
            ".",
            "1.",
            ".1",
            "1e+2",
            "1e",
            "1e-",
            "e1",
            "1e0000",
            "1e281",
            "1e-281",
            "1.2.3",
            "1e1e1",
            "1e1.0",
            "1234567890123456789",
            "0.000000000000000000",
            "+1",
            "NaN",
            " 1",
            "--1",
        ];
        for text in bad {
            assert!(float(text.as_bytes()).is_none(), "{text}");
        }
    }

    #[test]
    fn whole_billionths() {
        let billionths = |text: &str| float(text.as_bytes()).unwrap().billionths;
        for (text, expected) in [
            ("0", 0),
            ("-0", 0),
            ("1", 1_000_000_000),
            ("30.2", 30_200_000_000),
            ("-0.5", -500_000_000),
            ("0.000000001", 1),
            ("000000007.50", 7_500_000_000),
            ("999999999.999999999", 999_999_999_999_999_999),
            ("-999999999.999999999", -999_999_999_999_999_999),
        ] {
            assert_eq!(billionths(text), Some(expected), "{text}");
        }
        for outside in
            ["1e0", "1E2", "10e-1", "0.5e1", "1234567890", "0000000001", "0000000001.5", "1.0000000000", "0.0000000001"]
        {
            assert_eq!(billionths(outside), None, "{outside}");
        }
    }

    fn order(a: &str, b: &str) -> Ordering {
        float(a.as_bytes()).unwrap().compare(&float(b.as_bytes()).unwrap())
    }

    #[test]
    fn exact_order() {
        assert_eq!(order("1e2", "100"), Ordering::Equal);
        assert_eq!(order("-0", "0e280"), Ordering::Equal);
        assert_eq!(order("0.1", "0.10000000000000001"), Ordering::Less);
        assert_eq!(order("-0.1", "-0.10000000000000001"), Ordering::Greater);
        assert_eq!(order("1e-280", "0"), Ordering::Greater);
        assert_eq!(order("-1e280", "1e-280"), Ordering::Less);
        assert_eq!(order("999999999999999999e280", "1e280"), Ordering::Greater);
        assert_eq!(order("12.30e1", "123"), Ordering::Equal);
    }
}
