//! Answers as they should be, and how a library's answer is held against them.

use crate::guarded::{Out, VALUES};
use homie5::sys::{homie5_number, homie5_place};
use reference::lines::hex;
use reference::random::Random;
use reference::refusal::Refusal;
use std::fmt;

/// What an answer shows.
#[derive(Clone)]
pub enum Value {
    /// One number.
    Number(u64),
    /// A place, start and end, of these bytes.
    Text(Vec<u8>),
}

/// What a call returns, and its values.
pub struct Answer {
    pub returned: u32,
    pub values: Vec<Value>,
}

/// What is returned by a call that is refused so: the number, and above it the place, 0 where none is told.
pub fn refused(refusal: Refusal) -> u32 {
    u32::from(refusal.number) + 256 * refusal.place.map_or(0, |place| place as u32)
}

/// What is returned by a call that is answered so.
pub fn returned<T>(answer: &Result<T, Refusal>) -> u32 {
    answer.as_ref().map_or_else(|refusal| refused(*refusal), |_| 0)
}

/// What was returned, as a report shows it: the number, and the place where one is told or should not be.
pub fn told(returned: u32) -> String {
    let (number, place) = (homie5_number(returned), homie5_place(returned));
    if place > 0 || is_placed(returned) {
        format!("{number} at {place}")
    } else {
        number.to_string()
    }
}

/// Whether this is a refusal that tells a place.
pub fn is_placed(returned: u32) -> bool {
    homie5::Refusal::from_returned(returned).is_some_and(|refusal| refusal.place().is_some())
}

impl Answer {
    pub fn refused(refusal: Refusal) -> Answer {
        Answer { returned: refused(refusal), values: Vec::new() }
    }

    pub fn of(answer: Result<Vec<Value>, Refusal>) -> Answer {
        Answer { returned: returned(&answer), values: answer.unwrap_or_default() }
    }

    /// 1 with these numbers, or 0.
    pub fn judged(numbers: Option<Vec<u64>>) -> Answer {
        let returned = u32::from(numbers.is_some());
        Answer { returned, values: numbers.unwrap_or_default().into_iter().map(Value::Number).collect() }
    }

    /// How many numbers the values take.
    pub fn len(&self) -> usize {
        self.values.iter().map(Value::len).sum()
    }

    /// Whether this is what a call returned and wrote; places are places in the bytes given.
    pub fn compare(&self, returned: u32, out: &Out, bytes: &[u8]) -> Result<(), String> {
        let said = told(returned);
        let shown = out.values(self.len()).map_err(|fault| format!("answers {said}: {fault}; expected {self}"))?;
        let mut rest = shown;
        let mut same = returned == self.returned;
        for value in &self.values {
            let (cells, behind) = rest.split_at(value.len().min(rest.len()));
            same = same && value.is_shown(cells, bytes);
            rest = behind;
        }
        if same {
            return Ok(());
        }
        Err(format!("answers {said} with {shown:?}{}; expected {self}", texts(shown, bytes)))
    }
}

impl Value {
    fn len(&self) -> usize {
        match self {
            Value::Number(_) => 1,
            Value::Text(_) => 2,
        }
    }

    /// Of a place that does not fit whole, the start is only held against the bytes' length.
    fn is_shown(&self, cells: &[u64], bytes: &[u8]) -> bool {
        match (self, cells) {
            (_, []) => true,
            (Value::Number(n), cells) => cells == [*n],
            (Value::Text(text), [start, end]) => part(bytes, *start, *end) == Some(text),
            (Value::Text(_), cells) => cells[0] <= bytes.len() as u64,
        }
    }
}

/// The bytes at a place, if it is one.
pub fn part(bytes: &[u8], start: u64, end: u64) -> Option<&[u8]> {
    bytes.get(usize::try_from(start).ok()?..usize::try_from(end).ok()?)
}

/// The bytes between every two numbers that could be a place, for a report.
fn texts(shown: &[u64], bytes: &[u8]) -> String {
    let text = |pair: &[u64]| part(bytes, pair[0], pair[1]).filter(|part| part.len() <= 64).map(hex);
    let all: Vec<String> = shown.windows(2).filter_map(text).collect();
    if all.is_empty() {
        return String::new();
    }
    format!(" (perhaps places of {})", all.join(", "))
}

impl fmt::Display for Answer {
    fn fmt(&self, f: &mut fmt::Formatter) -> fmt::Result {
        write!(f, "{}", told(self.returned))?;
        for value in &self.values {
            match value {
                Value::Number(n) => write!(f, " {n}")?,
                Value::Text(text) => write!(f, " <{}>", hex(text))?,
            }
        }
        Ok(())
    }
}

/// Holds a call that alters nothing against an answer: with room for all values, then with any.
pub fn hold(
    random: &mut Random,
    expected: &Answer,
    bytes: &[u8],
    call: impl Fn(&mut [u64]) -> u32,
) -> Result<(), String> {
    let mut full = Out::new(VALUES + random.below(3));
    let once = call(full.lent());
    expected.compare(once, &full, bytes)?;
    let mut other = Out::some(random);
    let again = call(other.lent());
    expected.compare(again, &other, bytes)?;
    same_values(expected.len(), &full, &other)
}

/// An answer in a short array is the front of the same answer in a long one.
pub fn same_values(count: usize, full: &Out, other: &Out) -> Result<(), String> {
    let (all, some) = (full.values(count)?, other.values(count)?);
    if all.starts_with(some) {
        return Ok(());
    }
    Err(format!("shows {some:?} in a short array and {all:?} in a long one"))
}
