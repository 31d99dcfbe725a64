//! The values of an answer, read as what they stand for.

use crate::sys::HOMIE5_VALUES;
use crate::Refusal;

/// The values of one answer; those that it does not have are 0.
pub struct Values([u64; HOMIE5_VALUES]);

/// Makes a call, with room for every value: the values of its answer, or the refusal.
pub fn ask(call: impl FnOnce(&mut [u64]) -> u32) -> Result<Values, Refusal> {
    let mut values = [0; HOMIE5_VALUES];
    taken(call(&mut values))?;
    Ok(Values(values))
}

/// Makes a judgement, with room for every value: the values of a yes.
pub fn judge(call: impl FnOnce(&mut [u64]) -> u32) -> Option<Values> {
    let mut values = [0; HOMIE5_VALUES];
    yes(call(&mut values)).then_some(Values(values))
}

/// What a call says that returned this: 0, or a refusal.
pub fn taken(returned: u32) -> Result<(), Refusal> {
    Refusal::from_returned(returned).map_or(Ok(()), Err)
}

/// What a judgement says that returned this.
pub fn yes(returned: u32) -> bool {
    returned != 0
}

impl Values {
    /// The number that stands here.
    pub fn number(&self, at: usize) -> u64 {
        self.0[at]
    }

    /// A count, or a place in memory.
    pub fn size(&self, at: usize) -> usize {
        usize::try_from(self.0[at]).expect("the library counts what lies in memory")
    }

    /// Yes or no.
    pub fn flag(&self, at: usize) -> bool {
        self.0[at] != 0
    }

    /// A version, which stands in two's complement.
    pub fn version(&self, at: usize) -> i64 {
        self.0[at] as i64
    }

    /// One of a list; no list has as many as 255.
    pub fn one_of<T>(&self, at: usize, from_number: impl Fn(u8) -> T) -> T {
        from_number(u8::try_from(self.0[at]).unwrap_or(u8::MAX))
    }

    /// The bytes from the place that stands here to the place behind it.
    pub fn part<'a>(&self, at: usize, bytes: &'a [u8]) -> &'a [u8] {
        &bytes[self.size(at)..self.size(at + 1)]
    }

    /// The ID from the place that stands here to the place behind it.
    pub fn id<'a>(&self, at: usize, bytes: &'a [u8]) -> &'a str {
        id(self.part(at, bytes))
    }
}

/// An ID as text. IDs are ASCII; of other bytes, which only memory from elsewhere shows as one, the front that is UTF-8.
pub fn id(bytes: &[u8]) -> &str {
    bytes.utf8_chunks().next().map_or("", |chunk| chunk.valid())
}
