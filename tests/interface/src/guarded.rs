//! Lent memory between guard bytes, and lent arrays between guard values.

use crate::fence::Fence;
use reference::random::Random;

/// Guard bytes on a side.
const GUARD: usize = 64;

/// Bytes that are lent, with guard bytes on both sides, and what all of them were before the call.
pub struct Guarded {
    fence: Fence,
    before: Vec<u8>,
    from: usize,
    len: usize,
}

impl Guarded {
    /// These bytes between random guard bytes, at any alignment; half of the time the fence follows at once.
    pub fn new(random: &mut Random, bytes: &[u8]) -> Guarded {
        let (from, behind) = (GUARD + random.below(16), random.pick(&[0, GUARD]));
        let before = [&random_bytes(random, from), bytes, &random_bytes(random, behind)].concat();
        let mut fence = Fence::new(before.len());
        fence.last_mut(before.len()).copy_from_slice(&before);
        Guarded { fence, before, from, len: bytes.len() }
    }

    fn cells(&self) -> &[u8] {
        self.fence.last(self.before.len())
    }

    pub fn len(&self) -> usize {
        self.len
    }

    /// Only the first so many bytes are lent from now on; those past them are guards.
    pub fn lend(&mut self, len: usize) {
        assert!(self.from + len <= self.before.len());
        self.len = len;
    }

    pub fn bytes(&self) -> &[u8] {
        &self.cells()[self.from..self.from + self.len]
    }

    pub fn lent(&mut self) -> &mut [u8] {
        let (from, end) = (self.from, self.from + self.len);
        &mut self.all().0[from..end]
    }

    /// Every byte, the guards too, with the place of the first that is lent.
    pub fn all(&mut self) -> (&mut [u8], usize) {
        (self.fence.last_mut(self.before.len()), self.from)
    }

    /// Nothing may be altered but the first so many lent bytes.
    pub fn altered_past(&self, allowed: usize) -> Result<(), String> {
        let (cells, before, end) = (self.cells(), &self.before, self.from + allowed);
        if cells[..self.from] == before[..self.from] && cells[end..] == before[end..] {
            return Ok(());
        }
        let differs = |&at: &usize| cells[at] != before[at];
        let place = (0..self.from).chain(end..cells.len()).find(differs);
        let place = place.map_or(0, |at| at as i64 - self.from as i64);
        Err(format!("byte {place} of {} lent ones is altered", self.len))
    }

    /// What the bytes are now is what they were before the next call.
    pub fn accept(&mut self) {
        let len = self.before.len();
        self.before.copy_from_slice(self.fence.last(len));
    }

    /// The bytes become what they were before.
    pub fn restore(&mut self) {
        self.fence.last_mut(self.before.len()).copy_from_slice(&self.before);
    }
}

pub fn random_bytes(random: &mut Random, len: usize) -> Vec<u8> {
    let mut bytes: Vec<u8> = Vec::with_capacity(len + 8);
    while bytes.len() < len {
        bytes.extend(random.bits().to_le_bytes());
    }
    bytes.truncate(len);
    bytes
}

/// The most values that an answer has: HOMIE5_VALUES.
pub const VALUES: usize = homie5::sys::HOMIE5_VALUES;
/// Guard values on each side.
const MARGIN: usize = 4;

/// An array that is lent for the values of an answer.
pub struct Out {
    cells: Vec<u64>,
    len: usize,
}

impl Out {
    pub fn new(len: usize) -> Out {
        Out { cells: (0..MARGIN + len + MARGIN).map(mark).collect(), len }
    }

    /// Of any length up to two past the most values.
    pub fn some(random: &mut Random) -> Out {
        Out::new(random.below(VALUES + 3))
    }

    pub fn lent(&mut self) -> &mut [u64] {
        &mut self.cells[MARGIN..MARGIN + self.len]
    }

    /// Every value, the guards too, with the place of the first that is lent.
    pub fn all(&mut self) -> (&mut [u64], usize) {
        (&mut self.cells, MARGIN)
    }

    /// The values of an answer that has so many, as far as they fit. Nothing else may be altered.
    pub fn values(&self, count: usize) -> Result<&[u64], String> {
        let end = MARGIN + count.min(self.len);
        let kept = |&at: &usize| self.cells[at] != mark(at);
        match (0..MARGIN).chain(end..self.cells.len()).find(kept) {
            None => Ok(&self.cells[MARGIN..end]),
            Some(at) => Err(format!(
                "value {} of an array of {} is altered, where an answer has {count}",
                at as i64 - MARGIN as i64,
                self.len
            )),
        }
    }
}

/// What a cell holds before the call: no value that an answer is likely to have.
fn mark(at: usize) -> u64 {
    0xd1b5_4a32_d192_ed03_u64.wrapping_mul(at as u64 + 1)
}
