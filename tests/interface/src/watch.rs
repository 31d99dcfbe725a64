//! Where each worker is, so that a call that crashes or never returns can be made again.

use std::fmt::{self, Write};
use std::sync::atomic::{AtomicU64, AtomicUsize, Ordering::Relaxed};

pub const SLOTS: usize = 64;

/// What a worker does: the part's number plus 1, the seed, the calls made.
struct Slot {
    part: AtomicUsize,
    seed: AtomicU64,
    calls: AtomicU64,
}

static AT: [Slot; SLOTS] =
    [const { Slot { part: AtomicUsize::new(0), seed: AtomicU64::new(0), calls: AtomicU64::new(0) } }; SLOTS];

pub fn begin(slot: usize, part: usize, seed: u64) {
    AT[slot].seed.store(seed, Relaxed);
    AT[slot].calls.store(0, Relaxed);
    AT[slot].part.store(part + 1, Relaxed);
}

pub fn end(slot: usize) {
    AT[slot].part.store(0, Relaxed);
}

pub fn moved(slot: usize, calls: u64) {
    AT[slot].calls.store(calls, Relaxed);
}

/// Where every busy worker is: equal to an earlier one where nothing moved.
pub fn places() -> Vec<(usize, u64, u64)> {
    AT.iter().map(|slot| (slot.part.load(Relaxed), slot.seed.load(Relaxed), slot.calls.load(Relaxed))).collect()
}

/// Prints where every busy worker is. It allocates nothing, since a signal may have stopped the program anywhere.
pub fn print_places(what: &str) {
    for slot in &AT {
        let part = slot.part.load(Relaxed);
        if part > 0 {
            let mut line = Line { bytes: [0; 200], len: 0 };
            let name = crate::parts::PARTS[part - 1].name;
            let (seed, calls) = (slot.seed.load(Relaxed), slot.calls.load(Relaxed));
            let _ = writeln!(line, "{name}, seed {seed}, behind call {calls}: {what}");
            unsafe { write(1, line.bytes.as_ptr(), line.len) };
        }
    }
}

struct Line {
    bytes: [u8; 200],
    len: usize,
}

impl fmt::Write for Line {
    fn write_str(&mut self, text: &str) -> fmt::Result {
        let end = (self.len + text.len()).min(self.bytes.len());
        self.bytes[self.len..end].copy_from_slice(&text.as_bytes()[..end - self.len]);
        self.len = end;
        Ok(())
    }
}

extern "C" {
    fn signal(number: i32, handler: extern "C" fn(i32)) -> usize;
    fn write(file: i32, bytes: *const u8, len: usize) -> isize;
    fn _exit(status: i32) -> !;
}

extern "C" fn stopped(number: i32) {
    print_places("a call crashed, here or in another worker");
    unsafe { _exit(128 + number) }
}

/// Signals of a crash, by Linux's numbers: illegal instruction, abort, bus error, arithmetic, memory.
pub fn catch_crashes() {
    for number in [4, 6, 7, 8, 11] {
        unsafe { signal(number, stopped) };
    }
}
