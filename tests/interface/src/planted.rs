//! Faults planted behind the library's back: the comparison must notice each of them.

use crate::answer::is_placed;
use crate::guarded::{Guarded, Out, VALUES};
use crate::sound::{HEAD, ORDER, ROOM};
use crate::table::List;
use crate::tally::{Outcome, Tally};

/// A fault of every call that it fits, from some call on.
pub struct Planted {
    fault: Fault,
    calls_before: usize,
    /// Whether there was such a call.
    done: bool,
}

#[derive(Clone, Copy, Debug)]
enum Fault {
    /// Another number is returned.
    Number,
    /// A refusal of a description tells another place.
    Place,
    /// A refusal that tells nothing has a place.
    Told,
    /// The first value is another.
    Value,
    /// A value past those of the answer is written.
    PastAnswer,
    BeforeArray,
    PastArray,
    BeforeMemory,
    PastMemory,
    /// A byte past the table's own is written.
    Spare,
    /// A question or a refused call writes a byte.
    Refusal,
    /// A taken call leaves memory that is not sound.
    Unsound,
    /// A taken message is not kept.
    Lost,
    /// A taken message changes the ID of the first device.
    Device,
    /// A taken message keeps another time.
    Time,
    /// A taken message offers no step.
    Step,
}

const FAULTS: [Fault; 16] = [
    Fault::Number,
    Fault::Place,
    Fault::Told,
    Fault::Value,
    Fault::PastAnswer,
    Fault::BeforeArray,
    Fault::PastArray,
    Fault::BeforeMemory,
    Fault::PastMemory,
    Fault::Spare,
    Fault::Refusal,
    Fault::Unsound,
    Fault::Lost,
    Fault::Device,
    Fault::Time,
    Fault::Step,
];

pub fn jobs(_seeds: u64) -> u64 {
    FAULTS.len() as u64
}

/// The fault of that number, planted in the lists of several seeds.
pub fn run(number: u64, _length: usize, tally: &mut Tally) -> Outcome {
    let fault = FAULTS[number as usize];
    let mut planted = 0;
    for seed in 0..20 {
        let noticed = is_noticed(fault, seed, 20 + 9 * seed as usize);
        tally.count("planted", 0);
        planted += u64::from(noticed.is_some());
        if noticed == Some(false) {
            return Err(format!("the fault {fault:?} in the list of seed {seed} was not noticed"));
        }
    }
    if planted == 0 {
        return Err(format!("the fault {fault:?} was never planted"));
    }
    Ok(())
}

/// Whether the comparison notices the fault; none if there was no place for it.
fn is_noticed(fault: Fault, seed: u64, calls_before: usize) -> Option<bool> {
    let mut tally = Tally::default();
    let planted = Planted { fault, calls_before, done: false };
    let mut list = List::open(seed, &mut tally, Some(planted)).ok()?;
    let mut outcome = list.fill();
    while outcome.is_ok() && list.tally.calls < 600 {
        outcome = list.some_calls();
    }
    let outcome = outcome.and_then(|()| list.ask_everything(64));
    list.is_planted().then_some(outcome.is_err())
}

impl Planted {
    pub fn is_done(&self) -> bool {
        self.done
    }

    pub fn after_call(&mut self, returned: &mut u32, memory: &mut Guarded, size: usize, out: &mut Out) {
        if self.calls_before > 0 {
            self.calls_before -= 1;
        } else if out.lent().is_empty() {
            self.done |= self.after_writing(returned, memory, size);
        } else {
            self.done |= self.after_question(returned, memory, out);
        }
    }

    /// Whether the fault is one of calls that write, and was planted.
    fn after_writing(&self, returned: &mut u32, memory: &mut Guarded, size: usize) -> bool {
        let taken = *returned == 0;
        let placed = is_placed(*returned);
        let first = ROOM * (1 + usize::from(memory.bytes()[ORDER]));
        match self.fault {
            Fault::Number => *returned ^= 1,
            Fault::Place if placed => *returned = returned.wrapping_add(256),
            Fault::Told if !taken && !placed => *returned += 256,
            Fault::BeforeMemory => flip_before(memory),
            Fault::PastMemory => return flip_past(memory),
            Fault::Spare if size < memory.len() => memory.lent()[size] ^= 1,
            Fault::Refusal if !taken => memory.lent()[HEAD + 23] ^= 1,
            Fault::Unsound if taken => memory.lent()[0] ^= 1,
            Fault::Lost if taken => memory.restore(),
            Fault::Device if taken && memory.bytes()[HEAD] > 0 => memory.lent()[first + 1] ^= 1,
            Fault::Time if taken => memory.lent()[HEAD + 2] ^= 1,
            Fault::Step if taken && memory.bytes()[4] > 0 => memory.lent()[4] -= 1,
            _ => return false,
        }
        true
    }

    /// Whether the fault is one of questions, and was planted.
    fn after_question(&self, returned: &mut u32, memory: &mut Guarded, out: &mut Out) -> bool {
        let len = out.lent().len();
        match self.fault {
            Fault::Number => *returned ^= 1,
            Fault::Told if *returned != 0 => *returned += 256,
            Fault::Value if *returned == 0 => out.lent()[0] = out.lent()[0].wrapping_add(1),
            Fault::PastAnswer if len > VALUES => out.lent()[VALUES] ^= 1,
            Fault::BeforeArray => flip_value(out, false, len),
            Fault::PastArray => flip_value(out, true, len),
            Fault::BeforeMemory => flip_before(memory),
            Fault::PastMemory => return flip_past(memory),
            Fault::Refusal => memory.lent()[HEAD + 23] ^= 1,
            _ => return false,
        }
        true
    }
}

/// The last guard byte before the memory.
fn flip_before(memory: &mut Guarded) {
    let (cells, from) = memory.all();
    cells[from - 1] ^= 1;
}

/// The first guard byte past the memory, if the fence does not stand there.
fn flip_past(memory: &mut Guarded) -> bool {
    let len = memory.len();
    let (cells, from) = memory.all();
    cells.get_mut(from + len).map(|byte| *byte ^= 1).is_some()
}

fn flip_value(out: &mut Out, past: bool, len: usize) {
    let (cells, from) = out.all();
    cells[if past { from + len } else { from - 1 }] ^= 1;
}
