//! Memory that is damaged between calls, or never was a table: every call returns, answers 6 exactly where the memory
//! is not sound by docs/SOUNDNESS.md, and alters nothing that it may not.

use crate::answer::{self, is_placed, part, refused, told};
use crate::calls::{send, Call, Question};
use crate::guarded::{random_bytes, Guarded, Out, VALUES};
use crate::questions::question;
use crate::raw;
use crate::sound::{is_sound, size, DOMAIN, ENTRY, HEAD, ORDER, RING, ROOM};
use crate::table::List;
use crate::tally::{is_legal, Outcome, Tally};
use homie5::sys::{homie5_number, homie5_place};
use reference::description;
use reference::generate::messages::House;
use reference::generate::texts::id;
use reference::random::Random;
use reference::refusal::NOT_SOUND;
use reference::table::{Message, Table};

pub fn run(seed: u64, length: usize, tally: &mut Tally) -> Outcome {
    let mut damaged = Damaged::of_list(seed, length / 4, tally)?;
    while damaged.tally.calls < length as u64 {
        damaged.some_damage()?;
    }
    Ok(())
}

struct Damaged<'a> {
    random: Random,
    house: House,
    /// What the table was before the first damage, for calls that have something to do with it.
    table: Table,
    memory: Guarded,
    /// The same memory before any damage.
    whole: Vec<u8>,
    tally: &'a mut Tally,
}

impl<'a> Damaged<'a> {
    /// The memory that a list of calls leaves.
    fn of_list(seed: u64, length: usize, tally: &'a mut Tally) -> Result<Damaged<'a>, String> {
        let mut list = List::open(seed, tally, None)?;
        list.fill()?;
        while list.tally.calls < length as u64 {
            list.some_calls()?;
        }
        let (random, house, table, memory) = (list.random, list.house, list.book.table().clone(), list.memory);
        let whole = memory.bytes().to_vec();
        Ok(Damaged { random, house, table, memory, whole, tally })
    }

    /// Some damage, then some calls, mostly while the memory is sound.
    fn some_damage(&mut self) -> Outcome {
        match self.random.below(12) {
            0 => self.anything(),
            1 | 2 => self.memory.lent().copy_from_slice(&self.whole),
            _ => self.hurt(),
        }
        self.memory.accept();
        self.shorter()?;
        let calls = if is_sound(self.memory.bytes()) { self.random.between(5, 40) } else { 2 };
        for _ in 0..calls {
            self.make_some()?;
        }
        if !is_sound(self.memory.bytes()) {
            self.memory.lent().copy_from_slice(&self.whole);
            self.memory.accept();
        }
        Ok(())
    }

    fn make_some(&mut self) -> Outcome {
        let call = self.call();
        let returned = match &call {
            Call::Ask(question) => self.ask(question),
            call => self.write(call),
        };
        returned.map(|returned| self.tally.count(call.name(), returned)).map_err(|fault| format!("{call}: {fault}"))
    }

    fn call(&mut self) -> Call {
        match self.random.below(10) {
            0 | 1 => Call::Back,
            2..=5 => Call::Message(self.message(), self.random.pick(&[0, 1, 1, 255])),
            _ => Call::Ask(question(&mut self.random, &self.house, &self.table)),
        }
    }

    /// A message for the table that was, at any time.
    fn message(&mut self) -> Message {
        let mut message = self.house.message(&mut self.random, &self.table);
        match self.random.below(16) {
            0 => message.time = u64::MAX,
            1 => message.time = self.random.bits(),
            _ => {}
        }
        message
    }

    /// Memory that ends too early, or is not there at all, is not sound.
    fn shorter(&mut self) -> Outcome {
        if !self.random.once_in(8) {
            return Ok(());
        }
        let len = self.memory.len();
        let shorter = self.random.pick(&[0, 1, 5, 64, 127, 2175, ROOM - 1, ROOM, len / 2, len - 1]);
        self.memory.lend(shorter.min(len));
        let outcome = (0..6).try_for_each(|_| self.make_some());
        self.memory.lend(len);
        outcome.map_err(|fault| format!("the first {shorter} bytes: {fault}"))
    }
}

// Calls

impl Damaged<'_> {
    /// The number is one of the call's, a place is told by refusals of descriptions alone, and 6 where it must be.
    fn is_answer(&self, name: &str, returned: u32, sound: bool) -> Outcome {
        let said = told(returned);
        let odd = homie5_place(returned) > 0 && !is_placed(returned);
        if !is_legal(name, homie5_number(returned)) || odd {
            return Err(format!("answers {said}, which is no answer of this call"));
        }
        match (returned == refused(NOT_SOUND), sound) {
            (true, true) => Err("answers 6, and memory is sound".to_string()),
            (false, false) => Err(format!("answers {said}, and memory is not sound")),
            _ => Ok(()),
        }
    }

    fn write(&mut self, call: &Call) -> Result<u32, String> {
        let sound = is_sound(self.memory.bytes());
        let returned = match call {
            Call::Message(message, retained) => send(self.memory.lent(), message, *retained),
            _ => raw::step_back(self.memory.lent()),
        };
        self.is_answer(call.name(), returned, sound)?;
        if let Call::Message(message, _) = call {
            is_fault(message, returned)?;
        }
        if returned != 0 {
            self.memory.altered_past(0)?;
            return Ok(returned);
        }
        let (devices, depth) = (self.memory.bytes()[1], self.memory.bytes()[2]);
        self.memory.altered_past(size(devices.into(), depth.into()))?;
        if !is_sound(self.memory.bytes()) {
            return Err("leaves memory that is not sound".to_string());
        }
        self.memory.accept();
        Ok(returned)
    }

    fn ask(&mut self, question: &Question) -> Result<u32, String> {
        let sound = is_sound(self.memory.bytes());
        let mut out = if self.random.once_in(2) { Out::new(VALUES) } else { Out::some(&mut self.random) };
        let returned = question.ask(self.memory.bytes(), out.lent());
        self.is_answer(question.name(), returned, sound)?;
        self.memory.altered_past(0)?;
        if returned == 0 {
            shows(question, &out, self.memory.bytes())?;
        } else {
            out.values(0)?;
        }
        Ok(returned)
    }
}

/// Whatever memory holds: a refusal that tells a place is that of the description for the device of the topic.
fn is_fault(message: &Message, returned: u32) -> Outcome {
    if !is_placed(returned) {
        return Ok(());
    }
    let own = message.topic.split(|&byte| byte == b'/').nth(2).unwrap_or(b"");
    let expected = answer::returned(&description::read(own, &message.payload));
    if returned == expected {
        return Ok(());
    }
    Err(format!("answers {}; the description's fault is {}", told(returned), told(expected)))
}

/// A value of an answer: a number up to a limit, or a place.
#[derive(Clone, Copy)]
enum Shape {
    UpTo(u64),
    Place,
}

/// What a question shows, when its first value is this one.
fn shapes(question: &Question, first: u64, memory: &[u8]) -> Vec<Shape> {
    use Shape::{Place, UpTo};
    let any = UpTo(u64::MAX);
    let optional = |shapes: &[Shape]| if first == 0 { vec![UpTo(1)] } else { [&[UpTo(1)], shapes].concat() };
    match question {
        Question::DeviceCount => vec![UpTo(memory[1].into())],
        Question::Steps => vec![UpTo(memory[2].into())],
        Question::LastTime | Question::Version(_) => optional(&[any]),
        Question::DeviceAt(_) => vec![Place],
        Question::States(_) => vec![UpTo(4), UpTo(4), any],
        Question::Root(_) | Question::Parent(_) => optional(&[Place]),
        Question::ValuesHeld(_) => vec![UpTo(24)],
        Question::Property(..) => vec![Place, Place, UpTo(8), Place, UpTo(1), UpTo(1)],
        Question::Lane(..) => optional(&[any, Place]),
    }
}

/// Every value is within its limit, every place lies in memory, and nothing else is written.
fn shows(question: &Question, out: &Out, memory: &[u8]) -> Outcome {
    let first = out.values(VALUES)?.first().copied().unwrap_or(0);
    let limits = shapes(question, first, memory);
    let len = |shape: &Shape| if matches!(shape, Shape::Place) { 2 } else { 1 };
    let values = out.values(limits.iter().map(len).sum())?;
    let mut rest = values;
    for shape in &limits {
        let (cells, behind) = rest.split_at(len(shape).min(rest.len()));
        rest = behind;
        let good = match (shape, cells) {
            (_, []) => true,
            (Shape::UpTo(most), cells) => cells[0] <= *most,
            (Shape::Place, [start, end]) => part(memory, *start, *end).is_some(),
            (Shape::Place, cells) => cells[0] <= memory.len() as u64,
        };
        if !good {
            return Err(format!("shows {values:?}"));
        }
    }
    Ok(())
}

// Damage

impl Damaged<'_> {
    /// Some bytes of some part are flipped, zeroed, nudged or made anything.
    fn hurt(&mut self) {
        let random = &mut self.random;
        let len = self.memory.len();
        let (start, end) = match random.below(10) {
            0 => (0, DOMAIN),
            1 => (DOMAIN, HEAD),
            2 => (HEAD, ORDER),
            3 => (ORDER, RING),
            4 => (RING, RING + ENTRY * 64),
            5 => (0, ROOM),
            _ => (ROOM, len),
        };
        let at = random.between(start, end - 1);
        let most = random.pick(&[1, 1, 4, 64, ROOM]).min(len - at);
        let some = random.between(1, most);
        let bytes = &mut self.memory.lent()[at..at + some];
        match random.below(5) {
            0 => bytes[0] ^= 1 << random.below(8),
            1 => bytes.fill(0),
            2 => bytes.fill(random.pick(&[1, 32, 33, 48, 49, 64, 65, 255])),
            3 => bytes[0] = bytes[0].wrapping_add(random.pick(&[1, 255])),
            _ => {
                let other = random_bytes(random, some);
                bytes.copy_from_slice(&other);
            }
        }
    }

    /// Anything but a header that is sound, or nearly so.
    fn anything(&mut self) {
        let bytes = random_bytes(&mut self.random, self.memory.len());
        let [devices, depth] = [1, 2].map(|at| usize::from(self.whole[at]));
        self.memory.lent().copy_from_slice(&bytes);
        let domain = if self.random.once_in(4) { id(&mut self.random) } else { self.house.domain.clone() };
        header(&mut self.random, self.memory.lent(), devices, depth, &domain);
        let ids = self.house.ids.clone();
        let random = &mut self.random;
        for room in self.memory.lent()[ROOM..ROOM * (devices + 1)].chunks_mut(ROOM) {
            let id = random.pick(&ids);
            room[0] = id.len() as u8;
            room[1..=id.len()].copy_from_slice(&id);
        }
        if self.random.once_in(3) {
            self.hurt();
        }
    }
}

/// A sound header of random content, now and then with one part just past its limit.
fn header(random: &mut Random, memory: &mut [u8], devices: usize, depth: usize, domain: &[u8]) {
    let mut order: Vec<u8> = (0..devices as u8).collect();
    random.shuffle(&mut order);
    memory[0] = 72;
    memory[1] = devices as u8;
    memory[2] = depth as u8;
    memory[3] = random.below(depth.max(1)) as u8;
    memory[4] = random.between(0, depth) as u8;
    memory[5] = domain.len() as u8;
    memory[DOMAIN..DOMAIN + domain.len()].copy_from_slice(domain);
    memory[HEAD] = random.between(0, devices) as u8;
    memory[ORDER..ORDER + devices].copy_from_slice(&order);
    for entry in memory[RING..RING + ENTRY * depth].chunks_mut(ENTRY) {
        ring_entry(random, entry, devices);
    }
    if random.once_in(2) {
        past_a_limit(random, memory, devices, depth);
    }
}

fn ring_entry(random: &mut Random, entry: &mut [u8], devices: usize) {
    let offset = random.between(0, ROOM);
    let length = if random.once_in(3) { ROOM - offset } else { random.between(0, ROOM - offset) };
    entry[0] = random.below(devices) as u8;
    entry[1] = random.below(devices) as u8;
    entry[2..4].copy_from_slice(&(offset as u16).to_le_bytes());
    entry[4..6].copy_from_slice(&(length as u16).to_le_bytes());
    entry[8] = random.between(0, devices) as u8;
}

fn past_a_limit(random: &mut Random, memory: &mut [u8], devices: usize, depth: usize) {
    let entry = RING + ENTRY * random.below(depth.max(1));
    let place = random.below(devices);
    match random.below(14) {
        0 => memory[0] = random.pick(&[71, 73, 0]),
        1 => memory[1] = random.pick(&[0, 65, devices as u8 + 1, 255]),
        2 => memory[2] = random.pick(&[65, depth as u8 + 1, 255]),
        3 => memory[3] = depth as u8,
        4 => memory[4] = depth as u8 + 1,
        5 => memory[5] = random.pick(&[0, 33, 255]),
        6 => memory[DOMAIN] = random.pick(b"A/\0\xff"),
        7 => memory[HEAD] = devices as u8 + 1,
        8 => memory[ORDER + place] = devices as u8,
        9 => memory[ORDER + place] = memory[ORDER],
        10 => memory[entry] = devices as u8,
        11 => memory[entry + 1] = devices as u8,
        12 => memory[entry + 4] = memory[entry + 4].wrapping_add(1),
        _ => memory[entry + 8] = devices as u8 + 1,
    }
}
