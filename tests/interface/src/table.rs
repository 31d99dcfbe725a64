//! Long random lists of calls on one table.

use crate::answer::{same_values, told, Answer};
use crate::book::Kept;
use crate::calls::{send, Call, Question};
use crate::guarded::{random_bytes, Guarded, Out, VALUES};
use crate::planted::Planted;
use crate::questions::{all_about, question};
use crate::raw;
use crate::sound::{is_sound, size};
use crate::tally::{Outcome, Tally};
use reference::generate::messages::{damage, House};
use reference::generate::texts::id;
use reference::random::Random;
use reference::table::Message;

/// Tables at the ends of D and J come first.
const CORNERS: [(usize, usize); 8] = [(1, 0), (1, 1), (1, 64), (64, 0), (64, 1), (64, 64), (2, 3), (4, 3)];

/// D and J of a seed. Any 65 seeds past the corners have every D and every J, and 4,160 have every pair.
pub fn dimensions(seed: u64) -> (usize, usize) {
    match CORNERS.get(seed as usize) {
        Some(corner) => *corner,
        None => (1 + (seed % 64 * 27 % 64) as usize, (seed % 65 * 34 % 65) as usize),
    }
}

pub fn run(seed: u64, length: usize, tally: &mut Tally) -> Outcome {
    let mut list = List::open(seed, tally, None)?;
    list.fill()?;
    while list.tally.calls < length as u64 {
        list.some_calls()?;
    }
    list.ask_everything(64)?;
    list.book.replay();
    Ok(())
}

/// The calls so far, the book that they lead to and the memory that the library keeps.
pub struct List<'a> {
    pub random: Random,
    pub house: House,
    pub book: Kept,
    pub memory: Guarded,
    /// The bytes of memory that are the table.
    pub size: usize,
    pub tally: &'a mut Tally,
    planted: Option<Planted>,
}

impl<'a> List<'a> {
    /// A table of the seed's dimensions, in memory that held anything and is now and then too long.
    pub fn open(seed: u64, tally: &'a mut Tally, planted: Option<Planted>) -> Result<List<'a>, String> {
        let mut random = Random::new(seed);
        let (devices, depth) = dimensions(seed);
        let domain = if random.once_in(2) { b"homie".to_vec() } else { id(&mut random) };
        let size = size(devices, depth);
        let spare = random.pick(&[0, 1, 7, 64, 8191, 8192]);
        let bytes = random_bytes(&mut random, size + spare);
        let mut memory = Guarded::new(&mut random, &bytes);
        let opened = raw::open(memory.lent(), &domain, devices, depth);
        tally.count("open", opened);
        if opened != 0 {
            return Err(format!("open, D {devices}, J {depth}: answers {}", told(opened)));
        }
        memory.altered_past(size).map_err(|fault| format!("open: {fault}"))?;
        memory.accept();
        let house = House::new(&mut random, domain.clone(), devices);
        let book = Kept::open(&domain, devices, depth, size + spare).map_err(|n| format!("the book refuses: {n}"))?;
        Ok(List { random, house, book, memory, size, tally, planted })
    }

    /// Makes a call on both and compares.
    pub fn make(&mut self, call: Call) -> Outcome {
        let expected = call.expected(&mut self.book);
        let result = match &call {
            Call::Ask(question) => self.ask(question, &expected),
            _ => self.write(&call, &expected),
        };
        self.tally.count(call.name(), expected.returned);
        result.map_err(|fault| format!("{call}: {fault}"))
    }

    fn write(&mut self, call: &Call, expected: &Answer) -> Outcome {
        let mut returned = match call {
            Call::Message(message, retained) => send(self.memory.lent(), message, *retained),
            _ => raw::step_back(self.memory.lent()),
        };
        let mut out = Out::new(0);
        self.plant(&mut returned, &mut out);
        expected.compare(returned, &out, &[])?;
        if returned != 0 {
            return self.memory.altered_past(0);
        }
        self.memory.altered_past(self.size)?;
        if !is_sound(self.memory.bytes()) {
            return Err("leaves memory that is not sound".to_string());
        }
        self.memory.accept();
        Ok(())
    }

    /// A question is asked with room for all its values, then with any.
    fn ask(&mut self, question: &Question, expected: &Answer) -> Outcome {
        let full = Out::new(VALUES + self.random.below(3));
        let full = self.ask_into(question, expected, full)?;
        let other = Out::some(&mut self.random);
        let other = self.ask_into(question, expected, other)?;
        same_values(expected.len(), &full, &other)
    }

    fn ask_into(&mut self, question: &Question, expected: &Answer, mut out: Out) -> Result<Out, String> {
        let mut returned = question.ask(self.memory.bytes(), out.lent());
        self.plant(&mut returned, &mut out);
        expected.compare(returned, &out, &self.memory.bytes()[..self.size])?;
        self.memory.altered_past(0)?;
        Ok(out)
    }

    pub fn is_planted(&self) -> bool {
        self.planted.as_ref().is_some_and(Planted::is_done)
    }

    fn plant(&mut self, returned: &mut u32, out: &mut Out) {
        if let Some(planted) = &mut self.planted {
            planted.after_call(returned, &mut self.memory, self.size, out);
        }
    }
}

// Which calls

impl List<'_> {
    /// One kind of use for a while.
    pub fn some_calls(&mut self) -> Outcome {
        match self.random.below(18) {
            0 => self.fill(),
            1..=4 => self.several(|list| list.house.message(&mut list.random, list.book.table())),
            5 | 6 => self.several(Self::coming_or_going),
            7..=10 => self.several(|list| list.house.of_property(&mut list.random, list.book.table())),
            11 => self.several(Self::describing),
            12 | 13 => self.steps_back(),
            14 => self.questions(),
            15 | 16 => self.several(Self::living),
            _ => self.ask_everything(3),
        }
    }

    /// Every device of the house comes, two more than there is room for.
    pub fn fill(&mut self) -> Outcome {
        for id in self.house.ids.clone() {
            let mut message = self.house.arrival(&id);
            message.time = self.book.table().last_time().unwrap_or(message.time);
            self.send(message)?;
        }
        Ok(())
    }

    fn several(&mut self, make: impl Fn(&mut Self) -> Message) -> Outcome {
        for _ in 0..self.random.between(5, 60) {
            let mut message = make(self);
            message.time = self.house.time(&mut self.random, self.book.table());
            damage(&mut self.random, &mut message);
            self.send(message)?;
            if self.random.once_in(2) {
                self.question()?;
            }
        }
        Ok(())
    }

    fn coming_or_going(&mut self) -> Message {
        if self.random.once_in(2) {
            self.house.state(&mut self.random)
        } else {
            self.house.removal(&mut self.random, self.book.table())
        }
    }

    /// A description, half of the time one that is likely refused.
    fn describing(&mut self) -> Message {
        if self.random.once_in(2) {
            self.house.describing(&mut self.random, self.book.table())
        } else {
            self.house.describing_badly(&mut self.random, self.book.table())
        }
    }

    /// Lanes are filled, and now and then a description keeps some of them.
    fn living(&mut self) -> Message {
        if self.random.once_in(4) {
            self.house.republishing(&mut self.random, self.book.table())
        } else {
            self.house.of_property(&mut self.random, self.book.table())
        }
    }

    /// Any number but 0 is a yes.
    fn send(&mut self, message: Message) -> Outcome {
        let yes = self.random.mostly(10, &[1], &[2, 128, 255]);
        let retained = if message.retained { yes } else { 0 };
        self.make(Call::Message(message, retained))
    }

    /// Steps back, up to one more than are on offer; what is there then is asked.
    fn steps_back(&mut self) -> Outcome {
        let most = self.book.steps() + 1;
        for _ in 0..self.random.between(1, most) {
            self.make(Call::Back)?;
            if self.random.once_in(3) {
                self.question()?;
            }
        }
        self.make(Call::Ask(Question::Steps))?;
        self.ask_everything(2)
    }

    fn questions(&mut self) -> Outcome {
        for _ in 0..self.random.between(5, 30) {
            self.question()?;
        }
        Ok(())
    }

    fn question(&mut self) -> Outcome {
        let question = question(&mut self.random, &self.house, self.book.table());
        self.make(Call::Ask(question))
    }

    /// All that the table answers, of at most so many devices whole.
    pub fn ask_everything(&mut self, most: usize) -> Outcome {
        let mut questions = vec![Question::DeviceCount, Question::LastTime, Question::Steps];
        let table = self.book.table();
        questions.extend((0..=table.count()).map(Question::DeviceAt));
        let mut ids: Vec<&Vec<u8>> = table.devices.keys().collect();
        self.random.shuffle(&mut ids);
        questions.extend(ids.iter().take(most).flat_map(|id| all_about(table, id)));
        questions.into_iter().try_for_each(|question| self.make(Call::Ask(question)))
    }
}
