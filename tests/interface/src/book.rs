//! The plain book, quick enough for long lists.
//!
//! The table is the second program's own: each message goes through its rules. What a step back takes is kept beside
//! it, and from time to time the table is made anew from the standing messages, as the plain book says.

use reference::refusal::{Refusal, NO_STEP};
use reference::table::{Book, Device, Message, Table};
use reference::topic;
use std::collections::VecDeque;

pub struct Kept {
    domain: Vec<u8>,
    devices: usize,
    depth: usize,
    standing: Vec<Message>,
    table: Table,
    back: VecDeque<Undo>,
    /// The plain book itself, for as long as the list is short.
    literal: Option<Book>,
    /// How many messages stand before the table is made anew.
    next_replay: usize,
}

/// What one message changed: a device at most, and the last time.
struct Undo {
    id: Option<Vec<u8>>,
    device: Option<Device>,
    last_time: Option<u64>,
}

/// The longest list for which the plain book itself answers.
const LITERAL: usize = 60;

impl Kept {
    pub fn open(domain: &[u8], devices: usize, depth: usize, size: usize) -> Result<Kept, Refusal> {
        let book = Book::open(domain, devices as u64, depth as u64, size as u64)?;
        Ok(Kept {
            domain: domain.to_vec(),
            devices,
            depth,
            standing: Vec::new(),
            table: Table::new(domain, devices),
            back: VecDeque::new(),
            literal: Some(book),
            next_replay: 2 * LITERAL,
        })
    }

    pub fn table(&self) -> &Table {
        &self.table
    }

    pub fn steps(&self) -> usize {
        self.back.len()
    }

    pub fn message(&mut self, message: &Message) -> Result<(), Refusal> {
        let undo = self.undo(message);
        let answer = self.table.take(message);
        self.hold(|book| book.message(message), answer);
        answer?;
        self.standing.push(message.clone());
        self.back.push_back(undo);
        if self.back.len() > self.depth {
            self.back.pop_front();
        }
        self.replay_when_due();
        Ok(())
    }

    fn undo(&self, message: &Message) -> Undo {
        let id = topic::read(&self.domain, &message.topic).ok().and_then(|topic| topic.ids.first().cloned());
        let device = id.as_ref().and_then(|id| self.table.devices.get(id).cloned());
        Undo { id, device, last_time: self.table.last_time }
    }

    pub fn step_back(&mut self) -> Result<(), Refusal> {
        let undo = self.back.pop_back();
        self.hold(Book::step_back, undo.as_ref().map(|_| ()).ok_or(NO_STEP));
        let Undo { id, device, last_time } = undo.ok_or(NO_STEP)?;
        if let Some(id) = id {
            self.table.devices.remove(&id);
            self.table.devices.extend(device.map(|device| (id, device)));
        }
        self.table.last_time = last_time;
        self.standing.pop();
        Ok(())
    }

    /// The plain book gives the same answer.
    fn hold(&mut self, call: impl Fn(&mut Book) -> Result<(), Refusal>, answer: Result<(), Refusal>) {
        if let Some(book) = &mut self.literal {
            assert_eq!(call(book), answer, "the plain book answers otherwise");
        }
    }

    /// Beside each taken call while the list is short, then each time that it has doubled.
    fn replay_when_due(&mut self) {
        if let Some(book) = &self.literal {
            assert_eq!(book.steps(), self.steps(), "the plain book has other steps on offer");
            assert!(book.table() == self.table, "the plain book has another table");
        }
        if self.standing.len() > LITERAL {
            self.literal = None;
        }
        if self.standing.len() >= self.next_replay {
            self.next_replay *= 2;
            self.replay();
        }
    }

    /// The table is what the standing messages make, one after another, from no devices.
    pub fn replay(&self) {
        let mut table = Table::new(&self.domain, self.devices);
        for message in &self.standing {
            assert_eq!(table.take(message), Ok(()), "a standing message is taken again");
        }
        assert!(table == self.table, "the standing messages make another table");
    }
}
