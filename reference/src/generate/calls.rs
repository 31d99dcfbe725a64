//! Lists of calls on one table.

use super::edits::misshape;
use super::join_within;
use super::messages::House;
use super::texts::near_id;
use crate::calls::{INPUT_LIMIT, MEMORY_LIMIT};
use crate::judge::event_words;
use crate::lines::hex;
use crate::random::Random;
use crate::table::{Book, LaneKind, Message, Table, ROOM};

/// What an opening is given.
struct Opening {
    domain: Vec<u8>,
    devices: u64,
    steps: u64,
    size: u64,
}

/// The lines so far, with the book that they lead to.
struct List<'a> {
    random: &'a mut Random,
    house: House,
    book: Book,
    lines: Vec<String>,
}

pub fn lines(random: &mut Random, count: usize) -> String {
    let opening = opening(random);
    let mut first = before_opening(random);
    first.push(open_line(&opening));
    let lines = match Book::open(&opening.domain, opening.devices, opening.steps, opening.size) {
        Ok(book) => opened(random, &opening, book, first, count),
        Err(_) => not_opened(first),
    };
    join_within(lines.into_iter().take(count), INPUT_LIMIT)
}

fn opening(random: &mut Random) -> Opening {
    let devices = random.mostly(15, &[1, 2, 3, 4], &[5, 63, 64]);
    let steps = random.mostly(15, &[0, 1, 2, 3, 5], &[8, 63, 64]);
    let spare = random.pick(&[0, 0, 1, 7, 64]);
    let domain = random.mostly(6, &["homie"], &["-", "a", "my-house-0123456789-0123456789-x"]);
    let mut opening = Opening {
        domain: domain.as_bytes().to_vec(),
        devices,
        steps,
        size: MEMORY_LIMIT.min(ROOM * (devices + steps + 1) + spare),
    };
    if random.once_in(6) {
        spoil(random, &mut opening);
    }
    opening
}

/// One part of an opening becomes wrong.
fn spoil(random: &mut Random, opening: &mut Opening) {
    match random.below(6) {
        0 => {
            opening.domain =
                random.pick(&["", "Homie", "homie/5", "my-house-0123456789-0123456789-xy"]).as_bytes().to_vec()
        }
        1 => opening.devices = 0,
        2 => (opening.devices, opening.size) = (65, MEMORY_LIMIT),
        3 => (opening.steps, opening.size) = (65, MEMORY_LIMIT),
        4 => opening.size = 0,
        _ => opening.size = ROOM * (opening.devices + opening.steps + 1) - 1,
    }
}

fn open_line(opening: &Opening) -> String {
    format!("open {} {} {} {}", hex(&opening.domain), opening.devices, opening.steps, opening.size)
}

fn before_opening(random: &mut Random) -> Vec<String> {
    const CALLS: [&str; 7] = ["count", "last", "steps", "back", "nth 0", "state 61", "message 1 61 1 -"];
    let count = random.mostly(4, &[0], &[1, 2]);
    (0..count).map(|_| random.pick(&CALLS).to_string()).collect()
}

/// After a refused opening every call is refused, and no opening helps.
fn not_opened(mut lines: Vec<String>) -> Vec<String> {
    let lamp = hex(b"lamp");
    lines.push("count".to_string());
    lines.push(format!("message 1 {} 1 {}", hex(b"homie/5/lamp/$state"), hex(b"init")));
    lines.push(format!("open {} 1 0 16384", hex(b"homie")));
    lines.extend(["back", "last", "steps", "nth 0"].map(str::to_string));
    lines.extend(["state", "root", "parent", "version", "filled"].map(|word| format!("{word} {lamp}")));
    lines.push(format!("property {lamp} 0"));
    lines.push(format!("lane {lamp} {lamp} {lamp} value"));
    lines
}

fn opened(random: &mut Random, opening: &Opening, book: Book, lines: Vec<String>, count: usize) -> Vec<String> {
    let house = House::new(random, opening.domain.clone(), opening.devices as usize);
    let mut list = List { random, house, book, lines };
    if opening.devices > 8 {
        list.fill();
    }
    while list.lines.len() < count {
        list.some_calls();
    }
    list.lines
}

impl List<'_> {
    fn some_calls(&mut self) {
        match self.random.below(42) {
            0..=27 => self.message(),
            28..=30 => self.steps_back(),
            31 => self.ask_everything(),
            32 if self.random.once_in(3) => self.odd_line(),
            _ => self.question(),
        }
    }

    /// Every device of the house comes, two more than there is room for.
    fn fill(&mut self) {
        for id in self.house.ids.clone() {
            self.send(self.house.arrival(&id));
        }
    }

    fn message(&mut self) {
        let message = self.house.message(self.random, &self.book.table());
        self.send(message);
    }

    fn send(&mut self, message: Message) {
        self.lines.push(format!("message {}", event_words(&message)));
        // A refused message changes nothing in the book.
        let _ = self.book.message(&message);
    }

    /// Several steps back, now and then more than are on offer.
    fn steps_back(&mut self) {
        let most = self.book.steps() + 1;
        for _ in 0..self.random.between(1, most.min(6)) {
            self.lines.push("back".to_string());
            let _ = self.book.step_back();
        }
        self.lines.push("steps".to_string());
    }

    /// A line without an answer: misshaped, or a second opening.
    fn odd_line(&mut self) {
        if self.random.once_in(3) {
            return self.lines.push(format!("open {} 1 0 16384", hex(b"homie")));
        }
        let line = self
            .random
            .pick(&["count", "back", "nth 0", "state 6c616d70", "lane 61 62 63 value", "property 61 0"])
            .to_string();
        let line = misshape(self.random, &line);
        self.lines.push(line);
    }

    fn question(&mut self) {
        let table = self.book.table();
        let id = hex(&self.some_id(&table));
        let line = match self.random.below(9) {
            0 => self.random.pick(&["count", "last", "steps"]).to_string(),
            1 => format!("nth {}", self.random.below(table.count() + 2)),
            2 => format!("state {id}"),
            3 => format!("{} {id}", self.random.pick(&["root", "parent"])),
            4 => format!("version {id}"),
            5 => format!("filled {id}"),
            6 => format!("property {id} {}", self.random.pick(&[0, 1, 2, 3, 23, 24])),
            _ => self.lane(&table),
        };
        self.lines.push(line);
    }

    fn some_id(&mut self, table: &Table) -> Vec<u8> {
        if self.random.once_in(15) {
            return near_id(self.random);
        }
        if table.count() == 0 || self.random.once_in(10) {
            return self.random.pick(&self.house.ids);
        }
        let place = self.random.below(table.count());
        table.nth(place as u64).map_or(Vec::new(), <[u8]>::to_vec)
    }

    /// A lane, mostly of a device that has properties.
    fn lane(&mut self, table: &Table) -> String {
        let mut id = self.some_id(table);
        while table.count() > 0 && table.property(&id, 0).is_err() && !self.random.once_in(6) {
            id = self.some_id(table);
        }
        let properties = table.device(&id).map_or(&[][..], |device| device.properties());
        let (mut node, mut property) = (b"p0".to_vec(), b"p1".to_vec());
        if !properties.is_empty() {
            let chosen = self.house.preferred(self.random, properties);
            (node, property) = (chosen.node.clone(), chosen.id.clone());
        }
        if self.random.once_in(12) {
            property = near_id(self.random);
        }
        let kind = self.random.pick(&LaneKind::ALL).word();
        format!("lane {} {} {} {kind}", hex(&id), hex(&node), hex(&property))
    }

    /// All that the table answers, number by number.
    fn ask_everything(&mut self) {
        let table = self.book.table();
        self.lines.extend(["count", "last", "steps"].map(str::to_string));
        for place in 0..table.count() {
            let id = table.nth(place as u64).unwrap_or(b"");
            self.lines.push(format!("nth {place}"));
            self.lines.extend(device_lines(self.random, &table, id));
        }
        self.lines.push(format!("nth {}", table.count()));
    }
}

/// All about a device; of its empty lanes only some.
fn device_lines(random: &mut Random, table: &Table, id: &[u8]) -> Vec<String> {
    let name = hex(id);
    let mut lines = ["state", "root", "parent", "version", "filled"].map(|word| format!("{word} {name}")).to_vec();
    let Ok(device) = table.device(id) else {
        return lines;
    };
    for (place, property) in device.properties().iter().enumerate() {
        if place < 4 || random.once_in(4) {
            lines.push(format!("property {name} {place}"));
        }
        for kind in LaneKind::ALL {
            if device.lane(place, kind).is_some() || random.once_in(8) {
                lines.push(format!("lane {name} {} {} {}", hex(&property.node), hex(&property.id), kind.word()));
            }
        }
    }
    lines.push(format!("property {name} {}", device.properties().len()));
    lines
}
