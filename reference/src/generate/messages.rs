//! Messages for a table that is known, so that most of them are taken.

use super::descriptions::{description, full_description, Plan};
use super::edits::edit;
use super::faulty::faulty_description;
use super::payloads::near_payload;
use super::republish::next_description;
use super::texts::{broken_utf8, id};
use crate::description::Property;
use crate::random::Random;
use crate::table::{Message, Table, STATES};

/// A house: its domain and the IDs that its devices may have. The first is the
/// usual root.
pub struct House {
    pub domain: Vec<u8>,
    pub ids: Vec<Vec<u8>>,
    /// The time before the first message.
    pub start: u64,
    /// Whether descriptions may fill a whole room.
    pub large: bool,
}

impl House {
    /// A house with more IDs than there is room for devices.
    pub fn new(random: &mut Random, domain: Vec<u8>, devices: usize) -> House {
        let mut ids: Vec<Vec<u8>> = vec![b"hub".to_vec(), b"lamp".to_vec()];
        while ids.len() < devices + 2 {
            let id = id(random);
            if !ids.contains(&id) {
                ids.push(id);
            }
        }
        let start = random.pick(&[0, 1000, 4_294_967_290, 1 << 63, u64::MAX - 100]);
        House { domain, ids, start, large: random.once_in(6) }
    }

    fn topic(&self, rest: &[&[u8]]) -> Vec<u8> {
        let first: [&[u8]; 2] = [&self.domain, b"5"];
        [&first, rest].concat().join(&b'/')
    }

    /// A message, mostly one that the table takes.
    pub fn message(&self, random: &mut Random, table: &Table) -> Message {
        let mut message = match random.below(24) {
            _ if table.count() == 0 && !random.once_in(8) => self.state(random),
            0 | 1 => self.state(random),
            2 => self.removal(random, table),
            3 => self.describing(random, table),
            4 => self.passing(random, table),
            5..=7 => self.describing_badly(random, table),
            8..=10 => self.republishing(random, table),
            _ => self.of_property(random, table),
        };
        message.time = self.time(random, table);
        damage(random, &mut message);
        message
    }

    pub fn time(&self, random: &mut Random, table: &Table) -> u64 {
        let last = table.last_time().unwrap_or(self.start);
        if random.once_in(40) {
            return last.saturating_sub(1);
        }
        last.saturating_add(random.pick(&[0, 0, 1, 1, 7]))
    }

    pub fn state(&self, random: &mut Random) -> Message {
        let hub = random.once_in(3);
        let id = if hub { self.ids[0].clone() } else { random.pick(&self.ids) };
        let payload = match random.below(12) {
            0 => random.pick(&["alert", "READY", "ready ", "los", "lostt"]),
            1..=6 if hub => "lost",
            _ => random.pick(&STATES),
        };
        message(self.topic(&[&id, b"$state"]), true, payload.as_bytes().to_vec())
    }

    /// The first message of a device.
    pub fn arrival(&self, id: &[u8]) -> Message {
        Message { time: self.start, ..message(self.topic(&[id, b"$state"]), true, b"init".to_vec()) }
    }

    /// A device goes, or loses its description.
    pub fn removal(&self, random: &mut Random, table: &Table) -> Message {
        let id = self.device(random, table);
        let word = random.pick(&[&b"$state"[..], b"$state", b"$description"]);
        message(self.topic(&[&id, word]), true, Vec::new())
    }

    pub fn describing(&self, random: &mut Random, table: &Table) -> Message {
        let id = self.device(random, table);
        let plan = Plan { own: &id, others: &self.ids, fault: 400 };
        let full = self.large && random.once_in(3);
        let payload = if full { full_description(random, &plan) } else { description(random, &plan) };
        message(self.topic(&[&id, b"$description"]), true, payload)
    }

    /// A description that keeps some of what the device has, and of its lanes.
    pub fn republishing(&self, random: &mut Random, table: &Table) -> Message {
        let id = self.device(random, table);
        let plan = Plan { own: &id, others: &self.ids, fault: 400 };
        let next = table.device(&id).ok().and_then(|device| next_description(random, &plan, device));
        match next {
            Some(payload) => message(self.topic(&[&id, b"$description"]), true, payload),
            None => self.describing(random, table),
        }
    }

    /// A description that is mostly refused.
    pub fn describing_badly(&self, random: &mut Random, table: &Table) -> Message {
        let id = self.device(random, table);
        let plan = Plan { own: &id, others: &self.ids, fault: 60 };
        message(self.topic(&[&id, b"$description"]), true, faulty_description(random, &plan))
    }

    /// The ID of a device, mostly of one in the table.
    fn device(&self, random: &mut Random, table: &Table) -> Vec<u8> {
        if table.count() == 0 || random.once_in(12) {
            return random.pick(&self.ids);
        }
        let place = random.below(table.count());
        table.nth(place as u64).expect("a number below the count").to_vec()
    }

    /// Alerts, logs, broadcasts and others.
    pub fn passing(&self, random: &mut Random, table: &Table) -> Message {
        let id = self.device(random, table);
        let rest: Vec<&[u8]> = match random.below(5) {
            0 => vec![&id, b"$alert", b"low"],
            1 => vec![&id, b"$log", b"warn"],
            2 => vec![b"$broadcast", b"a", b"b"],
            3 => vec![&id, b"$fw", b"\xff"],
            _ => vec![&id, b"$target"],
        };
        let payload = random.pick(&["", "text", "é"]).as_bytes().to_vec();
        let retained = rest[1] == b"$alert" || random.once_in(2);
        message(self.topic(&rest), retained, payload)
    }

    /// A value, target or set, mostly of a property that is there.
    pub fn of_property(&self, random: &mut Random, table: &Table) -> Message {
        let id = self.device(random, table);
        let properties = table.device(&id).map_or(&[][..], |device| device.properties());
        if properties.is_empty() && !random.once_in(4) {
            return self.describing(random, table);
        }
        if properties.is_empty() || random.once_in(25) {
            let topic = self.topic(&[&id, b"p0", random.pick(&[&b"p0"[..], b"nothing"])]);
            return message(topic, true, b"1".to_vec());
        }
        let property = self.preferred(random, properties);
        let payload = match random.below(12) {
            0 => Vec::new(),
            _ => near_payload(random, property.datatype, &property.format),
        };
        let (last, retained): (&[u8], bool) = match random.below(5) {
            0 | 1 if property.settable || random.once_in(4) => (b"set", false),
            2 => (b"$target", true),
            _ => (b"", property.retained),
        };
        let mut rest: Vec<&[u8]> = vec![&id, &property.node, &property.id];
        rest.extend((!last.is_empty()).then_some(last));
        message(self.topic(&rest), retained, payload)
    }

    /// The first few properties come up more often than the others.
    pub fn preferred(&self, random: &mut Random, properties: &[Property]) -> Property {
        let some = properties.len().min(4);
        if random.once_in(4) {
            random.pick(properties)
        } else {
            random.pick(&properties[..some])
        }
    }
}

fn message(topic: Vec<u8>, retained: bool, payload: Vec<u8>) -> Message {
    Message { time: 0, topic, retained, payload }
}

/// Now and then a wrong flag, a damaged topic or payload.
pub fn damage(random: &mut Random, message: &mut Message) {
    match random.below(90) {
        0..=2 => message.retained = !message.retained,
        3 | 4 => message.topic = edit(random, &message.topic),
        5 => message.payload = broken_utf8(random),
        6 => message.payload.splice(0..0, *b"\xef\xbb\xbf").for_each(drop),
        _ => {}
    }
}
