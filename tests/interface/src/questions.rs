//! Questions for a table that is known, so that most of them have an answer.

use crate::calls::{Id, Question};
use reference::generate::messages::House;
use reference::generate::texts::near_id;
use reference::random::Random;
use reference::table::Table;

/// Any question.
pub fn question(random: &mut Random, house: &House, table: &Table) -> Question {
    let id = some_id(random, house, table);
    match random.below(12) {
        0 => Question::DeviceCount,
        1 => Question::LastTime,
        2 => Question::Steps,
        3 => Question::DeviceAt(some_number(random, table.count())),
        4 => Question::States(id),
        5 => Question::Root(id),
        6 => Question::Parent(id),
        7 => Question::Version(id),
        8 => Question::ValuesHeld(id),
        9 => property(random, table, id),
        _ => lane(random, house, table),
    }
}

/// A number below the count, at it or far past it.
pub fn some_number(random: &mut Random, count: usize) -> usize {
    const FAR: [usize; 6] = [255, 256, 65_536, 1 << 32, 1 << 63, usize::MAX];
    if random.once_in(12) {
        return random.pick(&FAR).wrapping_add(random.below(2) * random.below(count + 1));
    }
    random.below(count + 2)
}

/// The ID of a device, mostly of one in the table.
fn some_id(random: &mut Random, house: &House, table: &Table) -> Id {
    if random.once_in(20) {
        return near_id(random);
    }
    if table.count() == 0 || random.once_in(15) {
        return random.pick(&house.ids);
    }
    let place = random.below(table.count());
    table.nth(place as u64).map_or(Id::new(), <[u8]>::to_vec)
}

/// An ID of a device that has properties, if a few tries find one.
fn described_id(random: &mut Random, house: &House, table: &Table) -> Id {
    let mut id = some_id(random, house, table);
    for _ in 0..8 {
        if table.property(&id, 0).is_ok() || random.once_in(8) {
            break;
        }
        id = some_id(random, house, table);
    }
    id
}

fn property(random: &mut Random, table: &Table, id: Id) -> Question {
    let count = table.device(&id).map_or(0, |device| device.properties().len());
    let i = some_number(random, count);
    Question::Property(id, i)
}

fn lane(random: &mut Random, house: &House, table: &Table) -> Question {
    let id = described_id(random, house, table);
    let properties = table.device(&id).map_or(&[][..], |device| device.properties());
    let (mut node, mut property) = (b"p0".to_vec(), b"p1".to_vec());
    if !properties.is_empty() {
        let chosen = house.preferred(random, properties);
        (node, property) = (chosen.node, chosen.id);
    }
    match random.below(30) {
        0 => property = near_id(random),
        1 => node = near_id(random),
        2 => std::mem::swap(&mut node, &mut property),
        _ => {}
    }
    Question::Lane([id, node, property], random.mostly(12, &[0, 1, 2], &[3, 128, 255]))
}

/// All about one device: every property and every lane.
pub fn all_about(table: &Table, id: &[u8]) -> Vec<Question> {
    let named = [Question::States, Question::Root, Question::Parent, Question::Version, Question::ValuesHeld];
    let mut questions: Vec<Question> = named.iter().map(|question| question(id.to_vec())).collect();
    let properties = table.device(id).map_or(&[][..], |device| device.properties());
    for (i, property) in properties.iter().enumerate() {
        questions.push(Question::Property(id.to_vec(), i));
        for kind in 0..3 {
            questions.push(Question::Lane([id.to_vec(), property.node.clone(), property.id.clone()], kind));
        }
    }
    questions.push(Question::Property(id.to_vec(), properties.len()));
    questions
}
