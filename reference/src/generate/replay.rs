//! Traces for `replay`.

use super::messages::House;
use super::traces::damaged;
use crate::random::Random;
use crate::replay::INPUT_LIMIT;
use crate::table::{Book, ROOM};
use crate::trace::{write_file, Event, ENTRY_SIZE, HEADER_SIZE};

/// A trace of at most so many events, damaged once in five times.
pub fn trace(random: &mut Random, count: usize) -> Vec<u8> {
    let events = events(random, count);
    let file = write_file(&events);
    if random.once_in(5) {
        damaged(random, &events, file)
    } else {
        file
    }
}

fn events(random: &mut Random, count: usize) -> Vec<Event> {
    let mut book = Book::open(b"homie", 4, 3, 8 * ROOM).expect("a good opening");
    let house = House::new(random, b"homie".to_vec(), 4);
    let mut events: Vec<Event> = Vec::new();
    let mut length = HEADER_SIZE;
    for _ in 0..count {
        let mut event = house.message(random, &book.table());
        event.time = event.time.max(events.last().map_or(0, |last| last.time));
        length += ENTRY_SIZE + event.topic.len() + event.payload.len();
        if event.topic.is_empty() || length > INPUT_LIMIT {
            break;
        }
        // A refused message changes nothing in the book.
        let _ = book.message(&event);
        events.push(event);
    }
    events
}
