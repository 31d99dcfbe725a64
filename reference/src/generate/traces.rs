//! Trace files, whole and damaged, and events to append.

use super::edits::edit;
use crate::random::Random;
use crate::trace::{write_file, Event, ENTRY_SIZE, HEADER_SIZE};

fn event(random: &mut Random, time: u64) -> Event {
    let topic_length = random.mostly(12, &[1, 1, 2, 5], &[255, 256, 300]);
    let payload_length = random.mostly(12, &[0, 0, 1, 3], &[255, 256]);
    Event {
        time,
        topic: vec![random.pick(b"ab/\xff"); topic_length],
        retained: random.once_in(2),
        payload: vec![random.pick(b"cd\0\xfe"); payload_length],
    }
}

fn later(random: &mut Random, time: u64) -> u64 {
    time.saturating_add(random.pick(&[0, 0, 1, 255, 1 << 32]))
}

/// Up to four events whose times never fall.
pub fn events(random: &mut Random) -> Vec<Event> {
    let mut time = random.pick(&[0, 5, 4_294_967_290, u64::MAX - 3]);
    let mut events = Vec::new();
    for _ in 0..random.below(5) {
        time = later(random, time);
        events.push(event(random, time));
    }
    events
}

/// A trace, valid or damaged.
pub fn near_trace(random: &mut Random) -> Vec<u8> {
    let events = events(random);
    let file = write_file(&events);
    if random.once_in(2) {
        damaged(random, &events, file)
    } else {
        file
    }
}

pub fn damaged(random: &mut Random, events: &[Event], mut file: Vec<u8>) -> Vec<u8> {
    match random.below(12) {
        0 => file.truncate(random.below(file.len())),
        1 => file.push(0),
        2 => nudge(random, &mut file, 0, HEADER_SIZE),
        3 => return with_text_left(file),
        4 => return reordered(random, events),
        5 => return edit(random, &file),
        _ if events.is_empty() => {}
        _ => {
            let entry = HEADER_SIZE + ENTRY_SIZE * random.below(events.len());
            let place = random.pick(&[0, 8, 12, 14, 16, 20]);
            nudge(random, &mut file, entry + place, 4);
        }
    }
    file
}

/// One byte of a part goes up or down by one, or becomes 255 or 0.
fn nudge(random: &mut Random, file: &mut [u8], from: usize, size: usize) {
    let byte = &mut file[from + random.below(size)];
    *byte = match random.below(4) {
        0 => byte.wrapping_sub(1),
        1 => 0,
        2 => 255,
        _ => byte.wrapping_add(1),
    };
}

/// A last byte of text that belongs to no entry, counted in the header.
fn with_text_left(mut file: Vec<u8>) -> Vec<u8> {
    file.push(b'x');
    let length = u32::from_le_bytes([file[12], file[13], file[14], file[15]]) + 1;
    file[12..16].copy_from_slice(&length.to_le_bytes());
    file
}

/// The events in another order, so that times may fall.
fn reordered(random: &mut Random, events: &[Event]) -> Vec<u8> {
    let mut events = events.to_vec();
    random.shuffle(&mut events);
    write_file(&events)
}

/// A buffer with a trace, its used length and an event to append.
pub struct Appending {
    pub buffer: Vec<u8>,
    pub used: u64,
    pub event: Event,
}

pub fn appending(random: &mut Random) -> Appending {
    let events = events(random);
    let file = write_file(&events);
    let last = events.last().map_or(0, |event| event.time);
    let mut event = near_event(random, last);
    if random.once_in(10) {
        event.topic.clear();
    }
    let used = near_used(random, file.len());
    let mut buffer = if random.once_in(5) { damaged(random, &events, file) } else { file };
    let needed = ENTRY_SIZE + event.topic.len() + event.payload.len();
    let spare = match random.below(4) {
        0 => needed - 1,
        1 => needed,
        2 => needed + random.below(9),
        _ => random.below(60),
    };
    buffer.extend((0..spare).map(|place| place as u8));
    Appending { buffer, used, event }
}

fn near_event(random: &mut Random, last: u64) -> Event {
    let time = if random.once_in(6) { last.saturating_sub(1) } else { later(random, last) };
    event(random, time)
}

fn near_used(random: &mut Random, length: usize) -> u64 {
    let length = length as u64;
    match random.below(30) {
        0 => length + 1,
        1 => length - 1,
        2 => 0,
        3 => length + 2000,
        4 => u64::MAX,
        _ => length,
    }
}
