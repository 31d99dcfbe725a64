//! Trace files.

use crate::data::day;
use crate::measure::{batches, batches_after, copying, Calls, Row, Sides, Unit};
use crate::ours::{self, Values};
use reference::random::Random;
use reference::trace::{self, Event};
use std::hint::black_box;

const EVENTS: usize = 1_000_000;
/// The events of the trace that is appended to, and how many are appended.
const BEFORE: usize = 1_000;
const APPENDED: usize = 16;

pub fn rows() -> Vec<Row> {
    vec![
        Row::new("check of a trace, each event", Unit::Call, check),
        Row::new("read by number, in order", Unit::Call, || reading((0..EVENTS).collect())),
        Row::new("read by number, in any order", Unit::Call, || reading(shuffled())),
        Row::new("next event", Unit::Call, next),
        Row::new("empty trace written", Unit::Call, empty),
        Row::new(format!("append to {BEFORE} events"), Unit::Call, append),
    ]
}

fn file() -> Vec<u8> {
    trace::write_file(&day(EVENTS))
}

fn entries(file: &[u8]) -> Vec<u8> {
    file[..trace::HEADER_SIZE + trace::ENTRY_SIZE * EVENTS].to_vec()
}

fn check() -> Sides {
    let file = file();
    let ours = |file: &mut Vec<u8>| {
        let mut out = Values::default();
        assert_eq!((ours::check(file, &mut out), out[0]), (0, EVENTS as u64));
    };
    let reference = |file: &mut Vec<u8>| assert_eq!(trace::check(file), Ok(EVENTS as u64));
    Sides {
        limit: Some(copying(entries(&file), EVENTS)),
        ours: batches(file.clone(), EVENTS, ours),
        reference: batches(file, EVENTS, reference),
    }
}

fn shuffled() -> Vec<usize> {
    let mut numbers: Vec<usize> = (0..EVENTS).collect();
    Random::new(9).shuffle(&mut numbers);
    numbers
}

/// Reads events one after another in batches.
fn walking(file: Vec<u8>, numbers: Vec<usize>, read: fn(&[u8], usize)) -> Calls {
    let batch = 1000;
    let work = move |(file, numbers, at): &mut (Vec<u8>, Vec<usize>, usize)| {
        for &number in &numbers[*at..*at + batch] {
            read(file, number);
        }
        *at = (*at + batch) % numbers.len();
    };
    batches((file, numbers, 0), batch, work)
}

fn read_reference(file: &[u8], number: usize) {
    black_box(trace::read(file, number as u64).expect("an event"));
}

fn reading(numbers: Vec<usize>) -> Sides {
    let file = file();
    let ours = |file: &[u8], number| ours::answers(0, |out| ours::read(file, number, out));
    Sides {
        limit: None,
        ours: walking(file.clone(), numbers.clone(), ours),
        reference: walking(file, numbers, read_reference),
    }
}

/// The second program has no reading place: it reads by number.
fn next() -> Sides {
    let file = file();
    let ours = |file: &[u8], number| ours::answers(0, |out| ours::next(file, number, out));
    let numbers: Vec<usize> = (0..EVENTS).collect();
    Sides {
        limit: None,
        ours: walking(file.clone(), numbers.clone(), ours),
        reference: walking(file, numbers, read_reference),
    }
}

fn empty() -> Sides {
    let buffer = vec![1; trace::HEADER_SIZE];
    let ours = |buffer: &mut Vec<u8>| ours::answers(0, |out| ours::empty(black_box(buffer), out));
    let reference = |buffer: &mut Vec<u8>| assert_eq!(trace::write_empty(black_box(buffer)), Ok(trace::HEADER_SIZE));
    Sides { ours: batches(buffer.clone(), 1, ours), reference: batches(buffer, 1, reference), limit: None }
}

struct Appending {
    buffer: Vec<u8>,
    trace: Vec<u8>,
    events: Vec<Event>,
}

fn appending(add: fn(&mut [u8], usize, &Event) -> usize) -> Calls {
    let mut all = day(BEFORE + APPENDED);
    let events = all.split_off(BEFORE);
    let trace = trace::write_file(&all);
    let buffer = vec![0; trace.len() + 4096];
    let restore = |state: &mut Appending| state.buffer[..state.trace.len()].copy_from_slice(&state.trace);
    let work = move |state: &mut Appending| {
        let mut used = state.trace.len();
        for event in &state.events {
            used = add(&mut state.buffer, used, event);
        }
    };
    batches_after(Appending { buffer, trace, events }, APPENDED, restore, work)
}

/// The limit: the trace is moved once.
fn append() -> Sides {
    let ours = |buffer: &mut [u8], used: usize, event: &Event| {
        let mut out = Values::default();
        assert_eq!(ours::append(buffer, used, event, &mut out), 0);
        out[0] as usize
    };
    let reference =
        |buffer: &mut [u8], used: usize, event: &Event| trace::append(buffer, used as u64, event).expect("room");
    let limit = copying(trace::write_file(&day(BEFORE)), 1);
    Sides { ours: appending(ours), reference: appending(reference), limit: Some(limit) }
}
