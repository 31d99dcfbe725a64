//! Openings, messages of each kind, and steps back.

use crate::data::*;
use crate::house::{ours_of, reference_of};
use crate::measure::{batches, batches_after, copying, Calls, Row, Sides, Unit};
use crate::ours;
use crate::undo::Table;
use homie5::sys::homie5_size;
use reference::refusal::*;
use reference::trace::Event;
use std::hint::black_box;

#[derive(Clone)]
enum Action {
    Message(Event),
    Back,
}
use Action::{Back, Message};

/// What is measured over and over: the actions before are not timed; the timed ones are all answered so.
#[derive(Clone)]
struct Feed {
    before: Vec<Action>,
    timed: Vec<Action>,
    answer: u32,
}

pub fn rows() -> Vec<Row> {
    let of = |depth: usize| {
        let messages = kinds().into_iter().map(move |(name, feed)| message_row(name, depth, feed));
        [open_row(depth)].into_iter().chain(messages)
    };
    [0, 64].into_iter().flat_map(of).chain(back_rows()).collect()
}

fn open_row(depth: usize) -> Row {
    Row::new(format!("opening, J {depth}"), Unit::Call, move || {
        let mem = vec![0; homie5_size(DEVICES, depth)];
        let ours = move |mem: &mut Vec<u8>| assert_eq!(ours::open(mem, DOMAIN, DEVICES, depth), 0);
        let reference = move |_: &mut ()| drop(black_box(Table::new(DOMAIN, DEVICES, depth)));
        Sides { ours: batches(mem, 1, ours), reference: batches((), 1, reference), limit: None }
    })
}

fn message_row(name: &str, depth: usize, feed: fn() -> Feed) -> Row {
    Row::new(format!("{name}, J {depth}"), Unit::Call, move || sides(depth, &feed()))
}

fn back_rows() -> Vec<Row> {
    let row = |name: &str, feed: fn() -> Feed| Row::new(name, Unit::Call, move || sides(64, &feed()));
    vec![
        row("step back over a value", || backwards(values("level", ""))),
        row("step back over a state", || backwards(each(|id| state(id, "sleeping")))),
        described_row(),
        row("step back over a removal", || backwards(each(|id| state(id, "")))),
        row("value and step back, both", both),
    ]
}

/// What a step back over a description puts back: a room's bytes from the description on.
const DESCRIBED: usize = 8192 - 403;

fn described_row() -> Row {
    Row::new("step back over a description", Unit::Call, || {
        let feed = backwards(each(|id| describe(id, &description(id))));
        Sides { limit: Some(copying(vec![0; DESCRIBED], 1)), ..sides(64, &feed) }
    })
}

fn sides(depth: usize, feed: &Feed) -> Sides {
    Sides { ours: ours_calls(depth, feed.clone()), reference: reference_calls(depth, feed.clone()), limit: None }
}

fn feeding<T: 'static>(table: T, feed: Feed, act: fn(&mut T, &Action) -> u32) -> Calls {
    let batch = feed.timed.len();
    let before = move |(table, feed): &mut (T, Feed)| {
        for action in &feed.before {
            assert_eq!(act(table, action), 0);
        }
    };
    let work = move |(table, feed): &mut (T, Feed)| {
        for action in &feed.timed {
            assert_eq!(act(table, action), feed.answer);
        }
    };
    if feed.before.is_empty() {
        batches((table, feed), batch, work)
    } else {
        batches_after((table, feed), batch, before, work)
    }
}

fn ours_calls(depth: usize, feed: Feed) -> Calls {
    feeding(ours_of(depth), feed, |mem, action| match action {
        Message(event) => ours::message(mem, event),
        Back => ours::step_back(mem),
    })
}

fn reference_calls(depth: usize, feed: Feed) -> Calls {
    feeding(reference_of(depth), feed, |table, action| match action {
        Message(event) => ours::returned(&table.message(event)),
        Back => ours::returned(&table.step_back()),
    })
}

fn each(make: fn(&str) -> Event) -> Vec<Action> {
    ids().iter().map(|id| Message(make(id))).collect()
}

fn taken(timed: Vec<Action>) -> Feed {
    Feed { before: Vec::new(), timed, answer: 0 }
}

fn refused(refusal: Refusal, timed: Vec<Action>) -> Feed {
    Feed { before: Vec::new(), timed, answer: ours::returned(&Err::<(), _>(refusal)) }
}

fn after(before: Vec<Action>, timed: Vec<Action>) -> Feed {
    Feed { before, timed, answer: 0 }
}

/// To a property of every device, first the one payload, then the other.
fn values(id: &str, last: &str) -> Vec<Action> {
    let sample = property(id);
    let of = |payload: &str| -> Vec<Action> {
        ids().iter().map(|id| Message(to_property(id, sample, last, payload))).collect()
    };
    sample.payloads.map(of).concat()
}

/// Every fourth device, made or removed while the others stay.
fn some(make: fn(&str) -> Event) -> Vec<Action> {
    ids().iter().step_by(4).map(|id| Message(make(id))).collect()
}

fn backwards(messages: Vec<Action>) -> Feed {
    let before: Vec<Action> = messages.into_iter().take(64).collect();
    let timed = vec![Back; before.len()];
    after(before, timed)
}

fn both() -> Feed {
    taken(values("level", "").into_iter().flat_map(|action| [action, Back]).collect())
}

fn restored(id: &str) -> Vec<Action> {
    vec![Message(state(id, "ready")), Message(describe(id, &description(id)))]
}

type Kind = (&'static str, fn() -> Feed);

fn kinds() -> Vec<Kind> {
    [&STATES[..], &DESCRIPTIONS, &VALUES, &REPORTS, &REFUSALS].concat()
}

const STATES: [Kind; 3] = [
    ("state, new device", || after(some(|id| state(id, "")), some(|id| state(id, "init")))),
    ("state, device removed", || {
        after(ids().iter().step_by(4).flat_map(|id| restored(id)).collect(), some(|id| state(id, "")))
    }),
    ("state, updated", || taken([each(|id| state(id, "sleeping")), each(|id| state(id, "ready"))].concat())),
];

const DESCRIPTIONS: [Kind; 3] = [
    ("description, 12 properties", || taken(each(|id| describe(id, &description(id))))),
    ("description, 24 properties in 8 KB", || taken(each(|id| describe(id, &long_description(id))))),
    ("description, emptied", || after(each(|id| describe(id, &description(id))), each(|id| describe(id, "")))),
];

const VALUES: [Kind; 14] = [
    ("value, boolean", || taken(values("on", ""))),
    ("value, integer in a range", || taken(values("humidity", ""))),
    ("value, integer in a range with a step", || taken(values("level", ""))),
    ("value, float in a range", || taken(values("temperature", ""))),
    ("value, float in a range with a step", || taken(values("setpoint", ""))),
    ("value, enum", || taken(values("mode", ""))),
    ("value, color", || taken(values("color", ""))),
    ("value, string", || taken(values("label", ""))),
    ("value, datetime", || taken(values("updated", ""))),
    ("value, duration", || taken(values("uptime", ""))),
    ("value, json", || taken(values("status", ""))),
    ("value, emptied", || after(values("on", ""), each(|id| to_property(id, property("on"), "", "")))),
    ("target", || taken(values("level", "/$target"))),
    ("set", || taken(values("level", "/set"))),
];

const REPORTS: [Kind; 4] = [
    ("alert", || taken(each(|id| event(&format!("{id}/$alert/battery"), true, "Battery is low")))),
    ("log", || taken(each(|id| event(&format!("{id}/$log/info"), false, "connected to the broker again")))),
    ("broadcast", || taken(each(|_| event("$broadcast/security/alarm", false, "Intruder detected")))),
    ("other", || taken(each(|id| event(&format!("{id}/$fw/version"), true, "2.1.0")))),
];

const REFUSALS: [Kind; 6] = [
    ("refused 7: earlier", || {
        refused(TIME, each(|id| Event { time: NOW - 1, ..to_property(id, property("on"), "", "true") }))
    }),
    ("refused 11: wrong flag", || {
        refused(FLAG, each(|id| Event { retained: false, ..to_property(id, property("on"), "", "true") }))
    }),
    ("refused 12: no such device", || {
        refused(NO_DEVICE, each(|id| to_property(&format!("{id}-x"), property("on"), "", "true")))
    }),
    ("refused 14: payload", || refused(PAYLOAD, each(|id| to_property(id, property("level"), "", "1000")))),
    ("refused 16: no such property", || {
        refused(NO_PROPERTY, each(|id| event(&format!("{id}/system/on"), true, "true")))
    }),
    ("refused 17: not settable", || {
        refused(NOT_SETTABLE, each(|id| to_property(id, property("humidity"), "/set", "41")))
    }),
];
