//! Every question, at D 64.

use crate::data::{ids, PROPERTIES};
use crate::house::{ours_of, reference_of};
use crate::measure::{batches, Row, Sides, Unit};
use crate::ours::{self, Values};
use crate::undo::Table;
use reference::description::Description;
use reference::refusal::Refusal;
use reference::table::LaneKind;
use std::hint::black_box;

/// What a question names.
struct Ask {
    id: Vec<u8>,
    node: Vec<u8>,
    property: Vec<u8>,
    number: usize,
}

/// Every property of every device, the devices changing fastest.
fn asks() -> Vec<Ask> {
    let of = |number: usize| {
        let sample = &PROPERTIES[number];
        ids().into_iter().map(move |id| Ask {
            id: id.into_bytes(),
            node: sample.node.into(),
            property: sample.id.into(),
            number,
        })
    };
    (0..PROPERTIES.len()).flat_map(of).collect()
}

type Ours = fn(&[u8], &Ask, &mut Values) -> u32;
type Reference = fn(&Table, &Ask) -> Result<(), Refusal>;

pub fn rows() -> Vec<Row> {
    let of = |depth: usize| {
        questions().into_iter().map(move |(name, ours, reference)| {
            Row::new(format!("{name}, J {depth}"), Unit::Call, move || sides(depth, ours, reference))
        })
    };
    [0, 64].into_iter().flat_map(of).collect()
}

fn sides(depth: usize, ours: Ours, reference: Reference) -> Sides {
    let batch = asks().len();
    let ask_ours = move |(mem, asks): &mut (Vec<u8>, Vec<Ask>)| {
        for ask in asks.iter() {
            ours::answers(0, |out| ours(mem, ask, out));
        }
    };
    let ask_reference = move |(table, asks): &mut (Table, Vec<Ask>)| {
        for ask in asks.iter() {
            assert_eq!(reference(table, ask), Ok(()));
        }
    };
    Sides {
        ours: batches((ours_of(depth), asks()), batch, ask_ours),
        reference: batches((reference_of(depth), asks()), batch, ask_reference),
        limit: None,
    }
}

fn seen<T>(answer: T) {
    black_box(answer);
}

fn told<T>(answer: T) -> Result<(), Refusal> {
    seen(answer);
    Ok(())
}

fn description_of<'a>(table: &'a Table, ask: &Ask) -> Result<&'a Description, Refusal> {
    Ok(table.device(&ask.id)?.description.as_ref().expect("a description"))
}

fn states(table: &Table, ask: &Ask) -> Result<(), Refusal> {
    let device = table.device(&ask.id)?;
    told((device.state, table.effective_state(device), device.time))
}

fn lane(table: &Table, ask: &Ask, kind: LaneKind) -> Result<(), Refusal> {
    table.lane(&ask.id, &ask.node, &ask.property, kind).map(seen)
}

fn our_lane(mem: &[u8], ask: &Ask, kind: LaneKind, out: &mut Values) -> u32 {
    ours::lane(mem, &ask.id, &ask.node, &ask.property, kind as u8, out)
}

type Question = (&'static str, Ours, Reference);

fn questions() -> Vec<Question> {
    [&OF_TABLE[..], &OF_DEVICE, &OF_PROPERTY].concat()
}

const OF_TABLE: [Question; 4] = [
    ("device count", |mem, _, out| ours::device_count(mem, out), |table, _| told(table.count())),
    (
        "device by number",
        |mem, ask, out| ours::device_at(mem, ask.number, out),
        |table, ask| table.nth(ask.number).map(seen),
    ),
    ("last time", |mem, _, out| ours::last_time(mem, out), |table, _| told(table.last_time())),
    ("steps", |mem, _, out| ours::steps(mem, out), |table, _| told(table.steps())),
];

const OF_DEVICE: [Question; 5] = [
    ("states", |mem, ask, out| ours::states(mem, &ask.id, out), states),
    (
        "root",
        |mem, ask, out| ours::root(mem, &ask.id, out),
        |table, ask| description_of(table, ask).map(|description| seen(&description.root)),
    ),
    (
        "parent",
        |mem, ask, out| ours::parent(mem, &ask.id, out),
        |table, ask| description_of(table, ask).map(|description| seen(&description.parent)),
    ),
    (
        "version",
        |mem, ask, out| ours::version(mem, &ask.id, out),
        |table, ask| description_of(table, ask).map(|description| seen(description.version)),
    ),
    (
        "values held",
        |mem, ask, out| ours::values_held(mem, &ask.id, out),
        |table, ask| table.device(&ask.id).map(|device| seen(device.filled())),
    ),
];

const OF_PROPERTY: [Question; 4] = [
    (
        "property",
        |mem, ask, out| ours::property(mem, &ask.id, ask.number, out),
        |table, ask| table.property(&ask.id, ask.number).map(seen),
    ),
    (
        "lane, value",
        |mem, ask, out| our_lane(mem, ask, LaneKind::Value, out),
        |table, ask| lane(table, ask, LaneKind::Value),
    ),
    (
        "lane, target",
        |mem, ask, out| our_lane(mem, ask, LaneKind::Target, out),
        |table, ask| lane(table, ask, LaneKind::Target),
    ),
    (
        "lane, asked",
        |mem, ask, out| our_lane(mem, ask, LaneKind::Asked, out),
        |table, ask| lane(table, ask, LaneKind::Asked),
    ),
];
