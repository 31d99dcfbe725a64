//! Calls on a table: how each is made, and what the book answers.

use crate::answer::{Answer, Value};
use crate::book::Kept;
use crate::raw;
use reference::description::{Description, Property};
use reference::lines::hex;
use reference::payload::Datatype;
use reference::refusal::Refusal;
use reference::table::{Device, LaneKind, Message, Table, STATES};
use std::fmt;

pub type Id = Vec<u8>;

#[derive(Clone)]
pub enum Call {
    /// A message, and its flag as the interface takes it.
    Message(Message, u8),
    Back,
    Ask(Question),
}

#[derive(Clone)]
pub enum Question {
    DeviceCount,
    LastTime,
    Steps,
    DeviceAt(usize),
    States(Id),
    Root(Id),
    Parent(Id),
    Version(Id),
    ValuesHeld(Id),
    Property(Id, usize),
    Lane([Id; 3], u8),
}

impl Call {
    pub fn name(&self) -> &'static str {
        match self {
            Call::Message(..) => "message",
            Call::Back => "step_back",
            Call::Ask(question) => question.name(),
        }
    }

    /// The book's answer; the book takes what is taken.
    pub fn expected(&self, book: &mut Kept) -> Answer {
        let taken = |()| Vec::new();
        match self {
            Call::Message(message, _) => Answer::of(book.message(message).map(taken)),
            Call::Back => Answer::of(book.step_back().map(taken)),
            Call::Ask(Question::Steps) => Answer::of(Ok(vec![number(book.steps())])),
            Call::Ask(question) => Answer::of(question.expected(book.table())),
        }
    }
}

/// Feeds a message to the library.
pub fn send(memory: &mut [u8], message: &Message, retained: u8) -> u32 {
    let Message { time, topic, payload, .. } = message;
    raw::message(memory, raw::Event { time: *time, topic, retained, payload })
}

impl Question {
    pub fn name(&self) -> &'static str {
        match self {
            Question::DeviceCount => "device_count",
            Question::LastTime => "last_time",
            Question::Steps => "steps",
            Question::DeviceAt(_) => "device_at",
            Question::States(_) => "states",
            Question::Root(_) => "root",
            Question::Parent(_) => "parent",
            Question::Version(_) => "version",
            Question::ValuesHeld(_) => "values_held",
            Question::Property(..) => "property",
            Question::Lane(..) => "lane",
        }
    }

    /// Asks the library.
    pub fn ask(&self, memory: &[u8], out: &mut [u64]) -> u32 {
        match self {
            Question::DeviceCount => raw::device_count(memory, out),
            Question::LastTime => raw::last_time(memory, out),
            Question::Steps => raw::steps(memory, out),
            Question::DeviceAt(i) => raw::device_at(memory, *i, out),
            Question::States(id) => raw::states(memory, id, out),
            Question::Root(id) => raw::root(memory, id, out),
            Question::Parent(id) => raw::parent(memory, id, out),
            Question::Version(id) => raw::version(memory, id, out),
            Question::ValuesHeld(id) => raw::values_held(memory, id, out),
            Question::Property(id, i) => raw::property(memory, id, *i, out),
            Question::Lane([id, node, property], kind) => raw::lane(memory, [id, node, property], *kind, out),
        }
    }

    /// The answer of the book's table, but for the steps on offer, which are the book's.
    fn expected(&self, table: &Table) -> Result<Vec<Value>, Refusal> {
        match self {
            Question::DeviceCount | Question::Steps => Ok(vec![number(table.count())]),
            Question::LastTime => Ok(optional(table.last_time().map(Value::Number))),
            Question::DeviceAt(i) => table.nth(*i as u64).map(|id| vec![text(id)]),
            Question::States(id) => table.device(id).map(|device| states(table, device)),
            Question::Root(id) => Ok(optional(described(table, id)?.and_then(|d| d.root.as_deref()).map(text))),
            Question::Parent(id) => Ok(optional(described(table, id)?.and_then(|d| d.parent.as_deref()).map(text))),
            Question::Version(id) => Ok(optional(described(table, id)?.map(|d| Value::Number(d.version as u64)))),
            Question::ValuesHeld(id) => table.filled(id).map(|n| vec![number(n)]),
            Question::Property(id, i) => table.property(id, *i as u64).map(declared),
            Question::Lane(ids, kind) => lane(table, ids, *kind),
        }
    }
}

fn number(n: usize) -> Value {
    Value::Number(n as u64)
}

fn text(bytes: &[u8]) -> Value {
    Value::Text(bytes.to_vec())
}

/// 1 and a value, or 0.
fn optional(value: Option<Value>) -> Vec<Value> {
    let present = Value::Number(u64::from(value.is_some()));
    [Some(present), value].into_iter().flatten().collect()
}

pub fn datatype_number(datatype: Datatype) -> u64 {
    Datatype::ALL.iter().position(|other| *other == datatype).map_or(u64::MAX, |at| at as u64)
}

fn state_number(word: &str) -> Value {
    Value::Number(STATES.iter().position(|other| *other == word).map_or(u64::MAX, |at| at as u64))
}

fn states(table: &Table, device: &Device) -> Vec<Value> {
    let effective = table.effective_state(device);
    vec![state_number(device.state), state_number(effective), Value::Number(device.state_time)]
}

fn described<'a>(table: &'a Table, id: &[u8]) -> Result<Option<&'a Description>, Refusal> {
    table.device(id).map(|device| device.description.as_ref())
}

fn declared(property: &Property) -> Vec<Value> {
    vec![
        text(&property.node),
        text(&property.id),
        Value::Number(datatype_number(property.datatype)),
        text(&property.format),
        Value::Number(u64::from(property.settable)),
        Value::Number(u64::from(property.retained)),
    ]
}

/// A kind past the last reads as the last.
fn lane(table: &Table, [id, node, property]: &[Id; 3], kind: u8) -> Result<Vec<Value>, Refusal> {
    let kind = LaneKind::ALL[usize::from(kind).min(2)];
    let held = table.lane(id, node, property, kind)?;
    Ok(held.map_or(vec![number(0)], |lane| vec![number(1), Value::Number(lane.time), text(&lane.payload)]))
}

/// A call as a report shows it: its name, then its arguments, byte strings in hex.
impl fmt::Display for Call {
    fn fmt(&self, f: &mut fmt::Formatter) -> fmt::Result {
        match self {
            Call::Message(message, retained) => {
                let Message { time, topic, payload, .. } = message;
                write!(f, "{} {time} {} {retained} {}", self.name(), hex(topic), hex(payload))
            }
            Call::Back => write!(f, "{}", self.name()),
            Call::Ask(question) => write!(f, "{question}"),
        }
    }
}

impl fmt::Display for Question {
    fn fmt(&self, f: &mut fmt::Formatter) -> fmt::Result {
        write!(f, "{}", self.name())?;
        match self {
            Question::DeviceCount | Question::LastTime | Question::Steps => Ok(()),
            Question::DeviceAt(i) => write!(f, " {i}"),
            Question::States(id) | Question::Root(id) | Question::Parent(id) => write!(f, " {}", hex(id)),
            Question::Version(id) | Question::ValuesHeld(id) => write!(f, " {}", hex(id)),
            Question::Property(id, i) => write!(f, " {} {i}", hex(id)),
            Question::Lane([id, node, property], kind) => {
                write!(f, " {} {} {} {kind}", hex(id), hex(node), hex(property))
            }
        }
    }
}
