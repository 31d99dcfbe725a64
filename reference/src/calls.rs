//! `calls`: a list of calls on one table, one on each line.

use crate::judge::event_of;
use crate::lines::{answer_lines, bytes, hex, id_text, number, or_refused};
use crate::refusal::{Refusal, NOT_SOUND};
use crate::table::{Book, LaneKind, Message, Table};

pub const INPUT_LIMIT: usize = 1_048_576;
/// The most bytes of memory that a list may ask for.
pub const MEMORY_LIMIT: u64 = 8192 * 129 + 64;

pub fn run(input: &[u8]) -> String {
    let mut list = List { opened: false, book: None };
    answer_lines(input, INPUT_LIMIT, |words| list.answer(words))
}

/// The book, once an opening was taken.
struct List {
    opened: bool,
    book: Option<Book>,
}

enum Call {
    Message(Message),
    Back,
    Steps,
    Question(Question),
}

/// A question that the table of the book answers.
enum Question {
    Count,
    Last,
    Nth(u64),
    State(Vec<u8>),
    Root(Vec<u8>),
    Parent(Vec<u8>),
    Version(Vec<u8>),
    Filled(Vec<u8>),
    Property(Vec<u8>, u64),
    Lane([Vec<u8>; 3], LaneKind),
}

impl List {
    fn answer(&mut self, words: &[&str]) -> Option<String> {
        match words {
            ["open", domain, devices, steps, size] => {
                self.open(&bytes(domain)?, number(devices)?, number(steps)?, number(size)?)
            }
            _ => {
                let call = read_call(words)?;
                Some(or_refused(self.call(call)))
            }
        }
    }

    /// Only the first opening counts, whether it is taken or not.
    fn open(&mut self, domain: &[u8], devices: u64, steps: u64, size: u64) -> Option<String> {
        if self.opened || size > MEMORY_LIMIT {
            return None;
        }
        self.opened = true;
        let answer = Book::open(domain, devices, steps, size).map(|book| {
            self.book = Some(book);
            taken(())
        });
        Some(or_refused(answer))
    }

    fn call(&mut self, call: Call) -> Result<String, Refusal> {
        let book = self.book.as_mut().ok_or(NOT_SOUND)?;
        match call {
            Call::Message(message) => book.message(&message).map(taken),
            Call::Back => book.step_back().map(taken),
            Call::Steps => Ok(book.steps().to_string()),
            Call::Question(question) => ask(&book.table(), question),
        }
    }
}

fn taken(_: ()) -> String {
    "taken".to_string()
}

fn read_call(words: &[&str]) -> Option<Call> {
    let call = match words {
        ["message", event @ ..] => Call::Message(event_of(event)?),
        ["back"] => Call::Back,
        ["steps"] => Call::Steps,
        _ => Call::Question(read_question(words)?),
    };
    Some(call)
}

fn read_question(words: &[&str]) -> Option<Question> {
    let question = match words {
        ["count"] => Question::Count,
        ["last"] => Question::Last,
        ["nth", place] => Question::Nth(number(place)?),
        ["state", id] => Question::State(bytes(id)?),
        ["root", id] => Question::Root(bytes(id)?),
        ["parent", id] => Question::Parent(bytes(id)?),
        ["version", id] => Question::Version(bytes(id)?),
        ["filled", id] => Question::Filled(bytes(id)?),
        ["property", id, place] => Question::Property(bytes(id)?, number(place)?),
        ["lane", id, node, property, kind] => {
            Question::Lane([bytes(id)?, bytes(node)?, bytes(property)?], LaneKind::from_word(kind)?)
        }
        _ => return None,
    };
    Some(question)
}

fn ask(table: &Table, question: Question) -> Result<String, Refusal> {
    match question {
        Question::Count => Ok(table.count().to_string()),
        Question::Last => Ok(or_none(table.last_time())),
        Question::Nth(place) => table.nth(place).map(id_text),
        Question::State(id) => state(table, &id),
        Question::Root(id) => Ok(or_none(description_of(table, &id)?.and_then(|d| d.root.as_deref().map(id_text)))),
        Question::Parent(id) => Ok(or_none(description_of(table, &id)?.and_then(|d| d.parent.as_deref().map(id_text)))),
        Question::Version(id) => Ok(or_none(description_of(table, &id)?.map(|d| d.version))),
        Question::Filled(id) => table.filled(&id).map(|count| count.to_string()),
        Question::Property(id, place) => property(table, &id, place),
        Question::Lane([id, node, property], kind) => lane(table, &id, &node, &property, kind),
    }
}

fn or_none<T: ToString>(value: Option<T>) -> String {
    value.map_or("none".to_string(), |value| value.to_string())
}

fn description_of<'a>(table: &'a Table, id: &[u8]) -> Result<Option<&'a crate::description::Description>, Refusal> {
    Ok(table.device(id)?.description.as_ref())
}

/// `OWN EFFECTIVE TIME`.
fn state(table: &Table, id: &[u8]) -> Result<String, Refusal> {
    let device = table.device(id)?;
    Ok(format!("{} {} {}", device.state, table.effective_state(device), device.state_time))
}

/// `NODE PROPERTY TYPE FORMATHEX settable|- retained|-`.
fn property(table: &Table, id: &[u8], place: u64) -> Result<String, Refusal> {
    let property = table.property(id, place)?;
    let words = [
        id_text(&property.node),
        id_text(&property.id),
        property.datatype.word().to_string(),
        hex(&property.format),
        if property.settable { "settable" } else { "-" }.to_string(),
        if property.retained { "retained" } else { "-" }.to_string(),
    ];
    Ok(words.join(" "))
}

/// `TIME PAYLOADHEX` or `empty`.
fn lane(table: &Table, id: &[u8], node: &[u8], property: &[u8], kind: LaneKind) -> Result<String, Refusal> {
    let lane = table.lane(id, node, property, kind)?;
    Ok(lane.map_or("empty".to_string(), |lane| format!("{} {}", lane.time, hex(&lane.payload))))
}
