//! `replay`: a whole trace into one table, and what the table holds then.

use crate::lines::{hex, id_text};
use crate::refusal::{number_of, Refusal, HEADER};
use crate::table::{Book, LaneKind, Table, ROOM};
use crate::trace;

pub const INPUT_LIMIT: usize = 65_536;
const DEVICES: u64 = 4;
const STEPS: u64 = 3;

pub fn run(input: &[u8]) -> String {
    report(input).unwrap_or_else(|refusal| format!("refused {}\n", refusal.number))
}

fn report(input: &[u8]) -> Result<String, Refusal> {
    if input.len() > INPUT_LIMIT {
        return Err(HEADER);
    }
    let events = trace::read_all(input)?;
    let mut book = Book::open(b"homie", DEVICES, STEPS, ROOM * (DEVICES + STEPS + 1))?;
    let mut output = format!("events {}\n", events.len());
    for (number, event) in events.iter().enumerate() {
        let answer = number_of(&book.message(event));
        output += &format!("{number} {} {answer}\n", event.time);
    }
    output += &devices(&book.table())?;
    output += &format!("steps {}\n", book.steps());
    Ok(output)
}

fn devices(table: &Table) -> Result<String, Refusal> {
    let mut output = String::new();
    for number in 0..table.count() {
        let id = table.nth(number as u64)?;
        let device = table.device(id)?;
        output += &format!("device {} {} {}\n", id_text(id), device.state, table.effective_state(device));
        output += &properties(table, id)?;
    }
    Ok(output)
}

fn properties(table: &Table, id: &[u8]) -> Result<String, Refusal> {
    let mut output = String::new();
    for property in table.device(id)?.properties() {
        let names = [id, &property.node, &property.id].map(id_text).join(" ");
        output += &format!("property {names}");
        for kind in LaneKind::ALL {
            let lane = table.lane(id, &property.node, &property.id, kind)?;
            output += &format!(" {}", lane.map_or("-".to_string(), |lane| hex(&lane.payload)));
        }
        output.push('\n');
    }
    Ok(output)
}
