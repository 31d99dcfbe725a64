//! Moves a cursor over a trace file and prints what the table holds there.
//!
//!     cargo run --example scrub -- FILE PLACE..
//!
//! A place is a number of events, or `@` and a time: all events up to it. The cursor goes to one after the other, forward
//! and back.

use homie5::table::{Held, Lane, Lanes, Table};
use homie5::trace::Trace;
use homie5::{Property, Refusal};
use std::error::Error;
use std::io::{self, Write};

/// A table at a place of a trace. It keeps copies of the table on its way, so that going back takes steps back as long as
/// they are on offer, else a copy and the events from there.
struct Scrubber<'a> {
    trace: Trace<'a>,
    table: Table,
    /// How many events lie behind the cursor.
    place: usize,
    /// How many of the first events were taken, for each place that was reached.
    taken: Vec<usize>,
    /// The tables after so many events, twice as many, and so on, as far as the cursor came; the empty one first.
    checkpoints: Vec<Table>,
    every: usize,
}

impl<'a> Scrubber<'a> {
    /// The least distance of checkpoints, and the most of them beside the empty one. Each is a megabyte: all take 65 at
    /// most, however long the trace is.
    const EVERY: usize = 4096;
    const CHECKPOINTS: usize = 64;

    /// At the front of a checked trace of so many events.
    fn open(trace: Trace<'a>, events: usize) -> Result<Scrubber<'a>, Refusal> {
        let table = Table::open("homie", 64, 64)?;
        let every = Self::EVERY.max(events.div_ceil(Self::CHECKPOINTS));
        Ok(Scrubber { trace, checkpoints: vec![table.clone()], table, place: 0, taken: vec![0], every })
    }

    /// Goes to a place: how many events were fed to the table on the way.
    fn seek(&mut self, place: usize) -> Result<usize, Refusal> {
        if place < self.place && self.taken[self.place] - self.taken[place] <= self.table.steps() {
            self.step_back(place)?;
        } else {
            self.jump(place);
        }
        self.forward(place)
    }

    fn step_back(&mut self, place: usize) -> Result<(), Refusal> {
        for _ in self.taken[place]..self.taken[self.place] {
            self.table.step_back()?;
        }
        self.place = place;
        Ok(())
    }

    /// Goes to the last checkpoint before a place, unless the cursor stands between them.
    fn jump(&mut self, place: usize) {
        let last = (place / self.every).min(self.checkpoints.len() - 1);
        if place < self.place || self.place < last * self.every {
            self.table = self.checkpoints[last].clone();
            self.place = last * self.every;
        }
    }

    fn forward(&mut self, place: usize) -> Result<usize, Refusal> {
        let mut cursor = self.trace.cursor_at(self.place);
        let from = self.place;
        while self.place < place {
            let taken = self.table.message(&cursor.advance()?).is_ok();
            self.place = cursor.place();
            self.note(taken);
        }
        Ok(self.place - from)
    }

    /// Notes what stands at a place that was not reached before.
    fn note(&mut self, taken: bool) {
        if self.place == self.taken.len() {
            self.taken.push(self.taken[self.place - 1] + usize::from(taken));
        }
        if self.place == self.checkpoints.len() * self.every {
            self.checkpoints.push(self.table.clone());
        }
    }

    fn print(&self, to: &mut impl Write) -> Result<(), Box<dyn Error>> {
        writeln!(to, "place {} time {:?} steps {}", self.place, self.table.last_time(), self.table.steps())?;
        for device in self.table.devices() {
            writeln!(to, "  {} {}", device.id, device.states.effective)?;
            for (property, lanes) in device.properties() {
                print_lanes(&property, &lanes, to)?;
            }
        }
        Ok(())
    }
}

fn print_lanes(property: &Property, lanes: &Lanes, to: &mut impl Write) -> Result<(), Box<dyn Error>> {
    write!(to, "    {}/{}", property.node, property.id)?;
    for lane in Lane::ALL {
        match lanes.get(*lane) {
            Some(Held { time, payload }) => write!(to, " {lane} `{}` at {time}", payload.escape_ascii())?,
            None => write!(to, " {lane} -")?,
        }
    }
    Ok(writeln!(to)?)
}

/// A place of a checked trace.
fn place(trace: &Trace, text: &str) -> Result<usize, Box<dyn Error>> {
    Ok(match text.strip_prefix('@') {
        Some(time) => trace.seek_after(time.parse()?)?,
        None => text.parse()?,
    })
}

fn scrub(file: &[u8], places: &[String], to: &mut impl Write) -> Result<(), Box<dyn Error>> {
    let trace = Trace::new(file);
    let events = trace.check()?;
    writeln!(to, "events {events}")?;
    let mut scrubber = Scrubber::open(trace, events)?;
    for text in places {
        scrubber.seek(place(&trace, text)?)?;
        scrubber.print(to)?;
    }
    Ok(())
}

fn main() -> Result<(), Box<dyn Error>> {
    let mut arguments = std::env::args().skip(1);
    let file = std::fs::read(arguments.next().ok_or("usage: scrub FILE PLACE..")?)?;
    scrub(&file, &arguments.collect::<Vec<_>>(), &mut io::stdout())
}

#[cfg(test)]
mod tests {
    use super::*;
    use homie5::trace::{Event, Writer};

    fn printed(file: &[u8], places: &[&str]) -> String {
        let mut text = Vec::new();
        scrub(file, &places.iter().map(|place| place.to_string()).collect::<Vec<_>>(), &mut text).unwrap();
        String::from_utf8(text).unwrap()
    }

    #[test]
    fn forward_and_back() {
        let file = include_bytes!("../../../samples/lamp.trace");
        let asked = "    light/on value - target - asked `true` at 4294967300\n";
        let full = format!("time Some(4294967300) steps 3\n  lamp init\n{asked}");
        let empty = "time Some(4294967300) steps 2\n  lamp init\n    light/on value - target - asked -\n";
        let expected = format!("events 4\nplace 3 {full}place 2 {empty}place 4 {full}place 0 time None steps 0\n");
        assert_eq!(printed(file, &["3", "2", "4", "0"]), expected);
        let expected = format!("events 4\nplace 3 {full}place 0 time None steps 0\n");
        assert_eq!(printed(file, &["@4294967300", "@4294967289"]), expected);
    }

    /// A trace of a lamp: its state, its description, then values, every third of which is refused.
    fn lamp(values: u64) -> Vec<u8> {
        let mut writer = Writer::new();
        let mut write = |time, topic: &str, payload: &str| {
            writer
                .append(&Event { time, topic: topic.as_bytes(), retained: true, payload: payload.as_bytes() })
                .unwrap()
        };
        write(0, "homie/5/lamp/$state", "ready");
        let properties = r#"{"properties":{"level":{"datatype":"integer"}}}"#;
        let nodes = format!(r#"{{"light":{properties}}}"#);
        write(0, "homie/5/lamp/$description", &format!(r#"{{"homie":"5.0","version":1,"nodes":{nodes}}}"#));
        for time in 1..=values {
            let payload = if time % 3 == 0 { "none".to_string() } else { time.to_string() };
            write(time, "homie/5/lamp/light/level", &payload);
        }
        writer.finish().unwrap()
    }

    /// What stands in the table: all that is printed, less the steps on offer, which depend on the way.
    fn standing(scrubber: &Scrubber) -> String {
        let mut text = Vec::new();
        scrubber.print(&mut text).unwrap();
        let text = String::from_utf8(text).unwrap();
        text.lines().map(|line| line.split(" steps ").next().unwrap().to_string() + "\n").collect()
    }

    /// A table at a place, on the straight way there.
    fn straight(trace: Trace, place: usize) -> String {
        let mut table = Table::open("homie", 64, 64).unwrap();
        for event in trace.events().unwrap().take(place) {
            let _ = table.message(&event);
        }
        standing(&Scrubber { table, place, ..Scrubber::open(trace, 0).unwrap() })
    }

    #[test]
    fn every_way_leads_to_the_same_table() {
        let file = lamp(998);
        let trace = Trace::new(&file);
        let mut scrubber = Scrubber { every: 50, ..Scrubber::open(trace, 1000).unwrap() };
        let mut place = 1000;
        for _ in 0..100 {
            scrubber.seek(place).unwrap();
            assert_eq!(standing(&scrubber), straight(trace, place));
            place = (place * 357 + 113) % 1001;
        }
        assert_eq!(scrubber.checkpoints.len(), 21);
    }

    #[test]
    fn a_jump_costs_no_more_than_the_way_between_checkpoints() {
        let file = lamp(20_000);
        let trace = Trace::new(&file);
        let events = trace.check().unwrap();
        let mut scrubber = Scrubber::open(trace, events).unwrap();
        assert_eq!(scrubber.seek(events), Ok(20_002));
        assert_eq!(scrubber.checkpoints.len(), 5);
        assert_eq!(scrubber.seek(events - 90), Ok(0));
        assert_eq!(scrubber.seek(2), Ok(2));
        assert_eq!(scrubber.seek(20_000), Ok(20_000 - 4 * 4096));
        assert_eq!(scrubber.seek(4096), Ok(0));
        assert_eq!(scrubber.seek(4095), Ok(0));
        assert_eq!(scrubber.seek(events + 1), Err(Refusal::NoSuchNumber));
        assert_eq!(standing(&scrubber), straight(trace, events));
    }

    #[test]
    fn a_long_trace_has_few_checkpoints() {
        let file = lamp(0);
        for events in [0, 4096, 64 * 4096, 64 * 4096 + 1, 1_000_000, 171_798_691] {
            let every = Scrubber::open(Trace::new(&file), events).unwrap().every;
            assert!(every >= 4096 && events / every <= 64, "{events}");
        }
    }
}
