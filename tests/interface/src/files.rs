//! Trace files: checked, read, written and appended to.

use crate::answer::{hold, part, refused, told, Answer, Value};
use crate::guarded::{random_bytes, Guarded, Out};
use crate::questions::some_number;
use crate::raw;
use crate::tally::{Outcome, Tally};
use reference::generate::edits::edit;
use reference::generate::traces::{appending, damaged, near_trace, Appending};
use reference::lines::hex;
use reference::random::Random;
use reference::refusal::{Refusal, NUMBER};
use reference::trace::{self, write_file, Event, ENTRY_SIZE, HEADER_SIZE};

pub fn run(seed: u64, length: usize, tally: &mut Tally) -> Outcome {
    let mut random = Random::new(seed);
    empty(&mut random, tally)?;
    while tally.calls < length as u64 {
        match random.below(8) {
            0 => growing(&mut random, tally)?,
            1 | 2 => appended(&mut random, tally)?,
            3 => near_the_need(&mut random, tally)?,
            _ => some_file(&mut random, tally)?,
        }
    }
    Ok(())
}

// Events

/// Times around those where 32 bits or 64 bits end.
const STARTS: [u64; 7] = [0, 5, (1 << 32) - 3, 1 << 32, (1 << 63) - 2, u64::MAX - 9, u64::MAX];

fn events(random: &mut Random, most: usize) -> Vec<Event> {
    let mut time = random.pick(&STARTS);
    let mut events = Vec::new();
    for _ in 0..random.below(most + 1) {
        time = time.saturating_add(random.pick(&[0, 0, 1, 2, 1 << 32]));
        events.push(event(random, time));
    }
    events
}

fn event(random: &mut Random, time: u64) -> Event {
    let topic = random.mostly(15, &[1, 2, 9, 40], &[255, 256, 65_535]);
    let payload = random.mostly(15, &[0, 0, 1, 4, 30], &[255, 256, 70_000]);
    Event {
        time,
        topic: random_bytes(random, topic),
        retained: random.once_in(2),
        payload: random_bytes(random, payload),
    }
}

// Checking and reading

fn some_file(random: &mut Random, tally: &mut Tally) -> Outcome {
    let file = match random.below(6) {
        0 => near_trace(random),
        1 => {
            let events = events(random, 12);
            let file = write_file(&events);
            damaged(random, &events, file)
        }
        2 => {
            let file = write_file(&events(random, 12));
            file[..random.below(file.len())].to_vec()
        }
        3 => edit(random, &write_file(&[])),
        _ => write_file(&events(random, 40)),
    };
    read(random, &file, tally).map_err(|fault| format!("trace {}: {fault}", hex(&file[..file.len().min(4000)])))
}

/// The whole check, then events by number, and by reading places from the first to behind the last.
fn read(random: &mut Random, file: &[u8], tally: &mut Tally) -> Outcome {
    let lent = Guarded::new(random, file);
    let expected = Answer::of(trace::check(file).map(|count| vec![Value::Number(count)]));
    tally.count("trace_check", expected.returned);
    hold(random, &expected, file, |out| raw::trace_check(lent.bytes(), out))
        .map_err(|fault| format!("check: {fault}"))?;
    let count = file.first().map_or(0, |&low| usize::from(low).min(60));
    for _ in 0..count.min(6) + 2 {
        let i = some_number(random, count);
        event_at(random, &lent, file, i, tally)?;
    }
    reading_places(random, &lent, file, tally)?;
    lent.altered_past(0)
}

/// Time, place of the topic, flag and place of the payload, of the entry as it stands in the file.
fn values(file: &[u8], i: usize, event: &Event) -> Vec<u64> {
    let at = HEADER_SIZE + ENTRY_SIZE * i;
    let start = u64::from(u32::from_le_bytes([file[at + 8], file[at + 9], file[at + 10], file[at + 11]]));
    let (topic, payload) = (event.topic.len() as u64, event.payload.len() as u64);
    let (end, last) = (start + topic, start + topic + payload);
    assert_eq!((part(file, start, end), part(file, end, last)), (Some(&event.topic[..]), Some(&event.payload[..])));
    vec![event.time, start, end, u64::from(event.retained), end, last]
}

fn expected_event(file: &[u8], i: usize, further: Option<u64>) -> Answer {
    let values = trace::read(file, i as u64).map(|event| values(file, i, &event));
    Answer::of(values.map(|values| values.into_iter().chain(further).map(Value::Number).collect()))
}

/// By number, and by a reading place at the same number.
fn event_at(random: &mut Random, lent: &Guarded, file: &[u8], i: usize, tally: &mut Tally) -> Outcome {
    let expected = expected_event(file, i, None);
    tally.count("trace_read", expected.returned);
    hold(random, &expected, file, |out| raw::trace_read(lent.bytes(), i, out))
        .map_err(|fault| format!("read {i}: {fault}"))?;
    let expected = expected_event(file, i, Some((i as u64).wrapping_add(1)));
    tally.count("trace_next", expected.returned);
    hold(random, &expected, file, |out| raw::trace_next(lent.bytes(), i, out))
        .map_err(|fault| format!("next {i}: {fault}"))
}

/// The place moves on by one until the first refusal, which is 3 at the end of a good file.
fn reading_places(random: &mut Random, lent: &Guarded, file: &[u8], tally: &mut Tally) -> Outcome {
    let good = trace::check(file);
    let mut place = 0;
    loop {
        event_at(random, lent, file, place, tally)?;
        let mut out = Out::new(7);
        let returned = raw::trace_next(lent.bytes(), place, out.lent());
        if returned != 0 {
            let end = good.map_or(true, |count| returned == refused(NUMBER) && place as u64 == count);
            return if end { Ok(()) } else { Err(format!("next {place}: answers {} before the end", told(returned))) };
        }
        place = out.values(7)?[6] as usize;
    }
}

// Writing

/// The empty trace, in buffers of every length up to 20.
fn empty(random: &mut Random, tally: &mut Tally) -> Outcome {
    for len in 0..=20 {
        let bytes = random_bytes(random, len);
        let mut expected = bytes.clone();
        let answer = trace::write_empty(&mut expected);
        let mut lent = Guarded::new(random, &bytes);
        let mut out = Out::some(random);
        let returned = raw::trace_empty(lent.lent(), out.lent());
        tally.count("trace_empty", returned);
        wrote(answer, returned, &out, &lent, &expected).map_err(|fault| format!("empty, {len} bytes: {fault}"))?;
    }
    Ok(())
}

/// The answer, the buffer's bytes, and that those past the new length stay.
fn wrote(answer: Result<usize, Refusal>, returned: u32, out: &Out, lent: &Guarded, expected: &[u8]) -> Outcome {
    let values = answer.map(|length| vec![Value::Number(length as u64)]);
    Answer::of(values).compare(returned, out, &[])?;
    lent.altered_past(answer.unwrap_or(0))?;
    match (0..expected.len()).find(|&at| lent.bytes()[at] != expected[at]) {
        None => Ok(()),
        Some(at) => Err(format!("byte {at} is {}; expected {}", lent.bytes()[at], expected[at])),
    }
}

/// A buffer with the length that its trace takes.
type Longer = (Vec<u8>, usize);

/// Appends on both; answers the buffer afterwards where the event is taken.
fn append(
    random: &mut Random,
    buffer: &[u8],
    used: usize,
    event: &Event,
    tally: &mut Tally,
) -> Result<Option<Longer>, String> {
    let mut expected = buffer.to_vec();
    let answer = trace::append(&mut expected, used as u64, event);
    let mut lent = Guarded::new(random, buffer);
    let mut out = Out::some(random);
    let retained = if event.retained { random.pick(&[1, 1, 2, 255]) } else { 0 };
    let Event { time, topic, payload, .. } = event;
    let given = raw::Event { time: *time, topic, retained, payload };
    let returned = raw::trace_append(lent.lent(), used, given, out.lent());
    tally.count("trace_append", returned);
    wrote(answer, returned, &out, &lent, &expected).map_err(|fault| {
        let (topic, payload) = (hex(&topic[..topic.len().min(300)]), hex(&payload[..payload.len().min(300)]));
        let front = hex(&buffer[..buffer.len().min(2000)]);
        format!("append {front} ({} bytes) {used} {time} {topic} {retained} {payload}: {fault}", buffer.len())
    })?;
    Ok(answer.ok().map(|length| (expected, length)))
}

fn appended(random: &mut Random, tally: &mut Tally) -> Outcome {
    let Appending { buffer, used, event } = appending(random);
    append(random, &buffer, used as usize, &event, tally).map(|_| ())
}

/// One event in buffers of every length near the need, with used lengths that are right and wrong.
fn near_the_need(random: &mut Random, tally: &mut Tally) -> Outcome {
    let events = events(random, 6);
    let last = events.last().map_or(0, |event| event.time);
    let mut event = event(random, last);
    match random.below(8) {
        0 => event.time = last.saturating_sub(1),
        1 => event.topic.clear(),
        2 => event.topic = random_bytes(random, 65_536),
        3 => event.time = u64::MAX,
        _ => {}
    }
    let file = write_file(&events);
    let need = file.len() + ENTRY_SIZE + event.topic.len() + event.payload.len();
    let mut buffer = file.clone();
    buffer.extend(random_bytes(random, need + 3 - file.len()));
    for len in [file.len(), need - 2, need - 1, need, need + 1, need + 2, need + 3] {
        append(random, &buffer[..len], file.len(), &event, tally)?;
    }
    let used = file.len();
    for wrong in [0, 15, 16, used - 1, used + 1, buffer.len(), buffer.len() + 1, used.wrapping_add(1 << 32), usize::MAX]
    {
        append(random, &buffer, wrong, &event, tally)?;
    }
    Ok(())
}

/// A trace that grows from the empty one until its buffer is full.
fn growing(random: &mut Random, tally: &mut Tally) -> Outcome {
    let len = random.between(16, 6000);
    let mut buffer = random_bytes(random, len);
    let mut used = trace::write_empty(&mut buffer).map_err(|n| format!("the empty trace is refused: {n}"))?;
    let (mut time, mut refused) = (random.pick(&STARTS), 0);
    while refused < 4 {
        time = time.saturating_add(random.pick(&[0, 1, 1 << 31]));
        let mut next = event(random, time);
        next.topic.truncate(300);
        next.payload.truncate(300);
        match append(random, &buffer, used, &next, tally)? {
            Some(longer) => (buffer, used) = longer,
            None => refused += 1,
        }
    }
    read(random, &buffer[..used], tally)
}
