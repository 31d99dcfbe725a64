//! Topics, flags, datatypes, formats and payloads.

use crate::answer::{hold, Answer, Value};
use crate::calls::datatype_number;
use crate::raw;
use crate::tally::{Outcome, Tally};
use reference::generate::edits::maybe_edit;
use reference::generate::payloads::{datatype, format, near_format, near_payload};
use reference::generate::texts::{id, near_id, near_utf8};
use reference::generate::topics::near_topic;
use reference::lines::hex;
use reference::payload::{is_format, is_payload, Datatype};
use reference::random::Random;
use reference::topic::{self, Form};

pub fn run(seed: u64, length: usize, tally: &mut Tally) -> Outcome {
    let mut random = Random::new(seed);
    while tally.calls < length as u64 {
        match random.below(10) {
            0..=2 => topics(&mut random, tally)?,
            3 => names(&mut random, tally)?,
            4 | 5 => formats(&mut random, tally)?,
            _ => payloads(&mut random, tally)?,
        }
    }
    Ok(())
}

// Topics

fn topics(random: &mut Random, tally: &mut Tally) -> Outcome {
    let domain = match random.below(8) {
        0 => near_id(random),
        1..=3 => id(random),
        _ => b"homie".to_vec(),
    };
    let topic = near_topic(random, &domain);
    let form = topic::read(&domain, &topic).map(|topic| topic.form);
    let what = format!("topic {} {}", hex(&domain), hex(&topic));

    let expected = Answer::of(form.map(|form| shown(form, &topic)));
    tally.count("topic_read", expected.returned);
    hold(random, &expected, &topic, |out| raw::topic_read(&domain, &topic, out))
        .map_err(|fault| format!("{what}: {fault}"))?;

    let expected = Answer::of(form.map(|form| vec![Value::Number(flag(form))]));
    tally.count("topic_flag", expected.returned);
    hold(random, &expected, &topic, |out| raw::topic_flag(&domain, &topic, out))
        .map_err(|fault| format!("flag of {what}: {fault}"))
}

const FORMS: [Form; 9] = [
    Form::State,
    Form::Description,
    Form::Value,
    Form::Set,
    Form::Target,
    Form::Alert,
    Form::Log,
    Form::Broadcast,
    Form::Other,
];

/// The form's number, and its places level by level.
fn shown(form: Form, topic: &[u8]) -> Vec<Value> {
    let mut levels: Vec<(usize, usize)> = Vec::new();
    for level in topic.split(|&byte| byte == b'/') {
        let start = levels.last().map_or(0, |(_, end)| end + 1);
        levels.push((start, start + level.len()));
    }
    let rest = |at: usize| (levels.get(at).map_or(topic.len(), |level| level.0), topic.len());
    let places = match form {
        Form::State | Form::Description => vec![levels[2]],
        Form::Value | Form::Set | Form::Target => vec![levels[2], levels[3], levels[4]],
        Form::Alert | Form::Log => vec![levels[2], levels[4]],
        Form::Broadcast => vec![rest(3)],
        Form::Other => vec![levels[2], (levels[3].0 + 1, levels[3].1), rest(4)],
    };
    let number = FORMS.iter().position(|other| *other == form).unwrap_or(usize::MAX);
    let numbers = [number].into_iter().chain(places.into_iter().flat_map(|(start, end)| [start, end]));
    numbers.map(|n| Value::Number(n as u64)).collect()
}

/// Not retained, retained, either, or as the property says.
fn flag(form: Form) -> u64 {
    match (form, form.fixed_flag()) {
        (Form::Value, _) => 3,
        (_, None) => 2,
        (_, Some(retained)) => u64::from(retained),
    }
}

// Datatypes, formats, payloads

fn names(random: &mut Random, tally: &mut Tally) -> Outcome {
    let word = datatype(random).word().as_bytes().to_vec();
    let name = if random.once_in(8) { near_utf8(random) } else { maybe_edit(random, 2, word) };
    let expected = Answer::judged(Datatype::from_word(&name).map(|datatype| vec![datatype_number(datatype)]));
    tally.count("is_datatype", expected.returned);
    hold(random, &expected, &[], |out| raw::is_datatype(&name, out))
        .map_err(|fault| format!("datatype {}: {fault}", hex(&name)))
}

/// A datatype, and a number that reads as it: for the last, any from its own on.
fn numbered(random: &mut Random) -> (Datatype, u8) {
    let datatype = datatype(random);
    let number = datatype_number(datatype) as u8;
    let past = datatype == Datatype::Json && random.once_in(2);
    (datatype, if past { random.between(9, 255) as u8 } else { number })
}

/// What is kept of a format: its bytes, `:`, `false,true` or nothing; none where it is not valid.
fn kept(datatype: Datatype, format: Option<&[u8]>) -> Option<u64> {
    let Some(format) = format else {
        return match datatype.missing_format()? {
            b":" => Some(1),
            b"false,true" => Some(2),
            _ => Some(3),
        };
    };
    is_format(datatype, format).then_some(if datatype.keeps_format() { 0 } else { 3 })
}

fn formats(random: &mut Random, tally: &mut Tally) -> Outcome {
    let (datatype, number) = numbered(random);
    let format = near_format(random, datatype);
    let given = random.pick(&[0, 1, 1, 1, 2, 255]);
    let expected = Answer::judged(kept(datatype, (given != 0).then_some(&format)).map(|kept| vec![kept]));
    tally.count("is_format", expected.returned);
    hold(random, &expected, &[], |out| raw::is_format(number, given, &format, out))
        .map_err(|fault| format!("format {number} {given} {}: {fault}", hex(&format)))
}

fn payloads(random: &mut Random, tally: &mut Tally) -> Outcome {
    let (datatype, number) = numbered(random);
    let given = random.pick(&[0, 1, 1, 1, 2, 255]);
    let format = if random.once_in(10) { near_format(random, datatype) } else { format(random, datatype) };
    let meant = if given == 0 { datatype.missing_format() } else { Some(&format[..]) };
    let payload = near_payload(random, datatype, meant.unwrap_or(&format));
    let expected = u32::from(meant.is_some_and(|meant| is_payload(datatype, meant, &payload)));
    let answer = raw::is_payload(number, given, &format, &payload);
    tally.count("is_payload", answer);
    if answer == expected {
        return Ok(());
    }
    let (format, payload) = (hex(&format), hex(&payload));
    Err(format!("payload {number} {given} {format} {payload}: answers {answer}; expected {expected}"))
}
