//! `judge`: one question about bytes on each line.

use crate::lines::{answer_lines, bytes, flag, hex, id_text, number, or_refused, yes_or_no};
use crate::payload::{is_format, is_payload, Datatype};
use crate::refusal::Refusal;
use crate::trace::Event;
use crate::{description, text, topic, trace};

pub const INPUT_LIMIT: usize = 65_536;

pub fn run(input: &[u8]) -> String {
    answer_lines(input, INPUT_LIMIT, answer)
}

fn answer(words: &[&str]) -> Option<String> {
    let line = match words {
        ["id", id] => yes_or_no(text::is_id(&bytes(id)?)),
        ["utf8", payload] => yes_or_no(text::is_message_text(&bytes(payload)?)),
        ["topic", domain, topic] => or_refused(read_topic(&bytes(domain)?, &bytes(topic)?)),
        ["format", datatype, format] => yes_or_no(is_format(datatype_of(datatype)?, &bytes(format)?)),
        ["payload", datatype, format, payload] => {
            yes_or_no(is_payload(datatype_of(datatype)?, &bytes(format)?, &bytes(payload)?))
        }
        ["description", own, text] => or_refused(read_description(&bytes(own)?, &bytes(text)?)),
        ["trace", file] => or_refused(trace::check(&bytes(file)?).map(|count| format!("events {count}"))),
        ["event", file, place] => or_refused(read_event(&bytes(file)?, number(place)?)),
        ["append", buffer, used, event @ ..] => or_refused(append(bytes(buffer)?, number(used)?, event_of(event)?)),
        _ => return None,
    };
    Some(line)
}

fn datatype_of(word: &str) -> Option<Datatype> {
    Datatype::from_word(word.as_bytes())
}

fn read_topic(domain: &[u8], text: &[u8]) -> Result<String, Refusal> {
    let topic = topic::read(domain, text)?;
    let mut words = vec![topic.form.word().to_string()];
    words.extend(topic.ids.iter().map(|id| id_text(id)));
    Ok(words.join(" "))
}

fn read_description(own: &[u8], text: &[u8]) -> Result<String, Refusal> {
    description::read(own, text).map(|_| yes_or_no(true))
}

fn read_event(file: &[u8], place: u64) -> Result<String, Refusal> {
    trace::read(file, place).map(|event| event_words(&event))
}

fn append(mut buffer: Vec<u8>, used: u64, event: Event) -> Result<String, Refusal> {
    let longer = trace::append(&mut buffer, used, &event)?;
    Ok(format!("used {longer} {}", hex(&buffer)))
}

/// `TIME TOPICHEX 0|1 PAYLOADHEX`.
pub fn event_words(event: &Event) -> String {
    format!("{} {} {} {}", event.time, hex(&event.topic), u8::from(event.retained), hex(&event.payload))
}

/// The event of the words `TIME TOPICHEX 0|1 PAYLOADHEX`.
pub fn event_of(words: &[&str]) -> Option<Event> {
    let [time, topic, retained, payload] = words else {
        return None;
    };
    Some(Event { time: number(time)?, topic: bytes(topic)?, retained: flag(retained)?, payload: bytes(payload)? })
}
