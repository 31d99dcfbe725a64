//! Strings of descriptions, decoded into lent buffers.

use crate::answer::{Answer, Value};
use crate::guarded::{random_bytes, Guarded, Out};
use crate::raw;
use crate::tally::{Outcome, Tally};
use reference::generate::escapes::text_and_place;
use reference::json::string_at;
use reference::lines::hex;
use reference::random::Random;

pub fn run(seed: u64, length: usize, tally: &mut Tally) -> Outcome {
    let mut random = Random::new(seed);
    while tally.calls < length as u64 {
        let (text, place) = text_and_place(&mut random);
        one(&mut random, &text, place, tally)
            .map_err(|fault| format!("string at {place} of {}: {fault}", hex(&text)))?;
    }
    Ok(())
}

/// Asked with buffers that it fits, and with ones that it does not fit.
fn one(random: &mut Random, text: &[u8], place: usize, tally: &mut Tally) -> Outcome {
    let string = string_at(text, place);
    let expected = Answer::of(string.as_ref().map(|said| vec![number(said)]).map_err(|refusal| *refusal));
    let said = string.unwrap_or_default();
    for len in [0, said.len().saturating_sub(1), said.len(), said.len() + 1, random.below(100)] {
        tally.count("description_string", expected.returned);
        let bytes = random_bytes(random, len);
        let (mut buffer, mut out) = (Guarded::new(random, &bytes), Out::some(random));
        let returned = raw::description_string(text, place, buffer.lent(), out.lent());
        expected.compare(returned, &out, &[])?;
        let copied = if said.len() <= len { &said[..] } else { &[] };
        buffer.altered_past(copied.len())?;
        if !buffer.bytes().starts_with(copied) {
            return Err(format!("writes {}; expected {}", hex(&buffer.bytes()[..copied.len()]), hex(copied)));
        }
    }
    Ok(())
}

fn number(said: &[u8]) -> Value {
    Value::Number(said.len() as u64)
}
