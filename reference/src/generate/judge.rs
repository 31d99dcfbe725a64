//! Lines for `judge`.

use super::descriptions::{description, Plan};
use super::edits::misshape;
use super::faulty::faulty_description;
use super::join_within;
use super::payloads::{datatype, format, near_format, near_payload};
use super::texts::{id, near_id, near_utf8};
use super::topics::near_topic;
use super::traces::{appending, near_trace};
use crate::judge::{event_words, INPUT_LIMIT};
use crate::lines::hex;
use crate::random::Random;

pub fn lines(random: &mut Random, count: usize) -> String {
    join_within((0..count).map(|_| line(random)), INPUT_LIMIT)
}

fn line(random: &mut Random) -> String {
    let good = shaped_line(random);
    if random.once_in(60) {
        misshape(random, &good)
    } else {
        good
    }
}

fn shaped_line(random: &mut Random) -> String {
    match random.below(46) {
        0 | 1 => format!("id {}", hex(&near_id(random))),
        2 | 3 => format!("utf8 {}", hex(&near_utf8(random))),
        4..=9 => topic_line(random),
        10..=13 => {
            let datatype = datatype(random);
            format!("format {} {}", datatype.word(), hex(&near_format(random, datatype)))
        }
        14..=27 => payload_line(random),
        28..=36 => description_line(random),
        37..=39 => format!("trace {}", hex(&near_trace(random))),
        40..=42 => event_line(random),
        _ => append_line(random),
    }
}

fn topic_line(random: &mut Random) -> String {
    let domain = if random.once_in(3) { id(random) } else { b"homie".to_vec() };
    let topic = near_topic(random, &domain);
    format!("topic {} {}", hex(&domain), hex(&topic))
}

fn payload_line(random: &mut Random) -> String {
    let datatype = datatype(random);
    let format = if random.once_in(10) { near_format(random, datatype) } else { format(random, datatype) };
    let payload = near_payload(random, datatype, &format);
    format!("payload {} {} {}", datatype.word(), hex(&format), hex(&payload))
}

fn description_line(random: &mut Random) -> String {
    let own = id(random);
    let others = [b"hub".to_vec(), id(random)];
    let plan = Plan { own: &own, others: &others, fault: 60 };
    let faulty = random.below(3) > 0;
    let text = if faulty { faulty_description(random, &plan) } else { description(random, &plan) };
    format!("description {} {}", hex(&own), hex(&text))
}

/// Mostly a number below the count, which stands in the first byte.
fn event_line(random: &mut Random) -> String {
    let file = near_trace(random);
    let count = file.first().map_or(0, |&count| usize::from(count).min(4));
    format!("event {} {}", hex(&file), random.below(count + 1))
}

fn append_line(random: &mut Random) -> String {
    let appending = appending(random);
    format!("append {} {} {}", hex(&appending.buffer), appending.used, event_words(&appending.event))
}
