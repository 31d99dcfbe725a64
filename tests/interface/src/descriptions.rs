//! Descriptions: judged, with the place of the first fault, and what they declare, with where it stands in the text.

use crate::answer::{refused, returned, same_values, told};
use crate::calls::datatype_number;
use crate::guarded::{Out, VALUES};
use crate::questions::some_number;
use crate::raw;
use crate::tally::{Outcome, Tally};
use reference::description::{self, Description, Property};
use reference::generate::descriptions::{description, full_description, Plan};
use reference::generate::faulty::faulty_description;
use reference::generate::texts::{id, near_id};
use reference::json::{self, string_at};
use reference::lines::hex;
use reference::random::Random;
use reference::refusal::NUMBER;

/// A quarter of the calls, since each walks a whole description.
pub fn run(seed: u64, length: usize, tally: &mut Tally) -> Outcome {
    let mut random = Random::new(seed);
    while tally.calls < length as u64 / 4 {
        let own = if random.once_in(10) { near_id(&mut random) } else { id(&mut random) };
        let others = [b"hub".to_vec(), id(&mut random)];
        let plan = Plan { own: &own, others: &others, fault: random.pick(&[60, 400]) };
        let text = match random.below(20) {
            0 => full_description(&mut random, &plan),
            1..=9 => description(&mut random, &plan),
            _ => faulty_description(&mut random, &plan),
        };
        one(&mut random, &own, &text, tally)
            .map_err(|fault| format!("description {} {}: {fault}", hex(&own), hex(&text)))?;
    }
    Ok(())
}

/// Judged, read, and its properties asked, up to past the last.
fn one(random: &mut Random, own: &[u8], text: &[u8], tally: &mut Tally) -> Outcome {
    let expected = description::read(own, text);
    let whole = returned(&expected);
    let judged = raw::description_judge(own, text);
    tally.count("description_judge", judged);
    if judged != whole {
        return Err(format!("judged {}; expected {}", told(judged), told(whole)));
    }
    tally.count("description_read", whole);
    let head = asked(random, whole, 6, |out| raw::description_read(own, text, out))?;
    if let Ok(expected) = &expected {
        is_head(text, &head, expected).map_err(|fault| format!("read: {head:?}: {fault}"))?;
    }
    let properties = expected.as_ref().map_or(&[][..], |description| &description.properties);
    for i in numbers(random, properties.len()) {
        let one = if whole == 0 && i >= properties.len() { refused(NUMBER) } else { whole };
        tally.count("description_property", one);
        let values = asked(random, one, 7, |out| raw::description_property(own, text, i, out))
            .map_err(|fault| format!("property {i}: {fault}"))?;
        if let Some(property) = properties.get(i) {
            is_property(text, &values, property).map_err(|fault| format!("property {i}: {values:?}: {fault}"))?;
        }
    }
    Ok(())
}

/// Every number below the count, that at it, and another.
fn numbers(random: &mut Random, count: usize) -> Vec<usize> {
    (0..=count).chain([some_number(random, count)]).collect()
}

/// Asks with room for all values, then with any; answers the values.
fn asked(
    random: &mut Random,
    expected: u32,
    count: usize,
    call: impl Fn(&mut [u64]) -> u32,
) -> Result<Vec<u64>, String> {
    let count = if expected == 0 { count } else { 0 };
    let mut full = Out::new(VALUES + random.below(3));
    let mut other = Out::some(random);
    let both = [call(full.lent()), call(other.lent())];
    if both != [expected; 2] {
        return Err(format!("answers {:?}; expected {}", both.map(told), told(expected)));
    }
    same_values(count, &full, &other)?;
    Ok(full.values(count)?.to_vec())
}

fn require(holds: bool, what: &str) -> Outcome {
    if holds {
        Ok(())
    } else {
        Err(format!("{what} differs"))
    }
}

fn is_head(text: &[u8], values: &[u64], expected: &Description) -> Outcome {
    require(values[0] == expected.version as u64, "the version")?;
    require(is_field(text, &values[1..3], &[b"root"], expected.root.as_deref()), "the root")?;
    require(is_field(text, &values[3..5], &[b"parent"], expected.parent.as_deref()), "the parent")?;
    require(values[5] == expected.properties.len() as u64, "the number of properties")
}

fn is_property(text: &[u8], values: &[u64], expected: &Property) -> Outcome {
    let (node, id): (&[u8], &[u8]) = (&expected.node, &expected.id);
    let path = [b"nodes", node, b"properties", id, b"format"];
    let kept = kept(expected, member(text, &path).is_some());
    let as_given = kept == 0;
    let (shown, format) = ([u64::from(as_given), values[4]], as_given.then_some(&expected.format[..]));
    require(is_name(text, values[0], &path[..2]), "the node's ID")?;
    require(is_name(text, values[1], &path[..4]), "the property's ID")?;
    require(values[2] == datatype_number(expected.datatype), "the datatype")?;
    require(values[3] == kept, "what is kept of the format")?;
    require(is_field(text, &shown, &path, format), "the format")?;
    require(values[5..7] == [expected.settable, expected.retained].map(u64::from), "a flag")
}

/// Its own bytes, `:`, `false,true` or nothing.
fn kept(property: &Property, given: bool) -> u64 {
    match (property.datatype.keeps_format(), given) {
        (false, _) => 3,
        (true, true) => 0,
        (true, false) => 1 + u64::from(property.format != b":"),
    }
}

// Places in the text

/// The member that these names lead to, each by what it says, and the place of its value.
fn member(text: &[u8], names: &[&[u8]]) -> Option<(usize, usize)> {
    let document = json::read(text)?;
    let (last, before) = names.split_last()?;
    let object = before.iter().try_fold(&document, |value, name| value.object()?.value(name))?;
    object.object()?.member(last).map(|member| (member.place, member.value.place))
}

/// The last of these names stands at the place shown, and says what it should.
fn is_name(text: &[u8], shown: u64, names: &[&[u8]]) -> bool {
    let place = member(text, names).map(|(name, _)| name);
    place.map(|place| place as u64) == Some(shown)
        && place.and_then(|place| string_at(text, place).ok()).as_deref() == names.last().copied()
}

/// 1 and where the field's string stands, which says what it should, or 0 and 0.
fn is_field(text: &[u8], shown: &[u64], names: &[&[u8]], string: Option<&[u8]>) -> bool {
    let Some(string) = string else {
        return shown == [0, 0];
    };
    let place = member(text, names).map_or(usize::MAX, |(_, value)| value);
    shown == [1, place as u64] && string_at(text, place).as_deref() == Ok(string)
}
