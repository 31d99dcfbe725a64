//! Descriptions that follow one: what a device holds is kept, changed or
//! dropped, property by property, and written anew.

use super::descriptions::Plan;
use super::escapes::respelled;
use super::payloads::{datatype, format};
use crate::description::{Description, Property, PROPERTY_LIMIT};
use crate::numbers::{float, integer};
use crate::payload::{is_format, Datatype};
use crate::random::Random;
use crate::table::{Device, LaneKind};

/// The next description of a device; none if it has no description.
pub fn next_description(random: &mut Random, plan: &Plan, device: &Device) -> Option<Vec<u8>> {
    let mut new = device.description.clone()?;
    new.version = new.version.wrapping_add(random.pick(&[1, 1, 1, -1]));
    for at in 0..new.properties.len() {
        if random.once_in(3) {
            let payload = some_payload(random, device, at);
            change(random, &mut new.properties[at], payload.as_deref());
        }
    }
    new.properties.retain(|_| !random.once_in(10));
    if random.once_in(4) {
        add_property(random, &mut new);
    }
    if random.once_in(6) {
        change_relations(random, plan, &mut new);
    }
    Some(written(random, &new))
}

/// What the value or the target of a property holds.
fn some_payload(random: &mut Random, device: &Device, at: usize) -> Option<Vec<u8>> {
    let kinds = random.pick(&[[LaneKind::Value, LaneKind::Target], [LaneKind::Target, LaneKind::Value]]);
    let held = kinds.iter().find_map(|kind| device.lane(at, *kind));
    held.map(|lane| lane.payload.clone())
}

// Changes

/// One thing of a property becomes other.
fn change(random: &mut Random, property: &mut Property, payload: Option<&[u8]>) {
    match random.below(8) {
        0 => property.retained = !property.retained,
        1 | 2 => property.settable = !property.settable,
        3 | 4 => {
            property.datatype = if random.once_in(3) { Datatype::String } else { datatype(random) };
            property.format = format_near(random, property.datatype, payload);
        }
        _ => property.format = format_near(random, property.datatype, payload),
    }
}

/// A kept format for which the payload is just valid, or just not.
fn format_near(random: &mut Random, datatype: Datatype, payload: Option<&[u8]>) -> Vec<u8> {
    if !datatype.keeps_format() {
        return Vec::new();
    }
    loop {
        let near = payload.filter(|_| !random.once_in(4)).and_then(|payload| near(random, datatype, payload));
        let format = near.unwrap_or_else(|| format(random, datatype));
        if is_format(datatype, &format) {
            return format;
        }
    }
}

/// A format made of the payload, if it says something for the datatype.
fn near(random: &mut Random, datatype: Datatype, payload: &[u8]) -> Option<Vec<u8>> {
    let text = std::str::from_utf8(payload).ok()?;
    let format = match datatype {
        Datatype::Integer => {
            let (value, step) = (i128::from(integer(payload)?), random.between(1, 6));
            let near = value + random.pick(&[0, 0, 1, -1, 2, 3]);
            match random.below(5) {
                0 => format!("{near}:"),
                1 => format!(":{near}"),
                2 => format!("{near}:{near}:{step}"),
                3 => format!(":{near}:{step}"),
                _ => format!("{}:{near}", near - 5),
            }
        }
        Datatype::Float => {
            float(payload)?;
            let step = random.pick(&["0.5", "0.1", "2", "0.000000001"]);
            match random.below(5) {
                0 => format!("{text}:"),
                1 => format!(":{text}"),
                2 => format!("{text}:{text}"),
                3 => format!("{text}::{step}"),
                _ => format!("0:{text}:{step}"),
            }
        }
        Datatype::Enum | Datatype::Boolean => match random.below(3) {
            0 => format!("{text},zz"),
            1 => format!("zz,{text}"),
            _ => format!("{text}z,z"),
        },
        Datatype::Color => random.pick(&["rgb", "hsv", "xyz", "xyz,rgb", "hsv,xyz"]).to_string(),
        _ => return None,
    };
    Some(format.into_bytes())
}

/// A property more, if there is room.
fn add_property(random: &mut Random, description: &mut Description) {
    let datatype = datatype(random);
    let node = description.properties.first().map_or(b"n".to_vec(), |property| property.node.clone());
    let id = random.pick(&[&b"p0"[..], b"p1", b"p-2", b"new", b"-0"]).to_vec();
    let taken = description.properties.iter().any(|property| property.node == node && property.id == id);
    if taken || description.properties.len() >= PROPERTY_LIMIT {
        return;
    }
    let format = format_near(random, datatype, None);
    let (settable, retained) = (random.once_in(2), random.once_in(2));
    description.properties.push(Property { node, id, datatype, format, settable, retained });
}

/// Another root or parent, or none.
fn change_relations(random: &mut Random, plan: &Plan, description: &mut Description) {
    let other = random.pick(plan.others);
    let other = if other == plan.own { b"elsewhere".to_vec() } else { other };
    match random.below(4) {
        0 => (description.root, description.parent) = (None, None),
        1 => (description.root, description.parent) = (Some(other), None),
        2 => (description.root, description.parent) = (Some(other.clone()), Some(other)),
        _ => description.root = Some(other),
    }
}

// Texts

/// Field names with their values as JSON text.
type Fields = Vec<(String, String)>;

/// A text that declares this: what may be left out is left out or not, and
/// fields that declare nothing come in.
pub fn written(random: &mut Random, description: &Description) -> Vec<u8> {
    let version = match description.version {
        0 => random.pick(&["0", "-0"]).to_string(),
        version => version.to_string(),
    };
    let mut fields: Fields = Vec::new();
    add(&mut fields, "homie", random.pick(&["\"5.0\"", "\"5.1\""]));
    add(&mut fields, "version", &version);
    for (name, id) in [("root", &description.root), ("parent", &description.parent)] {
        fields.extend(id.as_ref().map(|id| (name.to_string(), quoted(id))));
    }
    add_other(random, &mut fields, &["name", "type", "x"]);
    if random.once_in(4) {
        add(&mut fields, "children", random.pick(&["[]", "[\"a\"]", "[\"b\",\"a\"]"]));
    }
    let nodes = nodes(random, description);
    if !nodes.is_empty() || random.once_in(2) {
        add(&mut fields, "nodes", &object(random, nodes));
    }
    let text = object(random, fields).into_bytes();
    if random.once_in(4) {
        respelled(random, text)
    } else {
        text
    }
}

fn nodes(random: &mut Random, description: &Description) -> Fields {
    let mut names: Vec<&[u8]> = description.properties.iter().map(|property| &property.node[..]).collect();
    names.sort();
    names.dedup();
    let mut nodes = Fields::new();
    for name in names {
        let of_node = description.properties.iter().filter(|property| property.node == name);
        let properties: Fields =
            of_node.map(|property| (unquoted(&property.id), fields_of(random, property))).collect();
        let mut fields = Fields::new();
        add(&mut fields, "properties", &object(random, properties));
        add_other(random, &mut fields, &["name", "type"]);
        nodes.push((unquoted(name), object(random, fields)));
    }
    // A node without properties declares nothing.
    if random.once_in(6) {
        nodes.push(("without-properties".to_string(), random.pick(&["{}", r#"{"properties":{}}"#]).to_string()));
    }
    nodes
}

fn fields_of(random: &mut Random, property: &Property) -> String {
    let mut fields = Fields::new();
    add(&mut fields, "datatype", &quoted(property.datatype.word().as_bytes()));
    for (name, flag, missing) in [("settable", property.settable, false), ("retained", property.retained, true)] {
        if flag != missing || random.once_in(2) {
            add(&mut fields, name, if flag { "true" } else { "false" });
        }
    }
    let kept = property.datatype.keeps_format();
    if !kept && random.once_in(3) {
        add(&mut fields, "format", random.pick(&["\"\"", "\"x,,\"", "\"\\ud800\""]));
    } else if kept && (property.datatype.missing_format() != Some(&property.format) || random.once_in(2)) {
        add(&mut fields, "format", &quoted(&property.format));
    }
    add_other(random, &mut fields, &["name", "unit", "y"]);
    object(random, fields)
}

fn add(fields: &mut Fields, name: &str, value: &str) {
    fields.push((name.to_string(), value.to_string()));
}

fn add_other(random: &mut Random, fields: &mut Fields, names: &[&str]) {
    for name in names {
        if random.once_in(6) {
            add(fields, name, random.pick(&["\"\"", "\"a\"", "\"°C\"", "\"\\n\""]));
        }
    }
}

/// The members in any order.
fn object(random: &mut Random, mut fields: Fields) -> String {
    random.shuffle(&mut fields);
    let members: Vec<String> = fields.iter().map(|(name, value)| format!("\"{name}\":{value}")).collect();
    format!("{{{}}}", members.join(","))
}

fn quoted(said: &[u8]) -> String {
    format!("\"{}\"", unquoted(said))
}

/// The contents of a string that says this, with the escapes that it needs.
fn unquoted(said: &[u8]) -> String {
    let spelled = |character: char| match character {
        '"' | '\\' => format!("\\{character}"),
        '\0'..='\u{1f}' => format!("\\u{:04x}", character as u32),
        _ => character.to_string(),
    };
    String::from_utf8_lossy(said).chars().map(spelled).collect()
}

#[cfg(test)]
mod tests {
    use super::*;
    use crate::description;
    use crate::generate::messages::House;
    use crate::payload::is_payload;
    use crate::table::{Lane, Table};
    use crate::topic::{self, Form};
    use std::collections::BTreeMap;

    /// Lists of messages in a small house, with the device before and after
    /// each description that was taken over another one.
    fn redescribed() -> Vec<(Device, Device)> {
        let mut pairs = Vec::new();
        for seed in 1..=120 {
            let mut random = Random::new(seed);
            let house = House::new(&mut random, b"homie".to_vec(), 2);
            let mut table = Table::new(b"homie", 2);
            for _ in 0..150 {
                let message = house.message(&mut random, &table);
                let before = table.clone();
                let is_description = topic::read(b"homie", &message.topic).is_ok_and(|t| t.form == Form::Description);
                if table.take(&message).is_err() || !is_description || message.payload.is_empty() {
                    continue;
                }
                let id = topic::read(b"homie", &message.topic).unwrap().ids[0].clone();
                let before = before.device(&id).unwrap().clone();
                if before.description.is_some() {
                    pairs.push((before, table.device(&id).unwrap().clone()));
                }
            }
        }
        pairs
    }

    /// What becomes of the lanes: each outcome, for each reason.
    #[test]
    fn lanes_are_kept_and_dropped_for_every_reason() {
        let mut seen: BTreeMap<String, usize> = BTreeMap::new();
        for (before, after) in redescribed() {
            for (at, old) in before.properties().iter().enumerate() {
                let new = after.properties().iter().position(|new| new.node == old.node && new.id == old.id);
                for kind in LaneKind::ALL {
                    if let Some(lane) = before.lane(at, kind) {
                        let reason = reason(old, new.map(|new| &after.properties()[new]), lane);
                        let kept = new.is_some_and(|new| after.lane(new, kind) == Some(lane));
                        *seen.entry(format!("{} {reason} {kept}", kind.word())).or_default() += 1;
                    }
                }
            }
        }
        let expected = [
            ("value", &["alike true", "changed true", "invalid false", "gone false", "flag false"][..]),
            ("target", &["alike true", "changed true", "invalid false", "gone false", "flag true"]),
            ("asked", &["alike false", "changed false", "invalid false", "gone false", "flag false"]),
        ];
        let expected = expected.iter().flat_map(|(kind, ends)| ends.iter().map(move |end| format!("{kind} {end}")));
        let mut expected: Vec<String> = expected.collect();
        expected.sort();
        assert_eq!(seen.keys().cloned().collect::<Vec<String>>(), expected, "{seen:?}");
        assert!(seen.values().all(|&times| times >= 5), "{seen:?}");
    }

    fn reason(old: &Property, new: Option<&Property>, lane: &Lane) -> &'static str {
        match new {
            None => "gone",
            Some(new) if !is_payload(new.datatype, &new.format, &lane.payload) => "invalid",
            Some(new) if !old.retained || !new.retained => "flag",
            Some(new) if new == old => "alike",
            Some(_) => "changed",
        }
    }

    #[test]
    fn what_is_written_declares_what_it_should() {
        for (before, _) in redescribed() {
            let expected = before.description.unwrap();
            let text = written(&mut Random::new(1), &expected);
            assert_eq!(
                description::read(b"no-device-has-it", &text),
                Ok(expected),
                "{}",
                String::from_utf8_lossy(&text)
            );
        }
    }
}
