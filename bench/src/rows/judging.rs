//! Topics, datatypes, formats, payloads and descriptions by themselves.

use crate::data::*;
use crate::describe;
use crate::measure::{batches, copying, Calls, Row, Sides, Unit};
use crate::ours;
use reference::json::string_at;
use reference::payload::{is_format, is_payload, Datatype};
use reference::topic;
use std::hint::black_box;

pub fn rows() -> Vec<Row> {
    let mut rows = vec![
        Row::new("topic of a value", Unit::Call, || topics(|id| format!("homie/5/{id}/light/on"))),
        Row::new("topic of a state", Unit::Call, || topics(|id| format!("homie/5/{id}/$state"))),
        Row::new("flag of a set's topic", Unit::Call, || flags(|id| format!("homie/5/{id}/light/on/set"))),
        Row::new("datatype by its name", Unit::Call, names),
    ];
    rows.extend(FORMATS.map(|(name, datatype, format)| format_row(name, datatype, format)));
    rows.extend(PAYLOADS.map(|(name, datatype, format, payload)| payload_row(name, datatype, format, payload)));
    rows.extend(description_rows());
    rows.extend(STRINGS.map(|(name, string)| string_row(name, string)));
    rows.extend(ITEMS.map(|(name, item)| judging_row(name, move || description_with(OWN, item))));
    rows
}

/// A call for each item.
fn each<T: Clone + 'static>(items: &[T], call: impl Fn(&T) + 'static) -> Calls {
    batches(items.to_vec(), items.len(), move |items: &mut Vec<T>| items.iter().for_each(&call))
}

fn all_topics(make: fn(&str) -> String) -> Vec<Vec<u8>> {
    ids().iter().map(|id| make(id).into_bytes()).collect()
}

fn topics(make: fn(&str) -> String) -> Sides {
    let topics = all_topics(make);
    let ours = |topic: &Vec<u8>| ours::answers(0, |out| ours::topic_read(DOMAIN, topic, out));
    let reference = |topic: &Vec<u8>| drop(black_box(topic::read(DOMAIN, topic).expect("a form")));
    Sides { ours: each(&topics, ours), reference: each(&topics, reference), limit: None }
}

fn flags(make: fn(&str) -> String) -> Sides {
    let topics = all_topics(make);
    let ours = |topic: &Vec<u8>| ours::answers(0, |out| ours::topic_flag(DOMAIN, topic, out));
    let reference = |topic: &Vec<u8>| {
        black_box(topic::read(DOMAIN, topic).expect("a form").form.fixed_flag());
    };
    Sides { ours: each(&topics, ours), reference: each(&topics, reference), limit: None }
}

fn names() -> Sides {
    let names = Datatype::ALL.map(|datatype| datatype.word().as_bytes());
    let ours = |name: &&[u8]| ours::answers(1, |out| ours::is_datatype(black_box(name), out));
    let reference = |name: &&[u8]| {
        black_box(Datatype::from_word(black_box(name)).expect("a datatype"));
    };
    Sides { ours: each(&names, ours), reference: each(&names, reference), limit: None }
}

/// The same call over and over.
fn same(ours: impl Fn() + 'static, reference: impl Fn() + 'static) -> Sides {
    Sides { ours: batches((), 1, move |()| ours()), reference: batches((), 1, move |()| reference()), limit: None }
}

/// Valid formats.
const FORMATS: [(&str, Datatype, &str); 4] = [
    ("integer with a step", Datatype::Integer, "0:100:5"),
    ("float with a step", Datatype::Float, "5:30:0.5"),
    ("enum", Datatype::Enum, "off,heat,cool,auto"),
    ("color", Datatype::Color, "rgb,hsv"),
];

fn format_row(name: &str, datatype: Datatype, format: &'static str) -> Row {
    let format = format.as_bytes();
    let ours = move || ours::answers(1, |out| ours::is_format(datatype as u8, black_box(format), out));
    let reference = move || assert!(is_format(datatype, black_box(format)));
    Row::new(format!("format, {name}"), Unit::Call, move || same(ours, reference))
}

/// Valid payloads of each datatype, with a format.
const PAYLOADS: [(&str, Datatype, &str, &str); 12] = [
    ("string", Datatype::String, "", "Küche, links neben dem Fenster"),
    ("integer", Datatype::Integer, "0:100", "58"),
    ("integer with a step", Datatype::Integer, "0:100:5", "35"),
    ("float", Datatype::Float, "-40:125", "21.53"),
    ("float with a step", Datatype::Float, "5:30:0.5", "21.5"),
    ("boolean", Datatype::Boolean, "false,true", "true"),
    ("enum", Datatype::Enum, "off,heat,cool,auto", "auto"),
    ("color", Datatype::Color, "rgb,hsv", "rgb,255,120,0"),
    ("datetime", Datatype::Datetime, "", "2026-11-15T23:59:59.123Z"),
    ("duration", Datatype::Duration, "", "PT12H5M46S"),
    ("json, flat", Datatype::Json, "", r#"[1,2,3,4,5,6,7,8,"a","b","c",true,false,null,10]"#),
    ("json, nested", Datatype::Json, "", r#"[[[[[[[[{"a":[{"b":[1,[2,[3]]]}]}]]]]]]]]"#),
];

fn payload_row(name: &str, datatype: Datatype, format: &'static str, payload: &'static str) -> Row {
    let (format, payload) = (format.as_bytes(), payload.as_bytes());
    let ours = move || assert_eq!(ours::is_payload(datatype as u8, black_box(format), black_box(payload)), 1);
    let reference = move || assert!(is_payload(datatype, black_box(format), black_box(payload)));
    Row::new(format!("payload, {name}"), Unit::Call, move || same(ours, reference))
}

// Descriptions

const OWN: &str = "lamp-attic";

/// Items of JSON that fill a description of 8 KB.
const ITEMS: [(&str, &str); 4] = [
    ("JSON, numbers", "123.25"),
    ("JSON, strings", r#""a string with some words in it and no escape""#),
    ("JSON, objects", r#"{"a":1,"b":"two","c":[true,null]}"#),
    ("JSON, nested", "[[[[[[[[[[[[[[1]]]]]]]]]]]]]]"),
];

fn description_rows() -> [Row; 5] {
    let twelve = || description(OWN);
    let read = |text: &[u8]| ours::answers(0, |out| ours::description_read(OWN.as_bytes(), text, out));
    let last = |text: &[u8]| ours::answers(0, |out| ours::description_property(OWN.as_bytes(), text, 11, out));
    [
        judging_row("description, 12 properties", twelve),
        judging_row("description, 24 properties in 8 KB", || long_description(OWN)),
        faulty_row(),
        text_row("reading description, 12 properties", twelve, read),
        text_row("last of a description's 12 properties", twelve, last),
    ]
}

/// Strings of a description, the same said without escapes and with them.
const STRINGS: [(&str, &str); 2] =
    [("plain", r#""off,heat,cool,auto,22°C""#), ("escaped", r#""off\u002cheat\u002ccool\u002cauto\u002c22\u00b0C""#)];

fn string_row(name: &str, string: &'static str) -> Row {
    let (string, said) = (string.as_bytes(), "off,heat,cool,auto,22°C".as_bytes());
    let ours = move || {
        let mut buf = [0; 64];
        ours::answers(0, |out| ours::description_string(black_box(string), 0, &mut buf, out));
        assert_eq!(&buf[..said.len()], said);
    };
    let reference = move || assert_eq!(string_at(black_box(string), 0).as_deref(), Ok(said));
    Row::new(format!("string of a description, decoded, {name}"), Unit::Call, move || same(ours, reference))
}

fn judging_row(name: &str, make: impl Fn() -> String + 'static) -> Row {
    text_row(&format!("judging {name}"), make, |text| assert_eq!(ours::description_judge(OWN.as_bytes(), text), 0))
}

/// A description with a fault at its end; both sides tell its number and place.
fn faulty_row() -> Row {
    let text = faulty_description(OWN).into_bytes();
    let returned = |text: &[u8]| ours::returned(&describe::read(OWN.as_bytes(), text));
    Row::new("judging description, 12 properties, faulty", Unit::Megabyte(text.len()), move || {
        let fault = returned(&text);
        assert_ne!(fault, 0);
        let ours = move |text: &mut Vec<u8>| {
            assert_eq!(ours::description_judge(OWN.as_bytes(), black_box(text)), fault);
        };
        let reference = move |text: &mut Vec<u8>| assert_eq!(returned(black_box(text)), fault);
        Sides {
            ours: batches(text.clone(), 1, ours),
            reference: batches(text.clone(), 1, reference),
            limit: Some(copying(text.clone(), 1)),
        }
    })
}

/// A call on the text of a description, which the other side reads whole.
fn text_row(name: &str, make: impl Fn() -> String + 'static, ours: fn(&[u8])) -> Row {
    let bytes = make().len();
    Row::new(name, Unit::Megabyte(bytes), move || {
        let text = make().into_bytes();
        let reference = |text: &mut Vec<u8>| {
            black_box(describe::read(OWN.as_bytes(), black_box(text)).expect("a description"));
        };
        Sides {
            ours: batches(text.clone(), 1, move |text| ours(black_box(text))),
            reference: batches(text.clone(), 1, reference),
            limit: Some(copying(text, 1)),
        }
    })
}
