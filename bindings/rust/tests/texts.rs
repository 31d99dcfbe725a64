//! Topics, payloads, descriptions.

mod common;

use common::{declared, DESCRIPTION};
use homie5::description::{explain, judge, string, Declared, Description};
use homie5::payload::{Datatype, Kept};
use homie5::topic::{Flag, Topic};
use homie5::{Property, Refusal};
use std::borrow::Cow;

#[test]
fn every_form_of_topic() {
    let (device, node, property) = ("d", "n", "p");
    let forms = [
        ("d/$state", Topic::State { device }, Flag::Retained),
        ("d/$description", Topic::Description { device }, Flag::Retained),
        ("d/n/p", Topic::Value { device, node, property }, Flag::AsProperty),
        ("d/n/p/set", Topic::Set { device, node, property }, Flag::NotRetained),
        ("d/n/p/$target", Topic::Target { device, node, property }, Flag::Retained),
        ("d/$alert/x", Topic::Alert { device, name: "x" }, Flag::Retained),
        ("d/$log/warn", Topic::Log { device, level: "warn" }, Flag::Either),
        ("$broadcast/x/y", Topic::Broadcast { ids: "x/y" }, Flag::Either),
        ("d/$x", Topic::Other { device, word: "x", levels: b"" }, Flag::Either),
        ("d/$x/y/Z", Topic::Other { device, word: "x", levels: b"y/Z" }, Flag::Either),
    ];
    for (rest, form, flag) in forms {
        let topic = format!("homie/5/{rest}");
        assert_eq!(Topic::read("homie", topic.as_bytes()), Ok(form));
        assert_eq!(Flag::of("homie", topic.as_bytes()), Ok(flag));
    }
    assert_eq!(Topic::read("", b""), Err(Refusal::OtherDomain));
    assert_eq!(Flag::of("homie", b"homie/5/"), Err(Refusal::NoForm));
}

#[test]
fn datatypes_by_their_names() {
    for datatype in Datatype::ALL {
        assert_eq!(Datatype::from_name(datatype.words()), Some(*datatype));
    }
    assert_eq!((Datatype::from_name(""), Datatype::from_name("strings")), (None, None));
}

#[test]
fn kept_formats() {
    let kept = [
        (Datatype::String, None, Some(Kept::Nothing)),
        (Datatype::Integer, None, Some(Kept::Colon)),
        (Datatype::Boolean, None, Some(Kept::FalseTrue)),
        (Datatype::Boolean, Some(&b"off,on"[..]), Some(Kept::AsGiven)),
        (Datatype::Enum, None, None),
        (Datatype::Enum, Some(b""), None),
        (Datatype::Color, Some(b"rgb,rgb"), None),
    ];
    for (datatype, format, expected) in kept {
        assert_eq!(datatype.judge_format(format), expected, "{datatype} {format:?}");
    }
}

#[test]
fn payloads_with_and_without_a_format() {
    for format in [None, Some(&b""[..])] {
        assert!(!Datatype::String.is_payload(format, b""));
        assert!(Datatype::String.is_payload(format, b"\0"));
    }
    for (datatype, payload, missing) in
        [(Datatype::Integer, "7", ":"), (Datatype::Float, "0.5", ":"), (Datatype::Boolean, "true", "false,true")]
    {
        assert!(datatype.is_payload(None, payload.as_bytes()) && !datatype.is_payload(None, b"high"), "{datatype}");
        assert!(datatype.is_payload(Some(missing.as_bytes()), payload.as_bytes()), "{datatype}");
        assert!(!datatype.is_payload(Some(b""), payload.as_bytes()), "{datatype}");
    }
    assert!(Datatype::Enum.is_payload(Some(b"low,high"), b"low") && !Datatype::Enum.is_payload(None, b"low"));
    assert!(!Datatype::Color.is_payload(None, b"rgb,0,0,0"));
}

#[test]
fn payloads_by_the_format_that_a_property_keeps() {
    let [level, on, mode] = declared();
    for (property, valid) in [(level, "-7"), (on, "false"), (mode, "high")] {
        let judged = |payload: &str| property.datatype.is_payload(Some(property.format), payload.as_bytes());
        assert!(judged(valid) && !judged("medium"), "{}", property.id);
    }
}

#[test]
fn formats_that_are_not_kept_are_not_shown() {
    let fields = [
        (r#""datatype":"string","format":"\"x\\""#, Datatype::String, &b""[..]),
        (r#""datatype":"float""#, Datatype::Float, b":"),
        (r#""datatype":"boolean""#, Datatype::Boolean, b"false,true"),
        (r#""format":"off,on","datatype":"boolean""#, Datatype::Boolean, b"off,on"),
    ];
    for (fields, datatype, format) in fields {
        let nodes = format!(r#"{{"n":{{"properties":{{"p":{{{fields}}}}}}}}}"#);
        let text = format!(r#"{{"homie":"5.0","version":1,"nodes":{nodes}}}"#);
        let read = Description::read("lamp", text.as_bytes()).unwrap().property(0).unwrap();
        let expected = Property { node: "n", id: "p", datatype, format, settable: false, retained: true };
        assert_eq!(read.property(), expected);
        assert_eq!(read.format_place.is_some(), format == b"off,on");
    }
}

#[test]
fn descriptions_declare() {
    let read = Description::read("lamp", DESCRIPTION.as_bytes()).unwrap();
    assert_eq!((read.version, read.root.as_deref(), read.parent.as_deref()), (i64::MIN, Some("hub"), Some("hall")));
    let properties: Vec<_> = (0..read.properties).map(|i| read.property(i).unwrap()).collect();
    assert_eq!(properties.iter().map(Declared::property).collect::<Vec<_>>(), declared());
    assert_eq!(read.property(3), Err(Refusal::NoSuchNumber));
    let own_root = Description::read("hub", DESCRIPTION.as_bytes());
    let place = DESCRIPTION.find("\"hub\"").unwrap();
    assert_eq!(own_root, Err(Refusal::RuleBroken { place }));
    let least = Description::read("lamp", br#"{"version":9223372036854775807,"homie":"5.0"}"#).unwrap();
    assert_eq!((least.version, least.root, least.parent, least.properties), (i64::MAX, None, None, 0));
}

/// The front of a description, and the description of one property with these fields.
const FRONT: &str = r#"{"homie":"5.0","version":1,"#;

fn of_property(fields: &str) -> String {
    format!(r#"{FRONT}"nodes":{{"n":{{"properties":{{"p":{{{fields}}}}}}}}}}}"#)
}

#[test]
fn refusals_of_descriptions_tell_the_place() {
    let whole = |fields: &str| format!("{FRONT}{fields}}}");
    // the text, the number, and what stands at the place and behind it
    let refused = [
        (whole("]"), 21, "]}"),
        (whole(r#""name":"a"#), 21, ""),
        (whole(&format!(r#""x":{}"#, "[".repeat(16))), 21, "[}"),
        ("[1]".to_string(), 22, "[1]"),
        (whole(r#""nodes":{"n":null}"#), 22, "null}}"),
        (whole(r#""children":["a",7]"#), 22, "7]}"),
        (of_property(r#""settable":true"#), 23, "}}}}}"),
        (of_property(r#""datatype":"enum""#), 23, "}}}}}"),
        (whole(r#""type":"","version":2"#), 24, r#""version":2}"#),
        (whole(r#""nodes":{"n":{},"n":{}}"#), 24, r#""n":{}}}"#),
        (whole(r#""parent":"hub""#), 25, r#""hub"}"#),
        (whole(r#""nodes":{"N":{}}"#), 25, r#""N":{}}}"#),
        (of_property(r#""datatype":"integer","format":"2:1""#), 25, r#""2:1"}}}}}"#),
        (whole(r#""type":"","\u0076ersion":2"#), 24, r#""\u0076ersion":2}"#),
        (whole(r#""nodes":{"a\u002Fb":{}}"#), 25, r#""a\u002Fb":{}}}"#),
        (whole(r#""root":"hub\ud834""#), 25, r#"\ud834"}"#),
        (whole(r#""nodes":{"\uDD1E":{}}"#), 25, r#"\uDD1E":{}}}"#),
    ];
    for (text, number, rest) in refused {
        let place = text.len() - rest.len();
        assert!(text.ends_with(rest));
        let refusal = judge("lamp", text.as_bytes()).unwrap_err();
        assert_eq!((refusal.number(), refusal.place()), (number, Some(place)), "{text}");
        assert_eq!(Description::read("lamp", text.as_bytes()), Err(refusal), "{text}");
        assert_eq!(explain(text.as_bytes(), refusal).column(), Some(place + 1), "{text}");
    }
}

#[test]
fn a_property_that_a_description_lacks_tells_no_place() {
    let text = of_property(r#""datatype":"json""#);
    let read = Description::read("lamp", text.as_bytes()).unwrap();
    assert_eq!(read.property(1).map_err(|refusal| (refusal, refusal.place())), Err((Refusal::NoSuchNumber, None)));
}

#[test]
fn escapes_are_decoded() {
    let text = r#"{"\u0068omie":"5\u002e0","version":1,"root":"\u0068ub","parent":"h\u0061ll","nodes":{
        "\u0061-\u0031":{"properties":{"\u0070":{"datatype":"\u0065num","format":"\ud834\uDD1E\u002c\/\"\\u00e9é"}}}}}"#;
    let read = Description::read("lamp", text.as_bytes()).unwrap();
    assert_eq!((read.root.as_deref(), read.parent.as_deref()), (Some("hub"), Some("hall")));
    assert_eq!(read.root_place, text.find(r#""\u0068ub""#));
    assert_eq!(read.parent_place, text.find(r#""h\u0061ll""#));
    let property = read.property(0).unwrap();
    assert_eq!(property.property(), Property { node: "a-1", id: "p", format: "𝄞,/\"\\u00e9é".as_bytes(), ..of_enum() });
    assert_eq!(Some(property.node_place), text.find(r#""\u0061-"#));
    assert_eq!(Some(property.id_place), text.find(r#""\u0070""#));
    assert_eq!(property.format_place, text.find(r#""\ud834"#));
}

/// An enum that may not be set.
fn of_enum() -> Property<'static> {
    Property { node: "", id: "", datatype: Datatype::Enum, format: b"", settable: false, retained: true }
}

#[test]
fn strings_are_copied_where_they_have_escapes() {
    let text = br#"{"plain":"\n","":"\\u00e9","\"":""}"#;
    for (place, said, copied) in [
        (1, &b"plain"[..], false),
        (9, b"\n", true),
        (14, b"", false),
        (17, b"\\u00e9", true),
        (27, b"\"", true),
        (32, b"", false),
    ] {
        let string = string(text, place).unwrap();
        assert_eq!(*string, *said, "place {place}");
        assert_eq!(matches!(string, Cow::Owned(_)), copied, "place {place}");
    }
}

#[test]
fn strings_that_are_refused() {
    let refused = [
        (&br#""\ud834""#[..], 0, Refusal::RuleBroken { place: 1 }),
        (br#" "a\ud834\u0061""#, 1, Refusal::RuleBroken { place: 3 }),
        (br#""\udd1e\ud834""#, 0, Refusal::RuleBroken { place: 1 }),
        (br#""\ud834\udd1e\udd1e""#, 0, Refusal::RuleBroken { place: 13 }),
        (b"\"a", 0, Refusal::WrongKind { place: 0 }),
        (b"\"a", 1, Refusal::WrongKind { place: 1 }),
        (b"\"a", 2, Refusal::WrongKind { place: 2 }),
        (b"\"a", usize::MAX, Refusal::WrongKind { place: 2 }),
        (&[b'"'; 8193], 0, Refusal::NotJson { place: 8192 }),
    ];
    for (text, place, refusal) in refused {
        assert_eq!(string(text, place), Err(refusal), "{text:?} {place}");
    }
    assert_eq!(string(&[b'"'; 8192], 8190).as_deref(), Ok(&b""[..]));
    let explanation = explain(br#"{"root":"\ud834"}"#, Refusal::RuleBroken { place: 9 }).to_string();
    assert!(explanation.contains("one half of a surrogate pair") && explanation.ends_with("\n  |          ^"));
}
