//! What the tests share; each uses a part of it.

#![allow(dead_code)]

use homie5::payload::Datatype;
use homie5::trace::Event;
use homie5::Property;

/// Microseconds past 32 bits, and past 63.
pub const LATE: u64 = (1 << 32) + 4;
pub const LATEST: u64 = u64::MAX;

pub fn event<'a>(time: u64, topic: &'a str, retained: bool, payload: &'a str) -> Event<'a> {
    Event { time, topic: topic.as_bytes(), retained, payload: payload.as_bytes() }
}

/// A description with a root, a parent and three properties, sent in an order that is not theirs.
pub const DESCRIPTION: &str = r#"{"homie":"5.0","version":-9223372036854775808,"root":"hub","parent":"hall","nodes":{
    "b":{"properties":{"mode":{"datatype":"enum","format":"low,high","retained":false}}},
    "a":{"properties":{"on":{"datatype":"boolean","settable":true},"level":{"datatype":"integer"}}}}}"#;

/// The properties that `DESCRIPTION` declares, in their order.
pub fn declared() -> [Property<'static>; 3] {
    let boolean = Property {
        node: "a",
        id: "on",
        datatype: Datatype::Boolean,
        format: b"false,true",
        settable: true,
        retained: true,
    };
    let integer = Property { id: "level", datatype: Datatype::Integer, format: b":", settable: false, ..boolean };
    let word = Property {
        node: "b",
        id: "mode",
        datatype: Datatype::Enum,
        format: b"low,high",
        settable: false,
        retained: false,
    };
    [integer, boolean, word]
}
