//! What is measured: a house of 64 devices, their descriptions and messages, and a trace of them.

use reference::random::Random;
use reference::trace::Event;

pub const DOMAIN: &[u8] = b"homie";
pub const DEVICES: usize = 64;
/// The time of every message.
pub const NOW: u64 = 1_700_000_000_000_000;

const KINDS: [&str; 8] = ["thermostat", "lamp", "blind", "plug", "sensor-door", "meter", "valve", "panel"];
const ROOMS: [&str; 8] = ["attic", "bath", "cellar", "garage", "hall", "kitchen", "living-room", "office"];

/// The device that all others name as their root.
pub const ROOT: &str = "thermostat-attic";

/// The IDs of the devices; those of a kind stand in every room.
pub fn ids() -> Vec<String> {
    KINDS.iter().flat_map(|kind| ROOMS.iter().map(move |room| format!("{kind}-{room}"))).collect()
}

/// A property: its node, its ID, the rest of its object, and two payloads.
pub struct Sample {
    pub node: &'static str,
    pub id: &'static str,
    pub object: &'static str,
    pub payloads: [&'static str; 2],
}

const fn sample(node: &'static str, id: &'static str, object: &'static str, payloads: [&'static str; 2]) -> Sample {
    Sample { node, id, object, payloads }
}

/// The properties that each device has, by node ID.
pub const PROPERTIES: [Sample; 12] = [
    sample("climate", "humidity", r#""datatype":"integer","format":"0:100","unit":"%""#, ["41", "58"]),
    sample("climate", "mode", r#""datatype":"enum","format":"off,heat,cool,auto","settable":true"#, ["heat", "auto"]),
    sample("climate", "setpoint", r#""datatype":"float","format":"5:30:0.5","settable":true"#, ["21.5", "19"]),
    sample("climate", "temperature", r#""datatype":"float","format":"-40:125","unit":"°C""#, ["21.53", "-3.25"]),
    sample(
        "light",
        "color",
        r#""datatype":"color","format":"rgb,hsv","settable":true"#,
        ["rgb,255,120,0", "hsv,30,100,80"],
    ),
    sample("light", "level", r#""datatype":"integer","format":"0:100:5","settable":true"#, ["35", "100"]),
    sample("light", "on", r#""datatype":"boolean","settable":true"#, ["true", "false"]),
    sample("system", "label", r#""datatype":"string","settable":true"#, ["Reading corner", "Küche, links"]),
    sample("system", "pressed", r#""datatype":"enum","format":"once,twice","retained":false"#, ["once", "twice"]),
    sample("system", "status", r#""datatype":"json""#, [r#"{"rssi":-61,"heap":[20480,9]}"#, r#"[1,2,{"a":null}]"#]),
    sample("system", "updated", r#""datatype":"datetime""#, ["2026-11-15T23:59:59.123Z", "2026-11-16T00:00:01+01:00"]),
    sample("system", "uptime", r#""datatype":"duration""#, ["PT12H5M46S", "PT46S"]),
];

/// The property with this ID.
pub fn property(id: &str) -> &'static Sample {
    PROPERTIES.iter().find(|sample| sample.id == id).expect("a property of the list")
}

fn object(members: &[String]) -> String {
    format!("{{{}}}", members.join(","))
}

/// The nodes with their properties, each with a name of so many bytes.
fn nodes(prefix: &str, name: usize) -> Vec<String> {
    let of = |node: &str| {
        let own = PROPERTIES.iter().filter(|sample| sample.node == node);
        let name = "n".repeat(name);
        let list: Vec<String> = own.map(|p| format!(r#""{}":{{"name":"{name}",{}}}"#, p.id, p.object)).collect();
        format!(r#""{prefix}{node}":{{"name":"Node","type":"group","properties":{}}}"#, object(&list))
    };
    ["climate", "light", "system"].map(of).to_vec()
}

fn description_of(own: &str, extra: &str, nodes: &[String]) -> String {
    let relatives = if own == ROOT { String::new() } else { format!(r#","root":"{ROOT}","parent":"{ROOT}""#) };
    let nodes = object(nodes);
    format!(r#"{{"homie":"5.0","version":7,"name":"Device {own}"{relatives}{extra},"nodes":{nodes}}}"#)
}

/// The description of a device with the 12 properties.
pub fn description(own: &str) -> String {
    description_of(own, "", &nodes("", 12))
}

/// The same with a fault at its end: the datatype of the last property is none.
pub fn faulty_description(own: &str) -> String {
    description(own).replace(property("uptime").object, r#""datatype":"durations""#)
}

/// A description of nearly 8,192 bytes with 24 properties.
pub fn long_description(own: &str) -> String {
    let text = |name: usize| description_of(own, "", &[nodes("", name), nodes("second-", name)].concat());
    let longest = (0..400).rev().map(text).find(|text| text.len() <= 8192);
    longest.expect("a short one")
}

/// A description without nodes and with a field of any JSON value, nearly 8,192 bytes long: the item is repeated.
pub fn description_with(own: &str, item: &str) -> String {
    let text = |count: usize| description_of(own, &format!(r#","x":[{}]"#, vec![item; count].join(",")), &[]);
    let longest = (1..4000).map(text).take_while(|text| text.len() <= 8192).last();
    longest.expect("a short one")
}

pub fn event(rest: &str, retained: bool, payload: &str) -> Event {
    let topic = format!("homie/5/{rest}").into_bytes();
    Event { time: NOW, topic, retained, payload: payload.as_bytes().to_vec() }
}

pub fn state(id: &str, word: &str) -> Event {
    event(&format!("{id}/$state"), true, word)
}

pub fn describe(id: &str, text: &str) -> Event {
    event(&format!("{id}/$description"), true, text)
}

/// A message to the property of a device; `last` is what the topic has behind the property.
pub fn to_property(id: &str, sample: &Sample, last: &str, payload: &str) -> Event {
    let retained = match last {
        "/set" => false,
        "" => sample.id != "pressed",
        _ => true,
    };
    event(&format!("{id}/{}/{}{last}", sample.node, sample.id), retained, payload)
}

/// All that makes the house: every device with its description, and every lane filled that can be.
pub fn house() -> Vec<Event> {
    let mut events = Vec::new();
    for id in ids() {
        events.push(state(&id, "ready"));
        events.push(describe(&id, &description(&id)));
        for sample in &PROPERTIES {
            let payload = sample.payloads[0];
            events.push(to_property(&id, sample, "", payload));
            events.push(to_property(&id, sample, "/$target", payload));
            if sample.object.contains("settable") {
                events.push(to_property(&id, sample, "/set", payload));
            }
        }
    }
    events
}

/// A day in the house: so many value messages, with now and then a set, a state or a log.
pub fn day(count: usize) -> Vec<Event> {
    let mut random = Random::new(5);
    let ids = ids();
    (0..count).map(|i| Event { time: NOW + 80_000 * i as u64, ..any_event(&mut random, &ids) }).collect()
}

fn any_event(random: &mut Random, ids: &[String]) -> Event {
    let id = &ids[random.below(ids.len())];
    let sample = &PROPERTIES[random.below(PROPERTIES.len())];
    let payload = sample.payloads[random.below(2)];
    match random.below(20) {
        0 => state(id, "sleeping"),
        1 => event(&format!("{id}/$log/info"), false, "connected to the broker again"),
        2 => to_property(id, property("on"), "/set", "true"),
        _ => to_property(id, sample, "", payload),
    }
}
