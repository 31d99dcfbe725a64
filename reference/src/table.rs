//! The device table, as the plain book: the standing messages in order, and a
//! number of steps on offer. Each call is answered from the table that the
//! standing messages make, one after another, from no devices.

use crate::description::{self, Description, Property};
use crate::payload::is_payload;
use crate::refusal::*;
use crate::text::{is_id, is_message_text};
use crate::topic::{self, Form, Topic};
use crate::trace::Event;
use std::collections::BTreeMap;

/// The bytes of memory for one device.
pub const ROOM: u64 = 8192;
pub const DEVICE_LIMIT: u64 = 64;
pub const STEP_LIMIT: u64 = 64;
pub const STATES: [&str; 5] = ["init", "ready", "disconnected", "sleeping", "lost"];

/// A message is what an event of a trace holds.
pub type Message = Event;

#[derive(Clone, Copy, Debug, PartialEq, Eq)]
pub enum LaneKind {
    Value,
    Target,
    Asked,
}

impl LaneKind {
    pub const ALL: [LaneKind; 3] = [LaneKind::Value, LaneKind::Target, LaneKind::Asked];

    pub fn word(self) -> &'static str {
        match self {
            LaneKind::Value => "value",
            LaneKind::Target => "target",
            LaneKind::Asked => "asked",
        }
    }

    pub fn from_word(word: &str) -> Option<LaneKind> {
        LaneKind::ALL.into_iter().find(|kind| kind.word() == word)
    }
}

#[derive(Clone, Debug, PartialEq, Eq)]
pub struct Lane {
    pub time: u64,
    pub payload: Vec<u8>,
}

/// The three lanes of a property; none is an empty lane.
type Lanes = [Option<Lane>; 3];

#[derive(Clone, Debug, PartialEq, Eq)]
pub struct Device {
    pub state: &'static str,
    pub state_time: u64,
    pub description: Option<Description>,
    /// One for each property of the description.
    lanes: Vec<Lanes>,
}

impl Device {
    fn new(state: &'static str, state_time: u64) -> Device {
        Device { state, state_time, description: None, lanes: Vec::new() }
    }

    pub fn properties(&self) -> &[Property] {
        self.description.as_ref().map_or(&[], |description| &description.properties)
    }

    /// A new description, with the lanes that are kept.
    fn describe(&mut self, description: Description) {
        self.lanes = description.properties.iter().map(|property| self.kept_lanes(property)).collect();
        self.description = Some(description);
    }

    /// No description, and no lanes.
    fn forget(&mut self) {
        self.lanes = Vec::new();
        self.description = None;
    }

    /// The lanes of a property in a new description: what is valid under its
    /// datatype and format, but no value unless it was and is retained, and
    /// nothing asked.
    fn kept_lanes(&self, new: &Property) -> Lanes {
        let Ok(at) = self.find_property(&new.node, &new.id) else {
            return Lanes::default();
        };
        let is_valid = |lane: &&Lane| is_payload(new.datatype, &new.format, &lane.payload);
        let kept = |kind: LaneKind| self.lane(at, kind).filter(is_valid).cloned();
        let retained = self.properties()[at].retained && new.retained;
        [kept(LaneKind::Value).filter(|_| retained), kept(LaneKind::Target), None]
    }

    fn find_property(&self, node: &[u8], id: &[u8]) -> Result<usize, Refusal> {
        let same = |property: &Property| property.node == node && property.id == id;
        self.properties().iter().position(same).ok_or(NO_PROPERTY)
    }

    pub fn lane(&self, property: usize, kind: LaneKind) -> Option<&Lane> {
        self.lanes[property][kind as usize].as_ref()
    }
}

/// What a list of messages makes.
#[derive(Clone, Debug, PartialEq, Eq)]
pub struct Table {
    domain: Vec<u8>,
    device_limit: usize,
    pub devices: BTreeMap<Vec<u8>, Device>,
    pub last_time: Option<u64>,
}

// Messages

impl Table {
    pub fn new(domain: &[u8], device_limit: usize) -> Table {
        Table { domain: domain.to_vec(), device_limit, devices: BTreeMap::new(), last_time: None }
    }

    /// Takes a message, or refuses it and changes nothing.
    pub fn take(&mut self, message: &Message) -> Result<(), Refusal> {
        if self.last_time.is_some_and(|last| message.time < last) {
            return Err(TIME);
        }
        let topic = topic::read(&self.domain, &message.topic)?;
        if !is_message_text(&message.payload) {
            return Err(NOT_UTF8);
        }
        if topic.form.fixed_flag().is_some_and(|flag| flag != message.retained) {
            return Err(FLAG);
        }
        self.take_form(&topic, message)?;
        self.last_time = Some(message.time);
        Ok(())
    }

    fn take_form(&mut self, topic: &Topic, message: &Message) -> Result<(), Refusal> {
        match topic.form {
            Form::State if message.payload.is_empty() => self.remove(&topic.ids[0]),
            Form::State => self.take_state(&topic.ids[0], message),
            Form::Description => self.take_description(&topic.ids[0], &message.payload),
            Form::Value => self.take_value(topic, message),
            Form::Set => self.take_set(topic, message),
            Form::Target => self.take_target(topic, message),
            Form::Alert | Form::Log | Form::Other => self.device(&topic.ids[0]).map(|_| ()),
            Form::Broadcast => Ok(()),
        }
    }

    fn remove(&mut self, id: &[u8]) -> Result<(), Refusal> {
        self.devices.remove(id).map(|_| ()).ok_or(NO_DEVICE)
    }

    fn take_state(&mut self, id: &[u8], message: &Message) -> Result<(), Refusal> {
        let word = STATES.into_iter().find(|word| word.as_bytes() == message.payload);
        let state = word.ok_or(PAYLOAD)?;
        let full = self.devices.len() >= self.device_limit;
        match self.devices.get_mut(id) {
            Some(device) => {
                device.state = state;
                device.state_time = message.time;
            }
            None if full => return Err(FULL),
            None => {
                self.devices.insert(id.to_vec(), Device::new(state, message.time));
            }
        }
        Ok(())
    }

    fn take_description(&mut self, id: &[u8], payload: &[u8]) -> Result<(), Refusal> {
        let device = self.device_mut(id)?;
        if payload.is_empty() {
            device.forget();
        } else {
            device.describe(description::read(id, payload)?);
        }
        Ok(())
    }

    fn take_value(&mut self, topic: &Topic, message: &Message) -> Result<(), Refusal> {
        let (device, at) = self.property_mut(topic)?;
        let retained = device.properties()[at].retained;
        if retained != message.retained {
            return Err(FLAG);
        }
        if message.payload.is_empty() && !retained {
            return Err(PAYLOAD);
        }
        fill_or_empty(device, at, LaneKind::Value, message)
    }

    fn take_set(&mut self, topic: &Topic, message: &Message) -> Result<(), Refusal> {
        let (device, at) = self.property_mut(topic)?;
        if !device.properties()[at].settable {
            return Err(NOT_SETTABLE);
        }
        fill(device, at, LaneKind::Asked, message)
    }

    fn take_target(&mut self, topic: &Topic, message: &Message) -> Result<(), Refusal> {
        let (device, at) = self.property_mut(topic)?;
        fill_or_empty(device, at, LaneKind::Target, message)
    }

    fn device_mut(&mut self, id: &[u8]) -> Result<&mut Device, Refusal> {
        self.devices.get_mut(id).ok_or(NO_DEVICE)
    }

    fn property_mut(&mut self, topic: &Topic) -> Result<(&mut Device, usize), Refusal> {
        let device = self.device_mut(&topic.ids[0])?;
        let at = device.find_property(&topic.ids[1], &topic.ids[2])?;
        Ok((device, at))
    }
}

fn fill_or_empty(device: &mut Device, at: usize, kind: LaneKind, message: &Message) -> Result<(), Refusal> {
    if message.payload.is_empty() {
        device.lanes[at][kind as usize] = None;
        return Ok(());
    }
    fill(device, at, kind, message)
}

fn fill(device: &mut Device, at: usize, kind: LaneKind, message: &Message) -> Result<(), Refusal> {
    let property = &device.properties()[at];
    if !is_payload(property.datatype, &property.format, &message.payload) {
        return Err(PAYLOAD);
    }
    device.lanes[at][kind as usize] = Some(Lane { time: message.time, payload: message.payload.clone() });
    Ok(())
}

// Questions

impl Table {
    pub fn count(&self) -> usize {
        self.devices.len()
    }

    pub fn last_time(&self) -> Option<u64> {
        self.last_time
    }

    /// The ID of the device with this number, by ascending ID bytes.
    pub fn nth(&self, number: u64) -> Result<&[u8], Refusal> {
        let mut ids = self.devices.keys();
        let place = usize::try_from(number).map_err(|_| NUMBER)?;
        ids.nth(place).map(Vec::as_slice).ok_or(NUMBER)
    }

    /// A device by its ID; what is no ID names no device.
    pub fn device(&self, id: &[u8]) -> Result<&Device, Refusal> {
        self.devices.get(id).ok_or(NO_DEVICE)
    }

    /// `lost` if the device has a root in the table that is `lost`.
    pub fn effective_state(&self, device: &Device) -> &'static str {
        let root = device.description.as_ref().and_then(|description| description.root.as_ref());
        let root_device = root.and_then(|id| self.devices.get(id));
        if root_device.is_some_and(|device| device.state == "lost") {
            "lost"
        } else {
            device.state
        }
    }

    /// How many properties of a device hold a value.
    pub fn filled(&self, id: &[u8]) -> Result<usize, Refusal> {
        let device = self.device(id)?;
        let holds_value = |at: &usize| device.lane(*at, LaneKind::Value).is_some();
        Ok((0..device.properties().len()).filter(holds_value).count())
    }

    pub fn property(&self, id: &[u8], number: u64) -> Result<&Property, Refusal> {
        let place = usize::try_from(number);
        let properties = self.device(id)?.properties();
        place.ok().and_then(|place| properties.get(place)).ok_or(NUMBER)
    }

    pub fn lane(&self, id: &[u8], node: &[u8], property: &[u8], kind: LaneKind) -> Result<Option<&Lane>, Refusal> {
        let device = self.device(id)?;
        let at = device.find_property(node, property)?;
        Ok(device.lane(at, kind))
    }
}

/// The plain book.
#[derive(Clone, Debug)]
pub struct Book {
    domain: Vec<u8>,
    device_limit: usize,
    step_limit: usize,
    standing: Vec<Message>,
    number: usize,
}

impl Book {
    /// Opens for a domain, D devices, J steps and so many bytes of memory.
    pub fn open(domain: &[u8], devices: u64, steps: u64, size: u64) -> Result<Book, Refusal> {
        let good = is_id(domain)
            && (1..=DEVICE_LIMIT).contains(&devices)
            && steps <= STEP_LIMIT
            && size >= ROOM * (devices + steps + 1);
        if !good {
            return Err(OPENING);
        }
        Ok(Book {
            domain: domain.to_vec(),
            device_limit: devices as usize,
            step_limit: steps as usize,
            standing: Vec::new(),
            number: 0,
        })
    }

    /// The table that the standing messages make.
    pub fn table(&self) -> Table {
        let mut table = Table::new(&self.domain, self.device_limit);
        for message in &self.standing {
            table.take(message).expect("a standing message is taken again");
        }
        table
    }

    pub fn message(&mut self, message: &Message) -> Result<(), Refusal> {
        self.table().take(message)?;
        self.standing.push(message.clone());
        self.number = self.step_limit.min(self.number + 1);
        Ok(())
    }

    pub fn step_back(&mut self) -> Result<(), Refusal> {
        if self.number == 0 {
            return Err(NO_STEP);
        }
        self.standing.pop();
        self.number -= 1;
        Ok(())
    }

    pub fn steps(&self) -> usize {
        self.number
    }
}

#[cfg(test)]
mod tests {
    use super::*;

    const LAMP: &str = r#"{"homie":"5.0","version":7,"root":"hub","parent":"mid","nodes":{"light":{"properties":{
        "on":{"datatype":"boolean","settable":true},
        "level":{"datatype":"integer","format":"0:100","settable":false},
        "pressed":{"datatype":"enum","format":"once,twice","retained":false}}}}}"#;

    fn book(devices: u64, steps: u64) -> Book {
        Book::open(b"homie", devices, steps, ROOM * (devices + steps + 1)).unwrap()
    }

    /// The answer as a number, 0 for taken.
    fn send(book: &mut Book, time: u64, rest: &str, retained: bool, payload: &str) -> u8 {
        let topic = format!("homie/5/{rest}").into_bytes();
        let message = Message { time, topic, retained, payload: payload.as_bytes().to_vec() };
        number_of(&book.message(&message))
    }

    fn lamp() -> Book {
        let mut book = book(2, 3);
        assert_eq!(send(&mut book, 1, "lamp/$state", true, "init"), 0);
        assert_eq!(send(&mut book, 2, "lamp/$description", true, LAMP), 0);
        book
    }

    fn lane(book: &Book, property: &str, kind: LaneKind) -> Option<Lane> {
        book.table().lane(b"lamp", b"light", property.as_bytes(), kind).unwrap().cloned()
    }

    #[test]
    fn opening() {
        let open = |domain: &[u8], d, j, size| number_of(&Book::open(domain, d, j, size));
        assert_eq!(open(b"homie", 1, 0, 16384), 0);
        assert_eq!(open(b"homie", 64, 64, 8192 * 129), 0);
        assert_eq!(open(b"homie", 1, 0, 16383), 5);
        assert_eq!(open(b"homie", 0, 0, 100000), 5);
        assert_eq!(open(b"homie", 65, 0, 10000000), 5);
        assert_eq!(open(b"homie", 1, 65, 10000000), 5);
        assert_eq!(open(b"Homie", 1, 0, 16384), 5);
        assert_eq!(open(b"", 1, 0, 16384), 5);
    }

    #[test]
    fn refusals_that_come_first() {
        let mut book = lamp();
        assert_eq!(send(&mut book, 1, "lamp/$state", true, "init"), 7);
        assert_eq!(send(&mut book, 2, "../x", true, "\u{feff}"), 9);
        let mut other = |topic: &str, retained, payload: &[u8]| {
            let message = Message { time: 2, topic: topic.as_bytes().to_vec(), retained, payload: payload.to_vec() };
            number_of(&book.message(&message))
        };
        assert_eq!(other("house/5/lamp/$state", true, b"\xff"), 8);
        assert_eq!(other("homie/5/lamp/$state", false, b"\xff"), 10);
        assert_eq!(other("homie/5/$broadcast/a", false, b"\xef\xbb\xbf"), 10);
        assert_eq!(other("homie/5/nobody/$state", false, b""), 11);
        assert_eq!(other("homie/5/nobody/$alert/a", false, b""), 11);
        assert_eq!(other("homie/5/nobody/a/b/set", true, b""), 11);
        assert_eq!(other("homie/5/nobody/a/b/$target", false, b""), 11);
        assert_eq!(other("homie/5/nobody/$description", false, b""), 11);
    }

    #[test]
    fn states() {
        let mut book = lamp();
        assert_eq!(send(&mut book, 2, "x/$state", true, ""), 12);
        assert_eq!(send(&mut book, 2, "x/$state", true, "alert"), 14);
        assert_eq!(send(&mut book, 3, "hub/$state", true, "lost"), 0);
        assert_eq!(send(&mut book, 3, "x/$state", true, "READY"), 14);
        assert_eq!(send(&mut book, 3, "x/$state", true, "ready"), 13);
        let table = book.table();
        let lamp = table.device(b"lamp").unwrap();
        assert_eq!((lamp.state, table.effective_state(lamp), lamp.state_time), ("init", "lost", 1));
        assert_eq!(send(&mut book, 4, "lamp/$state", true, ""), 0);
        assert_eq!(send(&mut book, 5, "x/$state", true, "ready"), 0);
        assert_eq!(book.table().nth(0), Ok(&b"hub"[..]));
        assert_eq!(book.table().nth(1), Ok(&b"x"[..]));
        assert_eq!(book.table().nth(2), Err(NUMBER));
    }

    #[test]
    fn descriptions() {
        let mut book = lamp();
        assert_eq!(send(&mut book, 2, "x/$description", true, "{"), 12);
        assert_eq!(send(&mut book, 2, "lamp/$description", true, "{"), 21);
        assert_eq!(send(&mut book, 3, "lamp/light/on", true, "true"), 0);
        assert_eq!(book.table().filled(b"lamp"), Ok(1));
        assert_eq!(send(&mut book, 5, "lamp/$description", true, ""), 0);
        assert_eq!(book.table().filled(b"lamp"), Ok(0));
        assert_eq!(book.table().property(b"lamp", 0), Err(NUMBER));
        assert!(book.table().device(b"lamp").unwrap().description.is_none());
        assert_eq!(send(&mut book, 6, "lamp/$description", true, ""), 0);
    }

    // K2

    /// A description with properties of the node `light`, each by its fields.
    fn described(version: i64, properties: &[(&str, &str)]) -> String {
        let list: Vec<String> = properties.iter().map(|(id, fields)| format!(r#""{id}":{{{fields}}}"#)).collect();
        let list = list.join(",");
        format!(r#"{{"homie":"5.0","version":{version},"nodes":{{"light":{{"properties":{{{list}}}}}}}}}"#)
    }

    /// The lamp with the property `p` of these fields, its lanes filled at 3, 4
    /// and 5 with a payload each, then at 6 with `p` of other fields.
    fn redescribed(before: &str, payloads: [&str; 3], after: &str) -> [Option<Lane>; 3] {
        let mut book = book(2, 3);
        assert_eq!(send(&mut book, 1, "lamp/$state", true, "init"), 0);
        assert_eq!(send(&mut book, 2, "lamp/$description", true, &described(1, &[("p", before)])), 0);
        let retained = !before.contains(r#""retained":false"#);
        for (time, (rest, retained), payload) in [
            (3, ("lamp/light/p", retained), payloads[0]),
            (4, ("lamp/light/p/$target", true), payloads[1]),
            (5, ("lamp/light/p/set", false), payloads[2]),
        ] {
            if !payload.is_empty() {
                assert_eq!(send(&mut book, time, rest, retained, payload), 0, "{payload}");
            }
        }
        assert_eq!(send(&mut book, 6, "lamp/$description", true, &described(2, &[("p", after)])), 0);
        LaneKind::ALL.map(|kind| lane(&book, "p", kind))
    }

    fn held(time: u64, payload: &str) -> Option<Lane> {
        Some(Lane { time, payload: payload.as_bytes().to_vec() })
    }

    #[test]
    fn a_new_description_keeps_value_and_target_with_their_times() {
        let fields = r#""datatype":"integer","settable":true"#;
        assert_eq!(redescribed(fields, ["7", "8", "9"], fields), [held(3, "7"), held(4, "8"), None]);
        assert_eq!(redescribed(fields, ["7", "", ""], fields), [held(3, "7"), None, None]);
        assert_eq!(redescribed(fields, ["", "8", "9"], fields), [None, held(4, "8"), None]);
    }

    #[test]
    fn a_lane_is_kept_where_the_payload_is_valid_under_the_new_datatype_and_format() {
        let values = |before: &str, payload: &str, after: &str| {
            let [value, target, asked] = redescribed(before, [payload, payload, ""], after);
            assert_eq!(value.is_some(), target.is_some());
            assert_eq!(asked, None);
            value.is_some()
        };
        let integer = r#""datatype":"integer""#;
        for (payload, after, kept) in [
            ("5", r#""datatype":"float""#, true),
            ("5", r#""datatype":"string""#, true),
            ("5", r#""datatype":"enum","format":"4,5""#, true),
            ("5", r#""datatype":"enum","format":"4,05""#, false),
            ("5", r#""datatype":"boolean""#, false),
            ("5", r#""datatype":"json""#, false),
            ("5", r#""datatype":"integer","format":"5:""#, true),
            ("5", r#""datatype":"integer","format":"6:""#, false),
            ("5", r#""datatype":"integer","format":"6:10:2""#, true),
            ("4", r#""datatype":"integer","format":"6:10:2""#, false),
            ("0005", r#""datatype":"integer","format":":5""#, true),
        ] {
            assert_eq!(values(integer, payload, after), kept, "{payload} {after}");
        }
        let string = r#""datatype":"string""#;
        for (payload, after, kept) in [
            ("\0", string, true),
            ("\0", r#""datatype":"enum","format":"\u0000""#, false),
            ("rgb,1,2,3", r#""datatype":"color","format":"rgb""#, true),
            ("rgb,1,2,3", r#""datatype":"color","format":"hsv""#, false),
            ("true", r#""datatype":"boolean","format":"off,on""#, true),
            ("on", r#""datatype":"boolean","format":"off,on""#, false),
            ("[]", r#""datatype":"json""#, true),
            ("PT5M", r#""datatype":"duration""#, true),
            ("2024-02-29T00:00:00", r#""datatype":"datetime""#, true),
            ("1e2", r#""datatype":"float","format":"100:100""#, true),
            ("1e2", r#""datatype":"integer""#, false),
            // K7: rounded, and of the shape that a step asks for.
            ("30.2", r#""datatype":"float","format":"5:30""#, false),
            ("30.2", r#""datatype":"float","format":"5:30:0.5""#, true),
            ("30.25", r#""datatype":"float","format":"5:30:0.5""#, false),
            ("1e2", r#""datatype":"float","format":"::0.5""#, false),
            ("100", r#""datatype":"float","format":"::0.5""#, true),
        ] {
            assert_eq!(values(string, payload, after), kept, "{payload} {after}");
        }
    }

    #[test]
    fn a_value_is_kept_only_if_retained_before_and_after_and_a_target_whatever_the_flags() {
        let fields = |retained: bool| format!(r#""datatype":"string","retained":{retained}"#);
        for (before, after) in [(true, true), (true, false), (false, true), (false, false)] {
            let lanes = redescribed(&fields(before), ["a", "b", ""], &fields(after));
            assert_eq!(lanes, [held(3, "a").filter(|_| before && after), held(4, "b"), None], "{before} {after}");
        }
    }

    #[test]
    fn a_property_that_is_not_in_both_keeps_nothing() {
        let mut book = lamp();
        assert_eq!(send(&mut book, 3, "lamp/light/on", true, "true"), 0);
        assert_eq!(send(&mut book, 3, "lamp/light/level", true, "5"), 0);
        let gone = described(8, &[("level", r#""datatype":"integer""#), ("new", r#""datatype":"boolean""#)]);
        assert_eq!(send(&mut book, 4, "lamp/$description", true, &gone), 0);
        assert_eq!(book.table().filled(b"lamp"), Ok(1));
        assert_eq!(lane(&book, "level", LaneKind::Value), held(3, "5"));
        assert_eq!(lane(&book, "new", LaneKind::Value), None);
        // It comes back, and finds nothing.
        assert_eq!(send(&mut book, 5, "lamp/$description", true, LAMP), 0);
        assert_eq!(lane(&book, "on", LaneKind::Value), None);
        assert_eq!(lane(&book, "level", LaneKind::Value), held(3, "5"));
        // The same ID in another node is another property.
        assert_eq!(send(&mut book, 6, "lamp/$description", true, &gone.replace("light", "dark")), 0);
        assert_eq!(book.table().filled(b"lamp"), Ok(0));
    }

    #[test]
    fn names_are_found_again_however_they_are_spelled() {
        let mut book = lamp();
        assert_eq!(send(&mut book, 3, "lamp/light/on", true, "true"), 0);
        let spelled = LAMP.replace("light", r"l\u0069ght").replace(r#""on""#, r#""\u006fn""#);
        assert_eq!(send(&mut book, 4, "lamp/$description", true, &spelled), 0);
        assert_eq!(lane(&book, "on", LaneKind::Value), held(3, "true"));
    }

    #[test]
    fn equal_content_empties_what_was_asked() {
        let mut book = lamp();
        assert_eq!(send(&mut book, 3, "lamp/light/on", true, "true"), 0);
        assert_eq!(send(&mut book, 3, "lamp/light/on/set", false, "false"), 0);
        assert_eq!(send(&mut book, 4, "lamp/$description", true, LAMP), 0);
        assert_eq!(LaneKind::ALL.map(|kind| lane(&book, "on", kind)), [held(3, "true"), None, None]);
        assert_eq!(book.step_back(), Ok(()));
        assert_eq!(LaneKind::ALL.map(|kind| lane(&book, "on", kind)), [held(3, "true"), None, held(3, "false")]);
    }

    #[test]
    fn an_empty_description_clears_everything_and_a_refused_one_nothing() {
        let mut book = lamp();
        assert_eq!(send(&mut book, 3, "lamp/light/on", true, "true"), 0);
        assert_eq!(send(&mut book, 3, "lamp/light/on/$target", true, "true"), 0);
        assert_eq!(send(&mut book, 3, "lamp/light/on/set", false, "false"), 0);
        assert_eq!(send(&mut book, 4, "lamp/$description", true, "{}"), 23);
        let all = [held(3, "true"), held(3, "true"), held(3, "false")];
        assert_eq!(LaneKind::ALL.map(|kind| lane(&book, "on", kind)), all);
        assert_eq!(send(&mut book, 4, "lamp/$description", true, ""), 0);
        assert_eq!(send(&mut book, 4, "lamp/$description", true, LAMP), 0);
        assert_eq!(LaneKind::ALL.map(|kind| lane(&book, "on", kind)), [None, None, None]);
        assert_eq!(book.step_back(), Ok(()));
        assert_eq!(book.step_back(), Ok(()));
        assert_eq!(LaneKind::ALL.map(|kind| lane(&book, "on", kind)), all);
    }

    #[test]
    fn values_and_targets() {
        let mut book = lamp();
        assert_eq!(send(&mut book, 2, "x/light/on", false, "?"), 12);
        assert_eq!(send(&mut book, 2, "lamp/light/off", false, "?"), 16);
        assert_eq!(send(&mut book, 2, "lamp/light/on", false, "?"), 11);
        assert_eq!(send(&mut book, 2, "lamp/light/on", true, "TRUE"), 14);
        assert_eq!(send(&mut book, 3, "lamp/light/on", true, "true"), 0);
        assert_eq!(send(&mut book, 4, "lamp/light/pressed", true, "once"), 11);
        assert_eq!(send(&mut book, 4, "lamp/light/pressed", false, ""), 14);
        assert_eq!(send(&mut book, 4, "lamp/light/pressed", false, "once"), 0);
        assert_eq!(book.table().filled(b"lamp"), Ok(2));
        assert_eq!(send(&mut book, 5, "lamp/light/on", true, ""), 0);
        assert_eq!(lane(&book, "on", LaneKind::Value), None);
        assert_eq!(send(&mut book, 5, "x/light/on/$target", true, "9"), 12);
        assert_eq!(send(&mut book, 5, "lamp/light/x/$target", true, "9"), 16);
        assert_eq!(send(&mut book, 5, "lamp/light/on/$target", true, "9"), 14);
        assert_eq!(send(&mut book, 6, "lamp/light/pressed/$target", true, "twice"), 0);
        assert_eq!(lane(&book, "pressed", LaneKind::Target), Some(Lane { time: 6, payload: b"twice".to_vec() }));
        assert_eq!(send(&mut book, 7, "lamp/light/pressed/$target", true, ""), 0);
        assert_eq!(lane(&book, "pressed", LaneKind::Target), None);
    }

    #[test]
    fn sets() {
        let mut book = lamp();
        assert_eq!(send(&mut book, 2, "x/light/on/set", false, "true"), 12);
        assert_eq!(send(&mut book, 2, "lamp/light/x/set", false, "true"), 16);
        assert_eq!(send(&mut book, 2, "lamp/light/level/set", false, "x"), 17);
        assert_eq!(send(&mut book, 2, "lamp/light/on/set", false, ""), 14);
        assert_eq!(send(&mut book, 3, "lamp/light/on/set", false, "true"), 0);
        assert_eq!(lane(&book, "on", LaneKind::Asked), Some(Lane { time: 3, payload: b"true".to_vec() }));
        assert_eq!(lane(&book, "on", LaneKind::Value), None);
    }

    #[test]
    fn messages_that_change_nothing_but_the_last_time() {
        let mut book = lamp();
        for rest in ["x/$alert/a", "x/$log/info", "x/$fw/name"] {
            assert_eq!(send(&mut book, 3, rest, true, "a"), 12);
        }
        for rest in ["lamp/$alert/a", "lamp/$log/info", "lamp/$fw/name", "$broadcast/a"] {
            assert_eq!(send(&mut book, 9, rest, true, ""), 0);
        }
        assert_eq!(book.table().last_time(), Some(9));
        assert_eq!(book.table().count(), 1);
    }

    #[test]
    fn stepping_back() {
        let mut book = lamp();
        assert_eq!(send(&mut book, 3, "lamp/light/on", true, "true"), 0);
        assert_eq!(send(&mut book, 4, "lamp/$state", true, ""), 0);
        assert_eq!(book.steps(), 3);
        assert_eq!(book.step_back(), Ok(()));
        assert_eq!(lane(&book, "on", LaneKind::Value).unwrap().time, 3);
        assert_eq!(book.table().last_time(), Some(3));
        assert_eq!(send(&mut book, 3, "lamp/light/on", true, "no"), 14);
        assert_eq!(book.steps(), 2);
        assert_eq!(book.step_back(), Ok(()));
        assert_eq!(book.step_back(), Ok(()));
        assert_eq!(book.step_back(), Err(NO_STEP));
        assert_eq!(book.table().count(), 1);
        assert!(book.table().device(b"lamp").unwrap().description.is_none());
    }

    #[test]
    fn questions() {
        let book = lamp();
        let table = book.table();
        assert_eq!(table.device(b"LAMP").err(), Some(NO_DEVICE));
        assert_eq!(table.filled(b"x"), Err(NO_DEVICE));
        assert_eq!(table.property(b"x", 9), Err(NO_DEVICE));
        assert_eq!(table.property(b"lamp", 3), Err(NUMBER));
        assert_eq!(table.property(b"lamp", 0).unwrap().id, b"level");
        assert_eq!(table.lane(b"x", b"y", b"z", LaneKind::Value), Err(NO_DEVICE));
        assert_eq!(table.lane(b"lamp", b"light", b"ON", LaneKind::Value), Err(NO_PROPERTY));
    }
}
