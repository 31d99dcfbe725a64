//! The table as one would write it straight away: the devices sorted by ID, each message applied to them, and for each
//! step back what the message replaced. The rules for topics and payloads are the second program's.

use crate::describe;
use reference::description::{Description, Property};
use reference::payload::is_payload;
use reference::refusal::*;
use reference::table::{Lane, LaneKind, STATES};
use reference::text::is_message_text;
use reference::topic::{self, Form, Topic};
use reference::trace::Event;
use std::collections::VecDeque;
use std::mem::replace;

type Lanes = [Option<Lane>; 3];

pub struct Device {
    pub id: Vec<u8>,
    pub state: &'static str,
    pub time: u64,
    pub description: Option<Description>,
    /// One for each property of the description.
    lanes: Vec<Lanes>,
}

impl Device {
    pub fn properties(&self) -> &[Property] {
        self.description.as_ref().map_or(&[], |description| &description.properties)
    }

    fn find_property(&self, node: &[u8], id: &[u8]) -> Result<usize, Refusal> {
        let same = |property: &Property| property.node == node && property.id == id;
        self.properties().iter().position(same).ok_or(NO_PROPERTY)
    }

    /// What a property of a new description keeps of the lanes: a value if it was and is retained, and a target.
    fn kept_lanes(&self, new: &Property) -> Lanes {
        let Ok(at) = self.find_property(&new.node, &new.id) else {
            return Lanes::default();
        };
        let retained = self.properties()[at].retained && new.retained;
        let [value, target, _] = &self.lanes[at];
        let valid = |lane: &&Lane| is_payload(new.datatype, &new.format, &lane.payload);
        let value = value.as_ref().filter(|_| retained);
        [value.filter(valid).cloned(), target.as_ref().filter(valid).cloned(), None]
    }

    pub fn filled(&self) -> usize {
        self.lanes.iter().filter(|lanes| lanes[LaneKind::Value as usize].is_some()).count()
    }
}

/// What a message replaced; devices and properties by number.
enum Replaced {
    Nothing,
    Created(usize),
    Removed(usize, Device),
    State(usize, &'static str, u64),
    Description(usize, Option<Description>, Vec<Lanes>),
    Lane(usize, usize, LaneKind, Option<Lane>),
}

pub struct Table {
    domain: Vec<u8>,
    device_limit: usize,
    step_limit: usize,
    devices: Vec<Device>,
    last_time: Option<u64>,
    /// What the last messages replaced and the last times before them, the oldest in front.
    steps: VecDeque<(Option<u64>, Replaced)>,
}

// Messages

impl Table {
    pub fn new(domain: &[u8], device_limit: usize, step_limit: usize) -> Table {
        let steps = VecDeque::with_capacity(step_limit);
        Table { domain: domain.to_vec(), device_limit, step_limit, devices: Vec::new(), last_time: None, steps }
    }

    pub fn message(&mut self, message: &Event) -> Result<(), Refusal> {
        if self.last_time.is_some_and(|last| message.time < last) {
            return Err(TIME);
        }
        let topic = topic::read(&self.domain, &message.topic)?;
        if !is_message_text(&message.payload) {
            return Err(NOT_UTF8);
        }
        if topic.form.fixed_flag().is_some_and(|flag| flag != message.retained) {
            return Err(FLAG);
        }
        let replaced = self.take(&topic, message)?;
        let last = self.last_time.replace(message.time);
        self.keep(last, replaced);
        Ok(())
    }

    fn keep(&mut self, last: Option<u64>, replaced: Replaced) {
        if self.step_limit == 0 {
            return;
        }
        if self.steps.len() == self.step_limit {
            self.steps.pop_front();
        }
        self.steps.push_back((last, replaced));
    }

    fn take(&mut self, topic: &Topic, message: &Event) -> Result<Replaced, Refusal> {
        match topic.form {
            Form::State if message.payload.is_empty() => self.take_removal(&topic.ids[0]),
            Form::State => self.take_state(&topic.ids[0], message),
            Form::Description => self.take_description(&topic.ids[0], &message.payload),
            Form::Value => self.take_value(topic, message),
            Form::Set => self.take_set(topic, message),
            Form::Target => self.take_target(topic, message),
            Form::Alert | Form::Log | Form::Other => self.rank(&topic.ids[0]).map(|_| Replaced::Nothing),
            Form::Broadcast => Ok(Replaced::Nothing),
        }
    }

    fn take_removal(&mut self, id: &[u8]) -> Result<Replaced, Refusal> {
        let rank = self.rank(id)?;
        Ok(Replaced::Removed(rank, self.devices.remove(rank)))
    }

    fn take_state(&mut self, id: &[u8], message: &Event) -> Result<Replaced, Refusal> {
        let word = STATES.into_iter().find(|word| word.as_bytes() == message.payload);
        let (state, time) = (word.ok_or(PAYLOAD)?, message.time);
        match self.search(id) {
            Ok(rank) => {
                let device = &mut self.devices[rank];
                let old = Replaced::State(rank, device.state, device.time);
                (device.state, device.time) = (state, time);
                Ok(old)
            }
            Err(_) if self.devices.len() >= self.device_limit => Err(FULL),
            Err(rank) => {
                let device = Device { id: id.to_vec(), state, time, description: None, lanes: Vec::new() };
                self.devices.insert(rank, device);
                Ok(Replaced::Created(rank))
            }
        }
    }

    fn take_description(&mut self, id: &[u8], payload: &[u8]) -> Result<Replaced, Refusal> {
        let rank = self.rank(id)?;
        let new = match payload {
            [] => None,
            _ => Some(describe::read(id, payload)?),
        };
        let device = &mut self.devices[rank];
        let properties = new.as_ref().map_or(&[][..], |description| &description.properties);
        let lanes = properties.iter().map(|property| device.kept_lanes(property)).collect();
        let (old, lanes) = (replace(&mut device.description, new), replace(&mut device.lanes, lanes));
        Ok(Replaced::Description(rank, old, lanes))
    }

    fn take_value(&mut self, topic: &Topic, message: &Event) -> Result<Replaced, Refusal> {
        let (rank, at) = self.find(topic)?;
        let retained = self.devices[rank].properties()[at].retained;
        if retained != message.retained {
            return Err(FLAG);
        }
        if message.payload.is_empty() && !retained {
            return Err(PAYLOAD);
        }
        self.fill(rank, at, LaneKind::Value, message)
    }

    fn take_set(&mut self, topic: &Topic, message: &Event) -> Result<Replaced, Refusal> {
        let (rank, at) = self.find(topic)?;
        if !self.devices[rank].properties()[at].settable {
            return Err(NOT_SETTABLE);
        }
        if message.payload.is_empty() {
            return Err(PAYLOAD);
        }
        self.fill(rank, at, LaneKind::Asked, message)
    }

    fn take_target(&mut self, topic: &Topic, message: &Event) -> Result<Replaced, Refusal> {
        let (rank, at) = self.find(topic)?;
        self.fill(rank, at, LaneKind::Target, message)
    }

    /// An empty payload empties the lane.
    fn fill(&mut self, rank: usize, at: usize, kind: LaneKind, message: &Event) -> Result<Replaced, Refusal> {
        let device = &mut self.devices[rank];
        let property = &device.properties()[at];
        let new = match message.payload.as_slice() {
            [] => None,
            payload if is_payload(property.datatype, &property.format, payload) => {
                Some(Lane { time: message.time, payload: payload.to_vec() })
            }
            _ => return Err(PAYLOAD),
        };
        let old = replace(&mut device.lanes[at][kind as usize], new);
        Ok(Replaced::Lane(rank, at, kind, old))
    }

    fn search(&self, id: &[u8]) -> Result<usize, usize> {
        self.devices.binary_search_by(|device| device.id.as_slice().cmp(id))
    }

    fn rank(&self, id: &[u8]) -> Result<usize, Refusal> {
        self.search(id).map_err(|_| NO_DEVICE)
    }

    fn find(&self, topic: &Topic) -> Result<(usize, usize), Refusal> {
        let rank = self.rank(&topic.ids[0])?;
        Ok((rank, self.devices[rank].find_property(&topic.ids[1], &topic.ids[2])?))
    }

    pub fn step_back(&mut self) -> Result<(), Refusal> {
        let (last, replaced) = self.steps.pop_back().ok_or(NO_STEP)?;
        self.last_time = last;
        match replaced {
            Replaced::Nothing => (),
            Replaced::Created(rank) => drop(self.devices.remove(rank)),
            Replaced::Removed(rank, device) => self.devices.insert(rank, device),
            Replaced::State(rank, state, time) => {
                (self.devices[rank].state, self.devices[rank].time) = (state, time);
            }
            Replaced::Description(rank, description, lanes) => {
                (self.devices[rank].description, self.devices[rank].lanes) = (description, lanes);
            }
            Replaced::Lane(rank, at, kind, lane) => self.devices[rank].lanes[at][kind as usize] = lane,
        }
        Ok(())
    }
}

// Questions

impl Table {
    pub fn count(&self) -> usize {
        self.devices.len()
    }

    pub fn last_time(&self) -> Option<u64> {
        self.last_time
    }

    pub fn steps(&self) -> usize {
        self.steps.len()
    }

    pub fn nth(&self, number: usize) -> Result<&[u8], Refusal> {
        self.devices.get(number).map(|device| device.id.as_slice()).ok_or(NUMBER)
    }

    pub fn device(&self, id: &[u8]) -> Result<&Device, Refusal> {
        self.rank(id).map(|rank| &self.devices[rank])
    }

    /// `lost` if the device has a root in the table that is `lost`.
    pub fn effective_state(&self, device: &Device) -> &'static str {
        let root = device.description.as_ref().and_then(|description| description.root.as_ref());
        let root_device = root.and_then(|id| self.device(id).ok());
        if root_device.is_some_and(|device| device.state == "lost") {
            "lost"
        } else {
            device.state
        }
    }

    pub fn property(&self, id: &[u8], number: usize) -> Result<&Property, Refusal> {
        self.device(id)?.properties().get(number).ok_or(NUMBER)
    }

    pub fn lane(&self, id: &[u8], node: &[u8], property: &[u8], kind: LaneKind) -> Result<Option<&Lane>, Refusal> {
        let device = self.device(id)?;
        let at = device.find_property(node, property)?;
        Ok(device.lanes[at][kind as usize].as_ref())
    }
}
