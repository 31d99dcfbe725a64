//! The device table, moved forward and back.

use crate::call;
use crate::named::named;
use crate::payload::Datatype;
use crate::sys::homie5_size;
use crate::trace::Event;
use crate::values::Values;
use crate::{Property, Refusal};

pub use crate::device::{Device, Lanes};

/// The most devices, and the most steps back.
const MOST: usize = 64;

named! {
    /// The state of a device.
    ///
    /// ```
    /// use homie5::table::State;
    ///
    /// assert_eq!(State::Sleeping.to_string(), "sleeping");
    /// ```
    State {
        Init = 0 "init"
        Ready = 1 "ready"
        Disconnected = 2 "disconnected"
        Sleeping = 3 "sleeping"
        Lost = 4 "lost"
    }
}

named! {
    /// A lane of a property.
    ///
    /// ```
    /// use homie5::table::Lane;
    ///
    /// assert_eq!(Lane::ALL, [Lane::Value, Lane::Target, Lane::Asked]);
    /// ```
    Lane {
        Value = 0 "value"
        Target = 1 "target"
        Asked = 2 "asked"
    }
}

/// The states of a device: see [`Table::states`].
///
/// ```
/// use homie5::{table::{State, States, Table}, trace::Event};
///
/// let mut table = Table::open("homie", 2, 0)?;
/// let mut send = |topic: &str, payload: &str| {
///     table.message(&Event { time: 5, topic: topic.as_bytes(), retained: true, payload: payload.as_bytes() })
/// };
/// send("homie/5/lamp/$state", "ready")?;
/// send("homie/5/lamp/$description", r#"{"homie":"5.0","version":1,"root":"hub"}"#)?;
/// send("homie/5/hub/$state", "lost")?;
/// assert_eq!(table.states("lamp"), Ok(States { own: State::Ready, effective: State::Lost, time: 5 }));
/// # Ok::<(), homie5::Refusal>(())
/// ```
#[derive(Clone, Copy, Debug, PartialEq, Eq, Hash)]
pub struct States {
    /// As the device sent it.
    pub own: State,
    /// `lost` where the device has a root that is in the table and lost, else its own.
    pub effective: State,
    /// The time of its own.
    pub time: u64,
}

/// What a lane holds: see [`Table::lane`].
///
/// ```
/// use homie5::table::{Held, Lane, Table};
/// use homie5::trace::Trace;
///
/// let file = std::fs::read("../../samples/lamp.trace")?;
/// let mut table = Table::open("homie", 1, 0)?;
/// for event in Trace::new(&file).events()? {
///     let _ = table.message(&event);
/// }
/// let held = Held { time: 4294967300, payload: b"true" };
/// assert_eq!(table.lane("lamp", "light", "on", Lane::Asked)?, Some(held));
/// # Ok::<(), Box<dyn std::error::Error>>(())
/// ```
#[derive(Clone, Copy, Debug, PartialEq, Eq, Hash)]
pub struct Held<'a> {
    /// The time of the message.
    pub time: u64,
    /// Its payload.
    pub payload: &'a [u8],
}

/// A table of devices, which owns its memory.
///
/// What it answers is what the messages that stand make of it: those taken, less those stepped back. Refused calls and
/// questions change nothing. Its memory is always a sound table, so no call answers [`Refusal::NotSound`]. A clone keeps
/// what stands now, steps back included: `examples/scrub.rs` jumps far back to clones made on the way.
///
/// ```
/// use homie5::table::{Held, Lane, State, Table};
/// use homie5::trace::Event;
/// use homie5::Refusal;
///
/// let mut table = Table::open("homie", 4, 3)?;
/// let description = br#"{"homie":"5.0","version":1,"nodes":{
///     "light":{"properties":{"on":{"datatype":"boolean","settable":true}}}}}"#;
/// let mut send = |time, topic: &str, retained, payload: &[u8]| {
///     table.message(&Event { time, topic: topic.as_bytes(), retained, payload })
/// };
/// assert_eq!(send(4294967290, "homie/5/lamp/$state", true, b"init"), Ok(()));
/// assert_eq!(send(4294967300, "homie/5/lamp/$description", true, description), Ok(()));
/// assert_eq!(send(4294967300, "homie/5/lamp/light/on/set", false, b"true"), Ok(()));
/// assert_eq!(send(4294967301, "homie/5/lamp/light/on", true, b"TRUE"), Err(Refusal::BadPayload));
///
/// let states = table.states("lamp")?;
/// assert_eq!((states.own, states.effective, states.time), (State::Init, State::Init, 4294967290));
/// let asked = Held { time: 4294967300, payload: b"true" };
/// assert_eq!(table.lane("lamp", "light", "on", Lane::Asked), Ok(Some(asked)));
/// assert_eq!(table.lane("lamp", "light", "on", Lane::Value), Ok(None));
/// assert_eq!((table.steps(), table.last_time()), (3, Some(4294967300)));
///
/// table.step_back()?;
/// assert_eq!(table.lane("lamp", "light", "on", Lane::Asked), Ok(None));
/// assert_eq!(table.steps(), 2);
/// # Ok::<(), Refusal>(())
/// ```
#[derive(Clone)]
pub struct Table {
    memory: Vec<u8>,
}

impl Table {
    /// Opens a table for a domain, with room for `devices` devices (1 to 64) and `depth` steps back (0 to 64). Refuses
    /// with `BadOpening`.
    pub fn open(domain: &str, devices: usize, depth: usize) -> Result<Table, Refusal> {
        // a larger number is refused by the library, whatever the memory
        let mut memory = vec![0; homie5_size(devices.min(MOST), depth.min(MOST))];
        call::open(&mut memory, domain, devices, depth)?;
        Ok(Table { memory })
    }

    /// A table from the bytes of one, say from a file; any bytes are safe. Refuses with `NotSound`.
    ///
    /// Kept bytes may be used later, on another machine too, by the same version of the library: the layout may change
    /// with the version.
    ///
    /// Bytes that no calls made may be sound too. Then an ID may have other bytes, and is shown up to the first that is
    /// no text; no question may find it again, and [`Table::devices`] passes such a device over, [`Device::properties`]
    /// such a property.
    ///
    /// ```
    /// use homie5::{table::Table, Refusal};
    ///
    /// let kept = Table::open("homie", 1, 0)?.into_bytes();
    /// assert_eq!(Table::from_bytes(kept)?.device_count(), 0);
    /// assert_eq!(Table::from_bytes(vec![1, 2, 3]).err(), Some(Refusal::NotSound));
    /// # Ok::<(), Refusal>(())
    /// ```
    pub fn from_bytes(memory: Vec<u8>) -> Result<Table, Refusal> {
        call::device_count(&memory)?;
        Ok(Table { memory })
    }

    /// Its bytes, for [`Table::from_bytes`] of the same version.
    pub fn as_bytes(&self) -> &[u8] {
        &self.memory
    }

    /// Its bytes, given away.
    pub fn into_bytes(self) -> Vec<u8> {
        self.memory
    }

    /// Feeds a message. Refuses with `Earlier` to `NotSettable`, and a description as
    /// [`judge`](crate::description::judge) does: the place is one of its payload.
    ///
    /// A description that is not empty keeps the values and targets of properties that the device had before, where
    /// they are valid for what is declared now, a value where it is retained before and after. What was asked is gone.
    pub fn message(&mut self, event: &Event) -> Result<(), Refusal> {
        call::message(&mut self.memory, event)
    }

    /// Takes the last message back. Refuses with `NoStep`.
    pub fn step_back(&mut self) -> Result<(), Refusal> {
        call::step_back(&mut self.memory)
    }

    /// How many steps back are on offer.
    pub fn steps(&self) -> usize {
        sound(call::steps(&self.memory)).size(0)
    }

    /// The time of the last message that stands.
    pub fn last_time(&self) -> Option<u64> {
        let values = sound(call::last_time(&self.memory));
        values.flag(0).then(|| values.number(1))
    }

    /// How many devices there are.
    pub fn device_count(&self) -> usize {
        sound(call::device_count(&self.memory)).size(0)
    }

    /// The ID of the i-th device, from 0, by ascending ID bytes. Refuses with `NoSuchNumber`.
    pub fn device_at(&self, i: usize) -> Result<&str, Refusal> {
        Ok(call::device_at(&self.memory, i)?.id(0, &self.memory))
    }

    /// The device of an ID, with all that is asked of it. Refuses with `NoDevice`.
    pub fn device<'a>(&'a self, id: &'a str) -> Result<Device<'a>, Refusal> {
        Device::of(self, id)
    }

    /// All devices, by ascending ID bytes.
    pub fn devices(&self) -> impl Iterator<Item = Device<'_>> {
        (0..self.device_count()).filter_map(|i| self.device(self.device_at(i).ok()?).ok())
    }

    /// The states of a device. Refuses with `NoDevice`.
    pub fn states(&self, id: &str) -> Result<States, Refusal> {
        let values = call::states(&self.memory, id)?;
        Ok(States {
            own: values.one_of(0, State::from_number),
            effective: values.one_of(1, State::from_number),
            time: values.number(2),
        })
    }

    /// The root of a device, as its description names it. Refuses with `NoDevice`.
    pub fn root(&self, id: &str) -> Result<Option<&str>, Refusal> {
        Ok(self.relative(&call::root(&self.memory, id)?))
    }

    /// The parent of a device, as its description names it. Refuses with `NoDevice`.
    pub fn parent(&self, id: &str) -> Result<Option<&str>, Refusal> {
        Ok(self.relative(&call::parent(&self.memory, id)?))
    }

    fn relative(&self, values: &Values) -> Option<&str> {
        values.flag(0).then(|| values.id(1, &self.memory))
    }

    /// The version of a device's description. Refuses with `NoDevice`.
    pub fn version(&self, id: &str) -> Result<Option<i64>, Refusal> {
        let values = call::version(&self.memory, id)?;
        Ok(values.flag(0).then(|| values.version(1)))
    }

    /// How many properties of a device hold a value. Refuses with `NoDevice`.
    pub fn values_held(&self, id: &str) -> Result<usize, Refusal> {
        Ok(call::values_held(&self.memory, id)?.size(0))
    }

    /// The i-th property of a device, from 0, by node ID, then property ID. Refuses with `NoDevice`, `NoSuchNumber`.
    pub fn property(&self, id: &str, i: usize) -> Result<Property<'_>, Refusal> {
        let values = call::property(&self.memory, id, i)?;
        Ok(Property {
            node: values.id(0, &self.memory),
            id: values.id(2, &self.memory),
            datatype: values.one_of(4, Datatype::from_number),
            format: values.part(5, &self.memory),
            settable: values.flag(7),
            retained: values.flag(8),
        })
    }

    /// All properties of a device, in that order; none of a device that is not in the table.
    pub fn properties<'a>(&'a self, id: &'a str) -> impl Iterator<Item = Property<'a>> {
        (0..).map_while(move |i| self.property(id, i).ok())
    }

    /// What a lane of a property holds. Refuses with `NoDevice`, `NoProperty`.
    pub fn lane(&self, id: &str, node: &str, property: &str, lane: Lane) -> Result<Option<Held<'_>>, Refusal> {
        let values = call::lane(&self.memory, id, node, property, lane.number())?;
        Ok(values.flag(0).then(|| Held { time: values.number(1), payload: values.part(2, &self.memory) }))
    }
}

/// The answer to a question that nothing but unsound memory refuses.
fn sound(answer: Result<Values, Refusal>) -> Values {
    match answer {
        Ok(values) => values,
        Err(refusal) => panic!("the library refused a sound table: {refusal}"),
    }
}

impl std::fmt::Debug for Table {
    fn fmt(&self, f: &mut std::fmt::Formatter<'_>) -> std::fmt::Result {
        f.debug_struct("Table")
            .field("devices", &self.device_count())
            .field("steps", &self.steps())
            .finish_non_exhaustive()
    }
}
