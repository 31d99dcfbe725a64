use crate::table::{Held, Lane, States, Table};
use crate::{Property, Refusal};

/// A device at the table's cursor: see [`Table::devices`] and [`Table::device`]. It borrows the table.
///
/// ```
/// use homie5::table::{State, Table};
/// use homie5::trace::Trace;
///
/// let file = std::fs::read("../../samples/lamp.trace")?;
/// let mut table = Table::open("homie", 4, 3)?;
/// for event in Trace::new(&file).events()? {
///     let _ = table.message(&event);
/// }
/// for device in table.devices() {
///     assert_eq!((device.id, device.states.effective, device.version), ("lamp", State::Init, Some(1)));
///     assert_eq!((device.root, device.parent), (None, None));
///     for (property, lanes) in device.properties() {
///         assert_eq!((property.node, property.id, property.settable), ("light", "on", true));
///         assert_eq!((lanes.value, lanes.target), (None, None));
///         assert_eq!(lanes.asked.map(|asked| (asked.time, asked.payload)), Some((4294967300, &b"true"[..])));
///     }
/// }
/// # Ok::<(), Box<dyn std::error::Error>>(())
/// ```
#[derive(Clone, Copy, Debug)]
pub struct Device<'a> {
    table: &'a Table,
    /// Its ID.
    pub id: &'a str,
    /// Its states.
    pub states: States,
    /// The ID of its root, as its description names it.
    pub root: Option<&'a str>,
    /// The ID of its parent, as its description names it.
    pub parent: Option<&'a str>,
    /// The version of its description; none where it has no description.
    pub version: Option<i64>,
}

impl<'a> Device<'a> {
    pub(crate) fn of(table: &'a Table, id: &'a str) -> Result<Device<'a>, Refusal> {
        let (states, version) = (table.states(id)?, table.version(id)?);
        Ok(Device { table, id, states, root: table.root(id)?, parent: table.parent(id)?, version })
    }

    /// Its properties with their lanes, by node ID, then property ID. Of bytes that no calls made, one whose IDs are no
    /// text is passed over: see [`Table::from_bytes`].
    pub fn properties(&self) -> impl Iterator<Item = (Property<'a>, Lanes<'a>)> {
        let Device { table, id, .. } = *self;
        table.properties(id).filter_map(move |property| Some((property, Lanes::of(table, id, &property).ok()?)))
    }
}

/// What the lanes of a property hold: see [`Device::properties`].
#[derive(Clone, Copy, Debug, PartialEq, Eq, Hash)]
pub struct Lanes<'a> {
    /// The value, as the device told it.
    pub value: Option<Held<'a>>,
    /// The value that the device is on its way to.
    pub target: Option<Held<'a>>,
    /// What the device was asked to set.
    pub asked: Option<Held<'a>>,
}

impl<'a> Lanes<'a> {
    fn of(table: &'a Table, id: &str, property: &Property) -> Result<Lanes<'a>, Refusal> {
        let lane = |lane| table.lane(id, property.node, property.id, lane);
        Ok(Lanes { value: lane(Lane::Value)?, target: lane(Lane::Target)?, asked: lane(Lane::Asked)? })
    }

    /// What one of them holds.
    pub fn get(&self, lane: Lane) -> Option<Held<'a>> {
        match lane {
            Lane::Value => self.value,
            Lane::Target => self.target,
            Lane::Asked | Lane::Unknown(_) => self.asked,
        }
    }
}
