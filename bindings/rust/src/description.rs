//! Device descriptions.
//!
//! Their strings are shown decoded, as text of their own only where they are sent with escapes, and by the places of
//! their opening quotes in the text as sent.

use crate::call;
use crate::payload::{Datatype, Kept};
use crate::values::id;
use crate::{Property, Refusal};
use std::borrow::Cow;

pub use crate::explain::{explain, Explanation};

/// Whether a text is a valid description of the device of the ID `own`. Refuses with `NotJson`, else with that of
/// `WrongKind`, `FieldMissing`, `NameRepeated` and `RuleBroken` whose place comes first. [`explain`] shows it in the text.
///
/// ```
/// use homie5::{description, Refusal};
///
/// assert_eq!(description::judge("lamp", br#"{"homie":"5.0","version":1}"#), Ok(()));
/// assert_eq!(description::judge("lamp", br#"{"homie":"5.0"}"#), Err(Refusal::FieldMissing { place: 14 }));
/// assert_eq!(description::judge("lamp", br#"{"homie":5.0}"#), Err(Refusal::WrongKind { place: 9 }));
/// ```
pub fn judge(own: &str, text: &[u8]) -> Result<(), Refusal> {
    call::description_judge(own, text)
}

/// The string of a description's text whose opening quote stands at a place, its escapes decoded. It is copied only where
/// it has some. Refuses with `NotJson` where the text is too long, with `WrongKind` where no string stands, with
/// `RuleBroken` at half a surrogate pair.
///
/// ```
/// use homie5::{description, Refusal};
///
/// let text = br#"{"unit":"\u00b0C","x":"\ud834"}"#;
/// assert_eq!(description::string(text, 8)?, "°C".as_bytes());
/// assert_eq!(description::string(text, 1)?, &b"unit"[..]);
/// assert_eq!(description::string(text, 0), Err(Refusal::WrongKind { place: 0 }));
/// assert_eq!(description::string(text, 22), Err(Refusal::RuleBroken { place: 23 }));
/// # Ok::<(), Refusal>(())
/// ```
pub fn string(text: &[u8], place: usize) -> Result<Cow<'_, [u8]>, Refusal> {
    let len = call::description_string(text, place, &mut [])?.size(0);
    let (sent, behind) = text[place + 1..].split_at(len);
    // a string with an escape is sent in more bytes than it has
    if behind.first() == Some(&b'"') && !sent.contains(&b'\\') {
        return Ok(Cow::Borrowed(sent));
    }
    let mut bytes = vec![0; len];
    call::description_string(text, place, &mut bytes)?;
    Ok(Cow::Owned(bytes))
}

/// A string that the library shows.
fn shown(text: &[u8], place: usize) -> Cow<'_, [u8]> {
    string(text, place).expect("the library shows strings")
}

/// An ID that the library shows.
fn shown_id(text: &[u8], place: usize) -> Cow<'_, str> {
    match shown(text, place) {
        Cow::Borrowed(bytes) => Cow::Borrowed(id(bytes)),
        Cow::Owned(bytes) => Cow::Owned(id(&bytes).to_string()),
    }
}

/// What a valid description declares.
///
/// ```
/// use homie5::{description::Description, payload::Datatype, Refusal};
///
/// let text = br#"{"homie":"5.0","version":-7,"root":"hall","nodes":{
///     "light":{"properties":{"on":{"datatype":"boolean","settable":true}}}}}"#;
/// let lamp = Description::read("lamp", text)?;
/// assert_eq!((lamp.version, lamp.root.as_deref(), lamp.parent.as_deref()), (-7, Some("hall"), None));
/// assert_eq!((lamp.root_place, lamp.parent_place), (Some(35), None));
/// assert_eq!(lamp.properties, 1);
///
/// let on = lamp.property(0)?;
/// assert_eq!((&*on.node, &*on.id), ("light", "on"));
/// assert_eq!((on.datatype, &*on.format), (Datatype::Boolean, &b"false,true"[..]));
/// assert!(on.settable && on.retained);
/// assert_eq!(lamp.property(1), Err(Refusal::NoSuchNumber));
/// # Ok::<(), Refusal>(())
/// ```
#[derive(Clone, Debug, PartialEq, Eq)]
pub struct Description<'a> {
    own: &'a str,
    text: &'a [u8],
    /// Its version.
    pub version: i64,
    /// The ID of the device's root.
    pub root: Option<Cow<'a, str>>,
    /// The ID of the device's parent.
    pub parent: Option<Cow<'a, str>>,
    /// Where the root's opening quote stands in the text.
    pub root_place: Option<usize>,
    /// Where the parent's opening quote stands in the text.
    pub parent_place: Option<usize>,
    /// How many properties it declares.
    pub properties: usize,
}

/// A property of a description.
///
/// ```
/// use homie5::description::Description;
///
/// let text = br#"{"homie":"5.0","version":1,"nodes":{"n":{"properties":{
///     "\u0070":{"datatype":"enum","format":"low,22\u00b0"}}}}}"#;
/// let property = Description::read("lamp", text)?.property(0)?;
/// assert_eq!((&*property.node, &*property.id, &*property.format), ("n", "p", "low,22°".as_bytes()));
/// assert_eq!(text[property.id_place..][..8], *br#""\u0070""#);
/// assert_eq!(property.format_place.map(|place| text[place]), Some(b'"'));
/// # Ok::<(), homie5::Refusal>(())
/// ```
#[derive(Clone, Debug, PartialEq, Eq, Hash)]
pub struct Declared<'a> {
    /// The ID of its node.
    pub node: Cow<'a, str>,
    /// Its ID.
    pub id: Cow<'a, str>,
    /// Its datatype.
    pub datatype: Datatype,
    /// Its kept format; empty where none is kept.
    pub format: Cow<'a, [u8]>,
    /// Whether it may be set.
    pub settable: bool,
    /// Whether its value is retained.
    pub retained: bool,
    /// Where the opening quote of its node's ID stands in the text.
    pub node_place: usize,
    /// Where that of its ID stands.
    pub id_place: usize,
    /// Where that of its format stands, where it is kept as given.
    pub format_place: Option<usize>,
}

impl<'a> Description<'a> {
    /// Reads a description of the device of the ID `own`. Refuses as [`judge`] does.
    pub fn read(own: &'a str, text: &'a [u8]) -> Result<Description<'a>, Refusal> {
        let values = call::description_read(own, text)?;
        let root_place = values.flag(1).then(|| values.size(2));
        let parent_place = values.flag(3).then(|| values.size(4));
        let relative = |place: Option<usize>| place.map(|place| shown_id(text, place));
        Ok(Description {
            own,
            text,
            version: values.version(0),
            root: relative(root_place),
            parent: relative(parent_place),
            root_place,
            parent_place,
            properties: values.size(5),
        })
    }

    /// The i-th property, from 0, by node ID, then property ID. Refuses with `NoSuchNumber`.
    pub fn property(&self, i: usize) -> Result<Declared<'a>, Refusal> {
        let values = call::description_property(self.own, self.text, i)?;
        let kept = values.one_of(3, Kept::from_number);
        let (node_place, id_place) = (values.size(0), values.size(1));
        let format_place = (kept == Kept::AsGiven).then(|| values.size(4));
        Ok(Declared {
            node: shown_id(self.text, node_place),
            id: shown_id(self.text, id_place),
            datatype: values.one_of(2, Datatype::from_number),
            format: format_place.map_or(Cow::Borrowed(kept.of(b"")), |place| shown(self.text, place)),
            settable: values.flag(5),
            retained: values.flag(6),
            node_place,
            id_place,
            format_place,
        })
    }
}

impl Declared<'_> {
    /// The property, as a table has it.
    pub fn property(&self) -> Property<'_> {
        Property {
            node: &self.node,
            id: &self.id,
            datatype: self.datatype,
            format: &self.format,
            settable: self.settable,
            retained: self.retained,
        }
    }
}
