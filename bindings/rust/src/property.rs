use crate::payload::Datatype;

/// A property as its device's description declares it: one that a table has, or
/// [a description's](crate::description::Declared::property).
///
/// ```
/// use homie5::{description::Description, payload::Datatype, Property};
///
/// let text = br#"{"homie":"5.0","version":1,"nodes":{"n":{"properties":{"p":{"datatype":"json","format":"x"}}}}}"#;
/// let property = Property {
///     node: "n",
///     id: "p",
///     datatype: Datatype::Json,
///     format: b"",
///     settable: false,
///     retained: true,
/// };
/// assert_eq!(Description::read("lamp", text)?.property(0)?.property(), property);
/// # Ok::<(), homie5::Refusal>(())
/// ```
#[derive(Clone, Copy, Debug, PartialEq, Eq, Hash)]
pub struct Property<'a> {
    /// The ID of its node.
    pub node: &'a str,
    /// Its ID.
    pub id: &'a str,
    /// Its datatype.
    pub datatype: Datatype,
    /// Its kept format; empty where none is kept.
    pub format: &'a [u8],
    /// Whether it may be set.
    pub settable: bool,
    /// Whether its value is retained.
    pub retained: bool,
}
