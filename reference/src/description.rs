//! The description of a device.

use crate::faults;
use crate::json::{self, Member, Object, Value};
use crate::numbers::integer;
use crate::payload::Datatype;
use crate::refusal::Refusal;

/// The most bytes of a description.
pub const DESCRIPTION_LIMIT: usize = 8192;
/// The most properties of a device.
pub const PROPERTY_LIMIT: usize = 24;

/// What a description declares, all strings decoded.
#[derive(Clone, Debug, PartialEq, Eq)]
pub struct Description {
    pub version: i64,
    pub root: Option<Vec<u8>>,
    pub parent: Option<Vec<u8>>,
    /// By node ID, then property ID.
    pub properties: Vec<Property>,
}

#[derive(Clone, Debug, PartialEq, Eq)]
pub struct Property {
    pub node: Vec<u8>,
    pub id: Vec<u8>,
    pub datatype: Datatype,
    /// The kept format; empty where none is kept.
    pub format: Vec<u8>,
    pub settable: bool,
    pub retained: bool,
}

/// Reads the description of the device with this ID, or tells its first fault.
pub fn read(own: &[u8], text: &[u8]) -> Result<Description, Refusal> {
    match faults::first(own, text) {
        Some(fault) => Err(fault),
        None => Ok(declared(text).expect("a description without faults")),
    }
}

/// What a description without faults declares.
fn declared(text: &[u8]) -> Option<Description> {
    let value = json::read(text)?;
    let device = value.object()?;
    let id = |name: &[u8]| device.value(name).and_then(Value::decoded).map(<[u8]>::to_vec);
    Some(Description {
        version: integer(device.value(b"version")?.number()?)?,
        root: id(b"root"),
        parent: id(b"parent"),
        properties: properties(device)?,
    })
}

/// All properties of all nodes, in order.
fn properties(device: &Object) -> Option<Vec<Property>> {
    let mut all = Vec::new();
    for node in members(device, b"nodes") {
        for property in members(node.value.object()?, b"properties") {
            all.push(declared_property(node, property)?);
        }
    }
    all.sort_by(|a, b| (&a.node, &a.id).cmp(&(&b.node, &b.id)));
    Some(all)
}

/// The members of an object that is a field's value; none if it is not there.
fn members<'a>(object: &'a Object, name: &[u8]) -> &'a [Member] {
    object.value(name).and_then(Value::object).map_or(&[], |object| &object.members)
}

fn declared_property(node: &Member, member: &Member) -> Option<Property> {
    let fields = member.value.object()?;
    let flag = |name: &[u8]| fields.value(name).and_then(Value::flag);
    let datatype = Datatype::from_word(fields.value(b"datatype")?.decoded()?)?;
    Some(Property {
        node: node.name.clone().ok()?,
        id: member.name.clone().ok()?,
        datatype,
        format: kept_format(fields, datatype)?,
        settable: flag(b"settable").unwrap_or(false),
        retained: flag(b"retained").unwrap_or(true),
    })
}

fn kept_format(property: &Object, datatype: Datatype) -> Option<Vec<u8>> {
    match property.value(b"format").filter(|_| datatype.keeps_format()) {
        Some(given) => given.decoded().map(<[u8]>::to_vec),
        None => datatype.missing_format().map(<[u8]>::to_vec),
    }
}

#[cfg(test)]
mod tests {
    use super::*;

    fn valid(text: &str) -> bool {
        read(b"lamp", text.as_bytes()).is_ok()
    }

    /// A description with these fields beside the required two.
    fn with(fields: &str) -> String {
        format!(r#"{{"homie":"5.0","version":1,{fields}}}"#)
    }

    fn with_property(fields: &str) -> String {
        with(&format!(r#""nodes":{{"n":{{"properties":{{"p":{{{fields}}}}}}}}}"#))
    }

    #[test]
    fn smallest() {
        assert!(valid(r#"{"homie":"5.0","version":1}"#));
        assert!(valid(" \n{\"version\":-0,\"homie\":\"5.999\"}\t"));
        for bad in ["", "[]", "{}", r#"{"homie":"5.0"}"#, r#"{"version":1}"#, r#"{"homie":"5.0","version":1} x"#] {
            assert!(!valid(bad), "{bad}");
        }
    }

    #[test]
    fn homie_and_version() {
        for bad in ["5", "5.", "5.01", "5.00", "5.1234", "4.0", "5.0.0", " 5.0", "5.a", r"5.\u0061"] {
            assert!(!valid(&format!(r#"{{"homie":"{bad}","version":1}}"#)), "{bad}");
        }
        for (text, good) in [
            ("9223372036854775807", true),
            ("9223372036854775808", false),
            ("-9223372036854775808", true),
            ("1.0", false),
            ("1e2", false),
            ("\"1\"", false),
            ("null", false),
        ] {
            assert_eq!(valid(&format!(r#"{{"homie":"5.0","version":{text}}}"#)), good, "{text}");
        }
    }

    #[test]
    fn device_fields() {
        let good = [
            r#""name":"\n","type":"","children":["a","a"],"extensions":["\t"],"nodes":{}"#,
            r#""x":null,"x":[{"\u0041":1}]"#,
            r#""root":"r","parent":"r""#,
            r#""nodes":{"n":{}}"#,
            r#""nodes":{"n":{"name":"","type":"","x":1,"properties":{}}}"#,
        ];
        for fields in good {
            assert!(valid(&with(fields)), "{fields}");
        }
        let bad = [
            r#""name":null"#,
            r#""name":1"#,
            r#""type":[]"#,
            r#""children":"a""#,
            r#""children":["A"]"#,
            r#""children":["\u0041"]"#,
            r#""children":[null]"#,
            r#""extensions":[1]"#,
            r#""nodes":[]"#,
            r#""nodes":null"#,
            r#""nodes":{"N":{}}"#,
            r#""nodes":{"n":1}"#,
            r#""nodes":{"n":{},"n":{}}"#,
            r#""nodes":{"n":{"properties":{"p":{"datatype":"json"},"p":{"datatype":"json"}}}}"#,
            r#""root":"lamp""#,
            r#""root":"r","parent":"lamp""#,
            r#""root":"R""#,
            r#""root":"\u006camp""#,
            r#""parent":"p""#,
            r#""root":"r","root":"r""#,
            r#""x\ud800":1"#,
        ];
        for fields in bad {
            assert!(!valid(&with(fields)), "{fields}");
        }
    }

    #[test]
    fn property_fields() {
        let good = [
            r#""datatype":"string""#,
            r#""datatype":"string","format":"\n""#,
            r#""format":"a,b","datatype":"enum","unit":"\u0041","name":"x","settable":true,"retained":false,"y":null"#,
            r#""datatype":"integer","format":"1:2""#,
        ];
        for fields in good {
            assert!(valid(&with_property(fields)), "{fields}");
        }
        let bad = [
            r#""x":1"#,
            r#""datatype":"text""#,
            r#""datatype":"strin\u0047""#,
            r#""datatype":"enum""#,
            r#""datatype":"color""#,
            r#""datatype":"enum","format":"a\u002ca""#,
            r#""datatype":"integer","format":"2:1""#,
            r#""datatype":"integer","format":"""#,
            r#""datatype":"string","format":null"#,
            r#""datatype":"string","settable":"true""#,
            r#""datatype":"string","retained":null"#,
            r#""datatype":"string","retained":true,"retained":true"#,
            r#""datatype":"string","\udc00":1"#,
        ];
        for fields in bad {
            assert!(!valid(&with_property(fields)), "{fields}");
        }
    }

    #[test]
    fn properties_are_sorted_and_get_their_defaults() {
        let text = with(
            r#""nodes":{"b":{"properties":{"z":{"datatype":"boolean"}}},"a":{"properties":{"y":{"datatype":"float","settable":true,"retained":false},"x-":{"datatype":"json","format":"kept not"},"x":{"datatype":"enum","format":"u,v"}}}}"#,
        );
        let description = read(b"lamp", text.as_bytes()).unwrap();
        let names: Vec<(&[u8], &[u8], &[u8])> =
            description.properties.iter().map(|p| (&p.node[..], &p.id[..], &p.format[..])).collect();
        assert_eq!(
            names,
            [(&b"a"[..], &b"x"[..], &b"u,v"[..]), (b"a", b"x-", b""), (b"a", b"y", b":"), (b"b", b"z", b"false,true"),]
        );
        assert!(description.properties[2].settable && !description.properties[2].retained);
        assert!(!description.properties[3].settable && description.properties[3].retained);
    }

    #[test]
    fn strings_are_declared_decoded() {
        let text = r#"{"h\u006fmie":"5\u002e0","version":1,"root":"\u0068ub","parent":"h\u0061ll","nodes":{"\u006e":{
            "properties":{"\u0070":{"d\u0061tatype":"en\u0075m","format":"\u00b0C\u002ca\/b,\ud83d\uDE00,\n"},
            "q":{"datatype":"json","format":"\ud800"}}}}}"#;
        let description = read(b"lamp", text.as_bytes()).unwrap();
        assert_eq!(description.root.as_deref(), Some(&b"hub"[..]));
        assert_eq!(description.parent.as_deref(), Some(&b"hall"[..]));
        let [p, q] = &description.properties[..] else { panic!("two properties") };
        assert_eq!((&p.node[..], &p.id[..], p.datatype), (&b"n"[..], &b"p"[..], Datatype::Enum));
        assert_eq!(p.format, "°C,a/b,😀,\n".as_bytes());
        assert_eq!((&q.id[..], &q.format[..]), (&b"q"[..], &b""[..]));
    }

    #[test]
    fn properties_are_sorted_by_what_their_names_say() {
        let text = with(
            r#""nodes":{"\u0062":{"properties":{"b":{"datatype":"json"},"\u0061":{"datatype":"json"}}},"a":{"properties":{"c":{"datatype":"json"}}}}"#,
        );
        let description = read(b"lamp", text.as_bytes()).unwrap();
        let names: Vec<(&[u8], &[u8])> = description.properties.iter().map(|p| (&p.node[..], &p.id[..])).collect();
        assert_eq!(names, [(&b"a"[..], &b"c"[..]), (b"b", b"a"), (b"b", b"b")]);
    }

    fn with_properties(count: usize) -> String {
        let list: Vec<String> = (0..count).map(|i| format!(r#""p{i}":{{"datatype":"json"}}"#)).collect();
        let (first, last) = list.split_at(count / 2);
        with(&format!(
            r#""nodes":{{"a":{{"properties":{{{}}}}},"b":{{"properties":{{{}}}}}}}"#,
            first.join(","),
            last.join(",")
        ))
    }

    #[test]
    fn limits() {
        assert!(valid(&with_properties(24)));
        assert!(!valid(&with_properties(25)));
        let pad = |length: usize| format!("{:1$}", r#"{"homie":"5.0","version":1}"#, length);
        assert!(valid(&pad(8192)));
        assert!(!valid(&pad(8193)));
        let nested = |levels: usize| with(&format!(r#""x":{}{}"#, "[".repeat(levels), "]".repeat(levels)));
        assert!(valid(&nested(15)));
        assert!(!valid(&nested(16)));
    }
}
