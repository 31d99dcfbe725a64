//! Why a description is refused: all its faults, rule by rule. A fault is the
//! refusal that would tell it.

use crate::description::{DESCRIPTION_LIMIT, PROPERTY_LIMIT};
use crate::grammar;
use crate::json::{self, Member, Object, Text, Value, NESTING};
use crate::numbers::integer;
use crate::payload::{is_format, Datatype};
use crate::refusal::{Refusal, MISSING, NOT_JSON, OTHER_RULE, REPEATED, WRONG_KIND};
use crate::text::{is_id, utf8_fault};

/// The fault that is told: the least by place, then by number.
pub fn first(own: &[u8], text: &[u8]) -> Option<Refusal> {
    faults(own, text).into_iter().min_by_key(|fault| (fault.place, fault.number))
}

/// All faults of the description of the device with this ID.
pub fn faults(own: &[u8], text: &[u8]) -> Vec<Refusal> {
    let at_places = |rule: Rule| rule.places.into_iter().map(move |place| rule.refusal.at(place));
    rules(own, text).into_iter().flat_map(at_places).collect()
}

/// A rule: the refusal for it, and the places where it is broken.
pub struct Rule {
    pub name: &'static str,
    pub refusal: Refusal,
    pub places: Vec<usize>,
}

fn rule(refusal: Refusal, name: &'static str, places: impl IntoIterator<Item = usize>) -> Rule {
    Rule { name, refusal, places: places.into_iter().collect() }
}

/// The rules that are asked: where the text breaks one of its own, no others.
pub fn rules(own: &[u8], text: &[u8]) -> Vec<Rule> {
    let of_text = text_rules(text);
    if of_text.iter().any(|rule| !rule.places.is_empty()) {
        return of_text;
    }
    let value = json::read(text).expect("a JSON text of few levels");
    match value.object() {
        None => vec![rule(WRONG_KIND, "outermost kind", [value.place])],
        Some(device) => Document::of(device).rules(own),
    }
}

fn text_rules(text: &[u8]) -> Vec<Rule> {
    vec![
        rule(NOT_JSON, "JSON", grammar::first_fault(text)),
        rule(NOT_JSON, "UTF-8", utf8_fault(text)),
        rule(NOT_JSON, "depth", grammar::too_deep(text, NESTING)),
        rule(NOT_JSON, "length", (text.len() > DESCRIPTION_LIMIT).then_some(DESCRIPTION_LIMIT)),
    ]
}

// Known fields

/// The JSON kind of a known field's value.
#[derive(Clone, Copy)]
enum Wanted {
    Text,
    Number,
    Flag,
    Array,
    Object,
}

impl Wanted {
    fn is_kind_of(self, value: &Value) -> bool {
        match self {
            Wanted::Text => value.text().is_some(),
            Wanted::Number => value.number().is_some(),
            Wanted::Flag => value.flag().is_some(),
            Wanted::Array => value.array().is_some(),
            Wanted::Object => value.object().is_some(),
        }
    }
}

type Fields = [(&'static str, Wanted)];

const DEVICE: &Fields = &[
    ("homie", Wanted::Text),
    ("version", Wanted::Number),
    ("nodes", Wanted::Object),
    ("name", Wanted::Text),
    ("type", Wanted::Text),
    ("children", Wanted::Array),
    ("root", Wanted::Text),
    ("parent", Wanted::Text),
    ("extensions", Wanted::Array),
];

const NODE: &Fields = &[("name", Wanted::Text), ("type", Wanted::Text), ("properties", Wanted::Object)];

const PROPERTY: &Fields = &[
    ("datatype", Wanted::Text),
    ("name", Wanted::Text),
    ("unit", Wanted::Text),
    ("format", Wanted::Text),
    ("settable", Wanted::Flag),
    ("retained", Wanted::Flag),
];

// The document

/// The values of an object's members, of equal names the first one's alone.
fn first_values(object: &Object) -> Vec<&Value> {
    object.members.iter().filter(|member| !is_repeat(object, member)).map(|member| &member.value).collect()
}

/// Whether an earlier member has the same name. A name with half a pair is no
/// repeat.
fn is_repeat(object: &Object, member: &Member) -> bool {
    let first = member.name.as_ref().ok().and_then(|name| object.member(name));
    first.is_some_and(|first| first.place < member.place)
}

/// The objects that the rules are about. What stands under a repeated name or
/// is of a wrong kind is not among them.
struct Document<'a> {
    device: &'a Object,
    /// The value of `nodes`.
    node_list: Option<&'a Object>,
    nodes: Vec<&'a Object>,
    /// The values of `properties` in the nodes, in document order.
    property_lists: Vec<&'a Object>,
    properties: Vec<&'a Object>,
}

impl<'a> Document<'a> {
    fn of(device: &'a Object) -> Document<'a> {
        let objects_in = |list: &&'a Object| first_values(list).into_iter().filter_map(Value::object);
        let node_list = device.value(b"nodes").and_then(Value::object);
        let nodes: Vec<&Object> = node_list.iter().flat_map(objects_in).collect();
        let list_of = |node: &&'a Object| node.value(b"properties").and_then(Value::object);
        let property_lists: Vec<&Object> = nodes.iter().filter_map(list_of).collect();
        let properties = property_lists.iter().flat_map(objects_in).collect();
        Document { device, node_list, nodes, property_lists, properties }
    }

    /// The device, the nodes and the properties, each with its known fields.
    fn objects(&self) -> Vec<(&'a Object, &'static Fields)> {
        let nodes = self.nodes.iter().map(|node| (*node, NODE));
        let properties = self.properties.iter().map(|property| (*property, PROPERTY));
        [(self.device, DEVICE)].into_iter().chain(nodes).chain(properties).collect()
    }

    /// The objects whose names are IDs.
    fn lists(&self) -> Vec<&'a Object> {
        self.node_list.iter().chain(&self.property_lists).copied().collect()
    }

    /// The elements of an array in the device.
    fn items(&self, name: &str) -> &'a [Value] {
        self.device.value(name.as_bytes()).and_then(Value::array).unwrap_or(&[])
    }

    fn rules(&self, own: &[u8]) -> Vec<Rule> {
        vec![
            rule(WRONG_KIND, "kind of a field", self.fields_of_wrong_kind()),
            rule(WRONG_KIND, "kind of an element", self.elements_of_wrong_kind()),
            rule(WRONG_KIND, "kind of a node or property", self.entries_of_wrong_kind()),
            rule(MISSING, "device field missing", self.missing_device_fields()),
            rule(MISSING, "datatype missing", self.missing_datatypes()),
            rule(MISSING, "format missing", self.missing_formats()),
            rule(REPEATED, "field repeated", self.repeated_fields()),
            rule(REPEATED, "ID repeated", self.repeated_ids()),
            rule(OTHER_RULE, "half a pair in a field name", self.halves_in_names()),
            rule(OTHER_RULE, "half a pair in an ID", self.halves_in_ids()),
            rule(OTHER_RULE, "half a pair in a child", self.halves_in_children()),
            rule(OTHER_RULE, "half a pair in homie", half_in(self.device, "homie")),
            rule(OTHER_RULE, "half a pair in root", half_in(self.device, "root")),
            rule(OTHER_RULE, "half a pair in parent", half_in(self.device, "parent")),
            rule(OTHER_RULE, "half a pair in a datatype", self.halves_in_datatypes()),
            rule(OTHER_RULE, "half a pair in a format", self.halves_in_formats()),
            rule(OTHER_RULE, "homie", self.bad_homie()),
            rule(OTHER_RULE, "version", self.bad_version()),
            rule(OTHER_RULE, "ID of a node or property", self.bad_ids()),
            rule(OTHER_RULE, "ID of a child", self.bad_children()),
            rule(OTHER_RULE, "root", self.bad_relation("root", own)),
            rule(OTHER_RULE, "parent", self.bad_relation("parent", own)),
            rule(OTHER_RULE, "parent without root", self.parent_without_root()),
            rule(OTHER_RULE, "datatype", self.bad_datatypes()),
            rule(OTHER_RULE, "format", self.bad_formats()),
            rule(OTHER_RULE, "too many properties", self.one_property_too_many()),
        ]
    }
}

fn places<'a>(values: impl IntoIterator<Item = &'a Value>) -> Vec<usize> {
    values.into_iter().map(|value| value.place).collect()
}

fn name_places<'a>(members: impl IntoIterator<Item = &'a Member>) -> Vec<usize> {
    members.into_iter().map(|member| member.place).collect()
}

// Wrong kinds, at the first byte of the value

impl Document<'_> {
    fn fields_of_wrong_kind(&self) -> Vec<usize> {
        let mut wrong = Vec::new();
        for (object, fields) in self.objects() {
            for (name, wanted) in fields {
                wrong.extend(object.value(name.as_bytes()).filter(|value| !wanted.is_kind_of(value)));
            }
        }
        places(wrong)
    }

    /// `children` and `extensions` hold strings.
    fn elements_of_wrong_kind(&self) -> Vec<usize> {
        let items = self.items("children").iter().chain(self.items("extensions"));
        places(items.filter(|item| item.text().is_none()))
    }

    /// `nodes` and `properties` hold objects.
    fn entries_of_wrong_kind(&self) -> Vec<usize> {
        let values = self.lists().into_iter().flat_map(first_values);
        places(values.filter(|value| value.object().is_none()))
    }
}

// Missing fields, at the closing brace of the object

impl Document<'_> {
    fn missing_device_fields(&self) -> Option<usize> {
        let missing = [&b"homie"[..], b"version"].iter().any(|name| self.device.member(name).is_none());
        missing.then_some(self.device.end)
    }

    fn missing_datatypes(&self) -> Vec<usize> {
        let without = self.properties.iter().filter(|property| property.member(b"datatype").is_none());
        without.map(|property| property.end).collect()
    }

    /// Enums and colours need one.
    fn missing_formats(&self) -> Vec<usize> {
        let needs_format =
            |property: &&&Object| datatype(property).is_some_and(|datatype| datatype.missing_format().is_none());
        let without =
            self.properties.iter().filter(needs_format).filter(|property| property.member(b"format").is_none());
        without.map(|property| property.end).collect()
    }
}

// Repeats, at the second name and each later one

impl Document<'_> {
    fn repeated_fields(&self) -> Vec<usize> {
        let mut names = Vec::new();
        for (object, fields) in self.objects() {
            let known = |member: &&Member| fields.iter().any(|(name, _)| member.is_named(name.as_bytes()));
            names.extend(object.members.iter().filter(known).filter(|member| is_repeat(object, member)));
        }
        name_places(names)
    }

    fn repeated_ids(&self) -> Vec<usize> {
        let mut names = Vec::new();
        for list in self.lists() {
            names.extend(list.members.iter().filter(|member| is_repeat(list, member)));
        }
        name_places(names)
    }
}

// Half a surrogate pair, at its backslash; the first in each string. No rule
// below is asked of such a string: none is told at its opening quote.

impl Document<'_> {
    fn halves_in_names(&self) -> Vec<usize> {
        let members = self.objects().into_iter().flat_map(|(object, _)| &object.members);
        halves(members.map(|member| &member.name))
    }

    fn halves_in_ids(&self) -> Vec<usize> {
        let members = self.lists().into_iter().flat_map(|list| &list.members);
        halves(members.map(|member| &member.name))
    }

    fn halves_in_children(&self) -> Vec<usize> {
        halves(self.items("children").iter().filter_map(Value::text))
    }

    fn halves_in_datatypes(&self) -> Vec<usize> {
        self.properties.iter().filter_map(|property| half_in(property, "datatype")).collect()
    }

    /// Kept formats alone.
    fn halves_in_formats(&self) -> Vec<usize> {
        let kept = self.properties.iter().filter(|property| keeps_format(property).is_some());
        kept.filter_map(|property| half_in(property, "format")).collect()
    }
}

fn halves<'a>(texts: impl IntoIterator<Item = &'a Text>) -> Vec<usize> {
    texts.into_iter().filter_map(|text| text.as_ref().err().copied()).collect()
}

/// The first half in a field's string.
fn half_in(object: &Object, name: &str) -> Option<usize> {
    object.value(name.as_bytes())?.text()?.as_ref().err().copied()
}

// Other rules, at the string, number or name

impl Document<'_> {
    fn bad_homie(&self) -> Option<usize> {
        bad_text(self.device, "homie", is_homie)
    }

    fn bad_version(&self) -> Option<usize> {
        let value = self.device.value(b"version")?;
        integer(value.number()?).is_none().then_some(value.place)
    }

    fn bad_ids(&self) -> Vec<usize> {
        let members = self.lists().into_iter().flat_map(|list| &list.members);
        name_places(members.filter(|member| member.name.as_ref().is_ok_and(|id| !is_id(id))))
    }

    fn bad_children(&self) -> Vec<usize> {
        let bad = |item: &&Value| item.decoded().is_some_and(|id| !is_id(id));
        places(self.items("children").iter().filter(bad))
    }

    /// Root and parent are IDs, and not the own one.
    fn bad_relation(&self, name: &str, own: &[u8]) -> Option<usize> {
        bad_text(self.device, name, |id| is_id(id) && id != own)
    }

    fn parent_without_root(&self) -> Option<usize> {
        bad_text(self.device, "parent", |_| self.device.member(b"root").is_some())
    }

    fn bad_datatypes(&self) -> Vec<usize> {
        let bad = |property: &&Object| bad_text(property, "datatype", |word| Datatype::from_word(word).is_some());
        self.properties.iter().filter_map(bad).collect()
    }

    /// Kept formats alone.
    fn bad_formats(&self) -> Vec<usize> {
        let bad = |property: &&Object| {
            let datatype = keeps_format(property)?;
            bad_text(property, "format", |format| is_format(datatype, format))
        };
        self.properties.iter().filter_map(bad).collect()
    }

    /// The name of the property after the last that is allowed.
    fn one_property_too_many(&self) -> Option<usize> {
        let mut names = self.property_lists.iter().flat_map(|list| &list.members);
        names.nth(PROPERTY_LIMIT).filter(|member| member.name.is_ok()).map(|member| member.place)
    }
}

/// The place of a field's string, if it is there, has no half a pair and is not
/// good.
fn bad_text(object: &Object, name: &str, good: impl Fn(&[u8]) -> bool) -> Option<usize> {
    let value = object.value(name.as_bytes())?;
    value.decoded().filter(|text| !good(text)).map(|_| value.place)
}

/// The datatype of a property, if it has a good one.
fn datatype(property: &Object) -> Option<Datatype> {
    property.value(b"datatype").and_then(Value::decoded).and_then(Datatype::from_word)
}

/// The datatype of a property whose format is kept.
fn keeps_format(property: &Object) -> Option<Datatype> {
    datatype(property).filter(|datatype| datatype.keeps_format())
}

/// `5.` and 1 to 3 digits, without a leading zero unless it is `0`.
fn is_homie(text: &[u8]) -> bool {
    let minor = text.strip_prefix(b"5.").unwrap_or(b"");
    let digits = (1..=3).contains(&minor.len()) && minor.iter().all(u8::is_ascii_digit);
    digits && (minor == b"0" || minor[0] != b'0')
}
