//! Descriptions as one would read them straight away: the text as a tree, then one walk over it that reads the fields and
//! keeps the first fault. The second program looks for each fault by itself, which is plain and slow; its rules for JSON,
//! IDs, numbers and formats are used here, and it says where a text is no JSON.

use reference::description::{self, Description, Property, DESCRIPTION_LIMIT, PROPERTY_LIMIT};
use reference::json::{self, Member, Object, Text, Value};
use reference::numbers::integer;
use reference::payload::{is_format, Datatype};
use reference::refusal::*;
use reference::text::is_id;

/// Reads the description of the device with this ID, or tells its first fault.
pub fn read(own: &[u8], text: &[u8]) -> Result<Description, Refusal> {
    let Some(document) = json::read(text).filter(|_| text.len() <= DESCRIPTION_LIMIT) else {
        return description::read(own, text);
    };
    let mut walk = Walk { own, fault: None, names: 0, properties: Vec::new() };
    let description = walk.device(&document);
    match walk.fault {
        Some(fault) => Err(fault),
        None => Ok(description.expect("a description without faults")),
    }
}

struct Walk<'a> {
    own: &'a [u8],
    /// The one at the least place, there that of the least number.
    fault: Option<Refusal>,
    /// How many names of properties were met.
    names: usize,
    properties: Vec<Property>,
}

const DEVICE: [&str; 9] = ["homie", "version", "nodes", "name", "type", "children", "root", "parent", "extensions"];
const NODE: [&str; 3] = ["name", "type", "properties"];
const PROPERTY: [&str; 6] = ["datatype", "format", "name", "unit", "settable", "retained"];

impl Walk<'_> {
    fn note(&mut self, refusal: Refusal, place: usize) {
        let order = |fault: &Refusal| (fault.place, fault.number);
        let new = refusal.at(place);
        if self.fault.is_none_or(|first| order(&new) < order(&first)) {
            self.fault = Some(new);
        }
    }

    /// A value of a kind, or a fault.
    fn of_kind<'v, T>(&mut self, value: &'v Value, kind: fn(&'v Value) -> Option<T>) -> Option<T> {
        let found = kind(value);
        if found.is_none() {
            self.note(WRONG_KIND, value.place);
        }
        found
    }

    /// The members of a device, node or property.
    fn fields<'v>(&mut self, value: &'v Value, known: &[&str]) -> Option<&'v Object> {
        let object = self.of_kind(value, Value::object)?;
        for (number, Member { place, name, .. }) in object.members.iter().enumerate() {
            let Some(name) = self.whole(name) else {
                continue;
            };
            let is_known = known.iter().any(|field| field.as_bytes() == name);
            if is_known && object.members[..number].iter().any(|other| other.is_named(name)) {
                self.note(REPEATED, *place);
            }
        }
        Some(object)
    }

    /// What a string or a name says, or a fault where half a pair stands in it.
    fn whole<'v>(&mut self, text: &'v Text) -> Option<&'v [u8]> {
        if let Err(half) = text {
            self.note(OTHER_RULE, *half);
        }
        text.as_deref().ok()
    }

    /// A string that keeps a rule, or a fault.
    fn ruled<'v>(&mut self, value: &'v Value, good: impl Fn(&[u8]) -> bool) -> Option<&'v [u8]> {
        let text = self.of_kind(value, Value::text)?;
        let said = self.whole(text)?;
        if !good(said) {
            self.note(OTHER_RULE, value.place);
        }
        Some(said)
    }

    /// Walks the members of a field whose names are IDs.
    fn by_id(&mut self, object: &Object, field: &str, mut each: impl FnMut(&mut Self, &Member)) {
        let Some(value) = object.value(field.as_bytes()) else {
            return;
        };
        let members = self.of_kind(value, Value::object).map_or(&[][..], |object| &object.members);
        for (number, member) in members.iter().enumerate() {
            let name = self.whole(&member.name);
            if name.is_some_and(|name| !is_id(name)) {
                self.note(OTHER_RULE, member.place);
            }
            if name.is_some_and(|name| members[..number].iter().any(|other| other.is_named(name))) {
                self.note(REPEATED, member.place);
            } else {
                each(self, member);
            }
        }
    }

    fn device(&mut self, value: &Value) -> Option<Description> {
        let device = self.fields(value, &DEVICE)?;
        self.required_text(device, "homie", is_homie);
        let version = self.version(device);
        self.texts(device, &["name", "type"]);
        for child in self.items(device, "children") {
            self.ruled(child, is_id);
        }
        for extension in self.items(device, "extensions") {
            self.of_kind(extension, Value::text);
        }
        let (root, parent) = (self.relative(device, "root"), self.relative(device, "parent"));
        if let Some(parent) = device.value(b"parent").filter(|parent| parent.decoded().is_some()) {
            if device.value(b"root").is_none() {
                self.note(OTHER_RULE, parent.place);
            }
        }
        self.by_id(device, "nodes", Self::node);
        self.properties.sort_by(|a, b| (&a.node, &a.id).cmp(&(&b.node, &b.id)));
        Some(Description { version: version?, root, parent, properties: std::mem::take(&mut self.properties) })
    }

    fn required_text<'v>(&mut self, object: &'v Object, field: &str, good: fn(&[u8]) -> bool) -> Option<&'v [u8]> {
        let Some(value) = object.value(field.as_bytes()) else {
            self.note(MISSING, object.end);
            return None;
        };
        self.ruled(value, good)
    }

    fn version(&mut self, device: &Object) -> Option<i64> {
        let Some(value) = device.value(b"version") else {
            self.note(MISSING, device.end);
            return None;
        };
        let version = integer(self.of_kind(value, Value::number)?);
        if version.is_none() {
            self.note(OTHER_RULE, value.place);
        }
        version
    }

    fn texts(&mut self, object: &Object, fields: &[&str]) {
        for value in fields.iter().filter_map(|field| object.value(field.as_bytes())) {
            self.of_kind(value, Value::text);
        }
    }

    fn items<'v>(&mut self, device: &'v Object, field: &str) -> &'v [Value] {
        let items = device.value(field.as_bytes()).and_then(|value| self.of_kind(value, Value::array));
        items.unwrap_or(&[])
    }

    /// An ID that is not the device's own, if the field is there.
    fn relative(&mut self, device: &Object, field: &str) -> Option<Vec<u8>> {
        let value = device.value(field.as_bytes())?;
        let own = self.own;
        self.ruled(value, |id| is_id(id) && id != own).map(<[u8]>::to_vec)
    }

    fn node(&mut self, node: &Member) {
        let Some(fields) = self.fields(&node.value, &NODE) else {
            return;
        };
        self.texts(fields, &["name", "type"]);
        self.by_id(fields, "properties", |walk, property| {
            walk.names += 1;
            if walk.names == PROPERTY_LIMIT + 1 && property.name.is_ok() {
                walk.note(OTHER_RULE, property.place);
            }
            let read = walk.property(node, property);
            walk.properties.extend(read);
        });
    }

    fn property(&mut self, node: &Member, member: &Member) -> Option<Property> {
        let fields = self.fields(&member.value, &PROPERTY)?;
        let word = self.required_text(fields, "datatype", |word| Datatype::from_word(word).is_some());
        self.texts(fields, &["name", "unit", "format"]);
        let (settable, retained) = (self.flag(fields, "settable", false), self.flag(fields, "retained", true));
        let datatype = Datatype::from_word(word?)?;
        let format = self.kept_format(fields, datatype)?;
        let (node, id) = (node.name.clone().ok()?, member.name.clone().ok()?);
        Some(Property { node, id, datatype, format, settable, retained })
    }

    fn flag(&mut self, property: &Object, field: &str, missing: bool) -> bool {
        let value = property.value(field.as_bytes());
        value.map_or(missing, |value| self.of_kind(value, Value::flag).unwrap_or(missing))
    }

    fn kept_format(&mut self, property: &Object, datatype: Datatype) -> Option<Vec<u8>> {
        let given = property.value(b"format");
        if given.is_none() && datatype.missing_format().is_none() {
            self.note(MISSING, property.end);
        }
        match given.filter(|_| datatype.keeps_format()) {
            None => datatype.missing_format().map(<[u8]>::to_vec),
            Some(value) => self.ruled(value, |format| is_format(datatype, format)).map(<[u8]>::to_vec),
        }
    }
}

/// `5.` and 1 to 3 digits, without a leading zero unless it is `0`.
fn is_homie(text: &[u8]) -> bool {
    let minor = text.strip_prefix(b"5.").unwrap_or(b"");
    let digits = (1..=3).contains(&minor.len()) && minor.iter().all(u8::is_ascii_digit);
    digits && (minor == b"0" || minor[0] != b'0')
}

#[cfg(test)]
mod tests {
    use super::*;
    use reference::generate::descriptions::{description, full_description, Plan};
    use reference::generate::faulty::faulty_description;
    use reference::random::Random;

    #[test]
    fn the_second_program_reads_the_same() {
        let (mut random, own, others) = (Random::new(3), b"lamp", [b"hub".to_vec(), b"lamp".to_vec()]);
        let mut refused = [0; 5];
        for _ in 0..8000 {
            let plan = Plan { own, others: &others, fault: 60 };
            let text = match random.below(20) {
                0 => full_description(&mut random, &plan),
                1..=5 => description(&mut random, &plan),
                _ => faulty_description(&mut random, &plan),
            };
            let expected = description::read(own, &text);
            assert_eq!(read(own, &text), expected, "{}", String::from_utf8_lossy(&text));
            if let Err(refusal) = expected {
                refused[usize::from(refusal.number) - 21] += 1;
            }
        }
        assert!(refused.iter().all(|times| *times > 100), "{refused:?}");
    }
}
