//! Descriptions: assembled from fields, with a fault here and there.

use super::edits::edit;
use super::escapes::{put_half, respelled};
use super::payloads::{datatype, format, json_value, near_format};
use super::texts::id;
use crate::description::{DESCRIPTION_LIMIT, PROPERTY_LIMIT};
use crate::json::NESTING;
use crate::payload::Datatype;
use crate::random::Random;

/// How a description is to be made.
pub struct Plan<'a> {
    /// The device's own ID.
    pub own: &'a [u8],
    /// IDs of devices that may be its root or parent, the usual one first.
    pub others: &'a [Vec<u8>],
    /// A fault once in so many places.
    pub fault: usize,
}

struct Maker<'a> {
    random: &'a mut Random,
    plan: &'a Plan<'a>,
}

/// Field names with their values as JSON text.
type Fields = Vec<(String, String)>;

/// A description, valid or not, its strings now and then spelled with escapes.
pub fn description(random: &mut Random, plan: &Plan) -> Vec<u8> {
    let mut maker = Maker { random, plan };
    let mut text = maker.device().into_bytes();
    if maker.random.once_in(3) {
        text = respelled(maker.random, text);
    }
    if maker.fault(3) {
        put_half(maker.random, &mut text);
    }
    if maker.fault(8) {
        return edit(random, &text);
    }
    if maker.fault(1) {
        return padded(random, text);
    }
    text
}

/// A description that fills a device's room: the most properties, each with
/// the longest IDs and formats.
pub fn full_description(random: &mut Random, plan: &Plan) -> Vec<u8> {
    let one_node = random.once_in(2);
    let other = random.pick(plan.others);
    let relations =
        if other == plan.own { String::new() } else { format!(r#","root":{0},"parent":{0}"#, quoted(&other)) };
    let properties: Vec<String> = (0..PROPERTY_LIMIT).map(|number| full_property(random, number)).collect();
    let nodes = if one_node {
        format!(r#""{}":{{"properties":{{{}}}}}"#, long_id("node", 0), properties.join(","))
    } else {
        let node = |(number, property)| format!(r#""{}":{{"properties":{{{property}}}}}"#, long_id("node", number));
        properties.iter().enumerate().map(node).collect::<Vec<String>>().join(",")
    };
    let text =
        format!(r#"{{"homie":"5.0","version":-9223372036854775808{relations},"nodes":{{{nodes}}}}}"#).into_bytes();
    if random.once_in(3) {
        respelled(random, text)
    } else {
        text
    }
}

/// A property with a format of 64 bytes, one entry of it 48 bytes long.
fn full_property(random: &mut Random, number: usize) -> String {
    let entry = random.pick(&["x", "y", "é"]).repeat(48)[..48].to_string();
    let datatype = random.mostly(4, &["enum", "boolean"], &["string"]);
    let retained = random.pick(&["", r#","retained":false"#]);
    format!(
        r#""{}":{{"datatype":"{datatype}","format":"{entry},{}","settable":true{retained}}}"#,
        long_id("property", number),
        "z".repeat(15)
    )
}

/// An ID of 32 bytes.
fn long_id(word: &str, number: usize) -> String {
    format!("{:-<32}", format!("{word}-{number}"))
}

/// White space behind the text, to the limit or one past it.
fn padded(random: &mut Random, mut text: Vec<u8>) -> Vec<u8> {
    let length = DESCRIPTION_LIMIT + random.below(2);
    text.resize(text.len().max(length), b' ');
    text
}

fn quoted(text: &[u8]) -> String {
    format!("\"{}\"", String::from_utf8_lossy(text))
}

impl Maker<'_> {
    /// True for a fault that is so many times as likely as others.
    fn fault(&mut self, weight: usize) -> bool {
        self.random.below(self.plan.fault) < weight
    }

    fn choose(&mut self, good: &[&str], bad: &[&str]) -> String {
        let list = if self.fault(1) { bad } else { good };
        self.random.pick(list).to_string()
    }

    fn device(&mut self) -> String {
        let mut fields = vec![("homie".to_string(), self.homie()), ("version".to_string(), self.version())];
        if self.random.below(10) > 0 {
            fields.push(("nodes".to_string(), self.nodes()));
        }
        self.add_strings(&mut fields, &["name", "type"]);
        self.add_lists(&mut fields);
        self.add_relations(&mut fields);
        self.object(fields, 1)
    }

    fn homie(&mut self) -> String {
        const BAD: [&str; 10] = ["5", "5.", "5.00", "5.01", "5.1000", "4.0", "5.a", "5.0\\u0000", " 5.0", "5.0 "];
        let text = self.choose(&["5.0", "5.1", "5.10", "5.999"], &BAD);
        if self.fault(1) {
            "5.0".to_string()
        } else {
            quoted(text.as_bytes())
        }
    }

    fn version(&mut self) -> String {
        const GOOD: [&str; 7] = ["1", "0", "-0", "-7", "42", "9223372036854775807", "-9223372036854775808"];
        const BAD: [&str; 8] = [
            "9223372036854775808",
            "-9223372036854775809",
            "1.0",
            "1e2",
            "\"1\"",
            "null",
            "01",
            "18446744073709551617",
        ];
        self.choose(&GOOD, &BAD)
    }

    /// A JSON string, with escapes now and then.
    fn string(&mut self) -> String {
        const GOOD: [&str; 7] = ["\"\"", "\"Lamp\"", "\"\\u00c9\\n\"", "\"é\"", "\"a/b\"", "\"\\\"\"", "\"°C\""];
        self.choose(&GOOD, &["null", "1", "\"\\q\"", "\"\n\"", "true", "[]"])
    }

    fn add_strings(&mut self, fields: &mut Fields, names: &[&str]) {
        for name in names {
            if self.random.once_in(4) {
                fields.push((name.to_string(), self.string()));
            }
        }
    }

    fn add_lists(&mut self, fields: &mut Fields) {
        if self.random.once_in(5) {
            let good = ["[]", "[\"a\"]", "[\"a\",\"b\",\"a\"]", "[ \"-\" ]"];
            fields.push((
                "children".to_string(),
                self.choose(&good, &["\"a\"", "[\"A\"]", "[\"\\u0041\"]", "[1]", "[\"\"]", "null"]),
            ));
        }
        if self.random.once_in(5) {
            let good = ["[]", "[\"org.example.x\"]", "[\"\\n\",\"\"]"];
            fields.push(("extensions".to_string(), self.choose(&good, &["{}", "[null]", "[\"a\",1]", "null"])));
        }
    }

    /// Root and parent: none, root alone, or both.
    fn add_relations(&mut self, fields: &mut Fields) {
        let kind = self.random.below(4);
        if kind < 2 && !self.fault(1) {
            return;
        }
        if !self.fault(1) {
            fields.push(("root".to_string(), self.relation()));
        }
        if kind == 3 {
            fields.push(("parent".to_string(), self.relation()));
        }
    }

    fn relation(&mut self) -> String {
        if self.fault(2) {
            return quoted(self.plan.own);
        }
        if self.fault(1) {
            return self.random.pick(&["null", "\"\"", "\"A\"", "\"\\u0041\"", "1"]).to_string();
        }
        let usual = &self.plan.others[..1];
        let other = self.random.mostly(3, usual, self.plan.others);
        if other == self.plan.own {
            "\"elsewhere\"".to_string()
        } else {
            quoted(&other)
        }
    }

    fn nodes(&mut self) -> String {
        let counts = self.property_counts();
        let mut fields = Fields::new();
        for (number, count) in counts.into_iter().enumerate() {
            let name = self.item_id(number);
            fields.push((name, self.node(count)));
        }
        if self.fault(1) {
            "[]".to_string()
        } else {
            self.object_by_id(fields)
        }
    }

    /// How many properties each node has.
    fn property_counts(&mut self) -> Vec<usize> {
        if self.fault(4) {
            let total = PROPERTY_LIMIT + self.random.below(2);
            let first = self.random.below(total + 1);
            return vec![first, total - first];
        }
        (0..self.random.between(1, 2)).map(|_| self.random.between(1, 4)).collect()
    }

    /// IDs that differ for different numbers, mostly.
    fn item_id(&mut self, number: usize) -> String {
        if self.fault(1) {
            return self.random.pick(&["", "A", "$a", "p0", "\\u0041", "a_b"]).to_string();
        }
        if self.random.once_in(12) {
            let mut long = id(self.random);
            long.truncate(28);
            return format!("{}{number}", String::from_utf8_lossy(&long));
        }
        format!("{}{number}", self.random.pick(&["p", "p-", "-"]))
    }

    fn node(&mut self, count: usize) -> String {
        let mut properties = Fields::new();
        for number in 0..count {
            let name = self.item_id(number);
            properties.push((name, self.property()));
        }
        let mut fields = Fields::new();
        if count > 0 || self.random.once_in(2) {
            fields.push(("properties".to_string(), self.object_by_id(properties)));
        }
        self.add_strings(&mut fields, &["name", "type"]);
        self.object(fields, 3)
    }

    fn property(&mut self) -> String {
        let datatype = datatype(self.random);
        let mut fields = vec![("datatype".to_string(), self.datatype_text(datatype))];
        let required = datatype.missing_format().is_none();
        if (required && !self.fault(1)) || self.random.once_in(2) {
            fields.push(("format".to_string(), self.format_text(datatype)));
        }
        for (name, usual) in [("settable", "true"), ("retained", "false")] {
            if self.random.once_in(2) {
                fields.push((
                    name.to_string(),
                    self.choose(&[usual, usual, "true", "false"], &["null", "\"true\"", "1"]),
                ));
            }
        }
        self.add_strings(&mut fields, &["unit", "name"]);
        self.object(fields, 5)
    }

    fn datatype_text(&mut self, datatype: Datatype) -> String {
        if self.fault(1) {
            return self
                .random
                .pick(&["null", "\"text\"", "\"Integer\"", "\"\"", "\"jso\\u004e\"", "\"number\""])
                .to_string();
        }
        quoted(datatype.word().as_bytes())
    }

    /// Formats that other rules refuse are left to the judge of formats.
    fn format_text(&mut self, datatype: Datatype) -> String {
        if self.fault(1) {
            return self.random.pick(&["null", "1", "\"a\\u002ca\"", "\"\\n\"", "[]"]).to_string();
        }
        if self.fault(2) {
            return quoted(&near_format(self.random, datatype));
        }
        loop {
            let format = format(self.random, datatype);
            if crate::payload::is_format(datatype, &format) {
                return quoted(&format);
            }
        }
    }

    /// An object whose names are IDs: no other fields come in.
    fn object_by_id(&mut self, mut fields: Fields) -> String {
        if self.fault(1) && !fields.is_empty() {
            fields.push(fields[0].clone());
        }
        self.write(fields)
    }

    /// A device, node or property object; the level is its own nesting.
    fn object(&mut self, mut fields: Fields, level: usize) -> String {
        if self.fault(1) && !fields.is_empty() {
            fields.remove(0);
        }
        if self.fault(1) && !fields.is_empty() {
            fields.push(fields[fields.len() - 1].clone());
        }
        if self.random.once_in(6) {
            fields.push(self.unknown_field(level));
        }
        self.write(fields)
    }

    fn unknown_field(&mut self, level: usize) -> (String, String) {
        let name = self.choose(&["x", "", "Name", "$y", "é", "propertie"], &["\\udc00", "nam\\u0065", "\\"]);
        if self.fault(6) {
            let levels = NESTING - level + self.random.below(2);
            return (name, "[".repeat(levels) + &"]".repeat(levels));
        }
        (name, json_value(self.random, 2))
    }

    fn write(&mut self, mut fields: Fields) -> String {
        self.random.shuffle(&mut fields);
        let members: Vec<String> = fields.iter().map(|(name, value)| self.member(name, value)).collect();
        format!("{}{{{}}}{}", self.space(), members.join(","), self.space())
    }

    fn member(&mut self, name: &str, value: &str) -> String {
        format!("{}\"{name}\"{}:{}{value}{}", self.space(), self.space(), self.space(), self.space())
    }

    fn space(&mut self) -> &'static str {
        self.random.mostly(30, &[""], &[" ", "\n", "\t", "\r", " \n "])
    }
}
