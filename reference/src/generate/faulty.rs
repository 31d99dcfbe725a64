//! Descriptions with faults near every rule: a small good one, a few faults
//! put into it, and now and then damage to its text.

use super::descriptions::Plan;
use super::edits::edit;
use super::escapes::{put_half, respelled, string_with_half};
use super::payloads::{datatype, format, near_format};
use super::texts::{broken_utf8, id, near_id};
use crate::description::{DESCRIPTION_LIMIT, PROPERTY_LIMIT};
use crate::json::NESTING;
use crate::payload::{is_format, Datatype};
use crate::random::Random;
use crate::text::ID_LIMIT;

/// A JSON value that is still to be written.
#[derive(Clone)]
enum Tree {
    /// Anything, as it is to be written.
    Raw(Vec<u8>),
    Array(Vec<Tree>),
    Object(Members),
}

type Members = Vec<(Vec<u8>, Tree)>;

/// The description of a device, mostly with one fault or several.
pub fn faulty_description(random: &mut Random, plan: &Plan) -> Vec<u8> {
    let mut tree = device(random, plan);
    for _ in 0..random.pick(&[0, 1, 1, 1, 2, 2, 3]) {
        put_fault(random, plan, &mut tree);
    }
    let mut text = Vec::new();
    write(random, &tree, &mut text);
    if random.once_in(3) {
        text = respelled(random, text);
    }
    if random.once_in(10) {
        put_half(random, &mut text);
    }
    if random.once_in(5) {
        damage(random, &mut text);
    }
    text
}

// A good description

fn raw(text: &str) -> Tree {
    Tree::Raw(text.as_bytes().to_vec())
}

fn quoted(text: &[u8]) -> Tree {
    Tree::Raw([b"\"", text, b"\""].concat())
}

fn name(text: &str) -> Vec<u8> {
    text.as_bytes().to_vec()
}

fn device(random: &mut Random, plan: &Plan) -> Tree {
    let mut members = vec![(name("homie"), raw("\"5.0\"")), (name("version"), raw("-12"))];
    if random.once_in(3) {
        let root = random.pick(plan.others);
        let root = if root == plan.own { b"elsewhere".to_vec() } else { root };
        members.push((name("root"), quoted(&root)));
        if random.once_in(2) {
            members.push((name("parent"), quoted(&root)));
        }
    }
    for field in ["children", "extensions"] {
        if random.once_in(4) {
            let items = (0..random.below(4)).map(|_| quoted(&id(random)));
            members.push((name(field), Tree::Array(items.collect())));
        }
    }
    some_strings(random, &["name", "type"], &mut members);
    if random.below(8) > 0 {
        let nodes = (0..random.between(1, 2)).map(|number| (item_id(random, ["n", "m-"][number]), node(random)));
        members.push((name("nodes"), Tree::Object(nodes.collect())));
    }
    in_any_order(random, members)
}

fn node(random: &mut Random) -> Tree {
    let count = random.pick(&[0, 1, 1, 2, 3]);
    let mut members = Vec::new();
    if count > 0 || random.once_in(2) {
        let properties = (0..count).map(|number| (item_id(random, &format!("p{number}")), property(random)));
        members.push((name("properties"), Tree::Object(properties.collect())));
    }
    some_strings(random, &["name", "type"], &mut members);
    in_any_order(random, members)
}

/// An ID, now and then of the greatest length, and now and then past it.
fn item_id(random: &mut Random, short: &str) -> Vec<u8> {
    let length = random.mostly(8, &[0], &[ID_LIMIT, ID_LIMIT, ID_LIMIT, ID_LIMIT + 1]);
    format!("{short:-<length$}").into_bytes()
}

fn property(random: &mut Random) -> Tree {
    let datatype = if random.once_in(3) { random.pick(&[Datatype::Enum, Datatype::Color]) } else { datatype(random) };
    let mut members = vec![(name("datatype"), quoted(datatype.word().as_bytes()))];
    if datatype.missing_format().is_none() || random.once_in(3) {
        members.push((name("format"), quoted(&good_format(random, datatype))));
    }
    for flag in ["settable", "retained"] {
        if random.once_in(4) {
            members.push((name(flag), raw(random.pick(&["true", "false"]))));
        }
    }
    some_strings(random, &["unit", "name"], &mut members);
    in_any_order(random, members)
}

fn good_format(random: &mut Random, datatype: Datatype) -> Vec<u8> {
    loop {
        let format = format(random, datatype);
        if is_format(datatype, &format) {
            return format;
        }
    }
}

fn some_strings(random: &mut Random, fields: &[&str], members: &mut Members) {
    for field in fields {
        if random.once_in(5) {
            members.push((name(field), raw(random.pick(&["\"\"", "\"é\"", "\"\\u00b0\"", "\"\\\\\""]))));
        }
    }
}

fn in_any_order(random: &mut Random, mut members: Members) -> Tree {
    if random.once_in(2) {
        random.shuffle(&mut members);
    }
    Tree::Object(members)
}

// Faults

fn put_fault(random: &mut Random, plan: &Plan, tree: &mut Tree) {
    match random.below(22) {
        0..=3 => change_kind(random, tree),
        4..=6 => repeat(random, tree),
        7..=9 => leave_out(random, tree),
        10..=14 => change_value(random, plan, tree),
        15 | 16 => change_name(random, tree),
        17 => add_unknown(random, tree),
        18 => add_relation(random, plan, tree),
        19 | 20 => add_properties(random, tree),
        _ => nest(random, tree),
    }
}

/// Every value below this one, and itself; the path of each is its numbers
/// from the outside.
fn paths(tree: &Tree) -> Vec<Vec<usize>> {
    let inner: Vec<&Tree> = match tree {
        Tree::Raw(_) => vec![],
        Tree::Array(items) => items.iter().collect(),
        Tree::Object(members) => members.iter().map(|(_, value)| value).collect(),
    };
    let mut all = vec![Vec::new()];
    for (number, value) in inner.into_iter().enumerate() {
        all.extend(paths(value).into_iter().map(|path| [vec![number], path].concat()));
    }
    all
}

fn at<'a>(tree: &'a mut Tree, path: &[usize]) -> &'a mut Tree {
    let Some((number, rest)) = path.split_first() else {
        return tree;
    };
    match tree {
        Tree::Array(items) => at(&mut items[*number], rest),
        Tree::Object(members) => at(&mut members[*number].1, rest),
        Tree::Raw(_) => tree,
    }
}

/// The paths of such values.
fn paths_to(tree: &mut Tree, such: impl Fn(&mut Tree) -> bool) -> Vec<Vec<usize>> {
    paths(tree).into_iter().filter(|path| such(at(tree, path))).collect()
}

/// Any value, now and then the outermost one.
fn some_value<'a>(random: &mut Random, tree: &'a mut Tree) -> &'a mut Tree {
    let paths = paths(tree);
    if paths.len() == 1 || random.once_in(12) {
        return tree;
    }
    at(tree, &random.pick(&paths[1..]))
}

/// The members of some object that has any.
fn some_members<'a>(random: &mut Random, tree: &'a mut Tree) -> Option<&'a mut Members> {
    let paths = paths_to(tree, |value| matches!(value, Tree::Object(members) if !members.is_empty()));
    if paths.is_empty() {
        return None;
    }
    match at(tree, &random.pick(&paths)) {
        Tree::Object(members) => Some(members),
        _ => None,
    }
}

/// Values of every kind; nothing is asked of what stands inside.
fn of_some_kind(random: &mut Random) -> Tree {
    const VALUES: [&str; 16] = [
        "null",
        "true",
        "false",
        "0",
        "-1",
        "1.5",
        "\"\"",
        "\"a\"",
        "\"A\"",
        "\"\\u0061\"",
        "[]",
        "{}",
        "[null]",
        "[\"a\"]",
        "{\"\\u0041\":1}",
        "{\"a\":1,\"a\":2}",
    ];
    raw(random.pick(&VALUES))
}

fn change_kind(random: &mut Random, tree: &mut Tree) {
    *some_value(random, tree) = of_some_kind(random);
}

/// A member once more, before or behind the first, with its value or another.
fn repeat(random: &mut Random, tree: &mut Tree) {
    let Some(members) = some_members(random, tree) else {
        return;
    };
    let (name, mut value) = random.pick(members);
    if random.once_in(2) {
        value = of_some_kind(random);
    }
    members.insert(random.below(members.len() + 1), (name, value));
}

fn leave_out(random: &mut Random, tree: &mut Tree) {
    if let Some(members) = some_members(random, tree) {
        let required =
            |(name, _): &(Vec<u8>, Tree)| [&b"homie"[..], b"version", b"datatype", b"format"].contains(&&name[..]);
        let found = members.iter().position(required).filter(|_| !random.once_in(3));
        members.remove(found.unwrap_or(random.below(members.len())));
    }
}

/// The fields with rules beside their kind; of formats, many are not kept.
const RULED: [&str; 9] = ["homie", "version", "root", "parent", "children", "datatype", "format", "format", "format"];

/// Another value for such a field, mostly a bad one of the right kind.
fn change_value(random: &mut Random, plan: &Plan, tree: &mut Tree) {
    let field = random.pick(&RULED);
    let value = new_value(random, plan, field);
    let paths = paths_to(tree, |value| member(value, field).is_some());
    if !paths.is_empty() {
        let object = at(tree, &random.pick(&paths));
        member(object, field).into_iter().for_each(|place| *place = value.clone());
    } else if let Tree::Object(members) = tree {
        members.push((name(field), value));
    }
}

/// The first member of that name, if the value is an object with one.
fn member<'a>(tree: &'a mut Tree, field: &str) -> Option<&'a mut Tree> {
    match tree {
        Tree::Object(members) => members.iter_mut().find(|(name, _)| name == field.as_bytes()).map(|(_, value)| value),
        _ => None,
    }
}

fn new_value(random: &mut Random, plan: &Plan, field: &str) -> Tree {
    const HOMIE: [&str; 7] = ["5", "5.", "5.00", "5.1000", "4.0", "5.\\u0030\\u0030", ""];
    const VERSION: [&str; 7] = ["1.0", "-1e2", "1E5", "9223372036854775808", "-9223372036854775809", "-0", "-0.0"];
    const DATATYPE: [&str; 7] = ["text", "Json", "", "enu\\u006d", "enum", "color", "integer"];
    const FORMAT: [&str; 6] = ["a\\u002cb", "\\n", ",", "", "1:2", "rgb"];
    match field {
        "homie" | "root" | "parent" | "datatype" | "format" if random.once_in(4) => quoted(&string_with_half(random)),
        "homie" => quoted(random.pick(&HOMIE).as_bytes()),
        "version" => raw(random.pick(&VERSION)),
        "datatype" => quoted(random.pick(&DATATYPE).as_bytes()),
        "format" if random.once_in(2) => quoted(random.pick(&FORMAT).as_bytes()),
        "format" => {
            let datatype = datatype(random);
            quoted(&near_format(random, datatype))
        }
        "children" => {
            let item = |random: &mut Random| if random.once_in(5) { of_some_kind(random) } else { child(random, plan) };
            Tree::Array((0..random.between(1, 3)).map(|_| item(random)).collect())
        }
        _ => relation(random, plan),
    }
}

/// Of the greatest length, or one byte past it.
fn long_id(random: &mut Random) -> Vec<u8> {
    (0..ID_LIMIT + random.below(2)).map(|_| random.pick(b"az09-")).collect()
}

fn child(random: &mut Random, plan: &Plan) -> Tree {
    match random.below(6) {
        0 => quoted(plan.own),
        1 => raw(random.pick(&["\"\"", "\"A\"", "\"\\u0041\"", "\"\\u0061\""])),
        2 => quoted(&string_with_half(random)),
        3 => quoted(&long_id(random)),
        _ => quoted(&near_id(random)),
    }
}

fn relation(random: &mut Random, plan: &Plan) -> Tree {
    match random.below(6) {
        0 | 1 => quoted(plan.own),
        2 => quoted(&near_id(random)),
        4 => quoted(&long_id(random)),
        3 => raw("\"\\u0061\""),
        _ => quoted(b"elsewhere"),
    }
}

const NAMES: [&str; 12] =
    ["", "A", "p0", "n", "a_b", "\\u0061", "\\\\", "nam\\u0065", "ro\\u006Ft", "name", "datatype", "properties"];

fn change_name(random: &mut Random, tree: &mut Tree) {
    if let Some(members) = some_members(random, tree) {
        let chosen = random.below(members.len());
        members[chosen].0 = match random.below(8) {
            0 | 1 => near_id(random),
            2 => long_id(random),
            3 => string_with_half(random),
            _ => name(random.pick(&NAMES)),
        };
    }
}

fn add_unknown(random: &mut Random, tree: &mut Tree) {
    if let Some(members) = some_members(random, tree) {
        let place = random.below(members.len() + 1);
        members.insert(place, (name(random.pick(&["x", "", "é", "Name", "\\u0078", "\\/"])), of_some_kind(random)));
    }
}

/// A parent or a root; the other one may be missing.
fn add_relation(random: &mut Random, plan: &Plan, tree: &mut Tree) {
    if let Tree::Object(members) = tree {
        members.retain(|(name, _)| name != b"root" || random.once_in(3));
        for field in random.pick(&[&["parent"][..], &["parent"], &["parent", "root"], &["root", "parent"]]) {
            let place = random.below(members.len() + 1);
            members.insert(place, (name(field), relation(random, plan)));
        }
    }
}

/// So many properties that the limit is reached or just passed.
fn add_properties(random: &mut Random, tree: &mut Tree) {
    let Tree::Object(members) = tree else {
        return;
    };
    let count = PROPERTY_LIMIT - 1 + random.below(4);
    let first = random.below(count + 1);
    let nodes = [("n", 0..first), ("m", first..count)].map(|(node, numbers)| {
        let properties = numbers.map(|number| (format!("q{number}").into_bytes(), short_property(random, number)));
        (name(node), Tree::Object(vec![(name("properties"), Tree::Object(properties.collect()))]))
    });
    members.retain(|(name, _)| name != b"nodes");
    members.insert(random.below(members.len() + 1), (name("nodes"), Tree::Object(nodes.to_vec())));
}

/// Good up to near the limit, so that a fault in its value comes late.
fn short_property(random: &mut Random, number: usize) -> Tree {
    if number + 3 > PROPERTY_LIMIT && random.once_in(3) {
        return of_some_kind(random);
    }
    Tree::Object(vec![(name("datatype"), raw("\"json\""))])
}

/// Brackets up to the last level that is allowed, or past it, in an unknown
/// field or in the place of any value; now and then they stay open.
fn nest(random: &mut Random, tree: &mut Tree) {
    let paths = paths(tree);
    let path = random.pick(&paths);
    let levels = NESTING - 1 - path.len() + random.below(3);
    let objects = random.once_in(3);
    let (open, close) = if objects { ("{\"a\":", "}") } else { ("[", "]") };
    let closed = if random.once_in(6) { levels - 1 } else { levels };
    let text = open.repeat(levels) + if objects { "1" } else { "" } + &close.repeat(closed);
    match at(tree, &path) {
        Tree::Object(members) if !random.once_in(4) => members.push((name("x"), raw(&text))),
        value => *value = raw(&text),
    }
}

// Texts

fn write(random: &mut Random, tree: &Tree, text: &mut Vec<u8>) {
    space(random, text);
    match tree {
        Tree::Raw(raw) => text.extend(raw),
        Tree::Array(items) => write_list(random, text, b"[]", items, write),
        Tree::Object(members) => write_list(random, text, b"{}", members, write_member),
    }
    space(random, text);
}

fn write_member(random: &mut Random, (name, value): &(Vec<u8>, Tree), text: &mut Vec<u8>) {
    space(random, text);
    text.extend([b"\"", &name[..], b"\""].concat());
    space(random, text);
    text.push(b':');
    write(random, value, text);
}

fn write_list<T>(
    random: &mut Random,
    text: &mut Vec<u8>,
    brackets: &[u8; 2],
    items: &[T],
    write: impl Fn(&mut Random, &T, &mut Vec<u8>),
) {
    text.push(brackets[0]);
    for (number, item) in items.iter().enumerate() {
        if number > 0 {
            text.push(b',');
        }
        write(random, item, text);
    }
    text.push(brackets[1]);
}

fn space(random: &mut Random, text: &mut Vec<u8>) {
    text.extend(random.mostly(25, &[""], &[" ", "\n", "\t", "\r", " \n "]).bytes());
}

/// The text itself becomes bad: cut, spoilt, no UTF-8, too long.
fn damage(random: &mut Random, text: &mut Vec<u8>) {
    match random.below(21) {
        0..=4 => text.truncate(random.below(text.len() + 1)),
        5..=9 => *text = edit(random, text),
        10..=12 => {
            let bytes = broken_utf8(random);
            insert(random, text, b"\"", &bytes);
        }
        13 => insert(random, text, b"\"", "é".as_bytes()),
        14..=16 => {
            let bad = random.pick(&["\\x", "\\u12", "\\u00g0", "\\", "\u{1f}", "\\ud800"]);
            insert(random, text, b"\"", bad.as_bytes());
        }
        17 => {
            let bad = random.pick(&["nul", "tru e", "01", "-", "1.", "1e+", ".5", "+1", "'a'", ",", "}", "]"]);
            insert(random, text, b":[,", bad.as_bytes());
        }
        18 => text.splice(0..0, *b"\xef\xbb\xbf").for_each(drop),
        _ => lengthen(random, text),
    }
}

/// Bytes behind one of these bytes.
fn insert(random: &mut Random, text: &mut Vec<u8>, behind: &[u8], bytes: &[u8]) {
    let places: Vec<usize> = (0..text.len()).filter(|&place| behind.contains(&text[place])).collect();
    if !places.is_empty() {
        let place = random.pick(&places) + 1;
        text.splice(place..place, bytes.iter().copied()).for_each(drop);
    }
}

/// White space before or behind, up to about the limit of the length; what
/// stands at the end may be cut or follow the limit.
fn lengthen(random: &mut Random, text: &mut Vec<u8>) {
    let length = DESCRIPTION_LIMIT - 2 + random.below(5);
    let missing = length.saturating_sub(text.len());
    let anywhere = random.below(text.len() + 1);
    let place = random.pick(&[0, 0, text.len(), anywhere]);
    text.splice(place..place, vec![b' '; missing]).for_each(drop);
    match random.below(4) {
        0 => text.truncate(text.len().saturating_sub(1 + random.below(2))),
        1 => text.extend(random.pick(&[&b"x"[..], b"}", b"\xff", b"[", b" ]"])),
        _ => {}
    }
}

#[cfg(test)]
mod tests {
    use super::*;
    use crate::faults::{first, rules};
    use std::collections::BTreeMap;

    fn texts(count: usize) -> Vec<Vec<u8>> {
        let mut random = Random::new(5);
        let others = [b"hub".to_vec()];
        let plan = Plan { own: b"lamp", others: &others, fault: 60 };
        (0..count).map(|_| faulty_description(&mut random, &plan)).collect()
    }

    /// How often each rule is the one whose breach is told.
    #[test]
    fn every_rule_is_the_first_to_be_broken() {
        let mut told: BTreeMap<&str, usize> = BTreeMap::new();
        for text in texts(9000) {
            let fault = first(b"lamp", &text);
            for rule in rules(b"lamp", &text) {
                let tells = |fault: crate::refusal::Refusal| {
                    fault.number == rule.refusal.number && fault.place.is_some_and(|place| rule.places.contains(&place))
                };
                *told.entry(rule.name).or_default() += usize::from(fault.is_some_and(tells));
            }
        }
        assert_eq!(told.len(), 31);
        assert!(told.values().all(|&times| times >= 20), "{told:?}");
    }

    /// Every number is told before every other, and before itself.
    #[test]
    fn faults_come_in_every_order() {
        let mut pairs: BTreeMap<(u8, u8), usize> = BTreeMap::new();
        for text in texts(9000) {
            let faults = crate::faults::faults(b"lamp", &text);
            if let Some(told) = first(b"lamp", &text) {
                for later in faults.iter().filter(|fault| fault.place > told.place) {
                    *pairs.entry((told.number, later.number)).or_default() += 1;
                }
            }
        }
        let among = 22..=25;
        assert_eq!(pairs.keys().filter(|(a, b)| among.contains(a) && among.contains(b)).count(), 16, "{pairs:?}");
    }
}
