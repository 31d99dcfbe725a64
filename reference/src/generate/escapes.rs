//! Strings spelled with escapes, and halves of surrogate pairs.

use super::descriptions::{description, Plan};
use crate::description::DESCRIPTION_LIMIT;
use crate::random::Random;

/// A JSON text that says the same, some of its strings spelled with escapes.
/// What would be too long, or is no UTF-8, stays as it is.
pub fn respelled(random: &mut Random, text: Vec<u8>) -> Vec<u8> {
    let spelled = std::str::from_utf8(&text).map(|text| respell(random, text)).unwrap_or_default();
    if spelled.is_empty() || spelled.len() > DESCRIPTION_LIMIT {
        return text;
    }
    spelled.into_bytes()
}

fn respell(random: &mut Random, text: &str) -> String {
    let mut spelled = String::new();
    let mut characters = text.chars();
    // In a string: once in how many times a character is spelled so; 0 for never.
    let mut inside: Option<usize> = None;
    while let Some(character) = characters.next() {
        match (inside, character) {
            (None, '"') => inside = Some(random.pick(&[0, 0, 1, 2, 6])),
            (Some(_), '"') => inside = None,
            (Some(_), '\\') => {
                // An escape that stands there stays.
                spelled.push('\\');
                let letter = characters.next();
                spelled.extend(letter);
                spelled.extend(characters.by_ref().take(if letter == Some('u') { 4 } else { 0 }));
                continue;
            }
            (Some(times), _) if times > 0 && random.once_in(times) => {
                spelled += &escape(random, character);
                continue;
            }
            _ => {}
        }
        spelled.push(character);
    }
    spelled
}

/// One of the escapes for a character.
fn escape(random: &mut Random, character: char) -> String {
    const SHORT: [(char, char); 8] =
        [('"', '"'), ('\\', '\\'), ('/', '/'), ('\u{8}', 'b'), ('\u{c}', 'f'), ('\n', 'n'), ('\r', 'r'), ('\t', 't')];
    let short = SHORT.iter().find(|(meant, _)| *meant == character);
    if let Some((_, letter)) = short.filter(|_| random.once_in(2)) {
        return format!("\\{letter}");
    }
    character.encode_utf16(&mut [0; 2]).iter().map(|code| unit(random, *code)).collect()
}

/// `\u` and four digits, letters in both cases.
fn unit(random: &mut Random, code: u16) -> String {
    let digits = format!("{code:04x}");
    let digit = |digit: char| if random.once_in(2) { digit.to_ascii_uppercase() } else { digit };
    format!("\\u{}", digits.chars().map(digit).collect::<String>())
}

fn some_unit(random: &mut Random, codes: &[u16]) -> String {
    let code = random.pick(codes);
    unit(random, code)
}

/// Half a surrogate pair, of every kind; now and then what only looks like one.
pub fn half(random: &mut Random) -> String {
    const BETWEEN: [&str; 7] = ["x", "é", "\\\\", "\\/", "\\n", "\\u0061", "\\ue000"];
    let [high, other_high] = [0; 2].map(|_| some_unit(random, &[0xd800, 0xd83d, 0xdbff]));
    let [low, other_low] = [0; 2].map(|_| some_unit(random, &[0xdc00, 0xde00, 0xdfff]));
    match random.below(12) {
        0 | 1 => high,
        2 | 3 => low,
        4 => low + &high,
        5 => high + &other_high,
        6 => high + &other_high + &low,
        7 => high + &low + &other_low,
        8 | 9 => high + random.pick(&BETWEEN) + &low,
        10 => high + &low,
        _ => format!("\\{high}"),
    }
}

/// A few bytes of an ID or a format around half a pair.
pub fn string_with_half(random: &mut Random) -> Vec<u8> {
    let around = ["", "", "a", "5.0", "lamp", "1:2", "a,b", "\\u0061", "\\\\"];
    let (before, after) = (random.pick(&around), random.pick(&around));
    (before.to_string() + &half(random) + after).into_bytes()
}

/// Half a pair comes into a string of the text, names too. Answers where that
/// string begins.
pub fn put_half(random: &mut Random, text: &mut Vec<u8>) -> Option<usize> {
    let strings = places_in_strings(text);
    if strings.is_empty() {
        return None;
    }
    let places = random.pick(&strings);
    let place = random.pick(&places);
    text.splice(place..place, half(random).into_bytes()).for_each(drop);
    Some(places[0] - 1)
}

/// Of each string the places between what it is made of.
fn places_in_strings(text: &[u8]) -> Vec<Vec<usize>> {
    let mut strings: Vec<Vec<usize>> = Vec::new();
    let (mut inside, mut at) = (false, 0);
    while at < text.len() {
        if inside && (text[at] < 0x80 || text[at] >= 0xc0) {
            strings.last_mut().expect("a string has begun").push(at);
        }
        match text[at] {
            b'"' if inside => inside = false,
            b'"' => {
                inside = true;
                strings.push(Vec::new());
            }
            b'\\' if text.get(at + 1) == Some(&b'u') => at += 5,
            b'\\' => at += 1,
            _ => {}
        }
        at += 1;
    }
    strings.retain(|places| !places.is_empty());
    strings
}

/// A text, and a place where a string may be asked for: mostly a description
/// and one of its quotes.
pub fn text_and_place(random: &mut Random) -> (Vec<u8>, usize) {
    let mut text = match random.below(8) {
        0..=3 => {
            let others = [b"hub".to_vec()];
            let good = description(random, &Plan { own: b"lamp", others: &others, fault: 400 });
            respelled(random, good)
        }
        _ => loose_text(random),
    };
    let with_half = if random.once_in(3) { put_half(random, &mut text) } else { None };
    if random.once_in(10) {
        lengthen(random, &mut text);
    }
    let quotes: Vec<usize> = (0..text.len()).filter(|&place| text[place] == b'"').collect();
    let anywhere = random.below(text.len() + 2);
    let far = random.pick(&[text.len(), 8191, 8192, 8193, 65_536, 1 << 24, 1 << 32, usize::MAX]);
    let place = match random.below(10) {
        0 => anywhere,
        1 => far,
        2..=6 if with_half.is_some() => with_half.unwrap_or(anywhere),
        _ if quotes.is_empty() => anywhere,
        _ => random.pick(&quotes),
    };
    (text, place)
}

/// Quotes, backslashes and whatever may stand between them.
fn loose_text(random: &mut Random) -> Vec<u8> {
    const PARTS: [&[u8]; 24] = [
        b"\"",
        b"\"",
        b"\"",
        b"\\",
        b"\\\\",
        b"\\\"",
        b"\\/",
        b"\\b",
        b"\\n",
        b"\\x",
        b"\\u0000",
        b"\\u00e9",
        b"\\u00E9",
        b"\\u12",
        b"\\u00g0",
        b"\\ud83d\\ude00",
        b"a",
        b"/",
        b"\xc3\xa9",
        b"\xff",
        b"\x1f",
        b"\n",
        b"\x7f",
        b"{",
    ];
    (0..random.below(16)).flat_map(|_| random.pick(&PARTS).to_vec()).collect()
}

/// Up to about the limit, by what stands in a string or outside.
fn lengthen(random: &mut Random, text: &mut Vec<u8>) {
    let missing = (DESCRIPTION_LIMIT - 2 + random.below(5)).saturating_sub(text.len());
    let place = random.below(text.len() + 1);
    let filler = random.pick(b" a\"");
    text.splice(place..place, vec![filler; missing]).for_each(drop);
}

#[cfg(test)]
mod tests {
    use super::*;
    use crate::description;
    use crate::generate::faulty::faulty_description;
    use crate::json::{self, string_at, Object, Value};
    use crate::refusal::number_of;
    use std::collections::BTreeMap;

    #[test]
    fn a_text_respelled_says_the_same() {
        let (mut random, mut respellings) = (Random::new(3), 0);
        for _ in 0..300 {
            let others = [b"hub".to_vec()];
            let text = description(&mut random, &Plan { own: b"lamp", others: &others, fault: 400 });
            let other = respelled(&mut random, text.clone());
            if let Ok(expected) = description::read(b"lamp", &text) {
                assert_eq!(description::read(b"lamp", &other), Ok(expected), "{}", String::from_utf8_lossy(&other));
                respellings += usize::from(other != text);
            }
        }
        assert!(respellings > 200, "{respellings}");
    }

    /// Whether the string at a place is spelled with an escape.
    fn is_escaped(text: &[u8], place: usize) -> bool {
        text[place + 1..].iter().find(|byte| matches!(byte, b'"' | b'\\')) == Some(&b'\\')
    }

    /// Where the decoded strings of a valid description stand, and what they are.
    fn decoded_strings(text: &[u8]) -> Vec<(&'static str, usize)> {
        let document = json::read(text).unwrap();
        let device = document.object().unwrap();
        let mut strings = Vec::new();
        strings.extend(device.members.iter().map(|member| ("name", member.place)));
        for field in ["homie", "root", "parent"] {
            strings.extend(device.value(field.as_bytes()).map(|value| (field, value.place)));
        }
        let children = device.value(b"children").and_then(Value::array).unwrap_or(&[]);
        strings.extend(children.iter().map(|child| ("child", child.place)));
        let entries = |object: &Object, name: &[u8]| {
            object.value(name).and_then(Value::object).map_or(Vec::new(), |list| list.members.clone())
        };
        for node in entries(device, b"nodes") {
            strings.push(("node", node.place));
            for property in entries(node.value.object().unwrap(), b"properties") {
                let fields = property.value.object().unwrap();
                let format = fields.value(b"format").map(|format| ("format", format.place));
                strings.extend(
                    format
                        .into_iter()
                        .chain([("property", property.place), ("datatype", fields.value(b"datatype").unwrap().place)]),
                );
                strings.extend(fields.members.iter().map(|member| ("name of a property's field", member.place)));
            }
        }
        strings
    }

    /// Every decoded string is spelled with escapes in valid descriptions, and
    /// in ones that are refused for what it says.
    #[test]
    fn every_decoded_string_is_escaped() {
        let mut random = Random::new(3);
        let mut seen: BTreeMap<&str, usize> = BTreeMap::new();
        let mut count = |what| *seen.entry(what).or_default() += 1;
        for _ in 0..4000 {
            let others = [b"hub".to_vec()];
            let text = faulty_description(&mut random, &Plan { own: b"lamp", others: &others, fault: 60 });
            let answer = description::read(b"lamp", &text);
            let place = answer.as_ref().err().and_then(|fault| fault.place);
            let escaped = place.filter(|&place| text.get(place) == Some(&b'"') && is_escaped(&text, place));
            match (number_of(&answer), escaped) {
                (0, _) => {
                    for (what, place) in decoded_strings(&text) {
                        if is_escaped(&text, place) {
                            count(what);
                            if string_at(&text, place).is_ok_and(|said| said.len() == 32) {
                                count("32 bytes");
                            }
                        }
                    }
                }
                (24, Some(_)) => count("repeat"),
                (25, Some(place)) if string_at(&text, place).is_ok_and(|said| said.len() == 33) => count("33 bytes"),
                (25, Some(_)) => count("another rule"),
                _ => {}
            }
        }
        assert_eq!(seen.len(), 14, "{seen:?}");
        assert!(seen.values().all(|&times| times >= 10), "{seen:?}");
    }

    #[test]
    fn halves_come_into_strings() {
        let mut random = Random::new(3);
        for _ in 0..300 {
            let mut text = r#"{"é":"\u00e9","b":["\\",""]}"#.as_bytes().to_vec();
            let place = put_half(&mut random, &mut text).unwrap();
            assert!(json::read(&text).is_some(), "{}", String::from_utf8_lossy(&text));
            assert_ne!(number_of(&string_at(&text, place)), 22);
        }
    }

    #[test]
    fn strings_are_asked_with_every_answer() {
        let mut random = Random::new(3);
        let mut answers: BTreeMap<u8, usize> = BTreeMap::new();
        for _ in 0..3000 {
            let (text, place) = text_and_place(&mut random);
            *answers.entry(number_of(&string_at(&text, place))).or_default() += 1;
        }
        assert_eq!(answers.keys().copied().collect::<Vec<u8>>(), [0, 21, 22, 25]);
        assert!(answers.values().all(|&times| times > 50), "{answers:?}");
    }
}
