//! This crate says what `include/homie5.h` says.

use homie5::payload::{Datatype, Kept};
use homie5::sys::{homie5_number, homie5_place, homie5_size, HOMIE5_STACK, HOMIE5_VALUES, HOMIE5_VERSION};
use homie5::table::{Lane, State};
use homie5::topic::Flag;
use homie5::Refusal;

const HEADER: &str = include_str!("../../../include/homie5.h");
const CALLS: &str = include_str!("../src/sys.rs");
const TOPICS: &str = include_str!("../src/topic.rs");

/// The header less its comments and the functions that it defines itself.
fn declarations(header: &str) -> String {
    let mut inside = false;
    let mut outside = |line: &&str| {
        inside |= line.starts_with("static inline ");
        let keep = !inside && !line.starts_with(" *");
        inside &= *line != "}";
        keep
    };
    header.lines().filter(|line| outside(line)).map(|line| line.to_string() + "\n").collect()
}

/// The calls of a header: name, what it returns, arguments, with Rust's types.
fn calls_of_header(header: &str) -> Vec<String> {
    let text = declarations(header);
    let declared = text.split(";\n").filter_map(|text| text.strip_suffix(')')?.rsplit_once('('));
    let heads = declared.filter_map(|(text, list)| Some((text.lines().last()?, list)));
    let bare = heads.map(|(head, list)| (head.strip_prefix("HOMIE5_API ").unwrap_or(head), list));
    bare.map(|(head, list)| format!("{}({})", of_c(head), arguments(list, of_c))).collect()
}

/// The same of the calls declared here.
fn calls_declared() -> Vec<String> {
    let declared = CALLS.split("pub fn ").skip(1).filter_map(|text| text.split_once(';')?.0.split_once(") -> "));
    let parts = declared.filter_map(|(call, returned)| Some((call.split_once('(')?, returned)));
    parts.map(|((name, list), returned)| format!("{name}: {returned}({})", arguments(list, str::to_string))).collect()
}

fn arguments(list: &str, argument: fn(&str) -> String) -> String {
    let each = list.split(',').map(str::trim).filter(|one| !one.is_empty());
    each.map(argument).collect::<Vec<_>>().join(", ")
}

/// A name with its type, in C, as in Rust.
fn of_c(declared: &str) -> String {
    let kinds = [
        ("const uint8_t *", "*const u8"),
        ("uint8_t *", "*mut u8"),
        ("uint64_t *", "*mut u64"),
        ("uint8_t ", "u8"),
        ("uint32_t ", "u32"),
        ("uint64_t ", "u64"),
        ("size_t ", "usize"),
    ];
    let found = kinds.iter().find_map(|(c, rust)| Some((declared.strip_prefix(c)?, rust)));
    let (name, kind) = found.unwrap_or_else(|| panic!("another type: {declared}"));
    format!("{name}: {kind}")
}

#[test]
fn calls_are_declared_alike() {
    let ours = calls_declared();
    assert_eq!(calls_of_header(HEADER), ours);
    assert_eq!(ours.len(), CALLS.matches("pub fn homie5_").count());
}

#[test]
fn comments_prefixes_and_functions_of_the_header_are_passed_over() {
    let header =
        "#define HOMIE5_API\n/*\n * A call:\n *   homie5_i(j);\n */\nHOMIE5_API uint32_t homie5_a(const uint8_t *b,\n  size_t b_len);\n\n\
        static inline const char *homie5_c(uint8_t d)\n{\n    if (d) {\n        e(d);\n    }\n    return f(d);\n}\n\
        uint32_t homie5_g(uint8_t *h);\n";
    assert_eq!(calls_of_header(header), ["homie5_a: u32(b: *const u8, b_len: usize)", "homie5_g: u32(h: *mut u8)"]);
}

#[test]
fn sizes_are_those_of_the_header() {
    let (room, sum) = (homie5_size(0, 0), "((size_t)(devices) + (size_t)(depth) + 1)");
    assert!(HEADER.contains(&format!("\n#define HOMIE5_VALUES {HOMIE5_VALUES}\n")));
    assert!(HEADER.contains(&format!("\n#define HOMIE5_STACK {HOMIE5_STACK}\n")));
    assert!(HEADER.contains(&format!("\n#define HOMIE5_SIZE(devices, depth) ((size_t){room} * {sum})\n")));
    assert_eq!(homie5_size(64, 3), room * (64 + 3 + 1));
}

#[test]
fn what_is_returned_is_taken_apart_as_in_the_header() {
    assert!(HEADER.contains("\n#define HOMIE5_NUMBER(returned) ((unsigned)((uint32_t)(returned) & 255u))\n"));
    assert!(HEADER.contains("\n#define HOMIE5_PLACE(returned) ((size_t)((uint32_t)(returned) >> 8))\n"));
    for (returned, number, place) in
        [(0, 0, 0), (18, 18, 0), ((8192 << 8) + 21, 21, 8192), (u32::MAX, 255, (1 << 24) - 1)]
    {
        assert_eq!((homie5_number(returned), homie5_place(returned)), (number, place));
    }
}

#[test]
fn the_version_is_that_of_the_header() {
    assert!(HEADER.contains(&format!("\n#define HOMIE5_VERSION \"{HOMIE5_VERSION}\"\n")));
}

/// `NoSuchNumber` as `NO_SUCH_NUMBER`.
fn upper(name: &str) -> String {
    let mut words = String::new();
    for letter in name.chars() {
        if letter.is_ascii_uppercase() && !words.is_empty() {
            words.push('_');
        }
        words.push(letter.to_ascii_uppercase());
    }
    words
}

/// The numbers that the header gives to names, by ascending name.
fn numbers() -> Vec<(String, u8)> {
    let names = HEADER.split("HOMIE5_").filter_map(|rest| rest.split_once(" = "));
    let whole =
        names.filter(|(name, _)| name.bytes().all(|b| b == b'_' || b.is_ascii_uppercase() || b.is_ascii_digit()));
    let mut numbers: Vec<_> = whole.filter_map(|(name, rest)| Some((name.to_string(), number(rest)?))).collect();
    numbers.sort();
    numbers
}

fn number(text: &str) -> Option<u8> {
    let end = text.find(|c: char| !c.is_ascii_digit())?;
    text[..end].parse().ok()
}

/// The name of a member of a list, in capitals.
fn name(one: &impl std::fmt::Debug) -> String {
    upper(format!("{one:?}").split(' ').next().unwrap_or(""))
}

macro_rules! listed {
    ($prefix:literal, $list:ident) => {
        $list::ALL.iter().map(|one| (format!("{}{}", $prefix, name(one)), one.number()))
    };
}

/// The forms of topics with their numbers, as `Topic::read` tells them apart.
fn forms() -> impl Iterator<Item = (String, u8)> {
    let arms = TOPICS.lines().filter_map(|line| line.trim().split_once(" => Topic::"));
    arms.filter_map(|(at, form)| Some((format!("FORM_{}", upper(form.split_once(' ')?.0)), at.parse().ok()?)))
}

#[test]
fn numbers_are_those_of_the_header() {
    let mut ours = vec![("OK".to_string(), 0)];
    ours.extend(forms());
    ours.extend(listed!("", Refusal));
    ours.extend(listed!("FLAG_", Flag));
    ours.extend(listed!("DATATYPE_", Datatype));
    ours.extend(listed!("KEPT_", Kept));
    ours.extend(listed!("STATE_", State));
    ours.extend(listed!("LANE_", Lane));
    ours.sort();
    assert_eq!(numbers(), ours);
}

#[test]
fn every_number_is_carried() {
    let named = |number: u8| (1..=18).contains(&number) && number != 15 || (21..=25).contains(&number);
    for number in 0..=u8::MAX {
        assert_eq!(Refusal::from_returned(number.into()).is_none(), number == 0);
        for told in [1, 0x2000, 0xff_ffff] {
            let refusal = Refusal::from_returned(told << 8 | u32::from(number)).unwrap();
            let (unknown, words) = (format!("Unknown {{ number: {number}, told: {told} }}"), refusal.to_string());
            assert_eq!(refusal.number(), number);
            assert_eq!(refusal.place(), (21..=25).contains(&number).then_some(told as usize));
            assert_eq!(format!("{refusal:?}") == unknown, !named(number));
            assert_eq!(words == format!("unknown {number}"), !named(number));
        }
        assert_eq!(format!("{:?}", State::from_number(number)) == format!("Unknown({number})"), number > 4);
    }
    assert_eq!(
        Refusal::ALL.iter().map(|refusal| refusal.number()).collect::<Vec<_>>(),
        Vec::from_iter((1..=25).filter(|n| named(*n)))
    );
}

#[test]
fn refusals_have_the_words_of_the_header() {
    for refusal in Refusal::ALL {
        let case = format!("case HOMIE5_{}:\n        return \"{}\";\n", name(refusal), refusal.words());
        assert!(HEADER.contains(&case), "{case}");
    }
}
