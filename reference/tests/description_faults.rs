//! K1 and K4: which part of a description is bad, and escapes, asked through the
//! line programs.
//!
//! In the texts `@` marks the place that is told: it is taken out, and what
//! follows it is the byte at fault.

use reference::faults::faults;
use reference::lines::hex;
use reference::trace::{write_file, Event};
use reference::{calls, judge, replay};

/// A text without its mark, and where the mark stood.
fn unmarked(text: &[u8]) -> (Vec<u8>, usize) {
    let place = text.iter().position(|&byte| byte == b'@').expect("a mark");
    ([&text[..place], &text[place + 1..]].concat(), place)
}

/// How the description of the device `lamp` is judged.
fn judged(text: &[u8]) -> String {
    let line = format!("description {} {}", hex(b"lamp"), hex(text));
    judge::run(line.as_bytes()).trim_end().to_string()
}

fn refused_bytes(number: u8, marked: &[u8]) {
    let (text, place) = unmarked(marked);
    assert_eq!(judged(&text), format!("refused {number} {place}"), "{}", String::from_utf8_lossy(marked));
}

fn refused(number: u8, marked: &str) {
    refused_bytes(number, marked.as_bytes());
}

fn accepted(text: &str) {
    assert_eq!(judged(text.as_bytes()), "yes", "{text}");
}

/// A device with these fields behind the required two.
fn device(fields: &str) -> String {
    format!(r#"{{"homie":"5.0","version":1,{fields}}}"#)
}

/// A device with a node of these fields.
fn node(fields: &str) -> String {
    device(&format!(r#""nodes":{{"n":{{{fields}}}}}"#))
}

/// A device with a property of these fields.
fn property(fields: &str) -> String {
    node(&format!(r#""properties":{{"p":{{{fields}}}}}"#))
}

/// The number and place of every fault.
fn all(text: &str) -> Vec<(u8, usize)> {
    let mut all: Vec<(u8, usize)> =
        faults(b"lamp", text.as_bytes()).iter().map(|fault| (fault.number, fault.place.unwrap())).collect();
    all.sort_by_key(|&(number, place)| (place, number));
    all.dedup();
    all
}

// What is told

#[test]
fn a_refusal_tells_number_and_place() {
    assert_eq!(judged(br#"{"homie":"5.0","version":"1"}"#), "refused 22 25");
    assert_eq!(judged(br#"{"homie":"5.0"}"#), "refused 23 14");
    assert_eq!(judged(br#"{"homie":"5.0","version":1,"root":"lamp"}"#), "refused 25 34");
}

#[test]
fn a_string_or_a_name_is_told_at_its_opening_quote() {
    refused(25, r#"{"version":1,"homie": @"4.0"}"#);
    refused(24, &device(r#""name":"", @"name":"""#));
    refused(25, &device(r#""nodes":{ @"N" :{}}"#));
}

#[test]
fn the_least_place_is_told_whatever_the_number() {
    refused(25, r#"{"homie":@"5","version":null}"#);
    refused(22, r#"{"version":@null,"homie":"5"}"#);
    refused(24, r#"{"homie":"5.0",@"homie":"5","version":1.5}"#);
    refused(25, r#"{"version":@1.5,"homie":"5.0","homie":"5"}"#);
    refused(23, &device(r#""nodes":{"n":{"properties":{"p":{@}}}},"name":1"#));
    refused(22, &device(r#""name":@1,"nodes":{"n":{"properties":{"p":{}}}}"#));
    refused(25, r#"{"nodes":{@"N":{"properties":{"p":{}}}}}"#);
    assert_eq!(all(r#"{"nodes":{"N":{"properties":{"p":{}}}}}"#), [(25, 10), (23, 34), (23, 38)]);
}

#[test]
fn at_one_place_the_lower_number_is_told() {
    let list: Vec<String> = (0..24).map(|i| format!(r#""p{i}":{{"datatype":"json"}}"#)).collect();
    let text = node(&format!(r#""properties":{{{},@"p0":{{"datatype":"json"}}}}"#, list.join(",")));
    refused(24, &text);
    let (bare, place) = unmarked(text.as_bytes());
    assert_eq!(all(&String::from_utf8(bare).unwrap()), [(24, place), (25, place)]);
}

#[test]
fn what_is_accepted_stays_the_same() {
    accepted(r#"{"homie":"5.0","version":1}"#);
    accepted(" {\"version\":-9223372036854775808 , \"homie\":\"5.999\"}\n");
    accepted(&device(r#""name":"\u00b0","type":"\/","extensions":["\\",""],"children":[],"nodes":{}"#));
    accepted(&device(r#""root":"r","parent":"p","x":null,"x":{"\u0061":[null,1e5]}"#));
    accepted(&property(r#""datatype":"string","format":"\n","unit":"\t","name":"","settable":true,"retained":false"#));
    accepted(&property(r#""format":"a,b","datatype":"enum""#));
    accepted(&node(""));
}

// 21

#[test]
fn not_json_is_told_at_the_first_byte_without_a_valid_continuation() {
    refused(21, r#"{"homie":"5.0","version":1@;}"#);
    refused(21, r#"{"homie":"5.0","version":1,@}"#);
    refused(21, r#"{"homie":"5.0" @"version":1}"#);
    refused(21, r#"{"homie":"5.0","version":0@1}"#);
    refused(21, r#"{"homie":"5.0","version":-@}"#);
    refused(21, r#"{"homie":"5.0","version":1.@}"#);
    refused(21, r#"{"homie":"5.0","version":1e+@}"#);
    refused(21, r#"{"homie":"5.0","version":@+1}"#);
    refused(21, r#"{"homie":"5.0","version":nul@}"#);
    refused(21, r#"{"homie":"5.0","version":tr@ve}"#);
    refused(21, r#"{"homie":"5.0\@x","version":1}"#);
    refused(21, r#"{"homie":"5.0\u12@g4","version":1}"#);
    refused(21, "{\"homie\":\"5.0@\n\",\"version\":1}");
    refused(21, r#"{@homie:"5.0"}"#);
    refused(21, r#"{"homie":"5.0","version":1@]"#);
    refused(21, r#"{"homie":"5.0","version":1}@}"#);
    refused(21, r#"@'homie'"#);
}

#[test]
fn a_text_that_ends_early_is_told_at_its_length() {
    let whole = r#"{"homie":"5.0","version":-1,"x":[true,null,"\u00b0",1.5e-3]}"#;
    accepted(whole);
    for length in 0..whole.len() {
        refused(21, &format!("{}@", &whole[..length]));
    }
    refused(21, "  @");
    refused(21, "[-@");
}

#[test]
fn utf8_is_told_at_the_first_byte_without_a_valid_continuation() {
    let texts: [&[u8]; 14] = [
        b"{\"a\":\"@\x80\"}",
        b"{\"a\":\"@\xc0\x80\"}",
        b"{\"a\":\"@\xff\"}",
        b"{\"a\":\"\xc3@\"}",
        b"{\"a\":\"\xc3@a\"}",
        b"{\"a\":\"\xe0@\x80\x80\"}",
        b"{\"a\":\"\xe2\x82@\"}",
        b"{\"a\":\"\xed@\xa0\x80\"}",
        b"{\"a\":\"\xf0@\x8f\xbf\xbf\"}",
        b"{\"a\":\"\xf0\x9f\x98@\"}",
        b"{\"a\":\"\xf4@\x90\x80\x80\"}",
        b"{\"@\xf5\":1}",
        b"{\"a\":\"\xc3@",
        b"{@\xc3\xa9:1}",
    ];
    for text in texts {
        refused_bytes(21, text);
    }
    refused_bytes(21, b"{\"a\":@x,\"b\":\"\xff\"}");
    refused_bytes(21, b"{\"a\":\"@\xff\",\"b\":x}");
}

#[test]
fn a_byte_order_mark_is_told_at_0() {
    refused(21, "@\u{feff}{\"homie\":\"5.0\",\"version\":1}");
    refused_bytes(21, b"@\xef");
}

#[test]
fn a_longer_text_is_told_at_8192() {
    let padded = |length: usize| format!("{:1$}", r#"{"homie":"5.0","version":1}"#, length);
    accepted(&padded(8192));
    assert_eq!(judged(padded(8193).as_bytes()), "refused 21 8192");
    assert_eq!(judged(padded(20_000).as_bytes()), "refused 21 8192");
    assert_eq!(judged((padded(8192) + "x").as_bytes()), "refused 21 8192");
    assert_eq!(judged((padded(8191) + "x").as_bytes()), "refused 21 8191");
    assert_eq!(judged((padded(8191) + "x ").as_bytes()), "refused 21 8191");
    assert_eq!(judged((padded(8193) + "x").as_bytes()), "refused 21 8192");
}

#[test]
fn a_text_of_8192_bytes_that_ends_early_is_told_at_8192() {
    assert_eq!(judged(&[b' '; 8191]), "refused 21 8191");
    assert_eq!(judged(&[b' '; 8192]), "refused 21 8192");
    assert_eq!(judged(&[b' '; 9000]), "refused 21 8192");
    let open = format!("{{\"a\":\"{}", "b".repeat(8186));
    assert_eq!((open.len(), judged(open.as_bytes())), (8192, "refused 21 8192".to_string()));
}

#[test]
fn too_deep_is_told_at_the_bracket_that_opens_level_17() {
    let deep = |open: &str, close: &str, levels: usize| open.repeat(levels) + &close.repeat(levels);
    accepted(&device(&format!(r#""x":{}"#, deep("[", "]", 15))));
    refused(21, &device(&format!(r#""x":{}@[]{}"#, "[".repeat(15), "]".repeat(15))));
    refused(21, &device(&format!(r#""x":{}@{{}}{}"#, r#"{"y":"#.repeat(15), "}".repeat(15))));
    refused(21, &format!("{}@[{}", "[".repeat(16), "[".repeat(8000)));
    refused(21, &property(&format!(r#""datatype":"json","x":{}@[]{}"#, "[".repeat(11), "]".repeat(11))));
    accepted(&property(&format!(r#""datatype":"json","x":{}"#, deep("[", "]", 11))));
}

#[test]
fn of_several_such_places_the_smallest_is_told() {
    let deep = "[".repeat(16);
    refused(21, &format!("{deep}@[x"));
    refused(21, &format!("{deep}@[\u{7}"));
    refused(21, &format!("@x{deep}["));
    refused(21, &format!("{deep}@[{}", " ".repeat(9000)));
    refused_bytes(21, &[b"[\"@\xff\",", &b"["[..], &[b'['; 16]].concat());
    refused_bytes(21, &[&[b'['; 16], &b"@[\"\xff"[..]].concat());
    assert_eq!(judged(&[&[b' '; 8192][..], &[b'['; 17]].concat()), "refused 21 8192");
    assert_eq!(judged(&[&[b' '; 8176][..], &[b'['; 17]].concat()), "refused 21 8192");
    assert_eq!(judged(&[&[b' '; 8175][..], &[b'['; 17]].concat()), "refused 21 8191");
    assert_eq!(judged(&[&[b' '; 8192][..], b"\xff"].concat()), "refused 21 8192");
    assert_eq!(judged(&[&[b' '; 8191][..], b"\xff "].concat()), "refused 21 8191");
}

#[test]
fn where_there_is_a_21_nothing_else_is_looked_for() {
    refused(21, r#"{"homie":1,"homie":2,"version":1.5,"nodes":{"N":{@"#);
    refused(21, r#"[@}"#);
    let long = format!("{:9000}", "[]");
    assert_eq!(judged(long.as_bytes()), "refused 21 8192");
    assert_eq!(all(&long), [(21, 8192)]);
    assert_eq!(all(r#"{"homie":1,]"#), [(21, 11)]);
    refused(21, &device(&format!(r#""homie":"5","x":{}@[]{}"#, "[".repeat(15), "]".repeat(15))));
}

// 22

#[test]
fn the_outermost_value_is_an_object() {
    for text in ["@[]", "@null", " @1", "@\"a\"", "\n@true", "@-1 ", "@[{\"homie\":\"5.0\",\"version\":1}]"] {
        refused(22, text);
    }
}

/// Values of the six kinds, null first.
const KINDS: [&str; 6] = ["null", "true", "-1", "\"\"", "[]", "{}"];

#[test]
fn a_known_field_of_another_kind_is_told_at_its_value() {
    let wrong =
        |right: usize| KINDS.into_iter().enumerate().filter(move |(kind, _)| *kind != right).map(|(_, text)| text);
    for value in wrong(3) {
        refused(22, &format!(r#"{{"homie": @{value},"version":1}}"#));
        for field in ["name", "type", "root"] {
            refused(22, &device(&format!(r#""{field}":@{value}"#)));
        }
        refused(22, &device(&format!(r#""root":"r","parent":@{value}"#)));
        for field in ["name", "type"] {
            refused(22, &node(&format!(r#""{field}":@{value}"#)));
        }
        for field in ["name", "unit", "format"] {
            refused(22, &property(&format!(r#""datatype":"json","{field}":@{value}"#)));
        }
        refused(22, &property(&format!(r#""datatype":@{value}"#)));
    }
    for value in wrong(2) {
        refused(22, &format!(r#"{{"homie":"5.0","version":@{value}}}"#));
    }
    for value in wrong(4) {
        refused(22, &device(&format!(r#""children":@{value}"#)));
        refused(22, &device(&format!(r#""extensions":@{value}"#)));
    }
    for value in wrong(5) {
        refused(22, &device(&format!(r#""nodes":@{value}"#)));
        refused(22, &node(&format!(r#""properties":@{value}"#)));
    }
    for value in wrong(1) {
        refused(22, &property(&format!(r#""datatype":"json","settable":@{value}"#)));
        refused(22, &property(&format!(r#""datatype":"json","retained":@{value}"#)));
    }
}

#[test]
fn nodes_properties_and_elements_of_another_kind_are_told_at_the_value() {
    for value in ["null", "true", "1", "\"\"", "[]"] {
        refused(22, &device(&format!(r#""nodes":{{"m":{{}},"n":@{value}}}"#)));
        refused(22, &node(&format!(r#""properties":{{"p": @{value} }}"#)));
    }
    for value in ["null", "false", "1", "[]", "{}"] {
        refused(22, &device(&format!(r#""children":["a",@{value}]"#)));
        refused(22, &device(&format!(r#""extensions":["A", @{value} ,""]"#)));
    }
}

#[test]
fn nothing_else_is_asked_of_a_value_of_the_wrong_kind() {
    assert_eq!(all(&device(r#""name":{"\u0041":1,"a":1,"a":1}"#)), [(22, 34)]);
    assert_eq!(all(&device(r#""children":{"A":1}"#)), [(22, 38)]);
    assert_eq!(all(&device(r#""nodes":[{"n":1}]"#)), [(22, 35)]);
    assert_eq!(all(&device(r#""children":[["A"]]"#)), [(22, 39)]);
}

#[test]
fn the_field_of_such_a_value_counts_as_there() {
    assert_eq!(all(r#"{"homie":null,"version":[]}"#), [(22, 9), (22, 24)]);
    assert_eq!(all(&device(r#""root":null,"parent":"p""#)), [(22, 34)]);
    refused(22, &device(r#""parent":"p","root":@1"#));
    refused(22, &property(r#""datatype":@1"#));
    refused(22, &property(r#""datatype":"enum","format":@null"#));
    assert_eq!(
        all(r#"{"homie":"5.0","version":1,"nodes":{"n":{"properties":{"p":{"datatype":"enum","format":1}}}}}"#),
        [(22, 87)]
    );
}

// 24

#[test]
fn a_repeated_known_field_is_told_at_the_second_name() {
    refused(24, r#"{"homie":"5.0",@"homie":"5.0","version":1}"#);
    refused(24, r#"{"homie":"5.0","version":1, @"version":1}"#);
    for (field, value) in [
        ("nodes", "{}"),
        ("name", "\"\""),
        ("type", "\"\""),
        ("children", "[]"),
        ("root", "\"r\""),
        ("extensions", "[]"),
    ] {
        refused(24, &device(&format!(r#""{field}":{value},"x":1,@"{field}":{value}"#)));
    }
    refused(24, &device(r#""root":"r","parent":"p",@"parent":"p""#));
    refused(24, &node(r#""name":"",@"name":"""#));
    refused(24, &node(r#""type":"",@"type":"""#));
    refused(24, &node(r#""properties":{},@"properties":{}"#));
    for (field, value) in
        [("name", "\"\""), ("unit", "\"\""), ("format", "\"\""), ("settable", "true"), ("retained", "true")]
    {
        refused(24, &property(&format!(r#""datatype":"json","{field}":{value},@"{field}":{value}"#)));
    }
    refused(24, &property(r#""datatype":"json",@"datatype":"json""#));
}

#[test]
fn a_repeated_id_is_told_at_the_second_name() {
    refused(24, &device(r#""nodes":{"n":{},"m":{},@"n":{}}"#));
    refused(24, &node(r#""properties":{"p":{"datatype":"json"},@"p":{"datatype":"json"}}"#));
    accepted(&device(
        r#""nodes":{"n":{"properties":{"p":{"datatype":"json"}}},"m":{"properties":{"p":{"datatype":"json"}}}}"#,
    ));
}

#[test]
fn each_later_name_is_a_fault_too() {
    assert_eq!(all(&device(r#""name":"","name":"","name":"""#)), [(24, 37), (24, 47)]);
    assert_eq!(all(&device(r#""nodes":{"n":{},"n":1,"n":2}"#)), [(24, 43), (24, 49)]);
}

#[test]
fn the_other_rules_go_by_the_first_value() {
    assert_eq!(all(r#"{"homie":"5.0","homie":null,"version":1,"version":1.5}"#), [(24, 15), (24, 40)]);
    assert_eq!(all(r#"{"homie":"4","homie":"5.0","version":1}"#), [(25, 9), (24, 13)]);
    assert_eq!(all(&device(r#""nodes":{},"nodes":{"N":{"\\":1}}"#)), [(24, 38)]);
    assert_eq!(all(&device(r#""nodes":{"n":{},"n":{"name":1,"\\":1,"properties":{"P":1}}}"#)), [(24, 43)]);
    assert_eq!(all(&device(r#""root":"r","root":"lamp","parent":"p""#)), [(24, 38)]);
    refused(24, &property(r#""datatype":"enum","format":"a",@"datatype":"integer""#));
    refused(25, &property(r#""datatype":"integer","format":@"a","datatype":"enum""#));
}

#[test]
fn repeats_and_the_own_id_in_children_are_no_fault() {
    accepted(&device(r#""children":["a","a","lamp","lamp"]"#));
    accepted(&device(r#""extensions":["a","a"]"#));
}

#[test]
fn unknown_fields_may_be_repeated() {
    accepted(&device(r#""x":1,"x":2,"Name":1,"Name":null,"":1,"":1"#));
    accepted(&property(r#""datatype":"json","properties":1,"properties":2,"homie":1,"homie":1"#));
    accepted(&node(r#""datatype":1,"datatype":1"#));
}

// 23

#[test]
fn a_missing_field_is_told_at_the_closing_brace() {
    refused(23, "{@}");
    refused(23, " { \n@} ");
    refused(23, r#"{"homie":"5.0"@}"#);
    refused(23, r#"{"version":1 @}"#);
    refused(23, &property("@"));
    refused(23, &property(r#""name":"","x":{"datatype":"json"}@"#));
    refused(23, r#"{"Homie":"5.0","version":1@}"#);
}

#[test]
fn several_missing_fields_of_one_object_are_one_place() {
    assert_eq!(all("{}"), [(23, 1)]);
    assert_eq!(all(r#"{"nodes":{"n":{"properties":{"p":{},"q":{}}}}}"#), [(23, 34), (23, 41), (23, 45)]);
}

#[test]
fn the_format_of_an_enum_or_a_colour_may_not_be_missing() {
    refused(23, &property(r#""datatype":"enum"@"#));
    refused(23, &property(r#""datatype":"color","unit":"" @"#));
    for datatype in ["string", "integer", "float", "boolean", "datetime", "duration", "json"] {
        accepted(&property(&format!(r#""datatype":"{datatype}""#)));
    }
}

// 25

#[test]
fn homie_version_and_datatype() {
    for bad in ["", "5", "5.", "5.00", "5.01", "5.1000", "4.0", "5.0 ", "5,0", r"5.\u0061"] {
        refused(25, &format!(r#"{{"homie":@"{bad}","version":1}}"#));
    }
    for bad in ["1.0", "-1.0", "1e0", "1E2", "-0.0", "9223372036854775808", "-9223372036854775809", "1e-1"] {
        refused(25, &format!(r#"{{"homie":"5.0","version": @{bad}}}"#));
    }
    accepted(r#"{"homie":"5.0","version":-0}"#);
    for bad in ["", "text", "Integer", "jso", "json ", r"jso\u004e"] {
        refused(25, &property(&format!(r#""datatype":@"{bad}""#)));
    }
}

#[test]
fn bad_ids() {
    let long = "a".repeat(33);
    for bad in ["", "A", "a_b", "$a", "a/b", "é", r"\u0041", r"\/", r"\u0000", &long] {
        refused(25, &device(&format!(r#""nodes":{{"n":{{}},@"{bad}":{{}}}}"#)));
        refused(25, &node(&format!(r#""properties":{{@"{bad}":{{"datatype":"json"}}}}"#)));
        refused(25, &device(&format!(r#""children":["a", @"{bad}"]"#)));
        refused(25, &device(&format!(r#""root":@"{bad}""#)));
        refused(25, &device(&format!(r#""root":"r","parent":@"{bad}""#)));
    }
}

#[test]
fn root_and_parent_are_not_the_own_id() {
    refused(25, &device(r#""root":@"lamp""#));
    refused(25, &device(r#""root":"r","parent":@"lamp""#));
    refused(25, &device(r#""parent":@"lamp","root":"lamp""#));
    accepted(&device(r#""root":"lamp-","parent":"lamp2""#));
}

#[test]
fn parent_without_root() {
    refused(25, &device(r#""parent":@"p""#));
    refused(25, &device(r#""parent": @"p","name":1"#));
    refused(25, &device(r#""parent":@"P""#));
    refused(22, &device(r#""parent":@1"#));
    assert_eq!(all(&device(r#""parent":1"#)), [(22, 36)]);
}

#[test]
fn a_bad_root_is_told_as_itself() {
    for bad in ["\"R\"", "\"lamp\"", "\"\""] {
        refused(25, &device(&format!(r#""parent":"p","root":@{bad}"#)));
        refused(25, &device(&format!(r#""root":@{bad},"parent":"p""#)));
    }
    assert_eq!(all(&device(r#""root":"R","parent":"p""#)), [(25, 34)]);
}

#[test]
fn a_bad_format_is_told_at_its_string() {
    let long = "a".repeat(65);
    for (datatype, format) in [
        ("integer", ""),
        ("integer", "2:1"),
        ("integer", "1:2:0"),
        ("integer", "1.5:"),
        ("float", "1"),
        ("float", "1.:2"),
        ("float", "5:3e1:0.5"),
        ("float", "5:30:5e-1"),
        ("float", "0000000005:30:0.5"),
        ("float", "5:30:0.0000000005"),
        ("boolean", "a,a"),
        ("boolean", ""),
        ("enum", ""),
        ("enum", "a,,b"),
        ("enum", "a,b,a"),
        ("enum", &long),
        ("color", "rgb,rgb"),
        ("color", "cmyk"),
    ] {
        refused(25, &property(&format!(r#""datatype":"{datatype}","format":@"{format}""#)));
        refused(25, &property(&format!(r#""format": @"{format}","datatype":"{datatype}""#)));
    }
    accepted(&property(&format!(r#""datatype":"string","format":"{long}""#)));
    for format in ["5:30:0.5", r"5\u003a30:\u0030.5", "5:3e1", "0000000005:30", "000000005:30.000000000:0.5"] {
        accepted(&property(&format!(r#""datatype":"float","format":"{format}""#)));
    }
}

#[test]
fn the_format_is_judged_by_the_first_datatype_wherever_it_stands() {
    accepted(&property(r#""format":"1:2","settable":true,"datatype":"integer""#));
    refused(25, &property(r#""format":@"a","datatype":"integer","datatype":"enum""#));
    refused(24, &property(r#""format":"a","datatype":"enum",@"datatype":"integer""#));
    refused(24, &property(r#""datatype":"json",@"datatype":"enum""#));
}

#[test]
fn without_a_good_datatype_only_the_kind_of_the_format_is_judged() {
    refused(23, &property(r#""format":",,\n"@"#));
    refused(25, &property(r#""format":",,\n","datatype":@"text""#));
    refused(25, &property(r#""format":",,\n","datatype":@"enu\u004d""#));
    refused(22, &property(r#""format":",,\n","datatype":@null"#));
    refused(22, &property(r#""format":@1"#));
    refused(22, &property(r#""format":@1,"datatype":"text""#));
    refused(22, &property(r#""format":@null,"datatype":1"#));
}

/// Properties of the numbers, each with this value.
fn properties(numbers: std::ops::Range<usize>, value: &str) -> String {
    numbers.map(|i| format!(r#""p{i}":{value}"#)).collect::<Vec<String>>().join(",")
}

/// A device with two nodes of these properties.
fn two_nodes(first: &str, second: &str) -> String {
    device(&format!(r#""nodes":{{"b":{{"properties":{{{first}}}}},"a":{{"properties":{{{second}}}}}}}"#))
}

#[test]
fn too_many_properties_are_told_at_the_id_of_the_25th() {
    let good = r#"{"datatype":"json"}"#;
    accepted(&two_nodes(&properties(0..20, good), &properties(0..4, good)));
    refused(
        25,
        &two_nodes(&properties(0..20, good), &format!("{},@{}", properties(0..4, good), properties(4..5, good))),
    );
    refused(25, &two_nodes(&properties(0..24, good), &format!("@{}", properties(0..9, good))));
    refused(25, &two_nodes(&format!("{},@{}", properties(0..24, good), properties(24..26, good)), ""));
}

#[test]
fn the_25th_property_is_counted_by_name_whatever_the_values() {
    let good = r#"{"datatype":"json"}"#;
    for value in ["null", "1", "[]", "{}", r#"{"datatype":"x"}"#] {
        let first = properties(0..24, good);
        refused(25, &two_nodes(&first, &format!("@{}", properties(0..1, value))));
        refused(25, &two_nodes(&format!("{first},@{}", properties(24..25, value)), ""));
    }
    let text = two_nodes(&properties(0..20, "1"), &properties(0..5, "1"));
    let all = all(&text);
    assert_eq!(all.iter().filter(|fault| fault.0 == 22).count(), 25);
    assert_eq!(all.iter().filter(|fault| fault.0 == 25).count(), 1);
    assert_eq!(all[all.len() - 2], (25, text.rfind("\"p4\"").unwrap()));
    refused(22, &two_nodes(&format!("{},\"p23\":@1", properties(0..23, good)), &properties(0..1, good)));
}

// K4: escapes

#[test]
fn every_such_string_is_decoded_before_any_rule() {
    accepted(r#"{"hom\u0069e":"5\u002E\u0030","versio\u006e":1}"#);
    accepted(&device(r#""ro\u006ft":"\u0072","p\u0061rent":"\u0070","children":["\u0061","\u002d"]"#));
    accepted(&device(r#""\u006eodes":{"\u006e":{"propert\u0069es":{"\u0070":{"datatyp\u0065":"\u006ason"}}}}"#));
    accepted(&property(r#""datatype":"integer","f\u006frmat":"\u0031\u003a2:\u0031""#));
    accepted(&property(r#""datatype":"float","format":"0\u002e5:1""#));
    accepted(&property(r#""datatype":"boolean","format":"\u00b0\u002c\/""#));
    accepted(&property(r#""datatype":"enum","format":"a\u002Cb\/c,\"d\\""#));
    accepted(&property(r#""datatype":"color","format":"\u0072gb,\u0078yz""#));
    accepted(&property(r#""datatype":"json","settabl\u0065":true,"r\u0065tained":false,"\u0078":null"#));
}

#[test]
fn a_rule_that_is_broken_then_is_told_at_the_opening_quote() {
    refused(25, r#"{"homie":@"5\u002c0","version":1}"#);
    refused(25, &device(r#""root":@"\u0041""#));
    refused(25, &device(r#""root":"r","parent":@"\u00e9""#));
    refused(25, &device(r#""children":["\u0061",@"\/"]"#));
    refused(25, &device(r#""nodes":{@"\u0000":{}}"#));
    refused(25, &node(r#""properties":{@"a\u005f":{"datatype":"json"}}"#));
    refused(25, &property(r#""datatype":@"Js\u006fn""#));
    refused(25, &property(r#""datatype":"integer","format":@"\u0032:1""#));
    refused(25, &property(r#""datatype":"boolean","format":@"a\u002ca""#));
    refused(25, &property(r#""datatype":"enum","format":@"\/,\u002f""#));
    refused(25, &property(r#""datatype":"color","format":@"rg\u0042""#));
    refused(22, &device(r#""nam\u0065":@1"#));
    refused(22, &property(r#""datatype":"json","un\u0069t":@null"#));
    refused(23, r#"{"hom\u0049e":"5.0","version":1@}"#);
    refused(23, &property(r#""datatype":"enu\u006d","form\u0041t":"a"@"#));
}

#[test]
fn names_are_compared_by_what_they_say() {
    refused(24, &device(r#""name":"",@"n\u0061me":"""#));
    refused(24, &device(r#""nam\u0065":"",@"name":"""#));
    refused(24, &device(r#""\u006eame":"",@"\u006Eame":"""#));
    refused(24, &device(r#""nodes":{"a":{},@"\u0061":{}}"#));
    refused(24, &node(r#""properties":{"\u002d":{"datatype":"json"},@"-":{"datatype":"json"}}"#));
    refused(24, &property(r#""datatype":"json",@"dat\u0061type":1"#));
    accepted(&device(r#""\u0078":1,"x":2,"\u0078":3"#));
    refused(25, &device(r#""root":@"l\u0061mp""#));
    refused(25, &device(r#""root":"r","parent":@"\u006c\u0061\u006d\u0070""#));
    accepted(&device(r#""parent":"p","ro\u006ft":"r""#));
    assert_eq!(all(&device(r#""nam\u0065":1,"name":"""#)), [(22, 39), (24, 41)]);
    refused(25, &property(r#""form\u0061t":@"a","datatype":"integer""#));
}

#[test]
fn lengths_count_decoded_bytes() {
    for (id, length) in [(r"\u0061".repeat(32), 32), (r"\u0061".repeat(33), 33), ("a".repeat(31) + r"\u002d", 32)] {
        let texts = [
            device(&format!(r#""root":@"{id}""#)),
            device(&format!(r#""children":[@"{id}"]"#)),
            device(&format!(r#""nodes":{{@"{id}":{{}}}}"#)),
            node(&format!(r#""properties":{{@"{id}":{{"datatype":"json"}}}}"#)),
        ];
        for text in texts {
            if length > 32 {
                refused(25, &text);
            } else {
                accepted(&text.replace('@', ""));
            }
        }
    }
    let text = |format: String| property(&format!(r#""datatype":"enum","format":@"{format}""#));
    accepted(&text(r"\u0061".repeat(64)).replace('@', ""));
    refused(25, &text(r"\u0061".repeat(65)));
    // Of two, three and four bytes.
    accepted(&text(r"\u00e9".repeat(32)).replace('@', ""));
    refused(25, &text(r"\u00e9".repeat(32) + "a"));
    accepted(&text(r"\u20ac".repeat(21) + "a").replace('@', ""));
    refused(25, &text(r"\u20ac".repeat(21) + "ab"));
    accepted(&text(r"\ud83d\ude00".repeat(16)).replace('@', ""));
    refused(25, &text(r"\ud83d\ude00".repeat(16) + r"\u0000"));
    // The text itself is measured as it stands.
    let long = |length: usize| device(&format!(r#""root":"\u0061",{:1$}"x":1"#, "", length - 49));
    assert_eq!((long(8192).len(), judged(long(8192).as_bytes())), (8192, "yes".to_string()));
    assert_eq!(judged(long(8193).as_bytes()), "refused 21 8192");
}

/// Half a pair, of every kind, with `@` at the one that is told.
const HALVES: [&str; 12] = [
    r"@\ud800",
    r"@\uDBFF",
    r"@\udc00",
    r"@\uDfFf",
    r"@\ud83d\ud83d\ude00",
    r"\ud83d\ude00@\ude00",
    r"@\ude00\ud83d",
    r"@\ud83dx\ude00",
    r"@\ud83d\\ude00",
    r"@\ud83d\/\ude00",
    r"@\ud83d\u0061\ude00",
    r"a\u0061\\ud800@\ud800b\ud800",
];

#[test]
fn half_a_pair_is_told_at_its_backslash() {
    for half in HALVES {
        refused(25, &format!(r#"{{"homie":"{half}","version":1}}"#));
        refused(25, &device(&format!(r#""root":"{half}""#)));
        refused(25, &device(&format!(r#""root":"r","parent":"{half}""#)));
        refused(25, &device(&format!(r#""children":["a","{half}"]"#)));
        refused(25, &device(&format!(r#""nodes":{{"{half}":{{}}}}"#)));
        refused(25, &node(&format!(r#""properties":{{"{half}":{{"datatype":"json"}}}}"#)));
        refused(25, &property(&format!(r#""datatype":"{half}""#)));
        for datatype in ["integer", "float", "boolean", "enum", "color"] {
            refused(25, &property(&format!(r#""datatype":"{datatype}","format":"{half}""#)));
            refused(25, &property(&format!(r#""format":"a,{half}","datatype":"{datatype}""#)));
        }
        refused(25, &device(&format!(r#""{half}":1"#)));
        refused(25, &node(&format!(r#""{half}":1"#)));
        refused(25, &property(&format!(r#""datatype":"json","{half}":1"#)));
    }
}

#[test]
fn whole_pairs_and_escaped_backslashes_are_no_halves() {
    accepted(&device(r#""\ud83d\ude00":1,"\\ud800":2,"\u005cudc00":3"#));
    accepted(&property(r#""datatype":"enum","format":"\uD83D\uDE00,\\ud800,\\\\udc00""#));
    refused(25, &device(r#""root":@"\ud83d\ude00""#));
    refused(25, &device(r#""root":@"\\ud800""#));
}

#[test]
fn half_a_pair_elsewhere_is_no_fault() {
    accepted(&device(r#""name":"\ud800","type":"\udc00","extensions":["\ud800"],"x":"\ud800","y":{"\ud800":1}"#));
    accepted(&node(r#""name":"\ud800","type":"\udc00","x":["\ud800"]"#));
    accepted(&property(r#""datatype":"json","unit":"\ud800","name":"\udc00","x":{"\ud800":{"\ud800":[]}}"#));
}

#[test]
fn a_format_that_is_not_kept_is_not_decoded() {
    for datatype in ["string", "datetime", "duration", "json"] {
        accepted(&property(&format!(r#""datatype":"{datatype}","format":"\ud800""#)));
    }
    refused(23, &property(r#""format":"\ud800"@"#));
    refused(25, &property(r#""format":"\ud800","datatype":@"text""#));
    refused(25, &property(r#""format":"\ud800","datatype":"@\ud800""#));
    refused(22, &property(r#""format":"\ud800","datatype":@null"#));
}

#[test]
fn no_other_rule_is_applied_to_that_string() {
    let only = |text: &str| {
        let (text, place) = unmarked(text.as_bytes());
        assert_eq!(all(&String::from_utf8(text.clone()).unwrap()), [(25, place)], "{}", String::from_utf8_lossy(&text));
    };
    // ID, own ID, `homie`, datatype, format.
    only(&device(r#""root":"lamp@\ud800""#));
    only(&device(r#""root":"r","parent":"A@\ud800""#));
    only(&device(r#""children":["@\ud800"]"#));
    only(&device(r#""nodes":{"@\ud800":{}}"#));
    only(r#"{"homie":"4@\ud800","version":1}"#);
    only(&property(r#""datatype":"enum@\ud800""#));
    only(&property(r#""datatype":"integer","format":"2:1@\ud800""#));
    // `parent` without `root`.
    only(&device(r#""parent":"p@\ud800""#));
    // Repeats, of names that stand alike.
    assert_eq!(all(&device(r#""name":"","name\ud800":1,"name\ud800":2"#)), [(25, 42), (25, 57)]);
    assert_eq!(all(&device(r#""nodes":{"\ud800":{},"\ud800":{}}"#)), [(25, 37), (25, 49)]);
    // The 25th property.
    let good = properties(0..24, r#"{"datatype":"json"}"#);
    only(&node(&format!(r#""properties":{{{good},"q@\ud800":{{"datatype":"json"}}}}"#)));
}

#[test]
fn a_name_with_half_a_pair_is_an_unknown_field() {
    assert_eq!(all(r#"{"homie\ud800":1,"version":1}"#), [(25, 7), (23, 28)]);
    assert_eq!(all(&property(r#""datatype\udc00":"x","format":"a""#)), [(25, 69), (23, 93)]);
    refused(25, &device(r#""parent":@"p","root\ud800":"r""#));
    refused(25, &device(r#""root@\ud800":"r","parent":"p""#));
    refused(25, &property(r#""format":"1:2","datatype":"integer","datatype@\ud800":1"#));
    refused(25, &property(r#""format":"2:1","datatype@\ud800":"integer""#));
}

#[test]
fn the_field_of_a_string_with_half_a_pair_counts_as_there() {
    assert_eq!(all(&device(r#""parent":"p","root":"\ud800""#)), [(25, 48)]);
    assert_eq!(all(&property(r#""datatype":"\ud800""#)), [(25, 72)]);
    assert_eq!(all(&property(r#""datatype":"enum","format":"\ud800""#)), [(25, 88)]);
}

#[test]
fn the_value_of_a_repeated_name_is_not_decoded() {
    assert_eq!(all(r#"{"homie":"5.0","h\u006fmie":"\ud800","version":1}"#), [(24, 15)]);
    assert_eq!(all(&device(r#""nodes":{"n":{},"\u006e":{"\ud800":1}}"#)), [(24, 43)]);
}

#[test]
fn names_inside_unknown_fields_are_not_looked_at() {
    accepted(&device(r#""x":{"\u0061":{"\\":[{"\/":1}]}}"#));
    accepted(&node(r#""x":[{"\u0061":1,"a":2}]"#));
    accepted(&property(r#""datatype":"json","x":{"datatyp\u0065":null}"#));
}

#[test]
fn a_table_has_decoded_bytes() {
    let text = br#"{"homie":"5.0","version":1,"root":"\u0068ub","nodes":{"\u006e":{"properties":{
        "\u0070":{"datatype":"enum","format":"\u00b0\u002c\n\u002ca\/b"}}}}}"#;
    let lamp = hex(b"lamp");
    let lines = [
        message(1, "lamp/$description", text),
        format!("root {lamp}\n"),
        format!("property {lamp} 0\n"),
        message(1, "lamp/n/p", "°".as_bytes()),
        message(1, "lamp/n/p", b"\n"),
        message(1, "lamp/n/p", br"a\/b"),
        message(1, "lamp/n/p", b"a/b"),
        format!("lane {lamp} {} {} value\n", hex(b"n"), hex(b"p")),
    ];
    let kept = format!("n p enum {} - retained", hex("°,\n,a/b".as_bytes()));
    assert_eq!(answers(&lines), ["taken", "hub", &kept, "taken", "taken", "refused 14", "taken", "1 612f62"]);
}

// In a table

fn message(time: u64, rest: &str, payload: &[u8]) -> String {
    format!("message {time} {} 1 {}\n", hex(format!("homie/5/{rest}").as_bytes()), hex(payload))
}

/// The answers to these lines in a table with the device `lamp`.
fn answers(lines: &[String]) -> Vec<String> {
    let open = format!("open {} 1 3 40960\n", hex(b"homie"));
    let script = open + &message(1, "lamp/$state", b"init") + &lines.concat();
    calls::run(script.as_bytes()).lines().skip(2).map(str::to_string).collect()
}

#[test]
fn a_message_answers_number_and_place() {
    let lines = [
        message(1, "lamp/$description", br#"{"homie":"5.0","version":"1"}"#),
        message(1, "lamp/$description", b"{"),
        message(1, "lamp/$description", b"{}"),
        message(1, "lamp/$description", br#"{"homie":"5.0","homie":1}"#),
        message(1, "lamp/$description", br#"{"homie":"5.0","version":1,"root":"lamp"}"#),
        message(1, "lamp/$description", &[b' '; 8193]),
        message(1, "lamp/$description", br#"{"homie":"5.0","version":1}"#),
        "steps\n".to_string(),
    ];
    let expected =
        ["refused 22 25", "refused 21 1", "refused 23 1", "refused 24 15", "refused 25 34", "refused 21 8192"];
    assert_eq!(answers(&lines), [&expected[..], &["taken", "2"]].concat());
}

#[test]
fn refusals_before_the_description_tell_no_place() {
    let lines = [
        message(0, "lamp/$description", b"{"),
        message(1, "lamp/$description", b"{\"a\":\"\xff"),
        message(1, "lamp/$description", b"\xef\xbb\xbf{}"),
        message(1, "lamp/$description", b"{").replace(" 1 7b", " 0 7b"),
        message(1, "nobody/$description", b"{"),
        message(1, "lamp/$description", b""),
        "nth 1\n".to_string(),
    ];
    assert_eq!(
        answers(&lines),
        ["refused 7", "refused 10", "refused 10", "refused 11", "refused 12", "taken", "refused 3"]
    );
}

#[test]
fn the_own_id_is_the_one_in_the_topic() {
    let text = br#"{"homie":"5.0","version":1,"root":"lamp"}"#;
    assert_eq!(answers(&[message(1, "lamp/$description", text)]), ["refused 25 34"]);
    let other = judge::run(format!("description {} {}", hex(b"hub"), hex(text)).as_bytes());
    assert_eq!(other, "yes\n");
}

#[test]
fn replay_prints_the_number_alone() {
    let event = |topic: &str, payload: &str| Event {
        time: 7,
        topic: topic.as_bytes().to_vec(),
        retained: true,
        payload: payload.as_bytes().to_vec(),
    };
    let file = write_file(&[event("homie/5/lamp/$state", "init"), event("homie/5/lamp/$description", "[]")]);
    assert_eq!(replay::run(&file), "events 2\n0 7 0\n1 7 22\ndevice lamp init init\nsteps 1\n");
}
