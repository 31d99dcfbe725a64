//! The known examples of paper 01, asked through the line programs.

use reference::lines::hex;
use reference::trace::{write_file, Event};
use reference::{calls, judge, replay};

fn ask(line: &str) -> String {
    judge::run(line.as_bytes()).trim_end().to_string()
}

fn payload(datatype: &str, format: &str, payload: &str) -> String {
    ask(&format!("payload {datatype} {} {}", hex(format.as_bytes()), hex(payload.as_bytes())))
}

#[test]
fn starred_examples() {
    assert_eq!(payload("integer", ":", "9223372036854775807"), "yes");
    assert_eq!(payload("integer", ":", "9223372036854775808"), "no");
    assert_eq!(payload("integer", ":", "-"), "no");
    assert_eq!(payload("integer", "2:6:2", "1"), "yes");
    assert_eq!(payload("integer", "2:6:2", "0"), "no");
    assert_eq!(payload("integer", "2:6:2", "7"), "no");
    assert_eq!(payload("integer", ":10:4", "12"), "no");
    assert_eq!(payload("float", ":", "1."), "no");
    assert_eq!(payload("color", "rgb", "rgb,0,255,1e2"), "yes");
    assert_eq!(payload("color", "xyz", "xyz,1.01,0"), "no");
    assert_eq!(payload("datetime", "", "2023-02-29T00:00:00Z"), "no");
    assert_eq!(payload("duration", "", "PT"), "no");
    assert_eq!(ask(&format!("id {}", hex(b"-a-"))), "yes");
}

#[test]
fn other_examples() {
    assert_eq!(payload("integer", ":", "-0"), "yes");
    assert_eq!(payload("integer", ":10:4", "8"), "yes");
    assert_eq!(payload("float", ":", "1e+2"), "no");
    assert_eq!(payload("float", ":", "1E-2"), "yes");
    assert_eq!(payload("datetime", "", "2024-02-29T00:00:00Z"), "yes");
    assert_eq!(payload("duration", "", "PT5M"), "yes");
}

/// K7: it rounds to 30.
#[test]
fn a_thermostat() {
    assert_eq!(payload("float", "5:30:0.5", "30.2"), "yes");
    assert_eq!(payload("float", "5:30:0.5", "30.25"), "no");
    assert_eq!(payload("float", "5:30:0.5", "3e1"), "no");
    assert_eq!(payload("float", "5:30", "30.2"), "no");
}

fn event(time: u64, topic: &str, payload: &str, retained: bool) -> Event {
    Event { time, topic: topic.as_bytes().to_vec(), retained, payload: payload.as_bytes().to_vec() }
}

fn known_trace() -> Vec<u8> {
    let description =
        r#"{"homie":"5.0","version":1,"nodes":{"light":{"properties":{"on":{"datatype":"boolean","settable":true}}}}}"#;
    write_file(&[
        event(4294967290, "homie/5/lamp/$state", "init", true),
        event(4294967300, "homie/5/lamp/$description", description, true),
        event(4294967300, "homie/5/lamp/light/on/set", "true", false),
        event(4294967301, "homie/5/lamp/light/on", "TRUE", true),
    ])
}

#[test]
fn the_program_example() {
    let expected = "events 4
0 4294967290 0
1 4294967300 0
2 4294967300 0
3 4294967301 14
device lamp init init
property lamp light on - - 74727565
steps 3
";
    assert_eq!(replay::run(&known_trace()), expected);
}

#[test]
fn the_program_with_other_files() {
    assert_eq!(replay::run(&write_file(&[])), "events 0\nsteps 0\n");
    assert_eq!(replay::run(b""), "refused 1\n");
    let mut broken = known_trace();
    broken[16 + 14] = 2;
    assert_eq!(replay::run(&broken), "refused 2\n");
    let longest = write_file(&[event(1, "a", &"x".repeat(65_536 - 41), true)]);
    assert_eq!(longest.len(), 65_536);
    assert_eq!(replay::run(&longest), "events 1\n0 1 8\nsteps 0\n");
    let too_long = write_file(&[event(1, "a", &"x".repeat(65_536 - 40), true)]);
    assert_eq!(replay::run(&too_long), "refused 1\n");
}

#[test]
fn the_empty_trace_and_the_smallest_event() {
    let empty = hex(&write_file(&[]));
    assert_eq!(ask(&format!("trace {empty}")), "events 0");
    let buffer = empty + &"ee".repeat(26);
    let answer = ask(&format!("append {buffer} 16 5 61 1 -"));
    assert!(answer.starts_with("used 41 01000000"));
    assert!(answer.ends_with("61ee"));
    let file = answer.split(' ').nth(2).unwrap();
    assert_eq!(ask(&format!("event {} 0", &file[..82])), "5 61 1 -");
    assert_eq!(ask(&format!("event {} 1", &file[..82])), "refused 3");
}

#[test]
fn topics_and_descriptions() {
    let topic = |text: &str| ask(&format!("topic {} {}", hex(b"homie"), hex(text.as_bytes())));
    assert_eq!(topic("homie/5/lamp/$state"), "state lamp");
    assert_eq!(topic("homie/5/lamp/light/on/set"), "set lamp light on");
    assert_eq!(topic("homie/5/lamp/$alert/low"), "alert lamp low");
    assert_eq!(topic("homie/5/lamp/$log/warn"), "log lamp");
    assert_eq!(topic("homie/5/lamp/$fw/name"), "other lamp");
    assert_eq!(topic("homie/5/$broadcast/a/b"), "broadcast");
    assert_eq!(topic("homie/6/lamp/$state"), "refused 8");
    assert_eq!(topic("homie/5/lamp/$log/trace"), "refused 9");
    let description = |text: &str| ask(&format!("description {} {}", hex(b"lamp"), hex(text.as_bytes())));
    assert_eq!(description(r#"{"homie":"5.0","version":1}"#), "yes");
    assert_eq!(description(r#"{"homie":"5.0","version":1,"root":"lamp"}"#), "refused 25 34");
}

#[test]
fn lines_of_another_shape() {
    for line in [
        "",
        "id",
        "id 6",
        "id FF",
        "id  61",
        "id 61 ",
        "ID 61",
        "payload text - 61",
        "event - x",
        "append - 0 0 61 2 -",
        "?",
    ] {
        assert_eq!(judge::run(format!("{line}\n").as_bytes()), "?\n", "{line}");
    }
    assert_eq!(judge::run(&[b'\n'; 65_536]), "?\n".repeat(65_536));
    assert_eq!(judge::run(&[b'\n'; 65_537]), "too long\n");
    assert_eq!(calls::run(&vec![b'\n'; 1_048_577]), "too long\n");
}

#[test]
fn a_list_of_calls() {
    let lamp = hex(b"lamp");
    let topic = |rest: &str| hex(format!("homie/5/{rest}").as_bytes());
    let description = r#"{"homie":"5.0","version":-3,"root":"hub","nodes":{"n":{"properties":{"p":{"datatype":"integer","settable":true}}}}}"#;
    let script = [
        ("count".to_string(), "refused 6"),
        ("count 1".to_string(), "?"),
        (format!("open {} 1 2 32768", hex(b"homie")), "taken"),
        (format!("open {} 1 2 32768", hex(b"homie")), "?"),
        ("count".to_string(), "0"),
        ("last".to_string(), "none"),
        ("back".to_string(), "refused 18"),
        (format!("message 5 {} 1 {}", topic("lamp/$state"), hex(b"ready")), "taken"),
        (format!("root {lamp}"), "none"),
        (format!("version {lamp}"), "none"),
        (format!("message 6 {} 1 {}", topic("lamp/$description"), hex(description.as_bytes())), "taken"),
        (format!("message 6 {} 0 {}", topic("lamp/n/p/set"), hex(b"4")), "taken"),
        (format!("message 7 {} 1 {}", topic("hub/$state"), hex(b"lost")), "refused 13"),
        ("steps".to_string(), "2"),
        ("last".to_string(), "6"),
        ("count".to_string(), "1"),
        ("nth 0".to_string(), "lamp"),
        ("nth 1".to_string(), "refused 3"),
        (format!("state {lamp}"), "ready ready 5"),
        (format!("root {lamp}"), "hub"),
        (format!("parent {lamp}"), "none"),
        (format!("version {lamp}"), "-3"),
        (format!("filled {lamp}"), "0"),
        (format!("property {lamp} 0"), "n p integer 3a settable retained"),
        (format!("property {lamp} 1"), "refused 3"),
        (format!("lane {lamp} {} {} asked", hex(b"n"), hex(b"p")), "6 34"),
        (format!("lane {lamp} {} {} value", hex(b"n"), hex(b"p")), "empty"),
        (format!("lane {lamp} {} - value", hex(b"n")), "refused 16"),
        (format!("lane {lamp} {} {} wish", hex(b"n"), hex(b"p")), "?"),
        ("state -".to_string(), "refused 12"),
        ("back".to_string(), "taken"),
        (format!("lane {lamp} {} {} asked", hex(b"n"), hex(b"p")), "empty"),
    ];
    let input: String = script.iter().map(|(line, _)| format!("{line}\n")).collect();
    let expected: String = script.iter().map(|(_, answer)| format!("{answer}\n")).collect();
    assert_eq!(calls::run(input.as_bytes()), expected);
}

#[test]
fn a_refused_opening() {
    let open = format!("open {} 1 2 32767", hex(b"homie"));
    let again = format!("open {} 1 2 32768", hex(b"homie"));
    let script = format!("{open}\ncount\n{again}\nsteps\n");
    assert_eq!(calls::run(script.as_bytes()), "refused 5\nrefused 6\n?\nrefused 6\n");
}
