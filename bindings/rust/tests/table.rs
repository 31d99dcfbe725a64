//! The table: openings, refusals, steps back, damaged memory.

mod common;

use common::{declared, event, DESCRIPTION, LATE, LATEST};
use homie5::table::{Held, Lane, Lanes, State, States, Table};
use homie5::trace::Event;
use homie5::Refusal;

/// A table with one device, described, all lanes empty.
fn lamp(depth: usize) -> Table {
    let mut table = Table::open("homie", 2, depth).unwrap();
    table.message(&event(LATE, "homie/5/lamp/$state", true, "ready")).unwrap();
    table.message(&event(LATE, "homie/5/lamp/$description", true, DESCRIPTION)).unwrap();
    table
}

#[test]
fn tables_answer_what_descriptions_declare() {
    let mut table = lamp(0);
    assert_eq!(table.properties("lamp").collect::<Vec<_>>(), declared());
    assert_eq!(table.root("lamp"), Ok(Some("hub")));
    assert_eq!(table.parent("lamp"), Ok(Some("hall")));
    assert_eq!(table.version("lamp"), Ok(Some(i64::MIN)));
    assert_eq!(table.property("lamp", 3), Err(Refusal::NoSuchNumber));
    table.message(&event(LATE, "homie/5/lamp/$description", true, "")).unwrap();
    assert_eq!(table.properties("lamp").count(), 0);
    assert_eq!((table.root("lamp"), table.parent("lamp"), table.version("lamp")), (Ok(None), Ok(None), Ok(None)));
}

#[test]
fn devices_show_all_that_is_asked_of_them() {
    let mut table = lamp(0);
    table.message(&event(LATE, "homie/5/hub/$state", true, "lost")).unwrap();
    table.message(&event(LATE + 1, "homie/5/lamp/a/on", true, "true")).unwrap();
    table.message(&event(LATE + 2, "homie/5/lamp/a/level/$target", true, "7")).unwrap();
    table.message(&event(LATEST, "homie/5/lamp/a/on/set", false, "false")).unwrap();
    let [hub, lamp] = table.devices().collect::<Vec<_>>()[..] else { panic!("{table:?}") };
    assert_eq!((hub.id, hub.states.own, hub.root, hub.parent, hub.version), ("hub", State::Lost, None, None, None));
    assert_eq!(hub.properties().count(), 0);
    let states = States { own: State::Ready, effective: State::Lost, time: LATE };
    assert_eq!((lamp.id, lamp.states, lamp.version), ("lamp", states, Some(i64::MIN)));
    assert_eq!((lamp.root, lamp.parent), (Some("hub"), Some("hall")));
    let (properties, lanes): (Vec<_>, Vec<_>) = lamp.properties().unzip();
    assert_eq!(properties, declared());
    let empty = Lanes { value: None, target: None, asked: None };
    let level = Lanes { target: Some(Held { time: LATE + 2, payload: b"7" }), ..empty };
    let value = Some(Held { time: LATE + 1, payload: b"true" });
    let on = Lanes { value, asked: Some(Held { time: LATEST, payload: b"false" }), ..empty };
    assert_eq!(lanes, [level, on, empty]);
    assert_eq!(Lane::ALL.iter().map(|lane| on.get(*lane)).collect::<Vec<_>>(), [on.value, on.target, on.asked]);
    assert_eq!(table.device("fan").err(), Some(Refusal::NoDevice));
}

#[test]
fn lanes_hold_64_bits_of_time() {
    let mut table = lamp(4);
    table.message(&event(LATE + 1, "homie/5/lamp/a/on", true, "true")).unwrap();
    table.message(&event(LATE + 2, "homie/5/lamp/a/on/$target", true, "false")).unwrap();
    table.message(&event(LATEST, "homie/5/lamp/a/on/set", false, "true")).unwrap();
    let lane = |lane| table.lane("lamp", "a", "on", lane).unwrap();
    assert_eq!(lane(Lane::Value), Some(Held { time: LATE + 1, payload: b"true" }));
    assert_eq!(lane(Lane::Target), Some(Held { time: LATE + 2, payload: b"false" }));
    assert_eq!(lane(Lane::Asked), Some(Held { time: LATEST, payload: b"true" }));
    assert_eq!((table.values_held("lamp"), table.last_time()), (Ok(1), Some(LATEST)));
    assert_eq!(table.states("lamp"), Ok(States { own: State::Ready, effective: State::Ready, time: LATE }));
}

#[test]
fn refused_messages_alter_nothing() {
    let mut table = lamp(3);
    table.message(&event(LATE, "homie/5/plug/$state", true, "ready")).unwrap();
    let refused = [
        (event(LATE - 1, "homie/5/lamp/a/on", true, "true"), Refusal::Earlier),
        (event(LATE, "other/5/lamp/a/on", true, "true"), Refusal::OtherDomain),
        (event(LATE, "homie/5/lamp/a", true, "true"), Refusal::NoForm),
        (Event { payload: b"\xff", ..event(LATE, "homie/5/lamp/a/on", true, "") }, Refusal::NotUtf8),
        (event(LATE, "homie/5/lamp/a/on/set", true, "true"), Refusal::WrongFlag),
        (event(LATE, "homie/5/fan/a/on", true, "true"), Refusal::NoDevice),
        (event(LATE, "homie/5/fan/$state", true, "ready"), Refusal::Full),
        (event(LATE, "homie/5/lamp/a/on", true, "TRUE"), Refusal::BadPayload),
        (event(LATE, "homie/5/lamp/$description", true, "{"), Refusal::NotJson { place: 1 }),
        (event(LATE, "homie/5/lamp/$description", true, " []"), Refusal::WrongKind { place: 1 }),
        (event(LATE, "homie/5/lamp/$description", true, "{}"), Refusal::FieldMissing { place: 1 }),
        (
            event(LATE, "homie/5/lamp/$description", true, r#"{"name":"","name":0}"#),
            Refusal::NameRepeated { place: 11 },
        ),
        (event(LATE, "homie/5/lamp/$description", true, r#"{"homie":"4.0"}"#), Refusal::RuleBroken { place: 9 }),
        (event(LATE, "homie/5/lamp/a/off", true, "true"), Refusal::NoProperty),
        (event(LATE, "homie/5/lamp/b/mode/set", false, "low"), Refusal::NotSettable),
    ];
    let before = table.as_bytes().to_vec();
    for (event, refusal) in refused {
        assert_eq!(table.message(&event), Err(refusal));
        assert!(table.as_bytes() == before, "{refusal}");
    }
}

#[test]
fn steps_back_to_the_empty_table() {
    let mut table = lamp(64);
    table.message(&event(LATE + 1, "homie/5/lamp/a/on", true, "true")).unwrap();
    assert_eq!(table.steps(), 3);
    table.step_back().unwrap();
    assert_eq!(table.lane("lamp", "a", "on", Lane::Value), Ok(None));
    table.step_back().unwrap();
    assert_eq!(table.lane("lamp", "a", "on", Lane::Value), Err(Refusal::NoProperty));
    table.step_back().unwrap();
    assert_eq!(table.states("lamp"), Err(Refusal::NoDevice));
    assert_eq!((table.device_count(), table.devices().count(), table.last_time(), table.steps()), (0, 0, None, 0));
    let before = table.as_bytes().to_vec();
    assert_eq!(table.step_back(), Err(Refusal::NoStep));
    assert!(table.as_bytes() == before);
}

#[test]
fn openings() {
    let size = |devices, depth| Table::open("homie", devices, depth).map(|table| table.into_bytes().len());
    assert_eq!(size(1, 0), Ok(16_384));
    assert_eq!(size(64, 64), Ok(1_056_768));
    for (devices, depth) in [(0, 0), (65, 0), (1, 65), (usize::MAX, usize::MAX), (usize::MAX, 0), (1, usize::MAX)] {
        assert_eq!(size(devices, depth), Err(Refusal::BadOpening));
    }
    for domain in ["", "Homie", "h\u{f6}me", &"a".repeat(33)] {
        assert_eq!(Table::open(domain, 1, 0).err(), Some(Refusal::BadOpening));
    }
    assert!(Table::open(&"a".repeat(32), 1, 0).is_ok());
}

#[test]
fn the_largest_table_fills_and_empties() {
    let mut table = Table::open("homie", 64, 64).unwrap();
    let topics: Vec<_> = (0..64).map(|i| format!("homie/5/d{i:02}/$state")).collect();
    for (time, topic) in (LATE..).zip(topics.iter().rev()) {
        table.message(&event(time, topic, true, "init")).unwrap();
    }
    let new = event(LATEST, "homie/5/d64/$state", true, "init");
    assert_eq!((table.device_count(), table.steps(), table.message(&new)), (64, 64, Err(Refusal::Full)));
    assert!(table.devices().zip(&topics).all(|(device, topic)| device.id == &topic[8..11]));
    assert_eq!(table.device_at(64), Err(Refusal::NoSuchNumber));
    for left in (0..64).rev() {
        table.step_back().unwrap();
        assert_eq!((table.device_count(), table.steps()), (left, left));
    }
}

#[test]
fn tables_kept_as_bytes() {
    let mut table = Table::from_bytes(lamp(2).into_bytes()).unwrap();
    assert_eq!((table.device_count(), table.steps(), table.version("lamp")), (1, 2, Ok(Some(i64::MIN))));
    assert_eq!(format!("{table:?}"), "Table { devices: 1, steps: 2, .. }");
    let copy = table.clone();
    table.step_back().unwrap();
    assert_eq!((copy.version("lamp"), table.version("lamp")), (Ok(Some(i64::MIN)), Ok(None)));
}

#[test]
fn damaged_memory_is_refused_or_answers() {
    let whole = lamp(2).into_bytes();
    for memory in [vec![], vec![0; 16_384], vec![255; 40_960], whole[..whole.len() - 1].to_vec()] {
        assert_eq!(Table::from_bytes(memory).err(), Some(Refusal::NotSound));
    }
    let mut refused = 0;
    for at in (0..whole.len()).step_by(7) {
        let mut memory = whole.clone();
        memory[at] ^= 0x55;
        match Table::from_bytes(memory) {
            Ok(table) => use_up(table),
            Err(refusal) => {
                assert_eq!(refusal, Refusal::NotSound);
                refused += 1;
            }
        }
    }
    assert!(refused > 0);
}

#[test]
fn ids_that_are_no_text_are_cut() {
    let mut memory = lamp(0).into_bytes();
    let at = 8192 + memory[8192..].windows(4).position(|bytes| bytes == b"lamp").unwrap();
    memory[at + 2] = 0xff;
    let table = Table::from_bytes(memory).unwrap();
    assert_eq!((table.device_count(), table.device_at(0), table.devices().count()), (1, Ok("la"), 0));
}

#[test]
fn properties_with_ids_that_are_no_text_are_passed_over() {
    let mut memory = lamp(0).into_bytes();
    let at = 8192 + memory[8192..].windows(5).position(|bytes| bytes == b"level").unwrap();
    memory[at + 2] = 0xff;
    let table = Table::from_bytes(memory).unwrap();
    let lamp = table.device("lamp").unwrap();
    assert_eq!(table.properties("lamp").map(|property| property.id).collect::<Vec<_>>(), ["le", "on", "mode"]);
    assert_eq!(lamp.properties().map(|(property, _)| property.id).collect::<Vec<_>>(), ["on", "mode"]);
}

/// Sends a message, then steps back as far as it goes, and asks everything at each place.
fn use_up(mut table: Table) {
    let _ = table.message(&event(LATEST, "homie/5/lamp/a/on", true, "true"));
    questions(&table);
    while table.step_back().is_ok() {
        questions(&table);
    }
}

/// Asks everything; what is answered is not looked at.
fn questions(table: &Table) {
    for id in (0..).map_while(|i| table.device_at(i).ok()) {
        let _ = (table.states(id), table.root(id), table.parent(id), table.version(id), table.values_held(id));
        for property in table.properties(id) {
            for lane in Lane::ALL {
                let _ = table.lane(id, property.node, property.id, *lane);
            }
        }
    }
    let _ = table.devices().flat_map(|device| device.properties()).count();
    let _ = (table.last_time(), table.steps());
}
