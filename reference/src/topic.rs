//! The nine forms of topics.

use crate::refusal::{Refusal, FIRST_LEVELS, NO_FORM};
use crate::text::is_id;

#[derive(Clone, Copy, Debug, PartialEq, Eq)]
pub enum Form {
    State,
    Description,
    Value,
    Set,
    Target,
    Alert,
    Log,
    Broadcast,
    Other,
}

impl Form {
    pub fn word(self) -> &'static str {
        match self {
            Form::State => "state",
            Form::Description => "description",
            Form::Value => "value",
            Form::Set => "set",
            Form::Target => "target",
            Form::Alert => "alert",
            Form::Log => "log",
            Form::Broadcast => "broadcast",
            Form::Other => "other",
        }
    }

    /// The flag that the form itself fixes, if it does.
    pub fn fixed_flag(self) -> Option<bool> {
        match self {
            Form::State | Form::Description | Form::Target | Form::Alert => Some(true),
            Form::Set => Some(false),
            Form::Value | Form::Log | Form::Broadcast | Form::Other => None,
        }
    }
}

/// A form and its IDs: the device first, then node and property, or the
/// alert's ID.
#[derive(Clone, Debug, PartialEq, Eq)]
pub struct Topic {
    pub form: Form,
    pub ids: Vec<Vec<u8>>,
}

impl Topic {
    fn new(form: Form, ids: &[&[u8]]) -> Topic {
        Topic { form, ids: ids.iter().map(|id| id.to_vec()).collect() }
    }
}

const LOG_LEVELS: [&[u8]; 5] = [b"debug", b"info", b"warn", b"error", b"fatal"];
const NOT_OTHER: [&[u8]; 4] = [b"$state", b"$description", b"$alert", b"$log"];

/// Reads a topic for a domain: 8 when the first two levels differ, 9 when the
/// rest has no form. Whether the domain is an ID is judged where a table is
/// opened.
pub fn read(domain: &[u8], topic: &[u8]) -> Result<Topic, Refusal> {
    let levels: Vec<&[u8]> = topic.split(|&b| b == b'/').collect();
    match levels.as_slice() {
        [first, b"5", rest @ ..] if *first == domain => read_rest(rest).ok_or(NO_FORM),
        _ => Err(FIRST_LEVELS),
    }
}

fn read_rest(rest: &[&[u8]]) -> Option<Topic> {
    match rest {
        [b"$broadcast", words @ ..] => read_broadcast(words),
        [device, words @ ..] if is_id(device) => read_of_device(device, words),
        _ => None,
    }
}

fn read_broadcast(words: &[&[u8]]) -> Option<Topic> {
    let good = !words.is_empty() && words.iter().all(|word| is_id(word));
    good.then(|| Topic::new(Form::Broadcast, &[]))
}

fn read_of_device(device: &[u8], words: &[&[u8]]) -> Option<Topic> {
    let topic = match words {
        [b"$state"] => Topic::new(Form::State, &[device]),
        [b"$description"] => Topic::new(Form::Description, &[device]),
        [b"$alert", alert] if is_id(alert) => Topic::new(Form::Alert, &[device, alert]),
        [b"$log", level] if LOG_LEVELS.contains(level) => Topic::new(Form::Log, &[device]),
        [node, property, last @ ..] if is_id(node) && is_id(property) => {
            Topic::new(property_form(last)?, &[device, node, property])
        }
        [first, last @ ..] if is_other(first, last) => Topic::new(Form::Other, &[device]),
        _ => return None,
    };
    Some(topic)
}

fn property_form(last: &[&[u8]]) -> Option<Form> {
    match last {
        [] => Some(Form::Value),
        [b"set"] => Some(Form::Set),
        [b"$target"] => Some(Form::Target),
        _ => None,
    }
}

fn is_other(first: &[u8], last: &[&[u8]]) -> bool {
    first.first() == Some(&b'$')
        && is_id(&first[1..])
        && !NOT_OTHER.contains(&first)
        && last.iter().all(|level| !level.is_empty())
}

#[cfg(test)]
mod tests {
    use super::*;

    fn line(topic: &str) -> String {
        match read(b"homie", topic.as_bytes()) {
            Err(refusal) => format!("refused {refusal}"),
            Ok(topic) => {
                let mut words = vec![topic.form.word().to_string()];
                words.extend(topic.ids.iter().map(|id| String::from_utf8_lossy(id).to_string()));
                words.join(" ")
            }
        }
    }

    #[test]
    fn every_form() {
        assert_eq!(line("homie/5/lamp/$state"), "state lamp");
        assert_eq!(line("homie/5/lamp/$description"), "description lamp");
        assert_eq!(line("homie/5/lamp/light/on"), "value lamp light on");
        assert_eq!(line("homie/5/lamp/light/set"), "value lamp light set");
        assert_eq!(line("homie/5/lamp/light/on/set"), "set lamp light on");
        assert_eq!(line("homie/5/lamp/light/on/$target"), "target lamp light on");
        assert_eq!(line("homie/5/lamp/$alert/low"), "alert lamp low");
        for level in ["debug", "info", "warn", "error", "fatal"] {
            assert_eq!(line(&format!("homie/5/lamp/$log/{level}")), "log lamp");
        }
        assert_eq!(line("homie/5/$broadcast/a"), "broadcast");
        assert_eq!(line("homie/5/$broadcast/a/b/c"), "broadcast");
        assert_eq!(line("homie/5/lamp/$fw"), "other lamp");
        assert_eq!(line("homie/5/lamp/$target"), "other lamp");
        assert_eq!(line("homie/5/lamp/$broadcast/A b/$"), "other lamp");
        assert_eq!(line("homie/5/lamp/$states/x"), "other lamp");
    }

    #[test]
    fn first_two_levels() {
        for bad in ["", "homie", "/homie/5/lamp/$state", "homie/4/lamp/$state", "homi/5/a/$state", "homie/55"] {
            assert_eq!(line(bad), "refused 8", "{bad}");
        }
        assert_eq!(read(b"", b"/5/lamp/$state").unwrap().form, Form::State);
        assert_eq!(read(b"A", b"A/5/lamp/$state").unwrap().form, Form::State);
    }

    #[test]
    fn no_form() {
        let bad = [
            "homie/5",
            "homie/5/",
            "homie/5/lamp",
            "homie/5/lamp/",
            "homie/5/lamp/light",
            "homie/5/lamp//on",
            "homie/5/lamp/light/on/",
            "homie/5/lamp/light/on/get",
            "homie/5/lamp/light/on/set/x",
            "homie/5/lamp/$state/x",
            "homie/5/lamp/$description/",
            "homie/5/lamp/$alert",
            "homie/5/lamp/$alert/$x",
            "homie/5/lamp/$alert/a/b",
            "homie/5/lamp/$log",
            "homie/5/lamp/$log/trace",
            "homie/5/lamp/$log/info/x",
            "homie/5/lamp/$",
            "homie/5/lamp/$A",
            "homie/5/lamp/$fw//x",
            "homie/5/lamp/$fw/",
            "homie/5/Lamp/$state",
            "homie/5/$broadcast",
            "homie/5/$broadcast/",
            "homie/5/$broadcast/a/$b",
            "homie/5/$other/a",
        ];
        for topic in bad {
            assert_eq!(line(topic), "refused 9", "{topic}");
        }
    }

    #[test]
    fn levels_of_other_hold_any_bytes() {
        assert_eq!(read(b"h", b"h/5/a/$x/\xff\0").unwrap().form, Form::Other);
    }
}
