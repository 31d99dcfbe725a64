//! The nine forms of a topic.

use crate::call;
use crate::named::named;
use crate::values::Values;
use crate::Refusal;

/// A topic read: its form, and its parts by name. Those that are IDs, or words, are text.
///
/// ```
/// use homie5::{topic::Topic, Refusal};
///
/// let set = Topic::Set { device: "lamp", node: "light", property: "on" };
/// assert_eq!(Topic::read("homie", b"homie/5/lamp/light/on/set"), Ok(set));
/// assert_eq!(Topic::read("homie", b"homie/5/lamp/$log/trace"), Err(Refusal::NoForm));
/// assert_eq!(Topic::read("other", b"homie/5/lamp/$state"), Err(Refusal::OtherDomain));
/// ```
#[allow(missing_docs)]
#[derive(Clone, Copy, Debug, PartialEq, Eq, Hash)]
#[non_exhaustive]
pub enum Topic<'a> {
    /// `ID/$state`
    State { device: &'a str },
    /// `ID/$description`
    Description { device: &'a str },
    /// `ID/ID/ID`
    Value { device: &'a str, node: &'a str, property: &'a str },
    /// `ID/ID/ID/set`
    Set { device: &'a str, node: &'a str, property: &'a str },
    /// `ID/ID/ID/$target`
    Target { device: &'a str, node: &'a str, property: &'a str },
    /// `ID/$alert/ID`
    Alert { device: &'a str, name: &'a str },
    /// `ID/$log/level`: `debug`, `info`, `warn`, `error` or `fatal`
    Log { device: &'a str, level: &'a str },
    /// `$broadcast/` and one or more IDs, from the first to the last one's end
    Broadcast { ids: &'a str },
    /// `ID/$ID`, then any number of levels; `word` is the ID after `$`, `levels` all behind its slash
    Other { device: &'a str, word: &'a str, levels: &'a [u8] },
    /// A form whose number this version of the crate does not name
    #[non_exhaustive]
    Unknown { form: u8 },
}

impl<'a> Topic<'a> {
    /// Reads a topic of the table of a domain. Refuses with `OtherDomain`, `NoForm`.
    pub fn read(domain: &str, topic: &'a [u8]) -> Result<Topic<'a>, Refusal> {
        Ok(Topic::shown(&call::topic_read(domain, topic)?, topic))
    }

    fn shown(values: &Values, topic: &'a [u8]) -> Topic<'a> {
        // values are read as places where the form has them: what another form shows is not known
        let id = |at| values.id(at, topic);
        match values.one_of(0, |form| form) {
            0 => Topic::State { device: id(1) },
            1 => Topic::Description { device: id(1) },
            2 => Topic::Value { device: id(1), node: id(3), property: id(5) },
            3 => Topic::Set { device: id(1), node: id(3), property: id(5) },
            4 => Topic::Target { device: id(1), node: id(3), property: id(5) },
            5 => Topic::Alert { device: id(1), name: id(3) },
            6 => Topic::Log { device: id(1), level: id(3) },
            7 => Topic::Broadcast { ids: id(1) },
            8 => Topic::Other { device: id(1), word: id(3), levels: values.part(5, topic) },
            form => Topic::Unknown { form },
        }
    }
}

named! {
    /// What the form of a topic asks of a message's flag.
    ///
    /// ```
    /// use homie5::topic::Flag;
    ///
    /// assert_eq!(Flag::of("homie", b"homie/5/lamp/light/on/set"), Ok(Flag::NotRetained));
    /// assert_eq!(Flag::of("homie", b"homie/5/lamp/light/on"), Ok(Flag::AsProperty));
    /// ```
    Flag {
        NotRetained = 0 "not retained"
        Retained = 1 "retained"
        Either = 2 "either"
        AsProperty = 3 "as the property says"
    }
}

impl Flag {
    /// Reads a topic of the table of a domain for its flag alone. Refuses with `OtherDomain`, `NoForm`.
    pub fn of(domain: &str, topic: &[u8]) -> Result<Flag, Refusal> {
        Ok(call::topic_flag(domain, topic)?.one_of(0, Flag::from_number))
    }
}

#[cfg(test)]
mod tests {
    use super::*;
    use crate::values::ask;

    /// What is shown of an answer to a topic of 5 bytes that has a form and these values behind it.
    fn shown(form: u64, behind: [u64; 8]) -> Topic<'static> {
        let answer = |out: &mut [u64]| {
            out[0] = form;
            out[1..].copy_from_slice(&behind);
            0
        };
        Topic::shown(&ask(answer).unwrap(), b"homie")
    }

    #[test]
    fn a_form_without_a_name_shows_no_place() {
        assert_eq!(shown(9, [u64::MAX; 8]), Topic::Unknown { form: 9 });
        assert_eq!(shown(u64::MAX, [7, 3, 5, 4, 3, 2, 1, 0]), Topic::Unknown { form: 255 });
    }

    #[test]
    fn a_form_shows_no_more_places_than_it_has() {
        let behind = [0, 5, 9, 8, 7, 6, 5, 4];
        assert_eq!(shown(0, behind), Topic::State { device: "homie" });
        assert_eq!(shown(7, behind), Topic::Broadcast { ids: "homie" });
    }
}
