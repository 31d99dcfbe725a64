//! Datatypes, their formats, and the payloads that they let pass.

use crate::call;
use crate::named::named;

named! {
    /// The datatype of a property.
    ///
    /// ```
    /// use homie5::payload::{Datatype, Kept};
    ///
    /// assert_eq!(Datatype::from_name("integer"), Some(Datatype::Integer));
    /// assert_eq!(Datatype::from_name("Integer"), None);
    ///
    /// assert_eq!(Datatype::Integer.judge_format(Some(b"2:6:2")), Some(Kept::AsGiven));
    /// assert!(Datatype::Integer.is_payload(Some(b"2:6:2"), b"1"));
    /// assert!(!Datatype::Integer.is_payload(Some(b"2:6:2"), b"0"));
    ///
    /// assert!(Datatype::Color.is_payload(Some(b"rgb"), b"rgb,0,255,1e2"));
    /// assert!(!Datatype::Color.is_payload(Some(b"xyz"), b"xyz,1.01,0"));
    /// assert!(!Datatype::Datetime.is_payload(None, b"2023-02-29T00:00:00Z"));
    /// ```
    Datatype {
        String = 0 "string"
        Integer = 1 "integer"
        Float = 2 "float"
        Boolean = 3 "boolean"
        Enum = 4 "enum"
        Color = 5 "color"
        Datetime = 6 "datetime"
        Duration = 7 "duration"
        Json = 8 "json"
    }
}

impl Datatype {
    /// The datatype of a name, which is its words.
    pub fn from_name(name: &str) -> Option<Datatype> {
        Some(call::is_datatype(name)?.one_of(0, Datatype::from_number))
    }

    /// What is kept of a format, or of a missing one; none where it is not valid, or may not be missing.
    pub fn judge_format(self, format: Option<&[u8]>) -> Option<Kept> {
        Some(call::is_format(self.number(), format)?.one_of(0, Kept::from_number))
    }

    /// Whether a payload is valid for a property of this datatype with a format, or with none. No payload is where
    /// [`judge_format`](Datatype::judge_format) gives none. The kept format of a [`Property`](crate::Property) is such a
    /// format, the empty one too.
    ///
    /// ```
    /// use homie5::payload::Datatype;
    ///
    /// assert!(Datatype::Integer.is_payload(None, b"-7"));
    /// assert!(Datatype::Boolean.is_payload(None, b"true"));
    /// assert!(!Datatype::Integer.is_payload(Some(b""), b"-7"), "`:` is a format of integers, the empty string is none");
    /// assert!(!Datatype::Enum.is_payload(None, b"low"), "the format of an enum may not be missing");
    /// ```
    pub fn is_payload(self, format: Option<&[u8]>, payload: &[u8]) -> bool {
        call::is_payload(self.number(), format, payload)
    }
}

named! {
    /// What is kept of a format.
    ///
    /// ```
    /// use homie5::payload::{Datatype, Kept};
    ///
    /// let missing = Datatype::Float.judge_format(None);
    /// assert_eq!(missing, Some(Kept::Colon));
    /// assert_eq!(missing.map(|kept| kept.of(b"")), Some(&b":"[..]));
    /// assert_eq!(Datatype::Enum.judge_format(None), None);
    /// assert_eq!(Kept::AsGiven.of(b"low,high"), b"low,high");
    /// ```
    Kept {
        AsGiven = 0 "its own bytes"
        Colon = 1 "`:`"
        FalseTrue = 2 "`false,true`"
        Nothing = 3 "nothing"
    }
}

impl Kept {
    /// The bytes kept of a format; none where this is `Unknown`.
    pub fn of(self, format: &[u8]) -> &[u8] {
        match self {
            Kept::AsGiven => format,
            Kept::Colon => b":",
            Kept::FalseTrue => b"false,true",
            Kept::Nothing | Kept::Unknown(_) => b"",
        }
    }
}
