use crate::sys::{homie5_number, homie5_place};
use std::fmt;

/// Declares the refusals by ascending number, each with its words, those of descriptions with the place that they tell.
macro_rules! refusals {
    ($(#[$about:meta])* $($name:ident $({ $place:ident })? = $number:literal $words:literal)*) => {
        $(#[$about])*
        #[derive(Clone, Copy, Debug, PartialEq, Eq, PartialOrd, Ord, Hash)]
        #[non_exhaustive]
        pub enum Refusal {
            $(
                #[doc = $words]
                $name $({
                    /// The byte at fault, counted from 0 in the description: see [`Refusal::place`].
                    $place: usize,
                })?,
            )*
            /// A refusal that this version of the crate does not name.
            #[non_exhaustive]
            Unknown {
                /// Its number.
                number: u8,
                /// What it tells, a number of 24 bits.
                told: u32,
            },
        }

        impl Refusal {
            /// All that are named, by ascending number; those that tell a place tell 0.
            pub const ALL: &'static [Refusal] = &[$(Refusal::$name $({ $place: 0 })?),*];

            /// The refusal in what a call of the C interface returned; none where the call answers.
            pub const fn from_returned(returned: u32) -> Option<Refusal> {
                if returned == 0 {
                    return None;
                }
                Some(match homie5_number(returned) {
                    $($number => Refusal::$name $({ $place: homie5_place(returned) })?,)*
                    number => Refusal::Unknown { number, told: returned >> 8 },
                })
            }

            /// The number in the C interface.
            pub const fn number(self) -> u8 {
                match self {
                    $(Refusal::$name { .. } => $number,)*
                    Refusal::Unknown { number, .. } => number,
                }
            }

            /// The words, which `Display` shows too, with the place.
            pub const fn words(self) -> &'static str {
                match self {
                    $(Refusal::$name { .. } => $words,)*
                    Refusal::Unknown { .. } => "unknown",
                }
            }
        }
    };
}

refusals! {
    /// Why a call refuses. A refused call alters nothing.
    ///
    /// Those of descriptions tell a place: [`place`](Refusal::place) has it, and
    /// [`description::explain`](crate::description::explain) shows it in the text.
    ///
    /// ```
    /// use homie5::Refusal;
    ///
    /// assert_eq!(Refusal::BadPayload.number(), 14);
    /// assert_eq!(Refusal::NoStep.to_string(), "no step back is on offer");
    /// assert_eq!(Refusal::NoStep.place(), None);
    ///
    /// let missing = Refusal::FieldMissing { place: 14 };
    /// assert_eq!((missing.number(), missing.place()), (23, Some(14)));
    /// assert_eq!(missing.to_string(), "a required field of the description is missing, at byte 14");
    ///
    /// assert_eq!(Refusal::from_returned(0), None);
    /// assert_eq!(Refusal::from_returned(14 * 256 + 23), Some(missing));
    /// assert_eq!(Refusal::from_returned(99).unwrap().to_string(), "unknown 99");
    /// ```
    BadHeader = 1 "the header, the file's length or the used length breaks the layout of a trace"
    BadEntry = 2 "an entry breaks the layout of a trace"
    NoSuchNumber = 3 "there is no event, device or property of that number"
    TooLong = 4 "the trace does not fit the buffer or a trace's greatest length"
    BadOpening = 5 "the number of devices, the depth, the domain or the memory's size is out of its limits"
    NotSound = 6 "the memory is not a sound table"
    Earlier = 7 "the time is before the last one"
    OtherDomain = 8 "the topic's first two levels are not the domain and 5"
    NoForm = 9 "the topic has no form of the convention, or no length that a trace can hold"
    NotUtf8 = 10 "the payload is not UTF-8, or begins with a byte order mark"
    WrongFlag = 11 "the message is retained and must not be, or is not and must be"
    NoDevice = 12 "the device is not in the table"
    Full = 13 "the device is new, and the table has no room for it"
    BadPayload = 14 "the state word or the payload of the property is not valid"
    NoProperty = 16 "the device has no such property"
    NotSettable = 17 "the property is not settable"
    NoStep = 18 "no step back is on offer"
    NotJson { place } = 21 "the description is not JSON, is nested too deep or is too long"
    WrongKind { place } = 22 "a value of the description is of the wrong JSON kind"
    FieldMissing { place } = 23 "a required field of the description is missing"
    NameRepeated { place } = 24 "a known field or an ID of the description is repeated"
    RuleBroken { place } = 25 "a string, number or name of the description breaks a rule"
}

impl Refusal {
    /// The byte of the description at fault, counted from 0; none of refusals that tell no place.
    ///
    /// It is that of a value or a number's first byte, of the opening quote of a string or name, of the closing brace of an
    /// object that lacks a field, of the backslash of half a surrogate pair. Of [`NotJson`](Refusal::NotJson) it is the length of a text that ends too early, and
    /// 8,192 in a text that is longer.
    pub const fn place(self) -> Option<usize> {
        match self {
            Refusal::NotJson { place }
            | Refusal::WrongKind { place }
            | Refusal::FieldMissing { place }
            | Refusal::NameRepeated { place }
            | Refusal::RuleBroken { place } => Some(place),
            _ => None,
        }
    }
}

impl fmt::Display for Refusal {
    fn fmt(&self, f: &mut fmt::Formatter<'_>) -> fmt::Result {
        match (self, self.place()) {
            (Refusal::Unknown { number, .. }, _) => f.pad(&format!("unknown {number}")),
            (_, Some(place)) => f.pad(&format!("{}, at byte {place}", self.words())),
            (_, None) => f.pad(self.words()),
        }
    }
}

impl std::error::Error for Refusal {}
