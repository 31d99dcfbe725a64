//! The refusals of the papers: a number, and what it tells beside it.

use std::fmt;

#[derive(Clone, Copy, Debug, PartialEq, Eq)]
pub struct Refusal {
    pub number: u8,
    /// The byte at fault, for the refusals that tell one.
    pub place: Option<usize>,
}

impl Refusal {
    const fn numbered(number: u8) -> Refusal {
        Refusal { number, place: None }
    }

    /// The same refusal, told at a place.
    pub const fn at(self, place: usize) -> Refusal {
        Refusal { place: Some(place), ..self }
    }
}

/// The number, then the place if there is one.
impl fmt::Display for Refusal {
    fn fmt(&self, f: &mut fmt::Formatter) -> fmt::Result {
        write!(f, "{}", self.number)?;
        self.place.map_or(Ok(()), |place| write!(f, " {place}"))
    }
}

/// The number of an answer, 0 where nothing is refused.
pub fn number_of<T>(answer: &Result<T, Refusal>) -> u8 {
    answer.as_ref().err().map_or(0, |refusal| refusal.number)
}

pub const HEADER: Refusal = Refusal::numbered(1);
pub const ENTRY: Refusal = Refusal::numbered(2);
pub const NUMBER: Refusal = Refusal::numbered(3);
pub const TOO_LONG: Refusal = Refusal::numbered(4);
pub const OPENING: Refusal = Refusal::numbered(5);
pub const NOT_SOUND: Refusal = Refusal::numbered(6);
pub const TIME: Refusal = Refusal::numbered(7);
pub const FIRST_LEVELS: Refusal = Refusal::numbered(8);
pub const NO_FORM: Refusal = Refusal::numbered(9);
pub const NOT_UTF8: Refusal = Refusal::numbered(10);
pub const FLAG: Refusal = Refusal::numbered(11);
pub const NO_DEVICE: Refusal = Refusal::numbered(12);
pub const FULL: Refusal = Refusal::numbered(13);
pub const PAYLOAD: Refusal = Refusal::numbered(14);
pub const NO_PROPERTY: Refusal = Refusal::numbered(16);
pub const NOT_SETTABLE: Refusal = Refusal::numbered(17);
pub const NO_STEP: Refusal = Refusal::numbered(18);
pub const NOT_JSON: Refusal = Refusal::numbered(21);
pub const WRONG_KIND: Refusal = Refusal::numbered(22);
pub const MISSING: Refusal = Refusal::numbered(23);
pub const REPEATED: Refusal = Refusal::numbered(24);
pub const OTHER_RULE: Refusal = Refusal::numbered(25);

/// All of them.
pub const ALL: [Refusal; 22] = [
    HEADER,
    ENTRY,
    NUMBER,
    TOO_LONG,
    OPENING,
    NOT_SOUND,
    TIME,
    FIRST_LEVELS,
    NO_FORM,
    NOT_UTF8,
    FLAG,
    NO_DEVICE,
    FULL,
    PAYLOAD,
    NO_PROPERTY,
    NOT_SETTABLE,
    NO_STEP,
    NOT_JSON,
    WRONG_KIND,
    MISSING,
    REPEATED,
    OTHER_RULE,
];
