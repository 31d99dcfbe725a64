//! JSON texts as in RFC 8259, with a limit on nesting, and the strings in them.

use crate::description::DESCRIPTION_LIMIT;
use crate::refusal::{Refusal, NOT_JSON, OTHER_RULE, WRONG_KIND};
use crate::text::is_utf8;

/// The most arrays and objects that stand inside each other.
pub const NESTING: usize = 16;

/// A JSON value with the place of its first byte.
#[derive(Clone, Debug, PartialEq, Eq)]
pub struct Value {
    pub place: usize,
    pub kind: Kind,
}

/// What a string says, its escapes decoded; or, where half a surrogate pair
/// stands in it, the place of the first one's backslash.
pub type Text = Result<Vec<u8>, usize>;

/// Numbers are kept as sent.
#[derive(Clone, Debug, PartialEq, Eq)]
pub enum Kind {
    Null,
    Bool(bool),
    Number(Vec<u8>),
    Text(Text),
    Array(Vec<Value>),
    Object(Object),
}

#[derive(Clone, Debug, PartialEq, Eq)]
pub struct Object {
    pub members: Vec<Member>,
    /// The place of the closing brace.
    pub end: usize,
}

#[derive(Clone, Debug, PartialEq, Eq)]
pub struct Member {
    /// The place of the name's opening quote.
    pub place: usize,
    pub name: Text,
    pub value: Value,
}

impl Object {
    /// The first member of that name.
    pub fn member(&self, name: &[u8]) -> Option<&Member> {
        self.members.iter().find(|member| member.is_named(name))
    }

    /// The value of that member.
    pub fn value(&self, name: &[u8]) -> Option<&Value> {
        self.member(name).map(|member| &member.value)
    }
}

impl Member {
    /// A name with half a pair is none that one could ask for.
    pub fn is_named(&self, name: &[u8]) -> bool {
        self.name.as_deref() == Ok(name)
    }
}

impl Value {
    pub fn text(&self) -> Option<&Text> {
        match &self.kind {
            Kind::Text(text) => Some(text),
            _ => None,
        }
    }

    /// What a string without half a pair says.
    pub fn decoded(&self) -> Option<&[u8]> {
        self.text()?.as_deref().ok()
    }

    pub fn number(&self) -> Option<&[u8]> {
        match &self.kind {
            Kind::Number(text) => Some(text),
            _ => None,
        }
    }

    pub fn flag(&self) -> Option<bool> {
        match &self.kind {
            Kind::Bool(flag) => Some(*flag),
            _ => None,
        }
    }

    pub fn array(&self) -> Option<&[Value]> {
        match &self.kind {
            Kind::Array(items) => Some(items),
            _ => None,
        }
    }

    pub fn object(&self) -> Option<&Object> {
        match &self.kind {
            Kind::Object(object) => Some(object),
            _ => None,
        }
    }
}

/// Reads one JSON text, white space around it allowed.
pub fn read(text: &[u8]) -> Option<Value> {
    if !is_utf8(text) {
        return None;
    }
    let mut reader = Reader { text, at: 0 };
    reader.skip_space();
    let value = reader.value(NESTING)?;
    reader.skip_space();
    (reader.at == text.len()).then_some(value)
}

/// The string whose opening quote stands at a place of a text, which need not
/// be JSON nor UTF-8 elsewhere: 21 for a text that is too long, 22 at the place
/// where no string begins there and ends, or at the text's end where the place
/// is past it, 25 at the backslash of half a pair.
pub fn string_at(text: &[u8], place: usize) -> Result<Vec<u8>, Refusal> {
    if text.len() > DESCRIPTION_LIMIT {
        return Err(NOT_JSON.at(DESCRIPTION_LIMIT));
    }
    let string = Reader { text, at: place }.string().ok_or(WRONG_KIND.at(place.min(text.len())))?;
    string.map_err(|half| OTHER_RULE.at(half))
}

/// What a string is made of.
enum Piece {
    /// A byte as it stands, or one that a short escape means.
    Byte(u8),
    /// What `\u` and four digits mean, and the place of the backslash.
    Unit(u32, usize),
}

fn decode(mut pieces: &[Piece]) -> Text {
    use Piece::{Byte, Unit};
    let mut bytes = Vec::new();
    while let [first, behind @ ..] = pieces {
        pieces = behind;
        match (first, behind) {
            (Byte(byte), _) => bytes.push(*byte),
            (Unit(high @ 0xd800..=0xdbff, _), [Unit(low @ 0xdc00..=0xdfff, _), behind @ ..]) => {
                push_character(&mut bytes, 0x10000 + (high - 0xd800) * 0x400 + (low - 0xdc00));
                pieces = behind;
            }
            (Unit(0xd800..=0xdfff, place), _) => return Err(*place),
            (Unit(code, _), _) => push_character(&mut bytes, *code),
        }
    }
    Ok(bytes)
}

/// A character in UTF-8.
fn push_character(bytes: &mut Vec<u8>, code: u32) {
    let character = char::from_u32(code).expect("no surrogate, and at most 0x10ffff");
    bytes.extend(character.to_string().into_bytes());
}

struct Reader<'a> {
    text: &'a [u8],
    at: usize,
}

impl Reader<'_> {
    fn peek(&self) -> Option<u8> {
        self.text.get(self.at).copied()
    }

    fn next(&mut self) -> Option<u8> {
        let byte = self.peek()?;
        self.at += 1;
        Some(byte)
    }

    fn take(&mut self, wanted: u8) -> Option<()> {
        (self.peek()? == wanted).then(|| self.at += 1)
    }

    fn take_word(&mut self, word: &[u8]) -> Option<()> {
        self.text[self.at..].starts_with(word).then(|| self.at += word.len())
    }

    fn skip_space(&mut self) {
        while matches!(self.peek(), Some(b' ' | b'\t' | b'\n' | b'\r')) {
            self.at += 1;
        }
    }

    /// One value, with so many levels of nesting still allowed.
    fn value(&mut self, levels: usize) -> Option<Value> {
        let place = self.at;
        let kind = match self.peek()? {
            b'n' => self.take_word(b"null").map(|()| Kind::Null),
            b't' => self.take_word(b"true").map(|()| Kind::Bool(true)),
            b'f' => self.take_word(b"false").map(|()| Kind::Bool(false)),
            b'"' => self.string().map(Kind::Text),
            b'[' => self.array(levels.checked_sub(1)?).map(Kind::Array),
            b'{' => self.object(levels.checked_sub(1)?).map(Kind::Object),
            _ => self.number().map(Kind::Number),
        };
        Some(Value { place, kind: kind? })
    }

    fn array(&mut self, levels: usize) -> Option<Vec<Value>> {
        self.list(b'[', b']', |reader| reader.value(levels))
    }

    fn object(&mut self, levels: usize) -> Option<Object> {
        let members = self.list(b'{', b'}', |reader| reader.member(levels))?;
        Some(Object { members, end: self.at - 1 })
    }

    fn member(&mut self, levels: usize) -> Option<Member> {
        let place = self.at;
        let name = self.string()?;
        self.skip_space();
        self.take(b':')?;
        self.skip_space();
        Some(Member { place, name, value: self.value(levels)? })
    }

    /// Items with commas between them, inside an opening and a closing byte.
    fn list<T>(&mut self, open: u8, close: u8, item: impl Fn(&mut Self) -> Option<T>) -> Option<Vec<T>> {
        self.take(open)?;
        self.skip_space();
        let mut items = Vec::new();
        if self.take(close).is_some() {
            return Some(items);
        }
        loop {
            items.push(item(self)?);
            self.skip_space();
            if self.take(close).is_some() {
                return Some(items);
            }
            self.take(b',')?;
            self.skip_space();
        }
    }

    fn string(&mut self) -> Option<Text> {
        self.take(b'"')?;
        let mut pieces = Vec::new();
        while self.peek()? != b'"' {
            pieces.push(self.piece()?);
        }
        self.take(b'"')?;
        Some(decode(&pieces))
    }

    /// One byte of a string, or one escape. Control characters are refused.
    fn piece(&mut self) -> Option<Piece> {
        let place = self.at;
        match self.next()? {
            b'\\' => self.escape(place),
            0x00..=0x1f => None,
            byte => Some(Piece::Byte(byte)),
        }
    }

    /// What stands behind the backslash at a place.
    fn escape(&mut self, place: usize) -> Option<Piece> {
        let byte = match self.next()? {
            byte @ (b'"' | b'\\' | b'/') => byte,
            b'b' => 8,
            b't' => 9,
            b'n' => 10,
            b'f' => 12,
            b'r' => 13,
            b'u' => {
                let code = (0..4).try_fold(0, |code, _| Some(code * 16 + self.hex_digit()?))?;
                return Some(Piece::Unit(code, place));
            }
            _ => return None,
        };
        Some(Piece::Byte(byte))
    }

    fn hex_digit(&mut self) -> Option<u32> {
        char::from(self.next()?).to_digit(16)
    }

    fn number(&mut self) -> Option<Vec<u8>> {
        let start = self.at;
        let _ = self.take(b'-');
        if self.take(b'0').is_none() {
            self.digits()?;
        }
        if self.take(b'.').is_some() {
            self.digits()?;
        }
        if matches!(self.peek(), Some(b'e' | b'E')) {
            self.at += 1;
            if matches!(self.peek(), Some(b'+' | b'-')) {
                self.at += 1;
            }
            self.digits()?;
        }
        Some(self.text[start..self.at].to_vec())
    }

    /// One or more digits.
    fn digits(&mut self) -> Option<()> {
        let start = self.at;
        while self.peek().is_some_and(|b| b.is_ascii_digit()) {
            self.at += 1;
        }
        (self.at > start).then_some(())
    }
}

#[cfg(test)]
mod tests {
    use super::*;

    fn good(text: &str) -> bool {
        read(text.as_bytes()).is_some()
    }

    #[test]
    fn values() {
        let texts = [
            "null",
            " true ",
            "\t\r\n false",
            "0",
            "-0",
            "1.5e+3",
            "1E-2",
            "\"\"",
            "\"a\\u00fF\\n\\/\"",
            "[]",
            "{}",
            "[ 1 , [ ] ]",
            "{ \"a\" : 1 , \"a\" : { } }",
            "\"\u{7f}é\"",
            "\"\\ud800\"",
            "123456789012345678901234567890",
        ];
        for text in texts {
            assert!(good(text), "{text}");
        }
    }

    #[test]
    fn no_values() {
        let texts = [
            "",
            " ",
            "nul",
            "True",
            "01",
            "-",
            "1.",
            ".5",
            "+1",
            "1e",
            "1e+",
            "--1",
            "\"",
            "\"\\x\"",
            "\"\\u12g4\"",
            "\"\u{1f}\"",
            "\"\n\"",
            "[",
            "]",
            "[1,]",
            "[,1]",
            "[1 2]",
            "{",
            "{\"a\"}",
            "{\"a\":}",
            "{\"a\":1,}",
            "{a:1}",
            "{1:1}",
            "[] []",
            "\u{feff}[]",
            "\u{b}[]",
            "[1}",
            "0x1",
            "1-",
            "'a'",
        ];
        for text in texts {
            assert!(!good(text), "{text}");
        }
        assert!(read(b"[\"\xff\"]").is_none());
        assert!(read(b"[\"\xed\xa0\x80\"]").is_none());
    }

    #[test]
    fn places() {
        let value = read(b" {\"a\" : [1, \"\xc3\xa9\",{ }] ,\"b\":-2}").unwrap();
        let object = value.object().unwrap();
        assert_eq!((value.place, object.end), (1, 29));
        let members: Vec<(usize, usize)> = object.members.iter().map(|m| (m.place, m.value.place)).collect();
        assert_eq!(members, [(2, 8), (23, 27)]);
        let items = object.value(b"a").unwrap().array().unwrap();
        assert_eq!(items.iter().map(|item| item.place).collect::<Vec<usize>>(), [9, 12, 17]);
        assert_eq!(items[2].object().unwrap().end, 19);
    }

    /// What a string of these contents says.
    fn says(contents: &str) -> Text {
        match read(format!("\"{contents}\"").as_bytes()).unwrap().kind {
            Kind::Text(text) => text,
            kind => panic!("{kind:?}"),
        }
    }

    #[test]
    fn strings_are_decoded() {
        let texts = [
            ("", ""),
            ("aé😀", "aé😀"),
            (r#"\"\\\/\b\f\n\r\t"#, "\"\\/\u{8}\u{c}\n\r\t"),
            (r"\u0000", "\0"),
            (r"\u0041\u007f\u0080\u07ff", "A\u{7f}\u{80}\u{7ff}"),
            (r"\u00b0\u00B0\u0800", "°°\u{800}"),
            (r"\ud7ff\ue000\uffff\uFeFf", "\u{d7ff}\u{e000}\u{ffff}\u{feff}"),
            (r"\ud83d\ude00\uD83D\uDE00", "😀😀"),
            (r"\ud800\udc00\uDBFF\uDFFF", "\u{10000}\u{10ffff}"),
            (r"x\u005Cu0041y", "x\\u0041y"),
            (r"\\ud800", r"\ud800"),
        ];
        for (contents, said) in texts {
            assert_eq!(says(contents), Ok(said.as_bytes().to_vec()), "{contents}");
        }
    }

    /// Places count from the opening quote here.
    #[test]
    fn half_a_pair() {
        let halves = [
            (r"\ud800", 1),
            (r"a\udfff", 2),
            (r"\udc00\ud800", 1),
            (r"\uD800\uD800\uDC00", 1),
            (r"\ud800\udc00\udc00", 13),
            (r"\ud83dx\ude00", 1),
            (r"\ud83d\\ude00", 1),
            (r"\ud83d\n\ude00", 1),
            (r"\ud83d\u0041", 1),
            (r"\n\u0041é\udbff", 11),
            (r"\\\ud800", 3),
        ];
        for (contents, place) in halves {
            assert_eq!(says(contents), Err(place), "{contents}");
        }
    }

    #[test]
    fn names_are_found_by_what_they_say() {
        let value = read(br#"{"\ud800":1,"\u0061":2,"a":3,"\ud800":4}"#).unwrap();
        let object = value.object().unwrap();
        assert_eq!(object.value(b"a").map(|value| value.place), Some(21));
        assert_eq!(object.value(b"\\u0061"), None);
        assert_eq!(object.members[3].name, Err(30));
        assert!(!object.members[3].is_named(b"\\ud800"));
    }

    #[test]
    fn a_string_at_a_place() {
        let at = |text: &str, place: usize| string_at(text.as_bytes(), place);
        let no_string = |place: usize| Err(WRONG_KIND.at(place));
        assert_eq!(at(r#"{"a\u00b0":1}"#, 1), Ok("a°".as_bytes().to_vec()));
        assert_eq!(at(r#"  """#, 2), Ok(Vec::new()));
        assert_eq!(at(r#"{"a":1}"#, 0), no_string(0));
        assert_eq!(at(r#"{"a":1}"#, 2), no_string(2));
        assert_eq!(at(r#"{"a":1}"#, 7), no_string(7));
        assert_eq!(at("", 0), no_string(0));
        assert_eq!(at(r#""""#, usize::MAX), no_string(2));
        // From the closing quote on, and from one behind a backslash.
        assert_eq!(at(r#"{"a":"b"}"#, 3), Ok(b":".to_vec()));
        assert_eq!(at(r#"{"a":1}"#, 3), no_string(3));
        assert_eq!(at(r#""a\"b""#, 3), Ok(b"b".to_vec()));
        // What does not end, or has what no string may have.
        for text in ["\"", "\"a", "\"a\\\"", "\"\\x\"", "\"\\u00g0\"", "\"\\u00\"", "\"\n\"", "\"\u{1f}\""] {
            assert_eq!(at(text, 0), no_string(0), "{text}");
        }
        // The text around it is not looked at, nor is UTF-8.
        assert_eq!(string_at(b"}\xff\"\xc3\x80\x7f\"\"\\", 2), Ok(b"\xc3\x80\x7f".to_vec()));
        // Half a pair; a string that does not end has none.
        assert_eq!(at(r#"["\\\n\ud800\ud800"]"#, 1), Err(OTHER_RULE.at(6)));
        assert_eq!(at(r#"["\ud800"#, 1), no_string(1));
    }

    #[test]
    fn a_text_that_is_too_long_has_no_string() {
        let text = |length: usize| [b"\"a\"".to_vec(), vec![b' '; length - 3]].concat();
        assert_eq!(string_at(&text(8192), 0), Ok(b"a".to_vec()));
        assert_eq!(string_at(&text(8193), 0), Err(NOT_JSON.at(8192)));
        assert_eq!(string_at(&text(8193), 1), Err(NOT_JSON.at(8192)));
        let whole = [&b"\""[..], &[b'a'; 8190], b"\""].concat();
        assert_eq!(string_at(&whole, 0).map(|said| said.len()), Ok(8190));
    }

    #[test]
    fn nesting() {
        assert!(good(&("[".repeat(16) + &"]".repeat(16))));
        assert!(!good(&("[".repeat(17) + &"]".repeat(17))));
        assert!(good(&("{\"a\":".repeat(15) + "[1]" + &"}".repeat(15))));
        assert!(!good(&("{\"a\":".repeat(16) + "[1]" + &"}".repeat(16))));
    }
}
