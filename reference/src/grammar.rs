//! The grammar of RFC 8259, byte by byte: where a text stops being one that
//! can still become JSON. Bytes from 0x80 on stand in strings alone; whether
//! they are UTF-8 is asked elsewhere.

/// What the bytes so far leave to come.
#[derive(Clone, Copy, Debug, PartialEq, Eq)]
enum Next {
    /// A value.
    Value,
    /// A value, or the end of an array that is still empty.
    FirstItem,
    /// A name, or the end of an object that is still empty.
    FirstName,
    /// A name, after a comma.
    Name,
    Colon,
    /// A value has ended: a comma or a closing bracket, if one is open.
    End,
    Text(Role),
    /// What follows a backslash.
    Escape(Role),
    /// So many hexadecimal digits.
    Hex(Role, u8),
    /// The rest of `true`, `false` or `null`.
    Word(&'static [u8]),
    Number(Digits),
}

/// What a string is.
#[derive(Clone, Copy, Debug, PartialEq, Eq)]
enum Role {
    Name,
    Value,
}

/// How far a number has come.
#[derive(Clone, Copy, Debug, PartialEq, Eq)]
enum Digits {
    Minus,
    /// A zero stands first, so no digit follows.
    Zero,
    Whole,
    Dot,
    Fraction,
    E,
    ExponentSign,
    Exponent,
}

impl Digits {
    fn may_end(self) -> bool {
        matches!(self, Digits::Zero | Digits::Whole | Digits::Fraction | Digits::Exponent)
    }

    /// With one more byte; none if it is no part of the number.
    fn with(self, byte: u8) -> Option<Digits> {
        match (self, byte) {
            (Digits::Minus, b'0') => Some(Digits::Zero),
            (Digits::Minus, b'1'..=b'9') => Some(Digits::Whole),
            (Digits::Whole, b'0'..=b'9') => Some(Digits::Whole),
            (Digits::Zero | Digits::Whole, b'.') => Some(Digits::Dot),
            (Digits::Dot | Digits::Fraction, b'0'..=b'9') => Some(Digits::Fraction),
            (Digits::Zero | Digits::Whole | Digits::Fraction, b'e' | b'E') => Some(Digits::E),
            (Digits::E, b'+' | b'-') => Some(Digits::ExponentSign),
            (Digits::E | Digits::ExponentSign | Digits::Exponent, b'0'..=b'9') => Some(Digits::Exponent),
            _ => None,
        }
    }
}

/// Takes the bytes of a text one by one.
struct Acceptor {
    /// The brackets that are open, the outermost first.
    open: Vec<u8>,
    next: Next,
}

impl Acceptor {
    fn new() -> Acceptor {
        Acceptor { open: Vec::new(), next: Next::Value }
    }

    /// Takes a byte, if some valid text goes on with it.
    fn take(&mut self, byte: u8) -> Option<()> {
        self.next = match self.next {
            Next::Text(role) => in_text(role, byte)?,
            Next::Escape(role) => in_escape(role, byte)?,
            Next::Hex(role, left) => in_hex(role, left, byte)?,
            Next::Word(rest) => in_word(rest, byte)?,
            Next::Number(digits) => match digits.with(byte) {
                Some(digits) => Next::Number(digits),
                None if digits.may_end() => self.between(Next::End, byte)?,
                None => return None,
            },
            next => self.between(next, byte)?,
        };
        Some(())
    }

    /// A byte that stands in no string, word or number yet.
    fn between(&mut self, next: Next, byte: u8) -> Option<Next> {
        match (next, byte) {
            (_, b' ' | b'\t' | b'\n' | b'\r') => Some(next),
            (Next::FirstItem, b']') | (Next::FirstName, b'}') => self.close(byte),
            (Next::Value | Next::FirstItem, _) => self.begin(byte),
            (Next::FirstName | Next::Name, b'"') => Some(Next::Text(Role::Name)),
            (Next::Colon, b':') => Some(Next::Value),
            (Next::End, b']' | b'}') => self.close(byte),
            (Next::End, b',') => self.comma(),
            _ => None,
        }
    }

    /// The first byte of a value.
    fn begin(&mut self, byte: u8) -> Option<Next> {
        match byte {
            b'[' | b'{' => {
                self.open.push(byte);
                Some(if byte == b'[' { Next::FirstItem } else { Next::FirstName })
            }
            b'"' => Some(Next::Text(Role::Value)),
            b't' => Some(Next::Word(b"rue")),
            b'f' => Some(Next::Word(b"alse")),
            b'n' => Some(Next::Word(b"ull")),
            b'-' => Some(Next::Number(Digits::Minus)),
            b'0' => Some(Next::Number(Digits::Zero)),
            b'1'..=b'9' => Some(Next::Number(Digits::Whole)),
            _ => None,
        }
    }

    fn close(&mut self, byte: u8) -> Option<Next> {
        let opening = if byte == b']' { b'[' } else { b'{' };
        if *self.open.last()? != opening {
            return None;
        }
        self.open.pop();
        Some(Next::End)
    }

    fn comma(&self) -> Option<Next> {
        Some(if *self.open.last()? == b'[' { Next::Value } else { Next::Name })
    }

    /// Whether the bytes so far are a JSON text.
    fn is_whole(&self) -> bool {
        let ended = match self.next {
            Next::Number(digits) => digits.may_end(),
            next => next == Next::End,
        };
        ended && self.open.is_empty()
    }
}

fn in_text(role: Role, byte: u8) -> Option<Next> {
    match byte {
        b'"' => Some(after_text(role)),
        b'\\' => Some(Next::Escape(role)),
        0x00..=0x1f => None,
        _ => Some(Next::Text(role)),
    }
}

fn after_text(role: Role) -> Next {
    match role {
        Role::Name => Next::Colon,
        Role::Value => Next::End,
    }
}

fn in_escape(role: Role, byte: u8) -> Option<Next> {
    match byte {
        b'"' | b'\\' | b'/' | b'b' | b'f' | b'n' | b'r' | b't' => Some(Next::Text(role)),
        b'u' => Some(Next::Hex(role, 4)),
        _ => None,
    }
}

fn in_hex(role: Role, left: u8, byte: u8) -> Option<Next> {
    let next = if left == 1 { Next::Text(role) } else { Next::Hex(role, left - 1) };
    byte.is_ascii_hexdigit().then_some(next)
}

fn in_word(rest: &'static [u8], byte: u8) -> Option<Next> {
    let (first, rest) = rest.split_first()?;
    let next = if rest.is_empty() { Next::End } else { Next::Word(rest) };
    (byte == *first).then_some(next)
}

/// The first byte at which no valid continuation exists, the length if the
/// text ends early; none for a JSON text.
pub fn first_fault(text: &[u8]) -> Option<usize> {
    let mut acceptor = Acceptor::new();
    for (place, &byte) in text.iter().enumerate() {
        if acceptor.take(byte).is_none() {
            return Some(place);
        }
    }
    (!acceptor.is_whole()).then_some(text.len())
}

/// The first bracket that opens a level past so many, if the text gets there.
pub fn too_deep(text: &[u8], levels: usize) -> Option<usize> {
    let mut acceptor = Acceptor::new();
    for (place, &byte) in text.iter().enumerate() {
        acceptor.take(byte)?;
        if acceptor.open.len() > levels {
            return Some(place);
        }
    }
    None
}

#[cfg(test)]
mod tests {
    use super::*;
    use crate::json;
    use std::collections::HashMap;

    #[test]
    fn places() {
        let texts: [(&str, Option<usize>); 45] = [
            ("", Some(0)),
            (" \n", Some(2)),
            ("1", None),
            (" 1 ", None),
            ("1 2", Some(2)),
            ("01", Some(1)),
            ("-", Some(1)),
            ("-a", Some(1)),
            ("-01", Some(2)),
            ("1.", Some(2)),
            ("1.e", Some(2)),
            ("1.5.", Some(3)),
            ("1e", Some(2)),
            ("1e+", Some(3)),
            ("1e+-", Some(3)),
            ("1E-05", None),
            ("+1", Some(0)),
            (".5", Some(0)),
            ("nul", Some(3)),
            ("nulL", Some(3)),
            ("nullx", Some(4)),
            ("True", Some(0)),
            ("\"", Some(1)),
            ("\"a", Some(2)),
            ("\"a\nb\"", Some(2)),
            ("\"\\x\"", Some(2)),
            ("\"\\", Some(2)),
            ("\"\\u12g4\"", Some(5)),
            ("\"\\u12\"", Some(5)),
            ("\"\\ud800\"", None),
            ("[", Some(1)),
            ("]", Some(0)),
            ("[1,]", Some(3)),
            ("[,1]", Some(1)),
            ("[1 2]", Some(3)),
            ("[1}", Some(2)),
            ("{", Some(1)),
            ("{a", Some(1)),
            ("{1:1}", Some(1)),
            ("{\"a\"}", Some(4)),
            ("{\"a\":}", Some(5)),
            ("{\"a\":1,}", Some(7)),
            ("{\"a\":1 \"b\"", Some(7)),
            ("[] []", Some(3)),
            ("\u{feff}[]", Some(0)),
        ];
        for (text, place) in texts {
            assert_eq!(first_fault(text.as_bytes()), place, "{text}");
        }
    }

    #[test]
    fn levels() {
        assert_eq!(too_deep(b"[[]]", 2), None);
        assert_eq!(too_deep(b"[[],[[]]]", 2), Some(5));
        assert_eq!(too_deep(b"{\"[[[\":[{\"a\":[]}]}", 2), Some(8));
        assert_eq!(too_deep(b"[x[[", 2), None);
        assert_eq!(too_deep(&[b'['; 100_000], 16), Some(16));
    }

    /// All texts of the bytes, up to a length.
    fn texts(bytes: &[u8], length: usize) -> Vec<Vec<u8>> {
        let mut all = vec![Vec::new()];
        let mut from = 0;
        for _ in 0..length {
            let end = all.len();
            for i in from..end {
                let longer = bytes.iter().map(|&byte| [&all[i][..], &[byte]].concat());
                all.extend(longer.collect::<Vec<Vec<u8>>>());
            }
            from = end;
        }
        all
    }

    /// What may complete the start of a short text.
    fn endings() -> Vec<Vec<u8>> {
        const MIDDLES: [&str; 22] = [
            "", "0", "\"", "\":0", ":0", "\"\":0", "rue", "ue", "e", "alse", "lse", "se", "ull", "ll", "l", "\\\"",
            "\\\":0", "n\"", "n\":0", "0\"", "00\"", "000\"",
        ];
        let mut all = Vec::new();
        for middle in MIDDLES {
            for end in texts(b"]}", 5) {
                all.push([middle.as_bytes(), &end].concat());
            }
        }
        all.extend(["0000\"", "00\":0}", "000\":0}", "0000\":0}"].map(|end| end.as_bytes().to_vec()));
        all
    }

    /// The place is what it is said to be: the bytes before it can be
    /// completed, and no ending completes those up to it.
    #[test]
    fn the_place_is_the_first_without_a_continuation() {
        let endings = endings();
        let mut known: HashMap<Vec<u8>, bool> = HashMap::new();
        let mut completed = |start: &[u8]| {
            let try_all = || endings.iter().any(|end| json::read(&[start, end].concat()).is_some());
            *known.entry(start.to_vec()).or_insert_with(try_all)
        };
        for (bytes, length) in
            [(&b"[]{}\":,0 "[..], 4), (b"-01.eE+ ", 4), (b"\"\\u0ag\n", 5), (b"truefalsn", 4), (b"[-1.0e,", 4)]
        {
            for text in texts(bytes, length) {
                let place = first_fault(&text).unwrap_or(text.len());
                assert!(completed(&text[..place]), "{}", String::from_utf8_lossy(&text));
                assert!(place == text.len() || !completed(&text[..=place]), "{}", String::from_utf8_lossy(&text));
                assert_eq!(first_fault(&text).is_none(), json::read(&text).is_some());
            }
        }
    }
}
