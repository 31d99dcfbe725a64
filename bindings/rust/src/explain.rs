use crate::Refusal;
use std::fmt;

/// The most bytes of a description, and its deepest nesting.
const LONGEST: usize = 8192;
const DEEPEST: usize = 16;

/// The most characters of a line that are shown, and how many of them stand before the place in a longer line.
const WINDOW: usize = 72;
const BEFORE: usize = 48;

/// What a tab is shown as.
const TAB: &str = "    ";

/// Why a description is refused and where, for whoever wrote it: `Display` shows the line with a mark under the place.
///
/// ```
/// use homie5::description::{explain, judge};
///
/// let text = br#"{
///   "homie": "5.0",
///   "version": 1.5
/// }"#;
/// let refusal = judge("lamp", text).unwrap_err();
/// let explanation = explain(text, refusal);
/// assert_eq!((explanation.line(), explanation.column()), (Some(3), Some(14)));
/// assert_eq!(
///     explanation.to_string().lines().skip(1).collect::<Vec<_>>(),
///     [
///         r#"3 |   "version": 1.5"#,
///         r#"  |              ^"#,
///     ]
/// );
/// ```
#[derive(Clone, Debug, PartialEq, Eq)]
pub struct Explanation {
    refusal: Refusal,
    /// Of a refusal that tells a place: the sentence for it, and where it is.
    told: Option<(String, Spot)>,
}

/// A place as an editor shows it, lines and columns counted from 1.
#[derive(Clone, Debug, PartialEq, Eq)]
struct Spot {
    line: usize,
    column: usize,
    byte: usize,
    /// The line, or the part of it around the place, and how many cells of that stand before the place.
    shown: String,
    cells: usize,
}

/// Explains a refusal of the description `text`, which is also the payload of a message that was refused.
///
/// Columns count characters, and the mark stands right where each takes one cell. What is not UTF-8 and what a terminal
/// would not show is replaced by one character each, a tab by spaces. Any refusal may be given: one that tells no place is
/// shown as its words, and a place past the end as the end.
pub fn explain(text: &[u8], refusal: Refusal) -> Explanation {
    let told = refusal.place().map(|place| {
        let place = place.min(text.len());
        (sentence(text, refusal, place), Spot::of(text, place))
    });
    Explanation { refusal, told }
}

impl Explanation {
    /// The line of the place, from 1; none where the refusal tells no place.
    pub fn line(&self) -> Option<usize> {
        self.told.as_ref().map(|(_, spot)| spot.line)
    }

    /// The column of the place in characters, from 1; none where the refusal tells no place.
    pub fn column(&self) -> Option<usize> {
        self.told.as_ref().map(|(_, spot)| spot.column)
    }
}

impl fmt::Display for Explanation {
    fn fmt(&self, f: &mut fmt::Formatter<'_>) -> fmt::Result {
        let Some((sentence, Spot { line, column, byte, shown, cells })) = &self.told else {
            return self.refusal.fmt(f);
        };
        let margin = line.to_string().len();
        writeln!(f, "line {line}, column {column}, byte {byte}: refused {}: {sentence}", self.refusal.number())?;
        writeln!(f, "{line} | {shown}")?;
        write!(f, "{:margin$} | {:cells$}^", "", "")
    }
}

// Sentences

fn sentence(text: &[u8], refusal: Refusal, place: usize) -> String {
    match refusal {
        Refusal::NotJson { .. } => not_json(text, place).to_string(),
        Refusal::WrongKind { .. } => "this value is not of the JSON kind that is asked for; null never is".to_string(),
        Refusal::FieldMissing { .. } => missing(text, place),
        Refusal::NameRepeated { .. } => "this name has stood in its object before".to_string(),
        Refusal::RuleBroken { .. } => broken(text, place).to_string(),
        other => other.words().to_string(),
    }
}

/// Which of the faults that share a number it is.
fn not_json(text: &[u8], place: usize) -> &'static str {
    let (front, rest) = text.split_at(place);
    match rest {
        [] => "the text ends here, and its JSON does not",
        _ if place == LONGEST => "the description goes on behind the 8,192 bytes that it may have",
        [0xef, 0xbb, 0xbf, ..] if place == 0 => "a byte order mark stands here, which is no JSON",
        _ if !is_front_of_utf8(&text[..=place]) => "this is not UTF-8",
        [b'[' | b'{', ..] if open(front).len() == DEEPEST => "this bracket opens level 17, and 16 are the most",
        _ => "no JSON goes on like this",
    }
}

/// The same of 25: its place is a backslash of half a surrogate pair, else a quote or a number.
fn broken(text: &[u8], place: usize) -> &'static str {
    match text.get(place) {
        Some(b'\\') => "this escape is one half of a surrogate pair, and the other half does not stand beside it",
        _ => {
            "what stands here breaks a rule: that of `homie`, `version`, `datatype` or `format`, \
             of IDs, of `root` and `parent`, or of 24 properties at most"
        }
    }
}

/// Whether bytes can be the front of a text in UTF-8.
fn is_front_of_utf8(bytes: &[u8]) -> bool {
    std::str::from_utf8(bytes).map_or_else(|error| error.error_len().is_none(), |_| true)
}

/// Where the object begins that a brace ends, and what it must have. The outermost one is the device.
fn missing(text: &[u8], place: usize) -> String {
    let open = open(&text[..place]);
    let Spot { line, column, .. } = Spot::of(text, open.last().map_or(0, |at| *at));
    let must = match open.len() {
        0 | 1 => "a device has `homie` and `version`",
        _ => "a property has `datatype`, an enum or a color `format` too",
    };
    format!("the object from line {line}, column {column} on ends here and lacks a required field: {must}")
}

/// The places of the brackets that are open behind the front of a JSON text.
fn open(front: &[u8]) -> Vec<usize> {
    let (mut open, mut quoted, mut escaped) = (Vec::new(), false, false);
    for (place, byte) in front.iter().enumerate() {
        match byte {
            _ if escaped => escaped = false,
            b'\\' => escaped = quoted,
            b'"' => quoted = !quoted,
            b'[' | b'{' if !quoted => open.push(place),
            b']' | b'}' if !quoted => drop(open.pop()),
            _ => {}
        }
    }
    open
}

// Lines

impl Spot {
    /// A place of a text, or its end. A line ends with a line feed, which a carriage return may stand before.
    fn of(text: &[u8], place: usize) -> Spot {
        let is_end = |byte: &u8| *byte == b'\n';
        let start = text[..place].iter().rposition(is_end).map_or(0, |at| at + 1);
        let end = text[place..].iter().position(is_end).map(|at| place + at);
        let line = match end {
            Some(end) => text[start..end].strip_suffix(b"\r").unwrap_or(&text[start..end]),
            None => &text[start..],
        };
        let (letters, before) = letters(line, place - start);
        let (shown, cells) = window(&letters, before);
        Spot {
            line: 1 + text[..place].iter().filter(|byte| is_end(byte)).count(),
            column: 1 + before,
            byte: place,
            shown,
            cells,
        }
    }
}

/// The characters of a line, and how many of them end at a place or before it. Bytes that are not UTF-8 are one character
/// for as many as could begin one.
fn letters(line: &[u8], place: usize) -> (Vec<char>, usize) {
    let (mut letters, mut before, mut end) = (Vec::new(), 0, 0);
    let mut add = |letter: char, len: usize| {
        letters.push(letter);
        end += len;
        before += usize::from(end <= place);
    };
    for chunk in line.utf8_chunks() {
        chunk.valid().chars().for_each(|letter| add(letter, letter.len_utf8()));
        if !chunk.invalid().is_empty() {
            add(char::REPLACEMENT_CHARACTER, chunk.invalid().len());
        }
    }
    (letters, before)
}

/// The part of a line around a place, with dots where it goes on, and how many cells stand before the place.
fn window(letters: &[char], before: usize) -> (String, usize) {
    let from = before.saturating_sub(BEFORE).min(letters.len().saturating_sub(WINDOW));
    let to = letters.len().min(from + WINDOW);
    let dots = |cut: bool| if cut { "..." } else { "" };
    let shown = |part: &[char]| part.iter().map(|letter| cell(*letter)).collect::<String>();
    let front = dots(from > 0).to_string() + &shown(&letters[from..before]);
    let cells = front.chars().count();
    (front + &shown(&letters[before..to]) + dots(to < letters.len()), cells)
}

/// A character as a terminal may show it: no control, nothing without a width, nothing that turns the direction.
fn cell(letter: char) -> String {
    match letter {
        '\t' => TAB.to_string(),
        '\0'..='\x1f' => char::from_u32(0x2400 + u32::from(letter)).unwrap_or(char::REPLACEMENT_CHARACTER).to_string(),
        '\u{7f}'..='\u{9f}'
        | '\u{200b}'..='\u{200f}'
        | '\u{2028}'..='\u{202e}'
        | '\u{2060}'..='\u{206f}'
        | '\u{feff}' => char::REPLACEMENT_CHARACTER.to_string(),
        _ => letter.to_string(),
    }
}

#[cfg(test)]
mod tests {
    use super::*;

    fn rule(place: usize) -> Refusal {
        Refusal::RuleBroken { place }
    }

    /// Line and column of a place, what is shown of the line, and the mark under it.
    fn spot(text: &[u8], place: usize) -> (usize, usize, String, String) {
        let explanation = explain(text, rule(place));
        let lines: Vec<String> = explanation.to_string().lines().map(str::to_string).collect();
        let [_, shown, mark] = &lines[..] else { panic!("{lines:?}") };
        let behind = |line: &String| line.split_once(" | ").unwrap().1.to_string();
        (explanation.line().unwrap(), explanation.column().unwrap(), behind(shown), behind(mark))
    }

    fn expect(text: &[u8], place: usize, line: usize, column: usize, shown: &str, mark: &str) {
        assert_eq!(spot(text, place), (line, column, shown.to_string(), mark.to_string()), "place {place}");
    }

    #[test]
    fn a_line_with_its_mark() {
        let text = b"{\n  \"homie\": 5\n}";
        assert_eq!(
            explain(text, Refusal::WrongKind { place: 13 }).to_string(),
            "line 2, column 12, byte 13: refused 22: this value is not of the JSON kind that is asked for; null never is\n\
             2 |   \"homie\": 5\n  |            ^"
        );
        let many = [&b"\n".repeat(99)[..], b"{}"].concat();
        assert!(explain(&many, rule(100)).to_string().ends_with("\n100 | {}\n    |  ^"));
    }

    #[test]
    fn a_sentence_for_each_number() {
        let sentences = [21, 22, 23, 24, 25].map(|number| {
            let refusal = Refusal::from_returned(256 + number).unwrap();
            let said = explain(b"{}", refusal).to_string();
            let front = format!("line 1, column 2, byte 1: refused {number}: ");
            said.lines().next().unwrap().strip_prefix(&front).unwrap_or_else(|| panic!("{said}")).to_string()
        });
        for (i, sentence) in sentences.iter().enumerate() {
            assert!(!sentence.is_empty() && !sentences[..i].contains(sentence), "{sentence}");
        }
    }

    #[test]
    fn the_faults_that_share_21() {
        let said = |text: &[u8], place: usize| not_json(text, place);
        assert_eq!(said(b"{\"a\":", 5), "the text ends here, and its JSON does not");
        assert_eq!(said(b"", 0), "the text ends here, and its JSON does not");
        assert_eq!(said(&[b' '; 8192], 8192), "the text ends here, and its JSON does not");
        assert_eq!(said(&[b' '; 8193], 8192), "the description goes on behind the 8,192 bytes that it may have");
        assert_eq!(said(b"\xef\xbb\xbf{}", 0), "a byte order mark stands here, which is no JSON");
        for (text, place) in [(&b"\"\xff\""[..], 1), (b"\"\xc3\"", 2), (b"\"\xed\xa0\x80\"", 2), (b"\"\xe2\x82 \"", 3)]
        {
            assert_eq!(said(text, place), "this is not UTF-8");
        }
        let nested = |levels: usize| "[\"]\\\"\",".repeat(levels / 2) + &"{\"\":".repeat(levels - levels / 2) + "[";
        for levels in [15, 16, 17] {
            let (text, deep) = (nested(levels), levels == 16);
            assert_eq!(said(text.as_bytes(), text.len() - 1).contains("level 17"), deep, "{text}");
        }
        for (text, place) in [("{,", 1), ("nul]", 3), ("{} {", 3), ("\"\\x\"", 2), ("01", 1)] {
            assert_eq!(said(text.as_bytes(), place), "no JSON goes on like this");
        }
    }

    #[test]
    fn the_faults_that_share_25() {
        let text = br#"{"root":"a\ud800"}"#;
        assert!(broken(text, 10).contains("half of a surrogate pair"));
        for place in [8, text.len()] {
            assert!(broken(text, place).starts_with("what stands here breaks a rule"));
        }
    }

    #[test]
    fn what_an_object_lacks() {
        let said = |text: &str, place: usize| missing(text.as_bytes(), place);
        let device = "ends here and lacks a required field: a device has `homie` and `version`";
        assert_eq!(said(r#" {"a":"}"}"#, 9), format!("the object from line 1, column 2 on {device}"));
        let property =
            "ends here and lacks a required field: a property has `datatype`, an enum or a color `format` too";
        let text = "{\n \"nodes\": {\"é\": {\"properties\": {\n\"p\": {\"x\": [{}]}}}}}";
        assert_eq!(said(text, text.len() - 5), format!("the object from line 3, column 6 on {property}"));
        assert_eq!(said("}", 0), format!("the object from line 1, column 1 on {device}"));
    }

    #[test]
    fn columns_count_characters() {
        let text = "{\"é€😀\":1}".as_bytes();
        expect(text, 0, 1, 1, "{\"é€😀\":1}", "^");
        expect(text, 4, 1, 4, "{\"é€😀\":1}", "   ^");
        expect(text, 11, 1, 6, "{\"é€😀\":1}", "     ^");
        // inside a character: under it
        for place in 7..11 {
            expect(text, place, 1, 5, "{\"é€😀\":1}", "    ^");
        }
    }

    #[test]
    fn bytes_that_are_not_utf8() {
        let text = b"\"\xff\xe2\x82\"\xed\xa0";
        expect(text, 1, 1, 2, "\"\u{fffd}\u{fffd}\"\u{fffd}\u{fffd}", " ^");
        expect(text, 4, 1, 4, "\"\u{fffd}\u{fffd}\"\u{fffd}\u{fffd}", "   ^");
        expect(text, 6, 1, 6, "\"\u{fffd}\u{fffd}\"\u{fffd}\u{fffd}", "     ^");
        expect(text, 7, 1, 7, "\"\u{fffd}\u{fffd}\"\u{fffd}\u{fffd}", "      ^");
    }

    #[test]
    fn ends_of_lines() {
        let text = b"{\r\n\"a\":\r\n\n1}\r";
        expect(text, 0, 1, 1, "{", "^");
        expect(text, 1, 1, 2, "{", " ^");
        expect(text, 2, 1, 2, "{", " ^");
        expect(text, 3, 2, 1, "\"a\":", "^");
        expect(text, 7, 2, 5, "\"a\":", "    ^");
        expect(text, 9, 3, 1, "", "^");
        expect(text, 10, 4, 1, "1}\u{240d}", "^");
        expect(text, 13, 4, 4, "1}\u{240d}", "   ^");
    }

    #[test]
    fn the_end_of_the_text() {
        expect(b"", 0, 1, 1, "", "^");
        expect(b"{", 1, 1, 2, "{", " ^");
        expect(b"{\n", 2, 2, 1, "", "^");
        // and what lies past it
        expect(b"{", 9, 1, 2, "{", " ^");
        assert!(explain(b"{", rule(usize::MAX)).to_string().starts_with("line 1, column 2, byte 1: "));
    }

    #[test]
    fn tabs_and_what_a_terminal_does_not_show() {
        expect(b"\t\t\"a\": 1", 2, 1, 3, "        \"a\": 1", "        ^");
        expect(b"a\tb", 1, 1, 2, "a    b", " ^");
        expect(
            "\u{1b}[2J\0\u{7f}\u{85}\u{202e}\u{feff}x".as_bytes(),
            14,
            1,
            10,
            "␛[2J␀\u{fffd}\u{fffd}\u{fffd}\u{fffd}x",
            "         ^",
        );
    }

    #[test]
    fn long_lines_are_cut() {
        let text: String = (0..200).map(|i| char::from(b'a' + i % 26)).collect();
        let part = |from: usize, to: usize| &text[from..to];
        expect(text.as_bytes(), 0, 1, 1, &format!("{}...", part(0, 72)), "^");
        expect(text.as_bytes(), 48, 1, 49, &format!("{}...", part(0, 72)), &format!("{:48}^", ""));
        expect(text.as_bytes(), 49, 1, 50, &format!("...{}...", part(1, 73)), &format!("{:51}^", ""));
        expect(text.as_bytes(), 175, 1, 176, &format!("...{}...", part(127, 199)), &format!("{:51}^", ""));
        expect(text.as_bytes(), 199, 1, 200, &format!("...{}", part(128, 200)), &format!("{:74}^", ""));
        expect(text.as_bytes(), 200, 1, 201, &format!("...{}", part(128, 200)), &format!("{:75}^", ""));
        expect(&text.as_bytes()[..72], 72, 1, 73, part(0, 72), &format!("{:72}^", ""));
        let wide = "é".repeat(200);
        let shown = format!("...{}...", "é".repeat(72));
        expect(wide.as_bytes(), 200, 1, 101, &shown, &format!("{:51}^", ""));
    }

    #[test]
    fn every_place_has_a_mark_under_the_line() {
        let text = [&b"\t{\"\xc3\xa9\xff\": \r\n\n"[..], &[b'x'; 100], b"\xe2\x82\n\x1b\r"].concat();
        for place in 0..text.len() + 3 {
            let (line, column, shown, mark) = spot(&text, place);
            assert!((1..=4).contains(&line) && column <= 103, "place {place}");
            assert!(mark.chars().count() <= shown.chars().count() + 1, "place {place}");
        }
    }

    #[test]
    fn refusals_without_a_place_are_their_words() {
        let explanation = explain(b"{}", Refusal::NoDevice);
        assert_eq!((explanation.line(), explanation.column()), (None, None));
        assert_eq!(explanation.to_string(), Refusal::NoDevice.words());
        assert_eq!(explain(b"{}", Refusal::from_returned(999).unwrap()).to_string(), "unknown 231");
    }
}
