//! What the line programs share: words, hex and numbers.

use crate::refusal::Refusal;

/// Answers each line of the input with one line. A line that has no answer
/// gets `?`; input over the limit gets the one line `too long`.
pub fn answer_lines(input: &[u8], limit: usize, mut answer: impl FnMut(&[&str]) -> Option<String>) -> String {
    if input.len() > limit {
        return "too long\n".to_string();
    }
    let mut output = String::new();
    for line in lines(input) {
        let words = words(line);
        output += &words.and_then(|words| answer(&words)).unwrap_or("?".to_string());
        output.push('\n');
    }
    output
}

/// The lines; the last one may or may not end with a line feed.
fn lines(input: &[u8]) -> Vec<&[u8]> {
    let mut lines: Vec<&[u8]> = input.split(|&b| b == b'\n').collect();
    if lines.last().is_some_and(|line| line.is_empty()) {
        lines.pop();
    }
    lines
}

/// The words of a line, parted by one space.
fn words(line: &[u8]) -> Option<Vec<&str>> {
    Some(std::str::from_utf8(line).ok()?.split(' ').collect())
}

/// Bytes as lowercase hex, `-` for none.
pub fn bytes(word: &str) -> Option<Vec<u8>> {
    if word == "-" {
        return Some(Vec::new());
    }
    let digits: Vec<u8> = word.bytes().map(hex_digit).collect::<Option<_>>()?;
    if digits.is_empty() || !digits.len().is_multiple_of(2) {
        return None;
    }
    Some(digits.chunks(2).map(|pair| pair[0] * 16 + pair[1]).collect())
}

fn hex_digit(b: u8) -> Option<u8> {
    match b {
        b'0'..=b'9' => Some(b - b'0'),
        b'a'..=b'f' => Some(b - b'a' + 10),
        _ => None,
    }
}

pub fn hex(bytes: &[u8]) -> String {
    if bytes.is_empty() {
        return "-".to_string();
    }
    bytes.iter().map(|b| format!("{b:02x}")).collect()
}

/// Digits alone, of a value below 2^64.
pub fn number(word: &str) -> Option<u64> {
    let digits = word.bytes().all(|b| b.is_ascii_digit());
    digits.then(|| word.parse().ok()).flatten()
}

pub fn flag(word: &str) -> Option<bool> {
    match word {
        "0" => Some(false),
        "1" => Some(true),
        _ => None,
    }
}

/// IDs are ASCII.
pub fn id_text(id: &[u8]) -> String {
    String::from_utf8_lossy(id).to_string()
}

pub fn yes_or_no(answer: bool) -> String {
    if answer { "yes" } else { "no" }.to_string()
}

/// The answer, or `refused` with the number and the place if one is told.
pub fn or_refused(answer: Result<String, Refusal>) -> String {
    answer.unwrap_or_else(|refusal| format!("refused {refusal}"))
}

#[cfg(test)]
mod tests {
    use super::*;

    #[test]
    fn hex_words() {
        assert_eq!(bytes("-"), Some(vec![]));
        assert_eq!(bytes("00ff"), Some(vec![0, 255]));
        for bad in ["", "0", "0g", "FF", "--", "-0", "000", "é"] {
            assert_eq!(bytes(bad), None, "{bad}");
        }
        assert_eq!(hex(&[]), "-");
        assert_eq!(hex(&[0, 255]), "00ff");
    }

    #[test]
    fn number_words() {
        assert_eq!(number("18446744073709551615"), Some(u64::MAX));
        for bad in ["18446744073709551616", "", "-1", "+1", "1a", " 1"] {
            assert_eq!(number(bad), None, "{bad}");
        }
    }

    #[test]
    fn one_answer_for_each_line() {
        let echo = |words: &[&str]| (words.len() == 1 && !words[0].is_empty()).then(|| words[0].to_string());
        assert_eq!(answer_lines(b"", 9, echo), "");
        assert_eq!(answer_lines(b"a\n\nb", 9, echo), "a\n?\nb\n");
        assert_eq!(answer_lines(b"a b\n\xff\n", 9, echo), "?\n?\n");
        assert_eq!(answer_lines(b"a\nb\n", 4, echo), "a\nb\n");
        assert_eq!(answer_lines(b"a\nb\n", 3, echo), "too long\n");
    }
}
