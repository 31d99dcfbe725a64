//! IDs and UTF-8.

use std::ops::RangeInclusive;

/// The most bytes of an ID.
pub const ID_LIMIT: usize = 32;

/// The byte order mark in UTF-8.
pub const BYTE_ORDER_MARK: [u8; 3] = [0xef, 0xbb, 0xbf];

/// 1 to 32 bytes of `a`-`z`, `0`-`9` and `-`, in any places.
pub fn is_id(bytes: &[u8]) -> bool {
    (1..=ID_LIMIT).contains(&bytes.len()) && bytes.iter().all(|&b| is_id_byte(b))
}

fn is_id_byte(b: u8) -> bool {
    b.is_ascii_lowercase() || b.is_ascii_digit() || b == b'-'
}

/// UTF-8 as in RFC 3629, which is what the standard library accepts.
pub fn is_utf8(bytes: &[u8]) -> bool {
    std::str::from_utf8(bytes).is_ok()
}

/// The first byte at which no valid UTF-8 continuation exists, the length if
/// the text ends inside a character; none for UTF-8.
pub fn utf8_fault(bytes: &[u8]) -> Option<usize> {
    let mut awaited = Vec::new();
    for (place, &byte) in bytes.iter().enumerate() {
        match awaited.pop() {
            None => match bytes_after(byte) {
                Some(ranges) => awaited = ranges,
                None => return Some(place),
            },
            Some(range) if range.contains(&byte) => {}
            Some(_) => return Some(place),
        }
    }
    (!awaited.is_empty()).then_some(bytes.len())
}

/// The bytes that follow the first one of a character, the last of them first:
/// the table of RFC 3629, section 4.
fn bytes_after(first: u8) -> Option<Vec<RangeInclusive<u8>>> {
    let tail = || 0x80..=0xbf;
    match first {
        0x00..=0x7f => Some(vec![]),
        0xc2..=0xdf => Some(vec![tail()]),
        0xe0 => Some(vec![tail(), 0xa0..=0xbf]),
        0xe1..=0xec | 0xee..=0xef => Some(vec![tail(), tail()]),
        0xed => Some(vec![tail(), 0x80..=0x9f]),
        0xf0 => Some(vec![tail(), tail(), 0x90..=0xbf]),
        0xf1..=0xf3 => Some(vec![tail(), tail(), tail()]),
        0xf4 => Some(vec![tail(), tail(), 0x80..=0x8f]),
        0x80..=0xc1 | 0xf5..=0xff => None,
    }
}

/// What rule 10 asks of every payload.
pub fn is_message_text(bytes: &[u8]) -> bool {
    is_utf8(bytes) && !bytes.starts_with(&BYTE_ORDER_MARK)
}

#[cfg(test)]
mod tests {
    use super::*;

    #[test]
    fn ids() {
        assert!(is_id(b"-a-"));
        assert!(is_id(b"-"));
        assert!(is_id(&[b'z'; 32]));
        assert!(!is_id(&[b'z'; 33]));
        for bad in [&b""[..], b"A", b"a_b", b"a/b", b"$a", b"a ", b"\xc3\xa9"] {
            assert!(!is_id(bad));
        }
    }

    #[test]
    fn utf8() {
        for good in [&b""[..], b"a", b"\xc2\x80", b"\xed\x9f\xbf", b"\xee\x80\x80", b"\xf4\x8f\xbf\xbf", b"\0"] {
            assert!(is_message_text(good));
        }
        let bad = [
            &b"\x80"[..],
            b"\xc0\x80",
            b"\xc1\xbf",
            b"\xe0\x9f\xbf",
            b"\xed\xa0\x80",
            b"\xf0\x8f\xbf\xbf",
            b"\xf4\x90\x80\x80",
            b"\xf5\x80\x80\x80",
            b"\xe2\x82",
        ];
        for text in bad {
            assert!(!is_message_text(text));
        }
    }

    #[test]
    fn places_in_utf8() {
        let texts: [(&[u8], Option<usize>); 14] = [
            (b"", None),
            (b"a\xc3\xa9", None),
            (b"a\x80", Some(1)),
            (b"\xc0\x80", Some(0)),
            (b"\xc3", Some(1)),
            (b"\xc3a", Some(1)),
            (b"\xe0\x80\x80", Some(1)),
            (b"\xe2\x82", Some(2)),
            (b"\xe2\x82a", Some(2)),
            (b"\xed\xa0\x80", Some(1)),
            (b"\xf0\x80", Some(1)),
            (b"\xf0\x9f\x98", Some(3)),
            (b"\xf4\x90\x80\x80", Some(1)),
            (b"aa\xf5", Some(2)),
        ];
        for (text, place) in texts {
            assert_eq!(utf8_fault(text), place, "{text:02x?}");
        }
    }

    /// Bytes at the ends of the ranges in the table.
    const EDGES: [u8; 24] = [
        0x00, 0x7f, 0x80, 0x8f, 0x90, 0x9f, 0xa0, 0xbf, 0xc0, 0xc1, 0xc2, 0xdf, 0xe0, 0xe1, 0xec, 0xed, 0xee, 0xef,
        0xf0, 0xf1, 0xf3, 0xf4, 0xf5, 0xff,
    ];

    /// Whether some bytes make the text UTF-8.
    fn can_be_completed(text: &[u8], missing: usize) -> bool {
        let with = |&byte: &u8| can_be_completed(&[text, &[byte]].concat(), missing - 1);
        is_utf8(text) || missing > 0 && EDGES[2..8].iter().any(with)
    }

    /// The place is what it is said to be, for all short texts of such bytes.
    #[test]
    fn the_place_is_the_first_without_a_continuation() {
        let mut texts: Vec<Vec<u8>> = vec![Vec::new()];
        for _ in 0..4 {
            for text in &texts {
                let place = utf8_fault(text).unwrap_or(text.len());
                assert!(can_be_completed(&text[..place], 3), "{text:02x?}");
                assert!(place == text.len() || !can_be_completed(&text[..=place], 3), "{text:02x?}");
                assert_eq!(utf8_fault(text).is_none(), is_utf8(text), "{text:02x?}");
            }
            texts = texts.iter().flat_map(|text| EDGES.map(|byte| [&text[..], &[byte]].concat())).collect();
        }
    }

    #[test]
    fn the_byte_order_mark_may_not_stand_first() {
        assert!(!is_message_text(b"\xef\xbb\xbf"));
        assert!(!is_message_text(b"\xef\xbb\xbfa"));
        assert!(is_message_text(b"a\xef\xbb\xbf"));
        assert!(is_utf8(b"\xef\xbb\xbf"));
    }
}
