//! Judges a device description and shows what is wrong with it.
//!
//!     cargo run --example lint -- DEVICE [FILE]
//!
//! DEVICE is the device's own ID. Where no file is named, the description is read from standard input. Prints `valid`, or
//! where and why the description is refused. The exit status is 0 for a valid one, 1 for another, 2 where none was judged.

use homie5::description::{explain, judge, Explanation};
use std::io::{self, Read};
use std::process::ExitCode;

fn lint(own: &str, text: &[u8]) -> Result<(), Explanation> {
    judge(own, text).map_err(|refusal| explain(text, refusal))
}

fn is_id(text: &str) -> bool {
    let good = |byte: u8| byte.is_ascii_lowercase() || byte.is_ascii_digit() || byte == b'-';
    (1..=32).contains(&text.len()) && text.bytes().all(good)
}

/// The device's own ID, and the description.
fn arguments(words: &[String]) -> Result<(&str, Vec<u8>), String> {
    let (own, file) = match words {
        [own] => (own, None),
        [own, file] => (own, Some(file)),
        _ => return Err("usage: lint DEVICE [FILE]".to_string()),
    };
    if !is_id(own) {
        return Err(format!("`{own}` is not the ID of a device: 1 to 32 of `a` to `z`, `0` to `9` and `-`"));
    }
    let text = match file {
        Some(file) => std::fs::read(file).map_err(|error| format!("{file}: {error}"))?,
        None => standard_input().map_err(|error| format!("standard input: {error}"))?,
    };
    Ok((own, text))
}

fn standard_input() -> io::Result<Vec<u8>> {
    let mut text = Vec::new();
    io::stdin().read_to_end(&mut text)?;
    Ok(text)
}

fn main() -> ExitCode {
    let words: Vec<String> = std::env::args().skip(1).collect();
    let (own, text) = match arguments(&words) {
        Ok(given) => given,
        Err(fault) => {
            eprintln!("{fault}");
            return ExitCode::from(2);
        }
    };
    match lint(own, &text) {
        Ok(()) => {
            println!("valid");
            ExitCode::SUCCESS
        }
        Err(explanation) => {
            println!("{explanation}");
            ExitCode::from(1)
        }
    }
}

#[cfg(test)]
mod tests {
    use super::*;

    /// What is printed of a description of `lamp`, line by line.
    fn printed(text: &str) -> Vec<String> {
        let shown = lint("lamp", text.as_bytes()).map_or_else(|fault| fault.to_string(), |()| "valid".to_string());
        shown.lines().map(str::to_string).collect()
    }

    #[test]
    fn a_valid_one() {
        assert_eq!(printed("{\"homie\":\"5.0\",\"version\":1}\n"), ["valid"]);
    }

    /// A description is refused with this number, the mark at this line, column and byte.
    fn refused(text: &str, number: u8, place: [usize; 3], shown: &str, mark: &str) {
        let lines = printed(text);
        let [line, column, byte] = place;
        let front = format!("line {line}, column {column}, byte {byte}: refused {number}: ");
        assert!(lines[0].starts_with(&front), "{}", lines[0]);
        assert_eq!(lines[1..], [format!("{line} | {shown}"), format!("  | {mark}")]);
    }

    #[test]
    fn every_number() {
        refused("{\n\t\"homie\": \"5.0\",\n\t\"version\": 1,\n}\n", 21, [4, 1, 34], "}", "^");
        let shown = "    \"version\": \"1\"";
        refused("{\n\t\"homie\": \"5.0\",\n\t\"version\": \"1\"\n}\n", 22, [3, 13, 31], shown, "               ^");
        refused("{\r\n  \"homie\": \"5.0\"\r\n}\r\n", 23, [3, 1, 21], "}", "^");
        let text = r#"{"homie":"5.0","version":1,"name":"é","name":"e"}"#;
        refused(text, 24, [1, 39, 39], text, "                                      ^");
        let text = r#"{"homie":"5.0","version":1,"root":"lamp"}"#;
        refused(text, 25, [1, 35, 34], text, "                                  ^");
    }

    #[test]
    fn arguments_are_read() {
        let words = |list: &[&str]| list.iter().map(|word| word.to_string()).collect::<Vec<_>>();
        let here = concat!(env!("CARGO_MANIFEST_DIR"), "/Cargo.toml");
        assert_eq!(arguments(&words(&["lamp", here])), Ok(("lamp", std::fs::read(here).unwrap())));
        for wrong in [&[][..], &["lamp", here, "x"], &["Lamp", here], &["lamp.json"], &["lamp", "no such file"]] {
            assert!(arguments(&words(wrong)).is_err(), "{wrong:?}");
        }
    }
}
