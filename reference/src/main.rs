//! The programs, chosen by the first word of the command line.

use reference::{calls, count, generate, judge, replay};
use std::io::{self, Read, Write};
use std::process::ExitCode;

const USAGE: &str = "usage:
  reference judge            answers lines from standard input
  reference calls            answers a list of calls from standard input
  reference replay           replays a trace from standard input
  reference generate judge SEED COUNT    prints lines for judge
  reference generate calls SEED COUNT    prints a list of calls
  reference generate replay SEED COUNT   prints a trace
  reference count            counts the answers from standard input";

fn main() -> ExitCode {
    let words: Vec<String> = std::env::args().skip(1).collect();
    let words: Vec<&str> = words.iter().map(String::as_str).collect();
    match run(&words) {
        Some(result) => finish(result),
        None => {
            eprintln!("{USAGE}");
            ExitCode::from(2)
        }
    }
}

fn run(words: &[&str]) -> Option<io::Result<Vec<u8>>> {
    match words {
        ["judge"] => Some(answer(judge::run)),
        ["calls"] => Some(answer(calls::run)),
        ["replay"] => Some(answer(replay::run)),
        ["count"] => Some(answer(count::run)),
        ["generate", kind, seed, count] => generate::run(kind, seed.parse().ok()?, count.parse().ok()?).map(Ok),
        _ => None,
    }
}

fn answer(program: impl Fn(&[u8]) -> String) -> io::Result<Vec<u8>> {
    let mut input = Vec::new();
    io::stdin().read_to_end(&mut input)?;
    Ok(program(&input).into_bytes())
}

fn finish(result: io::Result<Vec<u8>>) -> ExitCode {
    match result.and_then(|output| io::stdout().write_all(&output)) {
        Ok(()) => ExitCode::SUCCESS,
        Err(error) => {
            eprintln!("reference: {error}");
            ExitCode::FAILURE
        }
    }
}
