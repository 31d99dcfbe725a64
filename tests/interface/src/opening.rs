//! Openings: D and J, domains, and memory of every length near the need.

use crate::answer::{hold, returned, told, Answer, Value};
use crate::calls::Question;
use crate::guarded::{random_bytes, Guarded};
use crate::raw;
use crate::sound::{is_sound, size};
use crate::tally::{Outcome, Tally};
use homie5::sys::homie5_size;
use reference::lines::hex;
use reference::random::Random;
use reference::refusal::NUMBER;
use reference::table::Book;

/// D and J of the grid are below this.
const SIDE: u64 = 71;

/// One job for each D of the grid, then as many of random openings as there are seeds.
pub fn jobs(seeds: u64) -> u64 {
    SIDE + seeds
}

pub fn run(seed: u64, length: usize, tally: &mut Tally) -> Outcome {
    let mut random = Random::new(seed);
    if seed < SIDE {
        return row(&mut random, seed as usize, tally);
    }
    domains(&mut random, tally)?;
    (0..length / 20).try_for_each(|_| anywhere(&mut random, tally).map(|_| ()))
}

/// One D with every J, in memory of every length near the need.
fn row(random: &mut Random, devices: usize, tally: &mut Tally) -> Outcome {
    let bytes = random_bytes(random, size(devices, SIDE as usize));
    for depth in 0..SIDE as usize {
        let need = size(devices, depth);
        let mut memory = Guarded::new(random, &bytes[..need + 2]);
        for len in [0, 1, need - 2, need - 1, need, need + 1, need + 2] {
            memory.lend(len);
            if open(random, &mut memory, b"homie", devices, depth, tally)? {
                memory.restore();
            }
        }
    }
    Ok(())
}

/// Domains of every length from 0 to 40, one bad byte in them, and every byte alone.
fn domains(random: &mut Random, tally: &mut Tally) -> Outcome {
    let mut domains: Vec<Vec<u8>> = (0..=255).map(|byte| vec![byte]).collect();
    for len in 0..=40 {
        let good: Vec<u8> = (0..len).map(|_| random.pick(b"az09-")).collect();
        if len > 0 {
            let mut bad = good.clone();
            bad[random.below(len)] = random.pick(b"A_/$ \0\xff");
            domains.push(bad);
        }
        domains.push(good);
    }
    for domain in domains {
        let mut memory = Guarded::new(random, &[7; 16384]);
        open(random, &mut memory, &domain, 1, 0, tally)?;
    }
    Ok(())
}

/// Numbers far off, also such that a product or a sum passes 2^64.
fn anywhere(random: &mut Random, tally: &mut Tally) -> Result<bool, String> {
    const FAR: [usize; 9] =
        [65, 256, 257, 1 << 32, (1 << 32) + 1, 1 << 51, (1 << 51) + 1, usize::MAX / 2 + 1, usize::MAX];
    let near = random.below(66);
    let (mut devices, mut depth) = (near, random.below(66));
    match random.below(4) {
        0 => devices = random.pick(&FAR).wrapping_sub(random.below(3)),
        1 => depth = random.pick(&FAR).wrapping_sub(random.below(3)),
        2 => (devices, depth) = (near, 0_usize.wrapping_sub(near).wrapping_sub(random.below(3))),
        _ => {}
    }
    let need = homie5_size(devices, depth);
    let len = if need > 2_000_000 { random.below(40_000) } else { (need + random.below(4)).saturating_sub(2) };
    let bytes = random_bytes(random, len);
    let mut memory = Guarded::new(random, &bytes);
    open(random, &mut memory, b"homie", devices, depth, tally)
}

/// Opens and compares, and answers whether it is taken; a refusal alters nothing, a taken opening only the table's own
/// bytes.
fn open(
    random: &mut Random,
    memory: &mut Guarded,
    domain: &[u8],
    devices: usize,
    depth: usize,
    tally: &mut Tally,
) -> Result<bool, String> {
    let expected = returned(&Book::open(domain, devices as u64, depth as u64, memory.len() as u64));
    let opened = raw::open(memory.lent(), domain, devices, depth);
    tally.count("open", opened);
    let what = format!("open {} {devices} {depth} {}", hex(domain), memory.len());
    if opened != expected {
        return Err(format!("{what}: answers {}; expected {}", told(opened), told(expected)));
    }
    let allowed = if opened == 0 { size(devices, depth) } else { 0 };
    memory.altered_past(allowed).map_err(|fault| format!("{what}: {fault}"))?;
    if opened == 0 {
        is_new(random, memory, tally).map_err(|fault| format!("{what}, then {fault}"))?;
    }
    Ok(opened == 0)
}

/// A new table is sound and has no devices, no last time and no steps.
fn is_new(random: &mut Random, memory: &Guarded, tally: &mut Tally) -> Outcome {
    if !is_sound(memory.bytes()) {
        return Err("memory is not sound".to_string());
    }
    let none = || Answer::of(Ok(vec![Value::Number(0)]));
    for (question, expected) in [
        (Question::DeviceCount, none()),
        (Question::LastTime, none()),
        (Question::Steps, none()),
        (Question::DeviceAt(0), Answer::refused(NUMBER)),
    ] {
        tally.count(question.name(), expected.returned);
        hold(random, &expected, memory.bytes(), |out| question.ask(memory.bytes(), out))
            .map_err(|fault| format!("{question}: {fault}"))?;
    }
    Ok(())
}
