//! Times and their medians. A time is what the processor spent on this thread, so that other programs lengthen it little.

use std::sync::OnceLock;
use std::time::Duration;

/// So many calls, and the time that they took.
pub struct Made {
    pub calls: u64,
    pub time: Duration,
}

/// Makes at least so many calls.
pub type Calls = Box<dyn FnMut(u64) -> Made>;

#[derive(Clone, Copy)]
pub enum Unit {
    /// Nanoseconds per call.
    Call,
    /// Milliseconds per megabyte, for calls on so many bytes.
    Megabyte(usize),
}

impl Unit {
    pub fn word(self) -> &'static str {
        match self {
            Unit::Call => "ns",
            Unit::Megabyte(_) => "ms/MB",
        }
    }

    fn of(self, made: &Made) -> f64 {
        let each = made.time.as_nanos() as f64 / made.calls as f64;
        match self {
            Unit::Call => each,
            Unit::Megabyte(bytes) => each / bytes as f64,
        }
    }
}

/// What one row compares; `limit` copies the bytes that the calls must at least look at or move.
pub struct Sides {
    pub ours: Calls,
    pub reference: Calls,
    pub limit: Option<Calls>,
}

pub struct Row {
    pub name: String,
    pub unit: Unit,
    pub make: Box<dyn Fn() -> Sides>,
}

impl Row {
    pub fn new(name: impl Into<String>, unit: Unit, make: impl Fn() -> Sides + 'static) -> Row {
        Row { name: name.into(), unit, make: Box::new(make) }
    }
}

#[repr(C)]
struct Timespec {
    seconds: i64,
    nanoseconds: i64,
}

extern "C" {
    fn clock_gettime(clock: i32, time: *mut Timespec) -> i32;
}

/// Linux's number for the thread's processor time.
const THREAD_TIME: i32 = 3;

fn now() -> Duration {
    let mut time = Timespec { seconds: 0, nanoseconds: 0 };
    assert_eq!(unsafe { clock_gettime(THREAD_TIME, &mut time) }, 0);
    Duration::new(time.seconds as u64, time.nanoseconds as u32)
}

/// The part that is timed, and the part whose instructions are counted.
#[inline(never)]
fn timed(work: impl FnOnce()) -> Duration {
    let start = now();
    work();
    now() - start
}

/// What timing itself takes.
fn overhead() -> Duration {
    static OVERHEAD: OnceLock<Duration> = OnceLock::new();
    *OVERHEAD.get_or_init(|| {
        let empty = |_| {
            let start = now();
            now() - start
        };
        let mut times: Vec<Duration> = (0..1001).map(empty).collect();
        times.sort();
        times[times.len() / 2]
    })
}

/// Calls in batches of one size, one batch after another.
pub fn batches<S: 'static>(mut state: S, batch: usize, work: impl Fn(&mut S) + 'static) -> Calls {
    Box::new(move |wanted| {
        let rounds = wanted.div_ceil(batch as u64);
        let time = timed(|| (0..rounds).for_each(|_| work(&mut state)));
        Made { calls: rounds * batch as u64, time: time.saturating_sub(overhead()) }
    })
}

/// Calls in batches of one size: what goes before a batch is not timed.
pub fn batches_after<S: 'static>(
    mut state: S,
    batch: usize,
    before: impl Fn(&mut S) + 'static,
    work: impl Fn(&mut S) + 'static,
) -> Calls {
    Box::new(move |wanted| {
        let mut made = Made { calls: 0, time: Duration::ZERO };
        while made.calls < wanted {
            before(&mut state);
            made.time += timed(|| work(&mut state)).saturating_sub(overhead());
            made.calls += batch as u64;
        }
        made
    })
}

/// Copies the bytes, once for each batch of calls.
pub fn copying(bytes: Vec<u8>, batch: usize) -> Calls {
    let to = vec![1; bytes.len()];
    let copy = |(from, to): &mut (Vec<u8>, Vec<u8>)| {
        to.copy_from_slice(std::hint::black_box(from));
        std::hint::black_box(to);
    };
    batches((bytes, to), batch, copy)
}

pub struct Spread {
    pub least: f64,
    pub median: f64,
    pub most: f64,
}

impl Spread {
    fn of(mut samples: Vec<f64>) -> Spread {
        samples.sort_by(f64::total_cmp);
        Spread { least: samples[0], median: samples[samples.len() / 2], most: samples[samples.len() - 1] }
    }
}

/// Times of ours, the reference's and the limit's.
pub struct Figures {
    pub ours: Spread,
    pub reference: Spread,
    pub limit: Option<Spread>,
    /// Ours by the reference's of the same run.
    pub ratio: Spread,
}

/// The time of one side in one run, with what goes before its batches.
const SAMPLE: Duration = Duration::from_millis(20);

/// How many calls take about the time of a sample.
fn calibrate(calls: &mut Calls) -> u64 {
    let mut count = 1;
    loop {
        let start = now();
        let made = calls(count);
        let spent = now() - start;
        if spent >= SAMPLE / 4 {
            let scale = SAMPLE.as_secs_f64() / spent.as_secs_f64();
            return ((made.calls as f64 * scale) as u64).max(1);
        }
        count = made.calls * 2;
    }
}

/// Measures one row: each run takes one sample of every side, the order turning from run to run.
pub fn measure(row: &Row, runs: usize) -> Figures {
    let sides = (row.make)();
    let mut sides: Vec<Calls> = [Some(sides.ours), Some(sides.reference), sides.limit].into_iter().flatten().collect();
    let counts: Vec<u64> = sides.iter_mut().map(calibrate).collect();
    let mut samples = vec![Vec::new(); sides.len()];
    for run in 0..runs {
        for i in 0..sides.len() {
            let side = (run + i) % sides.len();
            samples[side].push(row.unit.of(&sides[side](counts[side])));
        }
    }
    let ratio = Spread::of(samples[0].iter().zip(&samples[1]).map(|(ours, reference)| ours / reference).collect());
    let mut spreads = samples.into_iter().map(Spread::of);
    let mut spread = || spreads.next();
    let (ours, reference) = (spread(), spread());
    Figures { ours: ours.expect("ours"), reference: reference.expect("the reference"), limit: spread(), ratio }
}
