//! The writer beside `append`: the same refusals, the same bytes.

mod common;

use common::{event, LATEST};
use homie5::trace::{append, write_empty, Event, Trace, Writer};
use homie5::Refusal;

/// Numbers that look like any.
struct Numbers(u64);

impl Numbers {
    fn below(&mut self, limit: u64) -> u64 {
        self.0 = self.0.wrapping_mul(6364136223846793005).wrapping_add(1442695040888963407);
        (self.0 >> 33) % limit
    }

    /// A length: mostly short, at times at the limit or past it.
    fn length(&mut self, limit: u64) -> usize {
        let length = match self.below(16) {
            0 => 0,
            1 => limit - 1 + self.below(3),
            _ => 1 + self.below(40),
        };
        length as usize
    }

    /// A time: mostly a little later than the last, at times the same or earlier.
    fn time(&mut self, last: u64) -> u64 {
        match self.below(8) {
            0 => last,
            1 => last.saturating_sub(self.below(1 << 31)),
            _ => last + self.below(1 << 31),
        }
    }
}

/// The trace that `append` makes, in a buffer that is always long enough.
struct Appended {
    buf: Vec<u8>,
    used: usize,
}

impl Appended {
    fn new() -> Appended {
        let mut buf = vec![0; 16];
        let used = write_empty(&mut buf).unwrap();
        Appended { buf, used }
    }

    fn append(&mut self, event: &Event) -> Result<(), Refusal> {
        self.buf.resize(self.used + 24 + event.topic.len() + event.payload.len(), 0);
        self.used = append(&mut self.buf, self.used, event)?;
        Ok(())
    }

    fn file(&self) -> &[u8] {
        &self.buf[..self.used]
    }
}

#[test]
fn generated_events_as_append_takes_them() {
    let bytes: Vec<u8> = (0..70_000_u32).map(|i| (i % 251) as u8).collect();
    let mut answers = [0; 3];
    for seed in 0..20 {
        let (mut numbers, mut last) = (Numbers(seed), 0);
        let (mut writer, mut appended) = (Writer::new(), Appended::new());
        for _ in 0..200 {
            let (topic, payload) = (&bytes[..numbers.length(65_536)], &bytes[1..][..numbers.length(300)]);
            let event = Event { time: numbers.time(last), topic, retained: numbers.below(2) == 1, payload };
            let answer = writer.append(&event);
            assert_eq!(answer, appended.append(&event), "seed {seed}");
            assert_eq!(writer.used(), appended.used, "seed {seed}");
            match answer {
                Ok(()) => (answers[0], last) = (answers[0] + 1, event.time),
                Err(Refusal::NoForm) => answers[1] += 1,
                Err(_) => answers[2] += 1,
            }
        }
        assert!(writer.finish().unwrap() == appended.file(), "seed {seed}");
    }
    assert!(answers.iter().all(|count| *count > 100), "{answers:?}");
}

#[test]
fn refusals_and_limits_as_append_has_them() {
    let topic = "t".repeat(65_536);
    let events = [
        event(LATEST, "", true, ""),
        event(LATEST, &topic, true, ""),
        event(LATEST - 1, &topic[1..], false, ""),
        event(LATEST, "a", true, &topic),
        event(LATEST - 1, &topic, true, ""),
        event(0, "a", true, ""),
        event(LATEST, "a", false, ""),
    ];
    let (mut writer, mut appended) = (Writer::new(), Appended::new());
    for event in &events {
        assert_eq!(writer.append(event), appended.append(event));
        assert!(writer.clone().finish().unwrap() == appended.file());
    }
    assert_eq!(Trace::new(appended.file()).check(), Ok(3));
}

#[test]
fn the_empty_trace() {
    let file = Writer::new().finish().unwrap();
    assert_eq!((file.len(), Writer::default().used()), (16, 16));
    assert_eq!(file, Appended::new().file());
}

#[test]
fn a_million_events() {
    const COUNT: u64 = 1_000_000;
    let mut writer = Writer::new();
    for time in 0..COUNT {
        writer.append(&event(time, "homie/5/lamp/light/on", time % 2 == 0, "true")).unwrap();
    }
    let file = writer.finish().unwrap();
    let trace = Trace::new(&file);
    assert_eq!((file.len(), trace.check()), (16 + 49 * 1_000_000, Ok(1_000_000)));
    for time in (0..COUNT).step_by(99_991) {
        assert_eq!(trace.event(time as usize), Ok(event(time, "homie/5/lamp/light/on", time % 2 == 0, "true")));
        assert_eq!((trace.seek(time), trace.seek_after(time)), (Ok(time as usize), Ok(time as usize + 1)));
    }
}
