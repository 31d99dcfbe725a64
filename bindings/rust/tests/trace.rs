//! Trace files at their limits.

mod common;

use common::{event, LATE, LATEST};
use homie5::trace::{self, Trace, Writer};
use homie5::Refusal;

#[test]
fn traces_keep_64_bits_of_time() {
    let mut buf = [7; 100];
    let mut used = trace::write_empty(&mut buf).unwrap();
    for time in [0, LATE, LATEST] {
        used = trace::append(&mut buf, used, &event(time, "a", false, "")).unwrap();
    }
    let trace = Trace::new(&buf[..used]);
    assert_eq!((used, trace.check()), (91, Ok(3)));
    assert_eq!(trace.events().unwrap().map(|event| event.time).collect::<Vec<_>>(), [0, LATE, LATEST]);
    assert_eq!(buf[used..], [7; 9]);
}

#[test]
fn refused_writing_alters_nothing() {
    let mut buf = [0; 60];
    let used = trace::write_empty(&mut buf).unwrap();
    let used = trace::append(&mut buf, used, &event(5, "a", true, "b")).unwrap();
    let before = buf;
    let refused = [
        (used - 1, event(5, "a", true, ""), Refusal::BadHeader),
        (used, event(5, "", true, ""), Refusal::NoForm),
        (used, event(4, "a", true, ""), Refusal::Earlier),
        (used, event(5, "a", true, ""), Refusal::TooLong),
    ];
    for (used, event, refusal) in refused {
        assert_eq!(trace::append(&mut buf, used, &event), Err(refusal));
        assert_eq!(buf, before);
    }
}

#[test]
fn empty_and_short_files() {
    let mut buf = [0; 16];
    assert_eq!(trace::write_empty(&mut []), Err(Refusal::TooLong));
    assert_eq!(trace::write_empty(&mut buf), Ok(16));
    let empty = Trace::new(&buf);
    assert_eq!((empty.check(), empty.events().unwrap().count()), (Ok(0), 0));
    assert_eq!(empty.event(0), Err(Refusal::NoSuchNumber));
    assert_eq!(empty.event(usize::MAX), Err(Refusal::NoSuchNumber));
    for short in [&[][..], &buf[..15]] {
        let trace = Trace::new(short);
        assert_eq!((trace.check(), trace.event(0)), (Err(Refusal::BadHeader), Err(Refusal::BadHeader)));
        assert_eq!(trace.events().err(), Some(Refusal::BadHeader));
        let mut cursor = trace.cursor();
        assert_eq!((cursor.advance(), cursor.place()), (Err(Refusal::BadHeader), 0));
    }
}

#[test]
fn reading_judges_one_entry_alone() {
    let mut buf = [0; 128];
    let mut used = trace::write_empty(&mut buf).unwrap();
    for time in [1, 2] {
        used = trace::append(&mut buf, used, &event(time, "a", true, "b")).unwrap();
    }
    buf[16 + 24 + 14] = 2; // the second entry's flags
    let trace = Trace::new(&buf[..used]);
    assert_eq!(trace.check(), Err(Refusal::BadEntry));
    assert_eq!(trace.event(0), Ok(event(1, "a", true, "b")));
    assert_eq!(trace.event(1), Err(Refusal::BadEntry));
    let mut cursor = trace.cursor();
    assert!(cursor.advance().is_ok());
    assert_eq!((cursor.advance(), cursor.place()), (Err(Refusal::BadEntry), 1));
}

/// A trace of events with these times.
fn timed(times: &[u64]) -> Vec<u8> {
    let mut writer = Writer::new();
    for time in times {
        writer.append(&event(*time, "a", true, "b")).unwrap();
    }
    writer.finish().unwrap()
}

#[test]
fn seeking_counts_the_events_before_a_time() {
    for times in [&[][..], &[0], &[5, 5, 5], &[0, 0, 7, LATE, LATE, LATEST], &[1, 2, 3, 4, 5, 6, 7, 8]] {
        let file = timed(times);
        let trace = Trace::new(&file);
        for time in [0, 1, 4, 5, 6, 7, 8, 9, LATE - 1, LATE, LATE + 1, LATEST - 1, LATEST] {
            assert_eq!(trace.seek(time), Ok(times.iter().filter(|each| **each < time).count()));
            assert_eq!(trace.seek_after(time), Ok(times.iter().filter(|each| **each <= time).count()));
        }
    }
}

#[test]
fn seeking_leads_the_cursor() {
    let file = timed(&[1, 4, 4, 9]);
    let trace = Trace::new(&file);
    let mut cursor = trace.cursor_at(trace.seek(4).unwrap());
    let times: Vec<_> = std::iter::from_fn(|| cursor.advance().ok()).map(|event| event.time).collect();
    assert_eq!((times, cursor.place()), (vec![4, 4, 9], 4));
    let mut past = trace.cursor_at(usize::MAX);
    assert_eq!((past.advance(), past.place()), (Err(Refusal::NoSuchNumber), usize::MAX));
}

#[test]
fn seeking_refuses_as_reading_does() {
    let mut file = timed(&[1, 2, 3]);
    for short in [&[][..], &file[..15], &file[..file.len() - 1]] {
        assert_eq!(Trace::new(short).seek(0), Err(Refusal::BadHeader));
    }
    file[16 + 24 + 14] = 2; // the second entry's flags
    assert_eq!(Trace::new(&file).seek(2), Err(Refusal::BadEntry));
}
