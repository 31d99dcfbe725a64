//! Trace files: checked, read, written.

use crate::call;
use crate::values::Values;
use crate::Refusal;

pub use crate::writer::Writer;

/// One message with its time, as a trace holds it and as a table takes it.
///
/// ```
/// use homie5::{table::Table, trace::Event};
///
/// let event = Event { time: 4294967296, topic: b"homie/5/lamp/$state", retained: true, payload: b"init" };
/// let mut table = Table::open("homie", 1, 0)?;
/// table.message(&event)?;
/// assert_eq!(table.last_time(), Some(4294967296));
/// # Ok::<(), homie5::Refusal>(())
/// ```
#[derive(Clone, Copy, Debug, PartialEq, Eq, Hash)]
pub struct Event<'a> {
    /// Microseconds.
    pub time: u64,
    /// The topic.
    pub topic: &'a [u8],
    /// Whether it was retained as published.
    pub retained: bool,
    /// The payload.
    pub payload: &'a [u8],
}

impl<'a> Event<'a> {
    fn shown(values: &Values, file: &'a [u8]) -> Event<'a> {
        Event {
            time: values.number(0),
            topic: values.part(1, file),
            retained: values.flag(3),
            payload: values.part(4, file),
        }
    }
}

/// The bytes of a trace file.
///
/// ```
/// use homie5::{trace::Trace, Refusal};
///
/// let file = std::fs::read("../../samples/lamp.trace")?;
/// let trace = Trace::new(&file);
/// assert_eq!(trace.check(), Ok(4));
/// let event = trace.event(3)?;
/// assert_eq!((event.time, event.topic), (4294967301, &b"homie/5/lamp/light/on"[..]));
/// assert_eq!((event.retained, event.payload), (true, &b"TRUE"[..]));
/// assert_eq!(trace.event(4), Err(Refusal::NoSuchNumber));
/// for event in trace.events()? {
///     assert!(event.time >= 4294967290);
/// }
/// # Ok::<(), Box<dyn std::error::Error>>(())
/// ```
#[derive(Clone, Copy, Debug)]
pub struct Trace<'a> {
    file: &'a [u8],
}

impl<'a> Trace<'a> {
    /// Takes any bytes; each call judges them.
    pub fn new(file: &'a [u8]) -> Trace<'a> {
        Trace { file }
    }

    /// Checks the whole file: how many events it has. Refuses with `BadHeader`, `BadEntry`.
    pub fn check(&self) -> Result<usize, Refusal> {
        Ok(call::trace_check(self.file)?.size(0))
    }

    /// The event of a number, from 0; only the header and this entry are judged. Refuses with `BadHeader`,
    /// `NoSuchNumber`, `BadEntry`.
    pub fn event(&self, i: usize) -> Result<Event<'a>, Refusal> {
        Ok(Event::shown(&call::trace_read(self.file, i)?, self.file))
    }

    /// A reading place before the first event.
    pub fn cursor(&self) -> Cursor<'a> {
        self.cursor_at(0)
    }

    /// A reading place before the event of a number, say of one that [`seek`](Trace::seek) gives; any number is safe.
    pub fn cursor_at(&self, place: usize) -> Cursor<'a> {
        Cursor { file: self.file, place }
    }

    /// How many events are before a time: the number of the first event at or after it, or the count where there is none.
    ///
    /// This holds of traces that [`check`](Trace::check) takes, whose times never fall, and it refuses none of them. It
    /// reads some 30 events at most, by halving, and judges no others: of other bytes it refuses with `BadHeader`,
    /// `BadEntry`, or gives some number up to the count.
    ///
    /// ```
    /// use homie5::trace::Trace;
    ///
    /// let file = std::fs::read("../../samples/lamp.trace")?;
    /// let trace = Trace::new(&file);
    /// trace.check()?;
    /// assert_eq!((trace.seek(0), trace.seek(4294967300), trace.seek(u64::MAX)), (Ok(0), Ok(1), Ok(4)));
    ///
    /// let mut cursor = trace.cursor_at(trace.seek(4294967300)?);
    /// assert_eq!(cursor.advance()?.topic, b"homie/5/lamp/$description");
    /// assert_eq!(cursor.advance()?.topic, b"homie/5/lamp/light/on/set");
    /// # Ok::<(), Box<dyn std::error::Error>>(())
    /// ```
    pub fn seek(&self, time: u64) -> Result<usize, Refusal> {
        self.halve(|event| event.time < time)
    }

    /// How many events are at or before a time: the number of the first event after it, or the count where there is none.
    /// A table that was fed so many shows that time. Otherwise as [`seek`](Trace::seek).
    ///
    /// ```
    /// use homie5::trace::Trace;
    ///
    /// let file = std::fs::read("../../samples/lamp.trace")?;
    /// let trace = Trace::new(&file);
    /// trace.check()?;
    /// assert_eq!((trace.seek_after(0), trace.seek_after(4294967300), trace.seek_after(u64::MAX)), (Ok(0), Ok(3), Ok(4)));
    /// # Ok::<(), Box<dyn std::error::Error>>(())
    /// ```
    pub fn seek_after(&self, time: u64) -> Result<usize, Refusal> {
        self.halve(|event| event.time <= time)
    }

    /// The number of the first event that is not passed, where every event before one that is passed is passed too.
    fn halve(&self, passed: impl Fn(&Event) -> bool) -> Result<usize, Refusal> {
        // a file has fewer events than bytes; one more, so that the empty file is judged too
        let (mut first, mut end) = (0, self.file.len() + 1);
        while first < end {
            let middle = first + (end - first) / 2;
            match self.event(middle) {
                Ok(event) if passed(&event) => first = middle + 1,
                Ok(_) | Err(Refusal::NoSuchNumber) => end = middle,
                Err(refusal) => return Err(refusal),
            }
        }
        Ok(first)
    }

    /// Checks the whole file, then goes through its events.
    pub fn events(&self) -> Result<impl Iterator<Item = Event<'a>>, Refusal> {
        self.check()?;
        let mut cursor = self.cursor();
        Ok(std::iter::from_fn(move || cursor.advance().ok()))
    }
}

/// A reading place on a trace.
///
/// ```
/// use homie5::{trace::Trace, Refusal};
///
/// let file = std::fs::read("../../samples/lamp.trace")?;
/// let mut cursor = Trace::new(&file).cursor();
/// assert_eq!(cursor.advance()?.payload, b"init");
/// assert_eq!(cursor.place(), 1);
/// while cursor.advance().is_ok() {}
/// assert_eq!(cursor.advance(), Err(Refusal::NoSuchNumber));
/// assert_eq!(cursor.place(), 4);
/// # Ok::<(), Box<dyn std::error::Error>>(())
/// ```
#[derive(Clone, Copy, Debug)]
pub struct Cursor<'a> {
    file: &'a [u8],
    place: usize,
}

impl<'a> Cursor<'a> {
    /// Gives the next event and moves on by one. Refuses as [`Trace::event`] does, with `NoSuchNumber` at the end, and
    /// then stays.
    pub fn advance(&mut self) -> Result<Event<'a>, Refusal> {
        let values = call::trace_next(self.file, self.place)?;
        self.place = values.size(6);
        Ok(Event::shown(&values, self.file))
    }

    /// The number of the next event.
    pub fn place(&self) -> usize {
        self.place
    }
}

/// Writes the empty trace into a buffer: its length. Refuses with `TooLong`.
///
/// ```
/// use homie5::{trace, Refusal};
///
/// let mut buf = [0; 64];
/// assert_eq!(trace::write_empty(&mut buf), Ok(16));
/// assert_eq!(trace::write_empty(&mut buf[..15]), Err(Refusal::TooLong));
/// ```
pub fn write_empty(buf: &mut [u8]) -> Result<usize, Refusal> {
    Ok(call::trace_empty(buf)?.size(0))
}

/// Appends an event to the trace in the first `used` bytes of a buffer: the new length. Bytes past it stay. Refuses
/// with `BadHeader`, `BadEntry`, `NoForm`, `Earlier`, `TooLong`.
///
/// ```
/// use homie5::trace::{self, Event, Trace};
///
/// let mut buf = [0; 64];
/// let used = trace::write_empty(&mut buf)?;
/// let event = Event { time: u64::MAX, topic: b"a", retained: false, payload: b"" };
/// let used = trace::append(&mut buf, used, &event)?;
/// assert_eq!(used, 41);
/// assert_eq!(Trace::new(&buf[..used]).event(0), Ok(event));
/// # Ok::<(), homie5::Refusal>(())
/// ```
pub fn append(buf: &mut [u8], used: usize, event: &Event) -> Result<usize, Refusal> {
    Ok(call::trace_append(buf, used, event)?.size(0))
}
