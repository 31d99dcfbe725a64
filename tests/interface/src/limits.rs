//! Traces at 2^32 bytes, where a length no longer fits its field. The memory is never touched but for its first page.
//! Without address space for them this part fails.

use crate::answer::{Answer, Value};
use crate::guarded::Out;
use crate::raw;
use crate::tally::{Outcome, Tally};
use reference::trace::{self, Event};
use std::alloc::{alloc_zeroed, dealloc, Layout};
use std::slice;

const LIMIT: usize = 1 << 32;

pub fn jobs(_seeds: u64) -> u64 {
    1
}

pub fn run(_seed: u64, _length: usize, tally: &mut Tally) -> Outcome {
    let zeros =
        || Zeros::new(LIMIT + 64).ok_or("no address space for twice 2^32 bytes: traces of that length are not tried");
    let (mut buffer, payload) = (zeros()?, zeros()?);
    files(buffer.bytes(), tally)?;
    appends(buffer.bytes(), payload, tally)
}

/// One file of each length around 2^32, its text filling it as far as the field for its length goes.
fn files(buffer: &mut [u8], tally: &mut Tally) -> Outcome {
    for len in [LIMIT - 2, LIMIT - 1, LIMIT, LIMIT + 1, LIMIT + 16] {
        let header = [0, 16, 16, (len - 16) as u32];
        buffer[..16].copy_from_slice(&header.map(u32::to_le_bytes).concat());
        let file = &buffer[..len];
        let mut out = Out::new(3);
        let returned = raw::trace_check(file, out.lent());
        tally.count("trace_check", returned);
        let expected = Answer::of(trace::check(file).map(|count| vec![Value::Number(count)]));
        expected.compare(returned, &out, &[]).map_err(|fault| format!("check of {len} bytes: {fault}"))?;
        let returned = raw::trace_read(file, 0, out.lent());
        tally.count("trace_read", returned);
        let expected = Answer::of(trace::read(file, 0).map(|_| Vec::new()));
        expected.compare(returned, &out, &[]).map_err(|fault| format!("read 0 of {len} bytes: {fault}"))?;
    }
    Ok(())
}

/// Payloads that make the trace 2^32 bytes or more, though the buffer has room.
fn appends(buffer: &mut [u8], payload: Zeros, tally: &mut Tally) -> Outcome {
    buffer[..32].fill(7);
    trace::write_empty(buffer).map_err(|n| format!("the empty trace is refused: {n}"))?;
    let before = buffer[..4096].to_vec();
    for len in [LIMIT - 41, LIMIT - 40, LIMIT - 1, LIMIT, LIMIT + 1] {
        let event = Event { time: 1, topic: b"a".to_vec(), retained: true, payload: vec![0; len] };
        let expected = Answer::of(trace::append(buffer, 16, &event).map(|_| Vec::new()));
        let mut out = Out::new(3);
        let given = raw::Event { time: 1, topic: b"a", retained: 1, payload: &payload.shared()[..len] };
        let returned = raw::trace_append(buffer, 16, given, out.lent());
        tally.count("trace_append", returned);
        expected.compare(returned, &out, &[]).map_err(|fault| format!("payload of {len}: {fault}"))?;
        if buffer[..4096] != before {
            return Err(format!("payload of {len}: a refused call alters the buffer"));
        }
    }
    Ok(())
}

/// Zeros that take no memory until they are touched.
struct Zeros {
    start: *mut u8,
    layout: Layout,
}

impl Zeros {
    fn new(len: usize) -> Option<Zeros> {
        let layout = Layout::from_size_align(len, 16).ok()?;
        let start = unsafe { alloc_zeroed(layout) };
        (!start.is_null()).then_some(Zeros { start, layout })
    }

    fn bytes(&mut self) -> &mut [u8] {
        unsafe { slice::from_raw_parts_mut(self.start, self.layout.size()) }
    }

    fn shared(&self) -> &[u8] {
        unsafe { slice::from_raw_parts(self.start, self.layout.size()) }
    }
}

impl Drop for Zeros {
    fn drop(&mut self) {
        unsafe { dealloc(self.start, self.layout) }
    }
}
