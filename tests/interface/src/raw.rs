//! The calls of the C interface, with slices for pointers and lengths. Byte strings are copied to where memory ends;
//! files, buffers and tables are passed as they lie.

use crate::fence::Fence;
use homie5::sys;
use std::cell::RefCell;

thread_local! {
    static FENCES: RefCell<[Fence; 3]> = RefCell::new([131_072; 3].map(Fence::new));
}

/// A call with byte strings that each end at a fence.
fn fenced<const N: usize>(strings: [&[u8]; N], call: impl FnOnce([&[u8]; N]) -> u32) -> u32 {
    FENCES.with_borrow_mut(|fences| {
        let mut copies = strings;
        for (copy, fence) in copies.iter_mut().zip(fences) {
            *copy = fence.copy(copy);
        }
        call(copies)
    })
}

pub fn trace_check(file: &[u8], out: &mut [u64]) -> u32 {
    unsafe { sys::homie5_trace_check(file.as_ptr(), file.len(), out.as_mut_ptr(), out.len()) }
}

pub fn trace_read(file: &[u8], i: usize, out: &mut [u64]) -> u32 {
    unsafe { sys::homie5_trace_read(file.as_ptr(), file.len(), i, out.as_mut_ptr(), out.len()) }
}

pub fn trace_next(file: &[u8], place: usize, out: &mut [u64]) -> u32 {
    unsafe { sys::homie5_trace_next(file.as_ptr(), file.len(), place, out.as_mut_ptr(), out.len()) }
}

pub fn trace_empty(buffer: &mut [u8], out: &mut [u64]) -> u32 {
    unsafe { sys::homie5_trace_empty(buffer.as_mut_ptr(), buffer.len(), out.as_mut_ptr(), out.len()) }
}

/// What an event is, with its flag as the interface takes it.
#[derive(Clone, Copy)]
pub struct Event<'a> {
    pub time: u64,
    pub topic: &'a [u8],
    pub retained: u8,
    pub payload: &'a [u8],
}

pub fn trace_append(buffer: &mut [u8], used: usize, event: Event, out: &mut [u64]) -> u32 {
    let Event { time, retained, .. } = event;
    fenced([event.topic, event.payload], |[topic, payload]| unsafe {
        sys::homie5_trace_append(
            buffer.as_mut_ptr(),
            buffer.len(),
            used,
            time,
            topic.as_ptr(),
            topic.len(),
            retained,
            payload.as_ptr(),
            payload.len(),
            out.as_mut_ptr(),
            out.len(),
        )
    })
}

/// A call with two byte strings and values.
type OfTwo = unsafe extern "C" fn(*const u8, usize, *const u8, usize, *mut u64, usize) -> u32;

/// Two byte strings.
fn of_two(call: OfTwo, a: &[u8], b: &[u8], out: &mut [u64]) -> u32 {
    fenced([a, b], |[a, b]| unsafe { call(a.as_ptr(), a.len(), b.as_ptr(), b.len(), out.as_mut_ptr(), out.len()) })
}

/// A table and the ID of a device.
fn of_device(call: OfTwo, mem: &[u8], id: &[u8], out: &mut [u64]) -> u32 {
    fenced([id], |[id]| unsafe { call(mem.as_ptr(), mem.len(), id.as_ptr(), id.len(), out.as_mut_ptr(), out.len()) })
}

pub fn topic_read(domain: &[u8], topic: &[u8], out: &mut [u64]) -> u32 {
    of_two(sys::homie5_topic_read, domain, topic, out)
}

pub fn topic_flag(domain: &[u8], topic: &[u8], out: &mut [u64]) -> u32 {
    of_two(sys::homie5_topic_flag, domain, topic, out)
}

pub fn is_datatype(name: &[u8], out: &mut [u64]) -> u32 {
    fenced([name], |[name]| unsafe { sys::homie5_is_datatype(name.as_ptr(), name.len(), out.as_mut_ptr(), out.len()) })
}

pub fn is_format(datatype: u8, given: u8, format: &[u8], out: &mut [u64]) -> u32 {
    fenced([format], |[format]| unsafe {
        sys::homie5_is_format(datatype, given, format.as_ptr(), format.len(), out.as_mut_ptr(), out.len())
    })
}

pub fn is_payload(datatype: u8, given: u8, format: &[u8], payload: &[u8]) -> u32 {
    fenced([format, payload], |[format, payload]| unsafe {
        sys::homie5_is_payload(datatype, given, format.as_ptr(), format.len(), payload.as_ptr(), payload.len())
    })
}

pub fn description_judge(own: &[u8], text: &[u8]) -> u32 {
    fenced([own, text], |[own, text]| unsafe {
        sys::homie5_description_judge(own.as_ptr(), own.len(), text.as_ptr(), text.len())
    })
}

pub fn description_read(own: &[u8], text: &[u8], out: &mut [u64]) -> u32 {
    of_two(sys::homie5_description_read, own, text, out)
}

pub fn description_property(own: &[u8], text: &[u8], i: usize, out: &mut [u64]) -> u32 {
    fenced([own, text], |[own, text]| unsafe {
        sys::homie5_description_property(
            own.as_ptr(),
            own.len(),
            text.as_ptr(),
            text.len(),
            i,
            out.as_mut_ptr(),
            out.len(),
        )
    })
}

pub fn description_string(text: &[u8], place: usize, buffer: &mut [u8], out: &mut [u64]) -> u32 {
    fenced([text], |[text]| unsafe {
        sys::homie5_description_string(
            text.as_ptr(),
            text.len(),
            place,
            buffer.as_mut_ptr(),
            buffer.len(),
            out.as_mut_ptr(),
            out.len(),
        )
    })
}

pub fn open(mem: &mut [u8], domain: &[u8], devices: usize, depth: usize) -> u32 {
    fenced([domain], |[domain]| unsafe {
        sys::homie5_open(mem.as_mut_ptr(), mem.len(), domain.as_ptr(), domain.len(), devices, depth)
    })
}

pub fn message(mem: &mut [u8], event: Event) -> u32 {
    let Event { time, retained, .. } = event;
    fenced([event.topic, event.payload], |[topic, payload]| unsafe {
        sys::homie5_message(
            mem.as_mut_ptr(),
            mem.len(),
            time,
            topic.as_ptr(),
            topic.len(),
            retained,
            payload.as_ptr(),
            payload.len(),
        )
    })
}

pub fn step_back(mem: &mut [u8]) -> u32 {
    unsafe { sys::homie5_step_back(mem.as_mut_ptr(), mem.len()) }
}

pub fn device_count(mem: &[u8], out: &mut [u64]) -> u32 {
    unsafe { sys::homie5_device_count(mem.as_ptr(), mem.len(), out.as_mut_ptr(), out.len()) }
}

pub fn last_time(mem: &[u8], out: &mut [u64]) -> u32 {
    unsafe { sys::homie5_last_time(mem.as_ptr(), mem.len(), out.as_mut_ptr(), out.len()) }
}

pub fn steps(mem: &[u8], out: &mut [u64]) -> u32 {
    unsafe { sys::homie5_steps(mem.as_ptr(), mem.len(), out.as_mut_ptr(), out.len()) }
}

pub fn device_at(mem: &[u8], i: usize, out: &mut [u64]) -> u32 {
    unsafe { sys::homie5_device_at(mem.as_ptr(), mem.len(), i, out.as_mut_ptr(), out.len()) }
}

pub fn states(mem: &[u8], id: &[u8], out: &mut [u64]) -> u32 {
    of_device(sys::homie5_states, mem, id, out)
}

pub fn root(mem: &[u8], id: &[u8], out: &mut [u64]) -> u32 {
    of_device(sys::homie5_root, mem, id, out)
}

pub fn parent(mem: &[u8], id: &[u8], out: &mut [u64]) -> u32 {
    of_device(sys::homie5_parent, mem, id, out)
}

pub fn version(mem: &[u8], id: &[u8], out: &mut [u64]) -> u32 {
    of_device(sys::homie5_version, mem, id, out)
}

pub fn values_held(mem: &[u8], id: &[u8], out: &mut [u64]) -> u32 {
    of_device(sys::homie5_values_held, mem, id, out)
}

pub fn property(mem: &[u8], id: &[u8], i: usize, out: &mut [u64]) -> u32 {
    fenced([id], |[id]| unsafe {
        sys::homie5_property(mem.as_ptr(), mem.len(), id.as_ptr(), id.len(), i, out.as_mut_ptr(), out.len())
    })
}

/// A lane, named by the IDs of device, node and property.
pub fn lane(mem: &[u8], ids: [&[u8]; 3], kind: u8, out: &mut [u64]) -> u32 {
    fenced(ids, |[id, node, property]| unsafe {
        sys::homie5_lane(
            mem.as_ptr(),
            mem.len(),
            id.as_ptr(),
            id.len(),
            node.as_ptr(),
            node.len(),
            property.as_ptr(),
            property.len(),
            kind,
            out.as_mut_ptr(),
            out.len(),
        )
    })
}
