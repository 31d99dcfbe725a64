//! The C interface, called with slices.

use homie5::sys;
use reference::refusal::Refusal;
use reference::trace::Event;
use std::hint::black_box;

/// Room for every value of an answer.
pub type Values = [u64; sys::HOMIE5_VALUES];

/// Makes a call that must return this, and looks at its values.
pub fn answers(returned: u32, call: impl FnOnce(&mut Values) -> u32) {
    let mut out = Values::default();
    assert_eq!(call(&mut out), returned);
    black_box(out);
}

/// What a call returns where the second program answers so: the refusal's number and place, or 0.
pub fn returned<T>(answer: &Result<T, Refusal>) -> u32 {
    let refused = |refusal: &Refusal| u32::from(refusal.number) + 256 * refusal.place.map_or(0, |place| place as u32);
    answer.as_ref().err().map_or(0, refused)
}

pub fn open(mem: &mut [u8], domain: &[u8], devices: usize, depth: usize) -> u32 {
    unsafe { sys::homie5_open(mem.as_mut_ptr(), mem.len(), domain.as_ptr(), domain.len(), devices, depth) }
}

pub fn message(mem: &mut [u8], event: &Event) -> u32 {
    let (topic, payload) = (&event.topic, &event.payload);
    unsafe {
        sys::homie5_message(
            mem.as_mut_ptr(),
            mem.len(),
            event.time,
            topic.as_ptr(),
            topic.len(),
            u8::from(event.retained),
            payload.as_ptr(),
            payload.len(),
        )
    }
}

pub fn step_back(mem: &mut [u8]) -> u32 {
    unsafe { sys::homie5_step_back(mem.as_mut_ptr(), mem.len()) }
}

pub fn check(file: &[u8], out: &mut Values) -> u32 {
    unsafe { sys::homie5_trace_check(file.as_ptr(), file.len(), out.as_mut_ptr(), out.len()) }
}

pub fn read(file: &[u8], i: usize, out: &mut Values) -> u32 {
    unsafe { sys::homie5_trace_read(file.as_ptr(), file.len(), i, out.as_mut_ptr(), out.len()) }
}

pub fn next(file: &[u8], place: usize, out: &mut Values) -> u32 {
    unsafe { sys::homie5_trace_next(file.as_ptr(), file.len(), place, out.as_mut_ptr(), out.len()) }
}

pub fn empty(buffer: &mut [u8], out: &mut Values) -> u32 {
    unsafe { sys::homie5_trace_empty(buffer.as_mut_ptr(), buffer.len(), out.as_mut_ptr(), out.len()) }
}

pub fn append(buffer: &mut [u8], used: usize, event: &Event, out: &mut Values) -> u32 {
    let (topic, payload) = (&event.topic, &event.payload);
    unsafe {
        sys::homie5_trace_append(
            buffer.as_mut_ptr(),
            buffer.len(),
            used,
            event.time,
            topic.as_ptr(),
            topic.len(),
            u8::from(event.retained),
            payload.as_ptr(),
            payload.len(),
            out.as_mut_ptr(),
            out.len(),
        )
    }
}

/// Two byte strings.
type OfTwo = unsafe extern "C" fn(*const u8, usize, *const u8, usize, *mut u64, usize) -> u32;

fn of_two(call: OfTwo, a: &[u8], b: &[u8], out: &mut Values) -> u32 {
    unsafe { call(a.as_ptr(), a.len(), b.as_ptr(), b.len(), out.as_mut_ptr(), out.len()) }
}

pub fn topic_read(domain: &[u8], topic: &[u8], out: &mut Values) -> u32 {
    of_two(sys::homie5_topic_read, domain, topic, out)
}

pub fn topic_flag(domain: &[u8], topic: &[u8], out: &mut Values) -> u32 {
    of_two(sys::homie5_topic_flag, domain, topic, out)
}

pub fn is_datatype(name: &[u8], out: &mut Values) -> u32 {
    unsafe { sys::homie5_is_datatype(name.as_ptr(), name.len(), out.as_mut_ptr(), out.len()) }
}

pub fn is_format(datatype: u8, format: &[u8], out: &mut Values) -> u32 {
    unsafe { sys::homie5_is_format(datatype, 1, format.as_ptr(), format.len(), out.as_mut_ptr(), out.len()) }
}

pub fn is_payload(datatype: u8, format: &[u8], payload: &[u8]) -> u32 {
    unsafe { sys::homie5_is_payload(datatype, 1, format.as_ptr(), format.len(), payload.as_ptr(), payload.len()) }
}

pub fn description_judge(own: &[u8], text: &[u8]) -> u32 {
    unsafe { sys::homie5_description_judge(own.as_ptr(), own.len(), text.as_ptr(), text.len()) }
}

pub fn description_read(own: &[u8], text: &[u8], out: &mut Values) -> u32 {
    of_two(sys::homie5_description_read, own, text, out)
}

pub fn description_property(own: &[u8], text: &[u8], i: usize, out: &mut Values) -> u32 {
    let (at, len) = (out.as_mut_ptr(), out.len());
    unsafe { sys::homie5_description_property(own.as_ptr(), own.len(), text.as_ptr(), text.len(), i, at, len) }
}

pub fn description_string(text: &[u8], place: usize, buf: &mut [u8], out: &mut Values) -> u32 {
    let (at, len) = (out.as_mut_ptr(), out.len());
    unsafe { sys::homie5_description_string(text.as_ptr(), text.len(), place, buf.as_mut_ptr(), buf.len(), at, len) }
}

pub fn device_count(mem: &[u8], out: &mut Values) -> u32 {
    unsafe { sys::homie5_device_count(mem.as_ptr(), mem.len(), out.as_mut_ptr(), out.len()) }
}

pub fn last_time(mem: &[u8], out: &mut Values) -> u32 {
    unsafe { sys::homie5_last_time(mem.as_ptr(), mem.len(), out.as_mut_ptr(), out.len()) }
}

pub fn steps(mem: &[u8], out: &mut Values) -> u32 {
    unsafe { sys::homie5_steps(mem.as_ptr(), mem.len(), out.as_mut_ptr(), out.len()) }
}

pub fn device_at(mem: &[u8], i: usize, out: &mut Values) -> u32 {
    unsafe { sys::homie5_device_at(mem.as_ptr(), mem.len(), i, out.as_mut_ptr(), out.len()) }
}

pub fn states(mem: &[u8], id: &[u8], out: &mut Values) -> u32 {
    of_two(sys::homie5_states, mem, id, out)
}

pub fn root(mem: &[u8], id: &[u8], out: &mut Values) -> u32 {
    of_two(sys::homie5_root, mem, id, out)
}

pub fn parent(mem: &[u8], id: &[u8], out: &mut Values) -> u32 {
    of_two(sys::homie5_parent, mem, id, out)
}

pub fn version(mem: &[u8], id: &[u8], out: &mut Values) -> u32 {
    of_two(sys::homie5_version, mem, id, out)
}

pub fn values_held(mem: &[u8], id: &[u8], out: &mut Values) -> u32 {
    of_two(sys::homie5_values_held, mem, id, out)
}

pub fn property(mem: &[u8], id: &[u8], i: usize, out: &mut Values) -> u32 {
    unsafe { sys::homie5_property(mem.as_ptr(), mem.len(), id.as_ptr(), id.len(), i, out.as_mut_ptr(), out.len()) }
}

pub fn lane(mem: &[u8], id: &[u8], node: &[u8], property: &[u8], kind: u8, out: &mut Values) -> u32 {
    unsafe {
        sys::homie5_lane(
            mem.as_ptr(),
            mem.len(),
            id.as_ptr(),
            id.len(),
            node.as_ptr(),
            node.len(),
            property.as_ptr(),
            property.len(),
            kind,
            out.as_mut_ptr(),
            out.len(),
        )
    }
}
