//! The calls of the library over slices. All unsafe code of this crate is here.
//!
//! What makes each of them safe: every pointer is that of a slice, so it is not null, and goes with the slice's length;
//! what the library writes is lent by `&mut`, so it overlaps nothing else; and the library reads and writes nothing
//! but these slices, and keeps no pointer.

use crate::sys;
use crate::trace::Event;
use crate::values::{ask, judge, taken, yes, Values};
use crate::Refusal;

/// Calls that read byte strings, then numbers, and answer with values.
macro_rules! questions {
    ($($name:ident = $call:ident($($bytes:ident),*; $($number:ident: $kind:ty),*);)*) => {$(
        pub fn $name($($bytes: impl AsRef<[u8]>,)* $($number: $kind,)*) -> Result<Values, Refusal> {
            $(let $bytes = $bytes.as_ref();)*
            // SAFETY: see the head of this file.
            ask(|out| unsafe {
                sys::$call($($bytes.as_ptr(), $bytes.len(),)* $($number,)* out.as_mut_ptr(), out.len())
            })
        }
    )*};
}

questions! {
    trace_check = homie5_trace_check(file;);
    trace_read = homie5_trace_read(file; i: usize);
    trace_next = homie5_trace_next(file; place: usize);
    topic_read = homie5_topic_read(domain, topic;);
    topic_flag = homie5_topic_flag(domain, topic;);
    description_read = homie5_description_read(own, text;);
    description_property = homie5_description_property(own, text; i: usize);
    device_count = homie5_device_count(mem;);
    device_at = homie5_device_at(mem; i: usize);
    states = homie5_states(mem, id;);
    root = homie5_root(mem, id;);
    parent = homie5_parent(mem, id;);
    version = homie5_version(mem, id;);
    values_held = homie5_values_held(mem, id;);
    property = homie5_property(mem, id; i: usize);
    lane = homie5_lane(mem, id, node, property; kind: u8);
    last_time = homie5_last_time(mem;);
    steps = homie5_steps(mem;);
}

pub fn trace_empty(buf: &mut [u8]) -> Result<Values, Refusal> {
    // SAFETY: see the head of this file.
    ask(|out| unsafe { sys::homie5_trace_empty(buf.as_mut_ptr(), buf.len(), out.as_mut_ptr(), out.len()) })
}

pub fn trace_append(buf: &mut [u8], used: usize, event: &Event) -> Result<Values, Refusal> {
    // SAFETY: see the head of this file.
    ask(|out| unsafe {
        sys::homie5_trace_append(
            buf.as_mut_ptr(),
            buf.len(),
            used,
            event.time,
            event.topic.as_ptr(),
            event.topic.len(),
            u8::from(event.retained),
            event.payload.as_ptr(),
            event.payload.len(),
            out.as_mut_ptr(),
            out.len(),
        )
    })
}

pub fn is_datatype(name: &str) -> Option<Values> {
    // SAFETY: see the head of this file.
    judge(|out| unsafe { sys::homie5_is_datatype(name.as_ptr(), name.len(), out.as_mut_ptr(), out.len()) })
}

pub fn is_format(datatype: u8, format: Option<&[u8]>) -> Option<Values> {
    let given = u8::from(format.is_some());
    let format = format.unwrap_or_default();
    // SAFETY: see the head of this file.
    judge(|out| unsafe {
        sys::homie5_is_format(datatype, given, format.as_ptr(), format.len(), out.as_mut_ptr(), out.len())
    })
}

pub fn is_payload(datatype: u8, format: Option<&[u8]>, payload: &[u8]) -> bool {
    let given = u8::from(format.is_some());
    let format = format.unwrap_or_default();
    // SAFETY: see the head of this file.
    yes(unsafe {
        sys::homie5_is_payload(datatype, given, format.as_ptr(), format.len(), payload.as_ptr(), payload.len())
    })
}

pub fn description_judge(own: &str, text: &[u8]) -> Result<(), Refusal> {
    // SAFETY: see the head of this file.
    taken(unsafe { sys::homie5_description_judge(own.as_ptr(), own.len(), text.as_ptr(), text.len()) })
}

pub fn description_string(text: &[u8], place: usize, buf: &mut [u8]) -> Result<Values, Refusal> {
    // SAFETY: see the head of this file.
    ask(|out| unsafe {
        sys::homie5_description_string(
            text.as_ptr(),
            text.len(),
            place,
            buf.as_mut_ptr(),
            buf.len(),
            out.as_mut_ptr(),
            out.len(),
        )
    })
}

pub fn open(mem: &mut [u8], domain: &str, devices: usize, depth: usize) -> Result<(), Refusal> {
    // SAFETY: see the head of this file.
    taken(unsafe { sys::homie5_open(mem.as_mut_ptr(), mem.len(), domain.as_ptr(), domain.len(), devices, depth) })
}

pub fn message(mem: &mut [u8], event: &Event) -> Result<(), Refusal> {
    // SAFETY: see the head of this file.
    taken(unsafe {
        sys::homie5_message(
            mem.as_mut_ptr(),
            mem.len(),
            event.time,
            event.topic.as_ptr(),
            event.topic.len(),
            u8::from(event.retained),
            event.payload.as_ptr(),
            event.payload.len(),
        )
    })
}

pub fn step_back(mem: &mut [u8]) -> Result<(), Refusal> {
    // SAFETY: see the head of this file.
    taken(unsafe { sys::homie5_step_back(mem.as_mut_ptr(), mem.len()) })
}
