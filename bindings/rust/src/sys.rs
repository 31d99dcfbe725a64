//! The C interface, call by call: `include/homie5.h` says what each takes, gives and refuses. The rest of this crate
//! covers it with safe calls.

/// The version of the interface that is declared here, which is this crate's.
pub const HOMIE5_VERSION: &str = env!("CARGO_PKG_VERSION");

/// The most values that an answer has.
pub const HOMIE5_VALUES: usize = 9;

/// More stack than any call was measured to take below its caller's frame, in bytes.
pub const HOMIE5_STACK: usize = 65_536;

/// The bytes of memory that a table of `devices` devices and `depth` steps takes: `HOMIE5_SIZE`, which wraps as C does.
pub const fn homie5_size(devices: usize, depth: usize) -> usize {
    8192_usize.wrapping_mul(devices.wrapping_add(depth).wrapping_add(1))
}

/// The number of the refusal in what a call returned, 0 where it answers: `HOMIE5_NUMBER`.
pub const fn homie5_number(returned: u32) -> u8 {
    (returned & 255) as u8
}

/// What the refusal in what a call returned tells: `HOMIE5_PLACE`.
pub const fn homie5_place(returned: u32) -> usize {
    (returned >> 8) as usize
}

extern "C" {
    /// Checks a whole trace.
    pub fn homie5_trace_check(file: *const u8, file_len: usize, out: *mut u64, out_len: usize) -> u32;
    /// Reads the event of a number.
    pub fn homie5_trace_read(file: *const u8, file_len: usize, i: usize, out: *mut u64, out_len: usize) -> u32;
    /// Reads the event at a reading place.
    pub fn homie5_trace_next(file: *const u8, file_len: usize, place: usize, out: *mut u64, out_len: usize) -> u32;
    /// Writes the empty trace.
    pub fn homie5_trace_empty(buf: *mut u8, buf_len: usize, out: *mut u64, out_len: usize) -> u32;
    /// Appends an event to a trace.
    pub fn homie5_trace_append(
        buf: *mut u8,
        buf_len: usize,
        used: usize,
        time: u64,
        topic: *const u8,
        topic_len: usize,
        retained: u8,
        payload: *const u8,
        payload_len: usize,
        out: *mut u64,
        out_len: usize,
    ) -> u32;
    /// Reads a topic under a domain.
    pub fn homie5_topic_read(
        domain: *const u8,
        domain_len: usize,
        topic: *const u8,
        topic_len: usize,
        out: *mut u64,
        out_len: usize,
    ) -> u32;
    /// What the form of a topic asks of a message's flag.
    pub fn homie5_topic_flag(
        domain: *const u8,
        domain_len: usize,
        topic: *const u8,
        topic_len: usize,
        out: *mut u64,
        out_len: usize,
    ) -> u32;
    /// The datatype of a name.
    pub fn homie5_is_datatype(name: *const u8, name_len: usize, out: *mut u64, out_len: usize) -> u32;
    /// Whether a format is valid for a datatype, or may be missing.
    pub fn homie5_is_format(
        datatype: u8,
        given: u8,
        format: *const u8,
        format_len: usize,
        out: *mut u64,
        out_len: usize,
    ) -> u32;
    /// Whether a payload is valid for a datatype and a format.
    pub fn homie5_is_payload(
        datatype: u8,
        given: u8,
        format: *const u8,
        format_len: usize,
        payload: *const u8,
        payload_len: usize,
    ) -> u32;
    /// Whether a text is a valid description.
    pub fn homie5_description_judge(own: *const u8, own_len: usize, text: *const u8, text_len: usize) -> u32;
    /// What a description declares.
    pub fn homie5_description_read(
        own: *const u8,
        own_len: usize,
        text: *const u8,
        text_len: usize,
        out: *mut u64,
        out_len: usize,
    ) -> u32;
    /// The i-th property that a description declares.
    pub fn homie5_description_property(
        own: *const u8,
        own_len: usize,
        text: *const u8,
        text_len: usize,
        i: usize,
        out: *mut u64,
        out_len: usize,
    ) -> u32;
    /// The string of a description's text at a place.
    pub fn homie5_description_string(
        text: *const u8,
        text_len: usize,
        place: usize,
        buf: *mut u8,
        buf_len: usize,
        out: *mut u64,
        out_len: usize,
    ) -> u32;
    /// Opens a table.
    pub fn homie5_open(
        mem: *mut u8,
        mem_len: usize,
        domain: *const u8,
        domain_len: usize,
        devices: usize,
        depth: usize,
    ) -> u32;
    /// Feeds a message to the table.
    pub fn homie5_message(
        mem: *mut u8,
        mem_len: usize,
        time: u64,
        topic: *const u8,
        topic_len: usize,
        retained: u8,
        payload: *const u8,
        payload_len: usize,
    ) -> u32;
    /// Takes the last message back.
    pub fn homie5_step_back(mem: *mut u8, mem_len: usize) -> u32;
    /// How many devices there are.
    pub fn homie5_device_count(mem: *const u8, mem_len: usize, out: *mut u64, out_len: usize) -> u32;
    /// The i-th device.
    pub fn homie5_device_at(mem: *const u8, mem_len: usize, i: usize, out: *mut u64, out_len: usize) -> u32;
    /// The states of a device.
    pub fn homie5_states(
        mem: *const u8,
        mem_len: usize,
        id: *const u8,
        id_len: usize,
        out: *mut u64,
        out_len: usize,
    ) -> u32;
    /// The root of a device.
    pub fn homie5_root(
        mem: *const u8,
        mem_len: usize,
        id: *const u8,
        id_len: usize,
        out: *mut u64,
        out_len: usize,
    ) -> u32;
    /// The parent of a device.
    pub fn homie5_parent(
        mem: *const u8,
        mem_len: usize,
        id: *const u8,
        id_len: usize,
        out: *mut u64,
        out_len: usize,
    ) -> u32;
    /// The version of a device's description.
    pub fn homie5_version(
        mem: *const u8,
        mem_len: usize,
        id: *const u8,
        id_len: usize,
        out: *mut u64,
        out_len: usize,
    ) -> u32;
    /// How many properties of a device hold a value.
    pub fn homie5_values_held(
        mem: *const u8,
        mem_len: usize,
        id: *const u8,
        id_len: usize,
        out: *mut u64,
        out_len: usize,
    ) -> u32;
    /// The i-th property of a device.
    pub fn homie5_property(
        mem: *const u8,
        mem_len: usize,
        id: *const u8,
        id_len: usize,
        i: usize,
        out: *mut u64,
        out_len: usize,
    ) -> u32;
    /// What a lane of a property holds.
    pub fn homie5_lane(
        mem: *const u8,
        mem_len: usize,
        id: *const u8,
        id_len: usize,
        node: *const u8,
        node_len: usize,
        property: *const u8,
        property_len: usize,
        kind: u8,
        out: *mut u64,
        out_len: usize,
    ) -> u32;
    /// The time of the last message that stands.
    pub fn homie5_last_time(mem: *const u8, mem_len: usize, out: *mut u64, out_len: usize) -> u32;
    /// How many steps back are on offer.
    pub fn homie5_steps(mem: *const u8, mem_len: usize, out: *mut u64, out_len: usize) -> u32;
}
