/*
 * Homie 5 traces and the device table: the C interface of the proved library. docs/RULES.md tells what a trace file is
 * byte by byte, which topics, payloads and descriptions are valid, and what every refusal means and tells. C99 or
 * later, C++11 or later.
 *
 * Every call is total: it is safe for all bytes and numbers, ends, keeps no state of its own and allocates nothing.
 *
 * Byte strings. A byte string is a pointer and a length. Of one with length 0 nothing is read or written, and the
 * pointer may be NULL or any other. The same holds of `out` with `out_len` 0. Bytes need no alignment, `out` that of
 * uint64_t. What a call writes (`out`, `buf`, and `mem` of homie5_open, homie5_message and homie5_step_back) must not
 * overlap any other argument; what calls only read may overlap as it likes.
 *
 * Answers. Every call returns a uint32_t. It is 0 (HOMIE5_OK) where the call answers. Else the call is refused:
 * HOMIE5_NUMBER of what it returned is the number of the refusal, and HOMIE5_PLACE what the refusal tells, for 21 to 25
 * a byte of the description, for all others 0. Where several refusals apply, the first is given in the order that
 * stands with the call. The judgements homie5_is_datatype, homie5_is_format and homie5_is_payload return 1 for yes and
 * 0 for no instead. A refusal alters nothing: neither `out` nor `buf` nor `mem`, homie5_open and homie5_trace_empty
 * included.
 *
 * Values. The values of an answer go to `out`, an array of `out_len` numbers, in the order that stands with each call.
 * Where the array is too short, the values that do not fit are left out. Nothing else of the array is altered.
 * HOMIE5_VALUES numbers are enough for every call.
 *
 * Places. A place among the values is two numbers, start and end: the bytes start .. end - 1 of the byte string that
 * stands with the call. A place in a table's memory holds until the next homie5_open, homie5_message or
 * homie5_step_back on it, a place in a trace until the next homie5_trace_empty or homie5_trace_append on its buffer.
 *
 * Words. An ID is 1 to 32 bytes of `a` to `z`, `0` to `9` and `-`. A time counts microseconds, from where the recorder
 * likes. Flags are 0 for no, else yes.
 *
 * Threads. The library has no state, so calls on different memory may run side by side, and so may calls that only read
 * the same memory, such as questions on one table. While a call writes to memory, no other call may use it.
 *
 * Stack. HOMIE5_STACK is more than any call was measured to take below its caller's frame. That is not proved:
 * tests/c/stack.c paints a thread's stack, makes every call on inputs that go deep, and looks how far down was written.
 */
#ifndef HOMIE5_H
#define HOMIE5_H

#include <stddef.h>
#include <stdint.h>

/* The version of this interface. */
#define HOMIE5_VERSION_MAJOR 0
#define HOMIE5_VERSION_MINOR 3
#define HOMIE5_VERSION_PATCH 0
#define HOMIE5_VERSION "0.3.0"

/*
 * Stands before every declaration: the calls are visible, whatever visibility the program is compiled with. Define it
 * before including this header to say otherwise. A shared library that is made with the static one keeps the calls out
 * of its own exports where the compiler links it with `-Wl,--exclude-libs,libhomie5.a`.
 */
#ifndef HOMIE5_API
#if defined(__GNUC__)
#define HOMIE5_API __attribute__((visibility("default")))
#else
#define HOMIE5_API
#endif
#endif

#ifdef __cplusplus
extern "C" {
#endif

/* The most values that an answer has. */
#define HOMIE5_VALUES 9

/* More stack than any call was measured to take, in bytes. */
#define HOMIE5_STACK 65536

/*
 * What a call returned, taken apart: the number of the refusal, 0 where the call answers, and what the refusal tells.
 * It is the number that is compared with the names of refusals: what 21 to 25 return has a place above it.
 */
#define HOMIE5_NUMBER(returned) ((unsigned)((uint32_t)(returned) & 255u))
#define HOMIE5_PLACE(returned) ((size_t)((uint32_t)(returned) >> 8))

/*
 * Refusals. homie5_refusal_text says what each means, docs/RULES.md when it is given. 21 to 25 are those of
 * descriptions. Their HOMIE5_PLACE is a byte of the text, of homie5_message a byte of the payload, counted from 0:
 *   21: the first byte with which no JSON text in UTF-8 goes on (the text's length, where it ends too early), the
 *       bracket that opens level 17, or 8192 where the text is longer, whichever comes first
 *   22: the first byte of the value of the wrong kind
 *   23: the closing brace of the object that lacks the field
 *   24: the opening quote of the name that repeats an earlier one
 *   25: the opening quote of the string or name, or the first byte of the number, that breaks a rule; of half a
 *       surrogate pair in a string or name, its backslash
 */
enum {
    HOMIE5_OK = 0,
    HOMIE5_BAD_HEADER = 1,
    HOMIE5_BAD_ENTRY = 2,
    HOMIE5_NO_SUCH_NUMBER = 3,
    HOMIE5_TOO_LONG = 4,
    HOMIE5_BAD_OPENING = 5,
    HOMIE5_NOT_SOUND = 6,
    HOMIE5_EARLIER = 7,
    HOMIE5_OTHER_DOMAIN = 8,
    HOMIE5_NO_FORM = 9,
    HOMIE5_NOT_UTF8 = 10,
    HOMIE5_WRONG_FLAG = 11,
    HOMIE5_NO_DEVICE = 12,
    HOMIE5_FULL = 13,
    HOMIE5_BAD_PAYLOAD = 14,
    HOMIE5_NO_PROPERTY = 16,
    HOMIE5_NOT_SETTABLE = 17,
    HOMIE5_NO_STEP = 18,
    HOMIE5_NOT_JSON = 21,
    HOMIE5_WRONG_KIND = 22,
    HOMIE5_FIELD_MISSING = 23,
    HOMIE5_NAME_REPEATED = 24,
    HOMIE5_RULE_BROKEN = 25
};

/*
 * A sentence for what a call returned, or for the number in it, the three judgements apart. The text stays, and is not
 * to be freed. The function is defined here and is in neither library: a language that loads the shared one has to
 * bring texts of its own.
 */
static inline const char *homie5_refusal_text(uint32_t returned)
{
    switch (HOMIE5_NUMBER(returned)) {
    case HOMIE5_OK:
        return "answered, not refused";
    case HOMIE5_BAD_HEADER:
        return "the header, the file's length or the used length breaks the layout of a trace";
    case HOMIE5_BAD_ENTRY:
        return "an entry breaks the layout of a trace";
    case HOMIE5_NO_SUCH_NUMBER:
        return "there is no event, device or property of that number";
    case HOMIE5_TOO_LONG:
        return "the trace does not fit the buffer or a trace's greatest length";
    case HOMIE5_BAD_OPENING:
        return "the number of devices, the depth, the domain or the memory's size is out of its limits";
    case HOMIE5_NOT_SOUND:
        return "the memory is not a sound table";
    case HOMIE5_EARLIER:
        return "the time is before the last one";
    case HOMIE5_OTHER_DOMAIN:
        return "the topic's first two levels are not the domain and 5";
    case HOMIE5_NO_FORM:
        return "the topic has no form of the convention, or no length that a trace can hold";
    case HOMIE5_NOT_UTF8:
        return "the payload is not UTF-8, or begins with a byte order mark";
    case HOMIE5_WRONG_FLAG:
        return "the message is retained and must not be, or is not and must be";
    case HOMIE5_NO_DEVICE:
        return "the device is not in the table";
    case HOMIE5_FULL:
        return "the device is new, and the table has no room for it";
    case HOMIE5_BAD_PAYLOAD:
        return "the state word or the payload of the property is not valid";
    case HOMIE5_NO_PROPERTY:
        return "the device has no such property";
    case HOMIE5_NOT_SETTABLE:
        return "the property is not settable";
    case HOMIE5_NO_STEP:
        return "no step back is on offer";
    case HOMIE5_NOT_JSON:
        return "the description is not JSON, is nested too deep or is too long";
    case HOMIE5_WRONG_KIND:
        return "a value of the description is of the wrong JSON kind";
    case HOMIE5_FIELD_MISSING:
        return "a required field of the description is missing";
    case HOMIE5_NAME_REPEATED:
        return "a known field or an ID of the description is repeated";
    case HOMIE5_RULE_BROKEN:
        return "a string, number or name of the description breaks a rule";
    default:
        return "no number of this interface";
    }
}

/* Forms of topics. */
enum {
    HOMIE5_FORM_STATE = 0,
    HOMIE5_FORM_DESCRIPTION = 1,
    HOMIE5_FORM_VALUE = 2,
    HOMIE5_FORM_SET = 3,
    HOMIE5_FORM_TARGET = 4,
    HOMIE5_FORM_ALERT = 5,
    HOMIE5_FORM_LOG = 6,
    HOMIE5_FORM_BROADCAST = 7,
    HOMIE5_FORM_OTHER = 8
};

/* What a form asks of a message's flag. */
enum {
    HOMIE5_FLAG_NOT_RETAINED = 0,
    HOMIE5_FLAG_RETAINED = 1,
    HOMIE5_FLAG_EITHER = 2,
    HOMIE5_FLAG_AS_PROPERTY = 3 /* as the property says */
};

/* Datatypes. A number past the last reads as the last. */
enum {
    HOMIE5_DATATYPE_STRING = 0,
    HOMIE5_DATATYPE_INTEGER = 1,
    HOMIE5_DATATYPE_FLOAT = 2,
    HOMIE5_DATATYPE_BOOLEAN = 3,
    HOMIE5_DATATYPE_ENUM = 4,
    HOMIE5_DATATYPE_COLOR = 5,
    HOMIE5_DATATYPE_DATETIME = 6,
    HOMIE5_DATATYPE_DURATION = 7,
    HOMIE5_DATATYPE_JSON = 8
};

/* What is kept of a format. Where two of these keep the same bytes, as for a given `:`, either may be answered. */
enum {
    HOMIE5_KEPT_AS_GIVEN = 0,   /* its own bytes */
    HOMIE5_KEPT_COLON = 1,      /* `:` */
    HOMIE5_KEPT_FALSE_TRUE = 2, /* `false,true` */
    HOMIE5_KEPT_NOTHING = 3     /* nothing */
};

/* States of devices. */
enum {
    HOMIE5_STATE_INIT = 0,
    HOMIE5_STATE_READY = 1,
    HOMIE5_STATE_DISCONNECTED = 2,
    HOMIE5_STATE_SLEEPING = 3,
    HOMIE5_STATE_LOST = 4
};

/*
 * Lanes of a property: what the device says it holds, what it says it is going to, and what a set last asked of it. A
 * number past the last reads as the last.
 */
enum { HOMIE5_LANE_VALUE = 0, HOMIE5_LANE_TARGET = 1, HOMIE5_LANE_ASKED = 2 };

/* Trace files --------------------------------------------------------------------------------------------------- */

/* Checks a whole trace. Values: how many events it has. Refusals: 1, 2. */
HOMIE5_API uint32_t homie5_trace_check(const uint8_t *file, size_t file_len, uint64_t *out, size_t out_len);

/*
 * Reads the event of number i, from 0. Values: time; the topic's place in the file; 1 where it was retained as
 * published, else 0; the payload's place in the file (6 numbers). Refusals: 1, 3, 2.
 */
HOMIE5_API uint32_t homie5_trace_read(const uint8_t *file, size_t file_len, size_t i, uint64_t *out, size_t out_len);

/*
 * Reads the event at a reading place, the number of the next event, 0 at first. Values: those of homie5_trace_read,
 * then the reading place behind it (7 numbers). At the end (3), as at every refusal, the reading place stays.
 * Refusals: 1, 3, 2.
 */
HOMIE5_API uint32_t homie5_trace_next(const uint8_t *file, size_t file_len, size_t place, uint64_t *out,
                                      size_t out_len);

/* Writes the empty trace into a buffer. Values: its length. Refusals: 4. */
HOMIE5_API uint32_t homie5_trace_empty(uint8_t *buf, size_t buf_len, uint64_t *out, size_t out_len);

/*
 * Appends an event to the trace in the first `used` bytes of a buffer. Bytes past the new length stay. Values: the new
 * length. Refusals: 1, 2, 9, 7, 4.
 * Each call checks and moves the whole trace, so it costs the trace's length. Many events are written in one go:
 * header, entries and text as docs/RULES.md ("Writing many events") has them, then homie5_trace_check. examples/write.c
 * does so, in Rust `Writer`.
 */
HOMIE5_API uint32_t homie5_trace_append(uint8_t *buf, size_t buf_len, size_t used, uint64_t time, const uint8_t *topic,
                                        size_t topic_len, uint8_t retained, const uint8_t *payload, size_t payload_len,
                                        uint64_t *out, size_t out_len);

/* Topics, payloads, descriptions -------------------------------------------------------------------------------- */

/*
 * Reads a topic under a domain, which is compared by its bytes and may be any. Values: the form; then places in the
 * topic (3 to 7 numbers in all):
 *   state, description: device. value, set, target: device, node, property. alert: device, alert ID. log: device,
 *   level. broadcast: from the first ID to the last one's end. other: device, the ID after `$`, all levels after it.
 * Refusals: 8, 9.
 */
HOMIE5_API uint32_t homie5_topic_read(const uint8_t *domain, size_t domain_len, const uint8_t *topic, size_t topic_len,
                                      uint64_t *out, size_t out_len);

/* What the form of a topic asks of a message's flag. Values: HOMIE5_FLAG_.. Refusals: 8, 9. */
HOMIE5_API uint32_t homie5_topic_flag(const uint8_t *domain, size_t domain_len, const uint8_t *topic, size_t topic_len,
                                      uint64_t *out, size_t out_len);

/* The datatype of a name. 1 yes, 0 where no datatype has it. Values of a yes: its number. */
HOMIE5_API uint32_t homie5_is_datatype(const uint8_t *name, size_t name_len, uint64_t *out, size_t out_len);

/*
 * Whether a format is valid for a datatype, or, where `given` is 0, whether it may be missing. 1 yes, 0 no.
 * Values of a yes: what is kept of it, HOMIE5_KEPT_..
 */
HOMIE5_API uint32_t homie5_is_format(uint8_t datatype, uint8_t given, const uint8_t *format, size_t format_len,
                                     uint64_t *out, size_t out_len);

/*
 * Whether a payload is valid for a property of a datatype that has a format, or, where `given` is 0, none: `:` is then
 * meant for numbers, `false,true` for booleans. 1 yes, 0 no; 0 too where homie5_is_format says no, since no property has
 * such a format: one that is not valid for the datatype, booleans included, or none for an enum or a color.
 * An empty format is a given one, and valid only where formats are not kept (string, datetime, duration, json).
 */
HOMIE5_API uint32_t homie5_is_payload(uint8_t datatype, uint8_t given, const uint8_t *format, size_t format_len,
                                      const uint8_t *payload, size_t payload_len);

/*
 * Whether a text is a valid description of the device of the ID `own`. Refusals: 21; then that of 22 to 25 whose place
 * is the least, at one place the lower number. For whoever wrote the description:
 *   uint32_t r = homie5_description_judge(own, own_len, text, text_len);
 *   if (r != HOMIE5_OK)
 *       printf("byte %zu: %s\n", HOMIE5_PLACE(r), homie5_refusal_text(r));
 * The command `lint` of the Rust crate shows the line with a mark under that byte.
 */
HOMIE5_API uint32_t homie5_description_judge(const uint8_t *own, size_t own_len, const uint8_t *text, size_t text_len);

/*
 * What a description of the device of the ID `own` declares. Values: its version, the bits of an int64_t; 1 and where
 * its root stands in the text, else 0 and 0; the same of its parent; how many properties it declares (6 numbers).
 * Refusals: those of homie5_description_judge.
 * A string stands where its opening quote is in the text as sent, and may have escapes: homie5_description_string gives
 * its bytes.
 */
HOMIE5_API uint32_t homie5_description_read(const uint8_t *own, size_t own_len, const uint8_t *text, size_t text_len,
                                            uint64_t *out, size_t out_len);

/*
 * The i-th property that a description declares, from 0, by node ID, then property ID. Values: where its node's ID and
 * its own stand in the text; its datatype; what is kept of its format, HOMIE5_KEPT_..; where its format stands, if that
 * is HOMIE5_KEPT_AS_GIVEN, else 0; 1 where it is settable; 1 where it is retained (7 numbers). Refusals: those of
 * homie5_description_judge, 3.
 * Strings stand as with homie5_description_read. The whole text is judged for each property.
 */
HOMIE5_API uint32_t homie5_description_property(const uint8_t *own, size_t own_len, const uint8_t *text,
                                                size_t text_len, size_t i, uint64_t *out, size_t out_len);

/*
 * The string of a description's text whose opening quote stands at `place`, its escapes decoded: an ID has at most 32
 * bytes, a kept format at most 64. Values: how many bytes it has. They go to the front of `buf` where all of them fit;
 * else `buf` stays as it was, so with `buf_len` 0 the length alone is asked for. Only the string is read: whether the
 * text is a description is for the calls before.
 * Refusals: 21 at 8192 where the text is longer; 22 where no JSON string begins at `place` and ends, told at `place`,
 * or at the text's end where that comes first; 25 at the backslash of the first half of a surrogate pair.
 */
HOMIE5_API uint32_t homie5_description_string(const uint8_t *text, size_t text_len, size_t place, uint8_t *buf,
                                              size_t buf_len, uint64_t *out, size_t out_len);

/* The table ----------------------------------------------------------------------------------------------------- */

/* The bytes of memory that a table of `devices` devices and `depth` steps takes. */
#define HOMIE5_SIZE(devices, depth) ((size_t)8192 * ((size_t)(devices) + (size_t)(depth) + 1))

/*
 * Opens a table for a domain, an ID, with room for `devices` devices (1 to 64) and `depth` steps back (0 to 64). The
 * first HOMIE5_SIZE(devices, depth) bytes of `mem` are the table; no byte past them is altered, here or by any later
 * call. Later calls need at least these bytes, else they are refused with 6. Refusals: 5.
 * The table is these bytes and nothing else, and has no address in it: a copy of them is a checkpoint, which may be
 * kept, moved, stored, and used in place of the table by the same version of this library: the layout may change with
 * the version.
 */
HOMIE5_API uint32_t homie5_open(uint8_t *mem, size_t mem_len, const uint8_t *domain, size_t domain_len, size_t devices,
                                size_t depth);

/*
 * Feeds a message to the table. Refusals: 6, 7, 8, 9, 10, 11 (forms with a flag of their own); then by form: state with
 * an empty payload 12, else 14, 13; description 12, and of a payload that is not empty those of
 * homie5_description_judge, with their places in the payload; value 12, 16, 11, 14; set 12, 16, 17, 14; target 12, 16,
 * 14; alert, log, other 12.
 * A description that is not empty keeps the lanes that it can: of a property that the device had before and has now a
 * value, where it is retained before and after, and a target, with their times, if the payload is valid for what is
 * declared now. All other lanes are empty, asked among them. An empty description clears everything.
 */
HOMIE5_API uint32_t homie5_message(uint8_t *mem, size_t mem_len, uint64_t time, const uint8_t *topic, size_t topic_len,
                                   uint8_t retained, const uint8_t *payload, size_t payload_len);

/*
 * Takes the last message back: all but the number of steps, which falls by 1, is as if it had never been sent.
 * Refusals: 6, 18.
 */
HOMIE5_API uint32_t homie5_step_back(uint8_t *mem, size_t mem_len);

/*
 * Questions about the table in `mem`. They alter nothing of it. Places are places in `mem`. Refusals: 6; of a device
 * named by its ID also 12; then as it stands with each. Memory that is sound but was not made by calls may hold devices
 * and properties in any order or twice, of any names; a name then names the first that has its bytes.
 */

/* How many devices there are. Values: that number. */
HOMIE5_API uint32_t homie5_device_count(const uint8_t *mem, size_t mem_len, uint64_t *out, size_t out_len);

/* The i-th device, from 0, by ascending ID bytes in a table that calls made. Values: the place of its ID. Also 3. */
HOMIE5_API uint32_t homie5_device_at(const uint8_t *mem, size_t mem_len, size_t i, uint64_t *out, size_t out_len);

/*
 * The states of a device. Values: its own state, its effective state, the time of its own. Effective is
 * `lost` where the description's root is a device of the table whose own state is `lost`; else the same as own.
 */
HOMIE5_API uint32_t homie5_states(const uint8_t *mem, size_t mem_len, const uint8_t *id, size_t id_len, uint64_t *out,
                                  size_t out_len);

/* The root or the parent of a device, as its description names it. Values: 1 and its place, or 0 where it has none. */
HOMIE5_API uint32_t homie5_root(const uint8_t *mem, size_t mem_len, const uint8_t *id, size_t id_len, uint64_t *out,
                                size_t out_len);
HOMIE5_API uint32_t homie5_parent(const uint8_t *mem, size_t mem_len, const uint8_t *id, size_t id_len, uint64_t *out,
                                  size_t out_len);

/*
 * The version of a device's description. Values: 1 and its number, the bits of an int64_t, or 0 where it has none.
 */
HOMIE5_API uint32_t homie5_version(const uint8_t *mem, size_t mem_len, const uint8_t *id, size_t id_len, uint64_t *out,
                                   size_t out_len);

/* How many properties of a device hold a value. Values: that number. */
HOMIE5_API uint32_t homie5_values_held(const uint8_t *mem, size_t mem_len, const uint8_t *id, size_t id_len,
                                       uint64_t *out, size_t out_len);

/*
 * The i-th property of a device, from 0, by node ID, then property ID in a table that calls made. Values: the place of
 * its node's ID, the place of its ID, its datatype, the place of its kept format, 1 where it is settable, 1 where it is
 * retained (9 numbers). Also 3.
 */
HOMIE5_API uint32_t homie5_property(const uint8_t *mem, size_t mem_len, const uint8_t *id, size_t id_len, size_t i,
                                    uint64_t *out, size_t out_len);

/*
 * What a lane of a property holds. Values: 1, its time and the place of its payload, or 0 where it is empty. Also 16.
 */
HOMIE5_API uint32_t homie5_lane(const uint8_t *mem, size_t mem_len, const uint8_t *id, size_t id_len,
                                const uint8_t *node, size_t node_len, const uint8_t *property, size_t property_len,
                                uint8_t kind, uint64_t *out, size_t out_len);

/* The time of the last message that stands. Values: 1 and that time, or 0 where none stands. */
HOMIE5_API uint32_t homie5_last_time(const uint8_t *mem, size_t mem_len, uint64_t *out, size_t out_len);

/* How many steps back are on offer. Values: that number. */
HOMIE5_API uint32_t homie5_steps(const uint8_t *mem, size_t mem_len, uint64_t *out, size_t out_len);

#ifdef __cplusplus
}
#endif

#endif
