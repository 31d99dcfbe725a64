/*
 * NULL with length 0 is the empty byte string, and the empty array: every call answers with it what it answers with the
 * address of an object.
 */
#include "check.h"

enum { DEVICES = 2, DEPTH = 2, TABLE = 8192 * (DEVICES + DEPTH + 1), BUF = 256, MOST = 256 };

static const char lamp[] =
    "{\"homie\":\"5.0\",\"version\":1,\"nodes\":{\"n\":{\"properties\":{\"p\":{\"datatype\":\"string\",\"settable\":true}}}}}";

/* The empty strings of a run: read, written, and the array for values. */
typedef struct {
    const uint8_t *read;
    uint8_t *write;
    uint64_t *out;
} empty;

/* What a run returned, and what it wrote. */
typedef struct {
    uint32_t returned[MOST];
    size_t count;
    uint8_t mem[TABLE];
    uint8_t buf[BUF];
    uint64_t out[HOMIE5_VALUES];
} run;

static void note(run *r, uint32_t returned)
{
    assert(r->count < MOST);
    r->returned[r->count++] = returned;
}

static void traces(run *r, empty e)
{
    uint64_t used[1];
    note(r, homie5_trace_check(e.read, 0, e.out, 0));
    note(r, homie5_trace_read(e.read, 0, 0, e.out, 0));
    note(r, homie5_trace_next(e.read, 0, 0, e.out, 0));
    note(r, homie5_trace_empty(e.write, 0, e.out, 0));
    note(r, homie5_trace_append(e.write, 0, 0, 1, TEXT("a"), 1, TEXT("b"), e.out, 0));
    note(r, homie5_trace_empty(r->buf, BUF, e.out, 0));
    note(r, homie5_trace_append(r->buf, BUF, 16, 1, e.read, 0, 1, TEXT("b"), e.out, 0));
    note(r, homie5_trace_append(r->buf, BUF, 16, 1, TEXT("a"), 1, e.read, 0, used, 1));
    note(r, homie5_trace_append(r->buf, BUF, 41, 1, TEXT("a"), 1, e.read, 0, e.out, 0));
    note(r, homie5_trace_check(r->buf, 66, e.out, 0));
    note(r, homie5_trace_read(r->buf, 66, 1, e.out, 0));
    note(r, homie5_trace_next(r->buf, 66, 1, e.out, 0));
    assert(used[0] == 41);
}

static void judgements(run *r, empty e)
{
    note(r, homie5_topic_read(e.read, 0, e.read, 0, e.out, 0));
    note(r, homie5_topic_read(e.read, 0, TEXT("/5/a/b/c"), r->out, HOMIE5_VALUES));
    note(r, homie5_topic_read(TEXT("homie"), TEXT("homie/5/a/$b"), e.out, 0));
    note(r, homie5_topic_flag(e.read, 0, e.read, 0, e.out, 0));
    note(r, homie5_topic_flag(e.read, 0, TEXT("/5/a/b/c"), e.out, 0));
    note(r, homie5_is_datatype(e.read, 0, e.out, 0));
    note(r, homie5_is_datatype(TEXT("json"), e.out, 0));
    for (uint8_t datatype = 0; datatype <= HOMIE5_DATATYPE_JSON; datatype++) {
        note(r, homie5_is_format(datatype, 0, e.read, 0, e.out, 0));
        note(r, homie5_is_format(datatype, 1, e.read, 0, r->out, HOMIE5_VALUES));
        for (uint8_t given = 0; given <= 1; given++) {
            note(r, homie5_is_payload(datatype, given, e.read, 0, e.read, 0));
            note(r, homie5_is_payload(datatype, given, e.read, 0, TEXT("[]")));
            note(r, homie5_is_payload(datatype, given, TEXT(":"), e.read, 0));
        }
    }
}

static void descriptions(run *r, empty e)
{
    note(r, homie5_description_judge(e.read, 0, e.read, 0));
    note(r, homie5_description_judge(e.read, 0, TEXT(lamp)));
    note(r, homie5_description_read(e.read, 0, e.read, 0, e.out, 0));
    note(r, homie5_description_read(e.read, 0, TEXT(lamp), e.out, 0));
    note(r, homie5_description_property(e.read, 0, e.read, 0, 0, e.out, 0));
    note(r, homie5_description_property(e.read, 0, TEXT(lamp), 0, e.out, 0));
    note(r, homie5_description_string(e.read, 0, 0, e.write, 0, e.out, 0));
    note(r, homie5_description_string(e.read, 0, 0, r->buf, BUF, e.out, 0));
    note(r, homie5_description_string(TEXT(lamp), 1, e.write, 0, r->out, HOMIE5_VALUES));
    note(r, homie5_description_string(TEXT(lamp), 1, r->buf, BUF, e.out, 0));
}

static void message(run *r, const char *topic, uint8_t retained, const uint8_t *payload, size_t len)
{
    note(r, homie5_message(r->mem, TABLE, 1, TEXT(topic), retained, payload, len));
}

static void messages(run *r, empty e)
{
    note(r, homie5_open(e.write, 0, TEXT("homie"), DEVICES, DEPTH));
    note(r, homie5_open(r->mem, TABLE, e.read, 0, DEVICES, DEPTH));
    note(r, homie5_open(r->mem, TABLE, TEXT("homie"), DEVICES, DEPTH));
    note(r, homie5_message(e.write, 0, 1, e.read, 0, 1, e.read, 0));
    note(r, homie5_message(r->mem, TABLE, 1, e.read, 0, 1, e.read, 0));
    note(r, homie5_step_back(e.write, 0));
    message(r, "homie/5/a/$state", 1, TEXT("ready"));
    message(r, "homie/5/a/$description", 1, TEXT(lamp));
    message(r, "homie/5/a/n/p", 1, e.read, 0);
    message(r, "homie/5/a/n/p/set", 0, e.read, 0);
    message(r, "homie/5/a/n/p/$target", 1, e.read, 0);
    message(r, "homie/5/a/$alert/b", 1, e.read, 0);
    message(r, "homie/5/a/$log/info", 1, e.read, 0);
    message(r, "homie/5/a/$b", 1, e.read, 0);
    message(r, "homie/5/$broadcast/b", 1, e.read, 0);
}

static void questions(run *r, const uint8_t *mem, size_t len, empty e)
{
    note(r, homie5_device_count(mem, len, e.out, 0));
    note(r, homie5_device_at(mem, len, 0, e.out, 0));
    note(r, homie5_states(mem, len, e.read, 0, e.out, 0));
    note(r, homie5_root(mem, len, e.read, 0, e.out, 0));
    note(r, homie5_parent(mem, len, e.read, 0, e.out, 0));
    note(r, homie5_version(mem, len, e.read, 0, e.out, 0));
    note(r, homie5_values_held(mem, len, e.read, 0, e.out, 0));
    note(r, homie5_property(mem, len, e.read, 0, 0, e.out, 0));
    note(r, homie5_lane(mem, len, e.read, 0, e.read, 0, e.read, 0, 0, e.out, 0));
    note(r, homie5_last_time(mem, len, e.out, 0));
    note(r, homie5_steps(mem, len, e.out, 0));
}

static void of_device(run *r, empty e)
{
    note(r, homie5_states(r->mem, TABLE, TEXT("a"), e.out, 0));
    note(r, homie5_root(r->mem, TABLE, TEXT("a"), e.out, 0));
    note(r, homie5_parent(r->mem, TABLE, TEXT("a"), e.out, 0));
    note(r, homie5_version(r->mem, TABLE, TEXT("a"), e.out, 0));
    note(r, homie5_values_held(r->mem, TABLE, TEXT("a"), e.out, 0));
    note(r, homie5_property(r->mem, TABLE, TEXT("a"), 0, e.out, 0));
    note(r, homie5_lane(r->mem, TABLE, TEXT("a"), TEXT("n"), e.read, 0, 0, e.out, 0));
    note(r, homie5_lane(r->mem, TABLE, TEXT("a"), e.read, 0, TEXT("p"), 0, e.out, 0));
    note(r, homie5_lane(r->mem, TABLE, TEXT("a"), TEXT("n"), TEXT("p"), 0, e.out, 0));
}

/* Empty payloads that take something away, and the steps back over them. */
static void removals(run *r, empty e)
{
    message(r, "homie/5/a/$description", 1, e.read, 0);
    message(r, "homie/5/a/$state", 1, e.read, 0);
    note(r, homie5_step_back(r->mem, TABLE));
    note(r, homie5_step_back(r->mem, TABLE));
}

static run *every_call(empty e)
{
    run *r = (run *)calloc(1, sizeof *r);
    assert(r != NULL);
    traces(r, e);
    judgements(r, e);
    descriptions(r, e);
    messages(r, e);
    questions(r, e.read, 0, e);
    questions(r, r->mem, TABLE, e);
    of_device(r, e);
    removals(r, e);
    return r;
}

int main(void)
{
    uint8_t bytes[1] = {0x5a};
    uint64_t numbers[1] = {GUARD};
    const empty null = {NULL, NULL, NULL}, objects = {bytes, bytes, numbers};
    run *a = every_call(null), *b = every_call(objects);
    assert(memcmp(a, b, sizeof *a) == 0);
    assert(bytes[0] == 0x5a && numbers[0] == GUARD);
    free(a);
    free(b);
    return 0;
}
