/*
 * Measures the stack that calls take and holds it to HOMIE5_STACK. Each job runs in a thread of its own on a painted
 * stack; how far down the paint is gone, less what an empty thread takes, is what the job takes. The inputs go deep:
 * descriptions nested 16 deep, with as many fields in an object as fit, with all properties, and the same with a fault
 * at their end; the largest table. It is linked with `-z now`, or the dynamic linker's own stack would be measured too.
 */
#define _POSIX_C_SOURCE 200112L
#include <pthread.h>
#include <stdio.h>
#include <unistd.h>

#include "check.h"

enum { STACK = 1 << 20, PAINT = 0xa5, TABLE = 8192 * 129, TEXT_MOST = 8192, BUF = 4096, DESCRIPTIONS = 6 };

static uint8_t *mem, *buf;
static char descriptions[DESCRIPTIONS][TEXT_MOST + 1];
static char cut[DESCRIPTIONS][TEXT_MOST + 1], repeated[DESCRIPTIONS][TEXT_MOST + 16];
static char *const wide = descriptions[DESCRIPTIONS - 1];
static uint64_t out[HOMIE5_VALUES];
static size_t used;

#define HEAD "{\"homie\":\"5.0\",\"version\":1"
#define NESTED "[[[[[[[[[[[[[[[{\"\":\"\\n\"}]]]]]]]]]]]]]]]"

/* Appends a value: objects and arrays by turns, so many in all, and a string in the innermost. */
static void nest(char *text, int levels)
{
    for (int i = 0; i < levels; i++)
        strcat(text, i % 2 ? "[" : "{\"x\":");
    strcat(text, "\"\\u0061\"");
    for (int i = levels - 1; i >= 0; i--)
        strcat(text, i % 2 ? "]" : "}");
}

/* Fields to add to an object: so many with a number, then so many with a nested value. */
typedef struct {
    int flat, nested;
} fields;

static void add(char *text, fields more, int levels)
{
    for (int i = 0; i < more.flat; i++)
        strcat(text, ",\"\":0");
    for (int i = 0; i < more.nested; i++) {
        strcat(text, ",\"x\":");
        nest(text, levels);
    }
}

/* A description of a device with a node and a property that have these fields besides, all nested to the limit. */
static void write_fields(char *text, fields device, fields node, fields property)
{
    strcpy(text, HEAD);
    add(text, device, 15);
    strcat(text, ",\"nodes\":{\"n\":{\"type\":\"a\"");
    add(text, node, 13);
    strcat(text, ",\"properties\":{\"p\":{\"datatype\":\"string\"");
    add(text, property, 11);
    strcat(text, "}}}}}");
}

/* A description with objects alone nested to the limit. */
static void write_deep(char *text)
{
    strcpy(text, HEAD ",\"x\":");
    for (int i = 0; i < 15; i++)
        strcat(text, "{\"x\":");
    strcat(text, "1}}}}}}}}}}}}}}}}");
}

/* A description with 24 properties, the longest names and formats, all with escapes. */
static void write_wide(char *text)
{
    char one[256];
    strcpy(text, HEAD ",\"root\":\"hub\",\"parent\":\"hub\",\"children\":[\"a\"],\"extensions\":[\"a\"],\"nodes\":{");
    for (int i = 23; i >= 0; i--) {
        sprintf(one, "\"\\u006eode-%027d\":{\"properties\":{\"\\u0070roperty-%023d\":{\"datatype\":\"colo\\u0072\",\"format\":\"rgb\\u002chsv,xyz\",\"settable\":true}}}%s", i, i,
                i ? "," : "}}");
        strcat(text, one);
    }
}

static void write_descriptions(void)
{
    const fields none = {0, 0}, one = {0, 1}, many = {0, 33}, most = {1480, 1};
    write_deep(descriptions[0]);
    write_fields(descriptions[1], many, many, many);
    write_fields(descriptions[2], most, one, one);
    write_fields(descriptions[3], none, most, one);
    write_fields(descriptions[4], none, none, most);
    write_wide(wide);
    for (int i = 0; i < DESCRIPTIONS; i++)
        assert(strlen(descriptions[i]) <= TEXT_MOST);
}

/* Each description without its last brace, and with a known field once more before it. */
static void write_faulty(void)
{
    for (int i = 0; i < DESCRIPTIONS; i++) {
        strcpy(cut[i], descriptions[i]);
        cut[i][strlen(cut[i]) - 1] = '\0';
        strcpy(repeated[i], cut[i]);
        strcat(repeated[i], ",\"homie\":0}");
    }
}

static void nothing(void)
{
}

static void traces(void)
{
    homie5_trace_empty(buf, BUF, out, HOMIE5_VALUES);
    used = 16;
    for (int i = 0; i < 8; i++) {
        homie5_trace_append(buf, BUF, used, 1, TEXT("homie/5/a/b/c"), 1, TEXT("payload"), out, HOMIE5_VALUES);
        used = (size_t)out[0];
    }
    homie5_trace_check(buf, used, out, HOMIE5_VALUES);
    homie5_trace_read(buf, used, 7, out, HOMIE5_VALUES);
    homie5_trace_next(buf, used, 7, out, HOMIE5_VALUES);
}

static void judgements(void)
{
    homie5_topic_read(TEXT("homie"), TEXT("homie/5/a/$b/c/d"), out, HOMIE5_VALUES);
    homie5_topic_flag(TEXT("homie"), TEXT("homie/5/$broadcast/c/d"), out, HOMIE5_VALUES);
    homie5_is_datatype(TEXT("duration"), out, HOMIE5_VALUES);
    homie5_is_format(HOMIE5_DATATYPE_FLOAT, 1, TEXT("-1e280:1e280"), out, HOMIE5_VALUES);
    homie5_is_format(HOMIE5_DATATYPE_FLOAT, 1, TEXT("-999999999.999999999:999999999.999999999:0.000000001"), out, HOMIE5_VALUES);
    homie5_is_format(HOMIE5_DATATYPE_ENUM, 1, TEXT("a,b,c,d,e"), out, HOMIE5_VALUES);
}

static void payloads(void)
{
    assert(homie5_is_payload(HOMIE5_DATATYPE_JSON, 1, TEXT(""), TEXT(NESTED)) == 1);
    assert(homie5_is_payload(HOMIE5_DATATYPE_FLOAT, 1, TEXT("-1e280:1e280"), TEXT("123456789012345678e-280")) == 1);
    assert(homie5_is_payload(HOMIE5_DATATYPE_FLOAT, 1, TEXT("-999999999.999999999:999999999.999999999:0.3"), TEXT("123456789.987654321")) == 1);
    assert(homie5_is_payload(HOMIE5_DATATYPE_INTEGER, 1, TEXT("-9223372036854775808:9223372036854775807:3"), TEXT("-1")) == 1);
    assert(homie5_is_payload(HOMIE5_DATATYPE_COLOR, 1, TEXT("rgb,hsv,xyz"), TEXT("hsv,360,1e2,99.9")) == 1);
    assert(homie5_is_payload(HOMIE5_DATATYPE_DATETIME, 1, TEXT(""), TEXT("2024-02-29T00:00:00.123456789+23:59")) == 1);
    assert(homie5_is_payload(HOMIE5_DATATYPE_DURATION, 1, TEXT(""), TEXT("PT123456789H1M1S")) == 1);
}

static void judge_descriptions(void)
{
    for (int i = 0; i < DESCRIPTIONS; i++)
        assert(homie5_description_judge(TEXT("a"), TEXT(descriptions[i])) == HOMIE5_OK);
}

/* What is returned of the i-th faulty description. */
static uint32_t cut_at(int i)
{
    return AT(HOMIE5_NOT_JSON, strlen(cut[i]));
}

static uint32_t repeated_at(int i)
{
    return strlen(repeated[i]) > TEXT_MOST ? AT(HOMIE5_NOT_JSON, TEXT_MOST) : AT(HOMIE5_NAME_REPEATED, strlen(cut[i]) + 1);
}

static void judge_faulty(void)
{
    for (int i = 0; i < DESCRIPTIONS; i++) {
        assert(homie5_description_judge(TEXT("a"), TEXT(cut[i])) == cut_at(i));
        assert(homie5_description_judge(TEXT("a"), TEXT(repeated[i])) == repeated_at(i));
    }
}

static void read_descriptions(void)
{
    for (int i = 0; i < DESCRIPTIONS; i++)
        assert(homie5_description_read(TEXT("a"), TEXT(descriptions[i]), out, HOMIE5_VALUES) == HOMIE5_OK);
}

/* A string as long as a description may be, of escapes alone but for the last bytes. */
static void read_strings(void)
{
    static uint8_t said[TEXT_MOST];
    static char escaped[TEXT_MOST + 1];
    strcpy(escaped, "\"");
    while (strlen(escaped) + 13 <= TEXT_MOST)
        strcat(escaped, "\\ud834\\udd1e");
    strcat(escaped, "\"");
    assert(homie5_description_string(TEXT(escaped), 0, said, sizeof said, out, HOMIE5_VALUES) == HOMIE5_OK && out[0] == 4 * ((strlen(escaped) - 2) / 12));
}

static void read_properties(void)
{
    for (int i = 1; i < DESCRIPTIONS; i++)
        assert(homie5_description_property(TEXT("a"), TEXT(descriptions[i]), 0, out, HOMIE5_VALUES) == HOMIE5_OK);
    assert(homie5_description_property(TEXT("a"), TEXT(wide), 23, out, HOMIE5_VALUES) == HOMIE5_OK);
}

static uint32_t send(const char *topic, uint8_t retained, const char *payload)
{
    return homie5_message(mem, TABLE, 1, TEXT(topic), retained, TEXT(payload));
}

static void states(void)
{
    char topic[64];
    assert(homie5_open(mem, TABLE, TEXT("homie"), 64, 64) == HOMIE5_OK);
    for (int i = 63; i >= 0; i--) {
        sprintf(topic, "homie/5/device-%d/$state", i);
        assert(send(topic, 1, "ready") == HOMIE5_OK);
    }
    assert(send("homie/5/device-63/$state", 1, "") == HOMIE5_OK);
    assert(send("homie/5/a/$state", 1, "ready") == HOMIE5_OK);
}

static void send_descriptions(void)
{
    for (int i = 0; i < DESCRIPTIONS; i++)
        assert(send("homie/5/a/$description", 1, descriptions[i]) == HOMIE5_OK);
}

static void send_faulty(void)
{
    for (int i = 0; i < DESCRIPTIONS; i++) {
        assert(send("homie/5/a/$description", 1, cut[i]) == cut_at(i));
        assert(send("homie/5/a/$description", 1, repeated[i]) == repeated_at(i));
    }
}

static void messages(void)
{
    assert(send("homie/5/a/node-000000000000000000000000023/property-00000000000000000000023", 1, "xyz,0.5,1e-9") == HOMIE5_OK);
    assert(send("homie/5/a/node-000000000000000000000000023/property-00000000000000000000023/set", 0, "xyz,0.5,1e-9") == HOMIE5_OK);
    assert(send("homie/5/a/node-000000000000000000000000023/property-00000000000000000000023/$target", 1, "xyz,0.5,1e-9") == HOMIE5_OK);
    assert(send("homie/5/a/$alert/b", 1, "text") == HOMIE5_OK);
}

static void questions(void)
{
    assert(homie5_device_count(mem, TABLE, out, HOMIE5_VALUES) == HOMIE5_OK);
    assert(homie5_device_at(mem, TABLE, 63, out, HOMIE5_VALUES) == HOMIE5_OK);
    assert(homie5_states(mem, TABLE, TEXT("a"), out, HOMIE5_VALUES) == HOMIE5_OK);
    assert(homie5_root(mem, TABLE, TEXT("a"), out, HOMIE5_VALUES) == HOMIE5_OK);
    assert(homie5_parent(mem, TABLE, TEXT("a"), out, HOMIE5_VALUES) == HOMIE5_OK);
    assert(homie5_version(mem, TABLE, TEXT("a"), out, HOMIE5_VALUES) == HOMIE5_OK);
    assert(homie5_values_held(mem, TABLE, TEXT("a"), out, HOMIE5_VALUES) == HOMIE5_OK);
    assert(homie5_property(mem, TABLE, TEXT("a"), 23, out, HOMIE5_VALUES) == HOMIE5_OK);
    assert(homie5_lane(mem, TABLE, TEXT("a"), TEXT("node-000000000000000000000000023"), TEXT("property-00000000000000000000023"), HOMIE5_LANE_ASKED, out,
                       HOMIE5_VALUES) == HOMIE5_OK);
    assert(homie5_last_time(mem, TABLE, out, HOMIE5_VALUES) == HOMIE5_OK);
    assert(homie5_steps(mem, TABLE, out, HOMIE5_VALUES) == HOMIE5_OK);
}

static void steps_back(void)
{
    for (int i = 0; i < 64; i++)
        assert(homie5_step_back(mem, TABLE) == HOMIE5_OK);
}

static void *start(void *job)
{
    (*(void (**)(void))job)();
    return NULL;
}

/* How many bytes of a painted stack a job leaves altered, from its highest address to the lowest one altered. */
static size_t taken(uint8_t *stack, void (*job)(void))
{
    pthread_attr_t attributes;
    pthread_t thread;
    size_t low = 0;
    memset(stack, PAINT, STACK);
    assert(pthread_attr_init(&attributes) == 0);
    assert(pthread_attr_setstack(&attributes, stack, STACK) == 0);
    assert(pthread_create(&thread, &attributes, start, &job) == 0);
    assert(pthread_join(thread, NULL) == 0);
    assert(pthread_attr_destroy(&attributes) == 0);
    while (low < STACK && stack[low] == PAINT)
        low++;
    return STACK - low;
}

int main(void)
{
    static const struct {
        const char *name;
        void (*job)(void);
    } jobs[] = {{"traces", traces},
                {"topics, datatypes, formats", judgements},
                {"payloads", payloads},
                {"description_judge", judge_descriptions},
                {"description_judge, refused", judge_faulty},
                {"description_read", read_descriptions},
                {"description_property", read_properties},
                {"description_string", read_strings},
                {"open, states", states},
                {"descriptions sent", send_descriptions},
                {"descriptions refused", send_faulty},
                {"other messages", messages},
                {"questions", questions},
                {"steps back", steps_back}};
    void *stack = NULL;
    size_t empty, most = 0;
    assert(posix_memalign(&stack, (size_t)sysconf(_SC_PAGESIZE), STACK) == 0);
    mem = (uint8_t *)malloc(TABLE);
    buf = (uint8_t *)malloc(BUF);
    assert(mem != NULL && buf != NULL);
    write_descriptions();
    write_faulty();
    empty = taken((uint8_t *)stack, nothing);
    for (size_t i = 0; i < sizeof jobs / sizeof jobs[0]; i++) {
        size_t need = taken((uint8_t *)stack, jobs[i].job) - empty;
        printf("%s: %lu bytes of stack\n", jobs[i].name, (unsigned long)need);
        most = need > most ? need : most;
    }
    assert(most > 0 && most <= HOMIE5_STACK);
    free(buf);
    free(mem);
    free(stack);
    return 0;
}
