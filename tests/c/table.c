/* Calls on the table: openings, messages, steps back, every question. */
#include "check.h"

enum { DEVICES = 2, DEPTH = 3, PAST = 64 };

#define SIZE HOMIE5_SIZE(DEVICES, DEPTH)
#define LEN (SIZE + PAST)
#define T0 UINT64_C(4294967290)
#define LAMP TEXT("lamp")
#define ON TEXT("lamp"), TEXT("light"), TEXT("on")
#define SET "homie/5/lamp/light/on/set"
#define VALUE "homie/5/lamp/light/on"
#define DESCRIBE "homie/5/lamp/$description"

static const char lamp[] = "{\"homie\":\"5.0\",\"version\":-2,\"root\":\"hub\",\"parent\":\"hall\",\"nodes\":{\"light\":{\"properties\":{"
                           "\"on\":{\"datatype\":\"boolean\",\"settable\":true},\"mode\":{\"datatype\":\"enum\",\"format\":\"a,b\"}}}}}";

static uint8_t *mem;    /* the table, and bytes past it */
static uint8_t *before; /* those bytes at an earlier time */

static void keep(void)
{
    memcpy(before, mem, LEN);
}

/* Whether no byte was altered since they were kept. */
static bool kept(void)
{
    return memcmp(before, mem, LEN) == 0;
}

static bool stands(uint64_t start, uint64_t end, const char *text)
{
    return end <= LEN && end - start == strlen(text) && memcmp(mem + start, text, strlen(text)) == 0;
}

static void refuses_opening(size_t len, const char *domain, size_t devices, size_t depth)
{
    keep();
    assert(homie5_open(mem, len, TEXT(domain), devices, depth) == HOMIE5_BAD_OPENING);
    assert(kept());
}

static void openings(void)
{
    memset(mem, 0x5a, LEN);
    refuses_opening(SIZE - 1, "homie", DEVICES, DEPTH);
    refuses_opening(0, "homie", DEVICES, DEPTH);
    refuses_opening(LEN, "", DEVICES, DEPTH);
    refuses_opening(LEN, "Homie", DEVICES, DEPTH);
    refuses_opening(LEN, "homie", 0, DEPTH);
    refuses_opening(LEN, "homie", 65, DEPTH);
    refuses_opening(LEN, "homie", SIZE_MAX, DEPTH);
    refuses_opening(LEN, "homie", DEVICES, 65);
    refuses_opening(LEN, "homie", DEVICES, SIZE_MAX);
    assert(homie5_open(mem, LEN, TEXT("homie"), DEVICES, DEPTH) == HOMIE5_OK);
}

static void takes(uint64_t time, const char *topic, uint8_t retained, const char *payload)
{
    assert(homie5_message(mem, LEN, time, TEXT(topic), retained, TEXT(payload)) == HOMIE5_OK);
}

static void refuses(uint32_t returned, uint64_t time, const char *topic, uint8_t retained, const char *payload)
{
    keep();
    assert(homie5_message(mem, LEN, time, TEXT(topic), retained, TEXT(payload)) == returned);
    assert(kept());
}

/* Every question about the device gets this refusal. */
static void refuses_device(uint32_t number, size_t len)
{
    REFUSES(number, homie5_states(mem, len, LAMP, out, out_len));
    REFUSES(number, homie5_root(mem, len, LAMP, out, out_len));
    REFUSES(number, homie5_parent(mem, len, LAMP, out, out_len));
    REFUSES(number, homie5_version(mem, len, LAMP, out, out_len));
    REFUSES(number, homie5_values_held(mem, len, LAMP, out, out_len));
    REFUSES(number, homie5_property(mem, len, LAMP, 0, out, out_len));
    REFUSES(number, homie5_lane(mem, len, ON, HOMIE5_LANE_VALUE, out, out_len));
}

static void no_devices(void)
{
    keep();
    ANSWERS(HOMIE5_OK, homie5_device_count(mem, LEN, out, out_len), 0);
    REFUSES(HOMIE5_NO_SUCH_NUMBER, homie5_device_at(mem, LEN, 0, out, out_len));
    ANSWERS(HOMIE5_OK, homie5_last_time(mem, LEN, out, out_len), 0);
    ANSWERS(HOMIE5_OK, homie5_steps(mem, LEN, out, out_len), 0);
    refuses_device(HOMIE5_NO_DEVICE, LEN);
    assert(homie5_step_back(mem, LEN) == HOMIE5_NO_STEP);
    assert(kept());
}

static void not_described(void)
{
    takes(T0, "homie/5/lamp/$state", 1, "ready");
    keep();
    ANSWERS(HOMIE5_OK, homie5_states(mem, LEN, LAMP, out, out_len), HOMIE5_STATE_READY, HOMIE5_STATE_READY, T0);
    ANSWERS(HOMIE5_OK, homie5_root(mem, LEN, LAMP, out, out_len), 0);
    ANSWERS(HOMIE5_OK, homie5_parent(mem, LEN, LAMP, out, out_len), 0);
    ANSWERS(HOMIE5_OK, homie5_version(mem, LEN, LAMP, out, out_len), 0);
    ANSWERS(HOMIE5_OK, homie5_values_held(mem, LEN, LAMP, out, out_len), 0);
    REFUSES(HOMIE5_NO_SUCH_NUMBER, homie5_property(mem, LEN, LAMP, 0, out, out_len));
    REFUSES(HOMIE5_NO_PROPERTY, homie5_lane(mem, LEN, ON, HOMIE5_LANE_VALUE, out, out_len));
    assert(kept());
}

static void messages(void)
{
    takes(T0 + 10, DESCRIBE, 1, lamp);
    takes(T0 + 10, "homie/5/hub/$state", 1, "lost");
    takes(T0 + 20, VALUE, 1, "true");
    takes(T0 + 30, SET, 0, "false");
    refuses(HOMIE5_EARLIER, T0 + 29, VALUE, 1, "true");
    refuses(HOMIE5_OTHER_DOMAIN, T0 + 30, "other/5/lamp/$state", 1, "init");
    refuses(HOMIE5_NO_FORM, T0 + 30, "homie/5/lamp", 1, "init");
    refuses(HOMIE5_NOT_UTF8, T0 + 30, VALUE, 1, "\xff");
    refuses(HOMIE5_NOT_UTF8, T0 + 30, "homie/5/lamp/light/mode", 1, "\xef\xbb\xbf");
    refuses(HOMIE5_NOT_UTF8, T0 + 30, DESCRIBE, 1, "{\"x\":\"\xff\"}");
    refuses(HOMIE5_WRONG_FLAG, T0 + 30, SET, 1, "true");
    refuses(HOMIE5_NO_DEVICE, T0 + 30, "homie/5/fan/light/on", 1, "true");
    refuses(HOMIE5_FULL, T0 + 30, "homie/5/fan/$state", 1, "init");
    refuses(HOMIE5_BAD_PAYLOAD, T0 + 30, VALUE, 1, "TRUE");
    refuses(AT(HOMIE5_NOT_JSON, 11), T0 + 30, DESCRIBE, 1, "{\"homie\":4,}");
    refuses(AT(HOMIE5_WRONG_KIND, 9), T0 + 30, DESCRIBE, 1, "{\"homie\":4}");
    refuses(AT(HOMIE5_FIELD_MISSING, 1), T0 + 30, DESCRIBE, 1, "{}");
    refuses(AT(HOMIE5_NAME_REPEATED, 15), T0 + 30, DESCRIBE, 1, "{\"homie\":\"5.0\",\"homie\":4}");
    refuses(AT(HOMIE5_RULE_BROKEN, 9), T0 + 30, DESCRIBE, 1, "{\"homie\":\"4\"}");
    refuses(HOMIE5_NO_DEVICE, T0 + 30, "homie/5/fan/$description", 1, "{}");
    refuses(HOMIE5_NO_PROPERTY, T0 + 30, "homie/5/lamp/light/off", 1, "true");
    refuses(HOMIE5_NOT_SETTABLE, T0 + 30, "homie/5/lamp/light/mode/set", 0, "a");
}

static void device(void)
{
    uint64_t id[2], root[3], parent[3];
    keep();
    ANSWERS(HOMIE5_OK, homie5_device_count(mem, LEN, out, out_len), 2);
    assert(homie5_device_at(mem, LEN, 1, id, 2) == HOMIE5_OK && stands(id[0], id[1], "lamp"));
    ANSWERS(HOMIE5_OK, homie5_device_at(mem, LEN, 1, out, out_len), id[0], id[1]);
    REFUSES(HOMIE5_NO_SUCH_NUMBER, homie5_device_at(mem, LEN, 2, out, out_len));
    ANSWERS(HOMIE5_OK, homie5_states(mem, LEN, LAMP, out, out_len), HOMIE5_STATE_READY, HOMIE5_STATE_LOST, T0);
    assert(homie5_root(mem, LEN, LAMP, root, 3) == HOMIE5_OK && stands(root[1], root[2], "hub"));
    ANSWERS(HOMIE5_OK, homie5_root(mem, LEN, LAMP, out, out_len), 1, root[1], root[2]);
    assert(homie5_parent(mem, LEN, LAMP, parent, 3) == HOMIE5_OK && stands(parent[1], parent[2], "hall"));
    ANSWERS(HOMIE5_OK, homie5_parent(mem, LEN, LAMP, out, out_len), 1, parent[1], parent[2]);
    ANSWERS(HOMIE5_OK, homie5_version(mem, LEN, LAMP, out, out_len), 1, (uint64_t)-2);
    ANSWERS(HOMIE5_OK, homie5_values_held(mem, LEN, LAMP, out, out_len), 1);
    ANSWERS(HOMIE5_OK, homie5_last_time(mem, LEN, out, out_len), 1, T0 + 30);
    ANSWERS(HOMIE5_OK, homie5_steps(mem, LEN, out, out_len), DEPTH);
    assert(kept());
}

static void properties(void)
{
    uint64_t p[9];
    keep();
    assert(homie5_property(mem, LEN, LAMP, 0, p, 9) == HOMIE5_OK);
    assert(stands(p[0], p[1], "light") && stands(p[2], p[3], "mode") && stands(p[5], p[6], "a,b"));
    ANSWERS(HOMIE5_OK, homie5_property(mem, LEN, LAMP, 0, out, out_len), p[0], p[1], p[2], p[3], HOMIE5_DATATYPE_ENUM, p[5], p[6], 0, 1);
    assert(homie5_property(mem, LEN, LAMP, 1, p, 9) == HOMIE5_OK);
    assert(stands(p[0], p[1], "light") && stands(p[2], p[3], "on") && stands(p[5], p[6], "false,true"));
    ANSWERS(HOMIE5_OK, homie5_property(mem, LEN, LAMP, 1, out, out_len), p[0], p[1], p[2], p[3], HOMIE5_DATATYPE_BOOLEAN, p[5], p[6], 1, 1);
    REFUSES(HOMIE5_NO_SUCH_NUMBER, homie5_property(mem, LEN, LAMP, 2, out, out_len));
    assert(kept());
}

static void lanes(void)
{
    uint64_t held[4];
    keep();
    assert(homie5_lane(mem, LEN, ON, HOMIE5_LANE_VALUE, held, 4) == HOMIE5_OK && stands(held[2], held[3], "true"));
    ANSWERS(HOMIE5_OK, homie5_lane(mem, LEN, ON, HOMIE5_LANE_VALUE, out, out_len), 1, T0 + 20, held[2], held[3]);
    ANSWERS(HOMIE5_OK, homie5_lane(mem, LEN, ON, HOMIE5_LANE_TARGET, out, out_len), 0);
    assert(homie5_lane(mem, LEN, ON, HOMIE5_LANE_ASKED, held, 4) == HOMIE5_OK && stands(held[2], held[3], "false"));
    ANSWERS(HOMIE5_OK, homie5_lane(mem, LEN, ON, HOMIE5_LANE_ASKED, out, out_len), 1, T0 + 30, held[2], held[3]);
    ANSWERS(HOMIE5_OK, homie5_lane(mem, LEN, ON, 255, out, out_len), 1, T0 + 30, held[2], held[3]);
    REFUSES(HOMIE5_NO_PROPERTY, homie5_lane(mem, LEN, LAMP, TEXT("light"), TEXT(""), HOMIE5_LANE_VALUE, out, out_len));
    assert(kept());
}

static void steps_back(void)
{
    assert(homie5_step_back(mem, LEN) == HOMIE5_OK);
    ANSWERS(HOMIE5_OK, homie5_lane(mem, LEN, ON, HOMIE5_LANE_ASKED, out, out_len), 0);
    ANSWERS(HOMIE5_OK, homie5_last_time(mem, LEN, out, out_len), 1, T0 + 20);
    assert(homie5_step_back(mem, LEN) == HOMIE5_OK);
    ANSWERS(HOMIE5_OK, homie5_values_held(mem, LEN, LAMP, out, out_len), 0);
    assert(homie5_step_back(mem, LEN) == HOMIE5_OK);
    ANSWERS(HOMIE5_OK, homie5_device_count(mem, LEN, out, out_len), 1);
    ANSWERS(HOMIE5_OK, homie5_steps(mem, LEN, out, out_len), 0);
    keep();
    assert(homie5_step_back(mem, LEN) == HOMIE5_NO_STEP);
    assert(kept());
}

/* A copy of the table's bytes, at an odd address, is the table as it was; what becomes of it does not touch the other. */
static void checkpoint(void)
{
    uint8_t *copy = malloc(SIZE + 1);
    uint8_t *table = copy + 1;
    assert(copy != NULL);
    memcpy(table, mem, SIZE);
    keep();
    assert(homie5_step_back(table, SIZE) == HOMIE5_OK);
    ANSWERS(HOMIE5_OK, homie5_lane(table, SIZE, ON, HOMIE5_LANE_ASKED, out, out_len), 0);
    ANSWERS(HOMIE5_OK, homie5_steps(table, SIZE, out, out_len), DEPTH - 1);
    ANSWERS(HOMIE5_OK, homie5_last_time(table, SIZE, out, out_len), 1, T0 + 20);
    assert(kept());
    free(copy);
}

/* Every call on these bytes answers 6 and alters nothing. */
static void not_sound(size_t len)
{
    keep();
    assert(homie5_message(mem, len, T0, TEXT(VALUE), 1, TEXT("true")) == HOMIE5_NOT_SOUND);
    assert(homie5_step_back(mem, len) == HOMIE5_NOT_SOUND);
    REFUSES(HOMIE5_NOT_SOUND, homie5_device_count(mem, len, out, out_len));
    REFUSES(HOMIE5_NOT_SOUND, homie5_device_at(mem, len, 0, out, out_len));
    refuses_device(HOMIE5_NOT_SOUND, len);
    REFUSES(HOMIE5_NOT_SOUND, homie5_last_time(mem, len, out, out_len));
    REFUSES(HOMIE5_NOT_SOUND, homie5_steps(mem, len, out, out_len));
    assert(kept());
}

int main(void)
{
    mem = malloc(LEN);
    before = malloc(LEN);
    assert(mem != NULL && before != NULL);
    openings();
    no_devices();
    not_described();
    messages();
    device();
    properties();
    lanes();
    not_sound(SIZE - 1);
    not_sound(0);
    checkpoint();
    steps_back();
    for (size_t i = SIZE; i < LEN; i++)
        assert(mem[i] == 0x5a);
    memset(mem, 0xff, LEN);
    not_sound(LEN);
    free(before);
    free(mem);
    return 0;
}
