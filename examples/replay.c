/*
 * Replays a trace file of at most 65,536 bytes from standard input: its events are sent to a table of the domain
 * `homie` with room for 4 devices and 3 steps back, then what the table holds is printed. A bad file prints only
 * `refused` and the number.
 */
#include <inttypes.h>
#include <stdio.h>
#include <stdlib.h>

#include <homie5.h>

enum { LIMIT = 65536, DEVICES = 4, DEPTH = 3 };

static const char *const states[] = {"init", "ready", "disconnected", "sleeping", "lost"};

typedef struct {
    const uint8_t *start;
    size_t len;
} bytes;

static bytes part(const uint8_t *of, const uint64_t *place)
{
    bytes b = {of + place[0], (size_t)(place[1] - place[0])};
    return b;
}

static void print_bytes(bytes b)
{
    fwrite(b.start, 1, b.len, stdout);
}

static void print_hex(bytes b)
{
    for (size_t i = 0; i < b.len; i++)
        printf("%02x", b.start[i]);
}

static void send(uint8_t *mem, size_t size, const uint8_t *file, size_t i, const uint64_t *event)
{
    bytes topic = part(file, event + 1);
    bytes payload = part(file, event + 4);
    uint32_t answer = homie5_message(mem, size, event[0], topic.start, topic.len, (uint8_t)event[3], payload.start, payload.len);
    printf("%zu %" PRIu64 " %u\n", i, event[0], HOMIE5_NUMBER(answer));
}

static void send_all(uint8_t *mem, size_t size, const uint8_t *file, size_t len)
{
    uint64_t event[HOMIE5_VALUES];
    size_t place = 0;
    while (homie5_trace_next(file, len, place, event, HOMIE5_VALUES) == HOMIE5_OK) {
        send(mem, size, file, place, event);
        place = (size_t)event[6];
    }
}

static void print_lane(const uint8_t *mem, size_t size, bytes id, bytes node, bytes property, uint8_t lane)
{
    uint64_t held[HOMIE5_VALUES];
    uint32_t r = homie5_lane(mem, size, id.start, id.len, node.start, node.len, property.start, property.len, lane, held, HOMIE5_VALUES);
    putchar(' ');
    if (r == HOMIE5_OK && held[0])
        print_hex(part(mem, held + 2));
    else
        putchar('-');
}

static void print_property(const uint8_t *mem, size_t size, bytes id, bytes node, bytes property)
{
    printf("property ");
    print_bytes(id);
    putchar(' ');
    print_bytes(node);
    putchar(' ');
    print_bytes(property);
    for (uint8_t lane = HOMIE5_LANE_VALUE; lane <= HOMIE5_LANE_ASKED; lane++)
        print_lane(mem, size, id, node, property, lane);
    putchar('\n');
}

static void print_device(const uint8_t *mem, size_t size, bytes id)
{
    uint64_t out[HOMIE5_VALUES];
    if (homie5_states(mem, size, id.start, id.len, out, HOMIE5_VALUES) != HOMIE5_OK)
        return;
    printf("device ");
    print_bytes(id);
    printf(" %s %s\n", states[out[0]], states[out[1]]);
    for (size_t i = 0; homie5_property(mem, size, id.start, id.len, i, out, HOMIE5_VALUES) == HOMIE5_OK; i++)
        print_property(mem, size, id, part(mem, out), part(mem, out + 2));
}

static void print_table(const uint8_t *mem, size_t size)
{
    uint64_t out[HOMIE5_VALUES];
    for (size_t i = 0; homie5_device_at(mem, size, i, out, HOMIE5_VALUES) == HOMIE5_OK; i++)
        print_device(mem, size, part(mem, out));
    if (homie5_steps(mem, size, out, HOMIE5_VALUES) == HOMIE5_OK)
        printf("steps %" PRIu64 "\n", out[0]);
}

/* Checks the file and replays it. Returns the refusal, or HOMIE5_OK. */
static uint32_t replay(uint8_t *mem, size_t size, const uint8_t *file, size_t len)
{
    uint64_t count[1];
    uint32_t r = len > LIMIT ? HOMIE5_BAD_HEADER : homie5_trace_check(file, len, count, 1);
    if (r == HOMIE5_OK)
        r = homie5_open(mem, size, (const uint8_t *)"homie", 5, DEVICES, DEPTH);
    if (r != HOMIE5_OK)
        return r;
    printf("events %" PRIu64 "\n", count[0]);
    send_all(mem, size, file, len);
    print_table(mem, size);
    return HOMIE5_OK;
}

int main(void)
{
    size_t size = HOMIE5_SIZE(DEVICES, DEPTH);
    uint8_t *mem = malloc(size);
    uint8_t *file = malloc(LIMIT + 1);
    int failed = mem == NULL || file == NULL;
    if (!failed) {
        uint32_t r = replay(mem, size, file, fread(file, 1, LIMIT + 1, stdin));
        if (r != HOMIE5_OK)
            printf("refused %u\n", HOMIE5_NUMBER(r));
    }
    free(file);
    free(mem);
    return failed;
}
