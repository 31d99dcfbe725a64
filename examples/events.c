/*
 * Lists the events of a trace file of at most 65,536 bytes from standard input: number, time, topic, flag, and the form
 * that the topic has in a table of the domain `homie`. A bad file prints only `refused` and the number.
 */
#include <inttypes.h>
#include <stdio.h>
#include <stdlib.h>

#include <homie5.h>

enum { LIMIT = 65536 };

static const char *const forms[] = {"state", "description", "value", "set", "target", "alert", "log", "broadcast", "other"};

static void print_bytes(const uint8_t *s, uint64_t start, uint64_t end)
{
    fwrite(s + start, 1, (size_t)(end - start), stdout);
}

static void refused(uint32_t returned)
{
    printf("refused %u\n", HOMIE5_NUMBER(returned));
}

static void print_event(const uint8_t *file, size_t len, size_t i)
{
    uint64_t event[HOMIE5_VALUES];
    uint64_t topic[HOMIE5_VALUES];
    uint32_t r = homie5_trace_read(file, len, i, event, HOMIE5_VALUES);
    if (r != HOMIE5_OK) {
        refused(r);
        return;
    }
    printf("%zu %" PRIu64 " ", i, event[0]);
    print_bytes(file, event[1], event[2]);
    printf(" %s ", event[3] ? "retained" : "not-retained");
    r = homie5_topic_read((const uint8_t *)"homie", 5, file + event[1], (size_t)(event[2] - event[1]), topic, HOMIE5_VALUES);
    if (r != HOMIE5_OK) {
        refused(r);
        return;
    }
    printf("%s\n", forms[topic[0]]);
}

int main(void)
{
    uint8_t *file = malloc(LIMIT + 1);
    uint64_t out[HOMIE5_VALUES];
    size_t len;
    uint32_t r;
    if (file == NULL)
        return 1;
    len = fread(file, 1, LIMIT + 1, stdin);
    r = len > LIMIT ? HOMIE5_BAD_HEADER : homie5_trace_check(file, len, out, HOMIE5_VALUES);
    if (r != HOMIE5_OK) {
        refused(r);
    } else {
        size_t n = (size_t)out[0];
        printf("events %zu\n", n);
        for (size_t i = 0; i < n; i++)
            print_event(file, len, i);
    }
    free(file);
    return 0;
}
