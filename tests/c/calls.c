/* Calls on traces, topics, payloads and descriptions; then the four events of the paper, as a trace file, to standard output. */
#include <stdio.h>

#include "check.h"

#define HOMIE TEXT("homie")
#define LAMP TEXT("lamp")

static const char lamp[] =
    "{\"homie\":\"5.0\",\"version\":1,\"nodes\":{\"light\":{\"properties\":{\"on\":{\"datatype\":\"boolean\",\"settable\":true}}}}}";

static size_t add(uint8_t *buf, size_t len, size_t used, uint64_t time, const char *topic, uint8_t retained, const char *payload)
{
    uint64_t out[1];
    assert(homie5_trace_append(buf, len, used, time, TEXT(topic), retained, TEXT(payload), out, 1) == HOMIE5_OK);
    return (size_t)out[0];
}

static size_t write_trace(uint8_t *buf, size_t len)
{
    size_t used = 16;
    used = add(buf, len, used, 4294967290u, "homie/5/lamp/$state", 1, "init");
    used = add(buf, len, used, 4294967300u, "homie/5/lamp/$description", 1, lamp);
    used = add(buf, len, used, 4294967300u, "homie/5/lamp/light/on/set", 0, "true");
    return add(buf, len, used, 4294967301u, "homie/5/lamp/light/on", 1, "TRUE");
}

static void refused_writing(uint8_t *buf, size_t len, size_t used)
{
    uint8_t *before = malloc(len);
    assert(before != NULL);
    memcpy(before, buf, len);
    REFUSES(HOMIE5_TOO_LONG, homie5_trace_empty(buf, 15, out, out_len));
    REFUSES(HOMIE5_BAD_HEADER, homie5_trace_append(buf, len, used - 1, 1, TEXT("a"), 0, TEXT(""), out, out_len));
    REFUSES(HOMIE5_BAD_HEADER, homie5_trace_append(buf, used, used + 1, 1, TEXT("a"), 0, TEXT(""), out, out_len));
    REFUSES(HOMIE5_NO_FORM, homie5_trace_append(buf, len, used, 1, TEXT(""), 0, TEXT(""), out, out_len));
    REFUSES(HOMIE5_EARLIER, homie5_trace_append(buf, len, used, 1, TEXT("a"), 0, TEXT(""), out, out_len));
    REFUSES(HOMIE5_TOO_LONG, homie5_trace_append(buf, used + 24, used, UINT64_MAX, TEXT("a"), 0, TEXT(""), out, out_len));
    assert(memcmp(buf, before, len) == 0);
    free(before);
}

static void reading(const uint8_t *file, size_t len)
{
    ANSWERS(HOMIE5_OK, homie5_trace_check(file, len, out, out_len), 4);
    REFUSES(HOMIE5_BAD_HEADER, homie5_trace_check(file, len - 1, out, out_len));
    ANSWERS(HOMIE5_OK, homie5_trace_read(file, len, 0, out, out_len), 4294967290u, 112, 131, 1, 131, 135);
    ANSWERS(HOMIE5_OK, homie5_trace_next(file, len, 0, out, out_len), 4294967290u, 112, 131, 1, 131, 135, 1);
    ANSWERS(HOMIE5_OK, homie5_trace_next(file, len, 3, out, out_len), 4294967301u, len - 25, len - 4, 1, len - 4, len, 4);
    REFUSES(HOMIE5_NO_SUCH_NUMBER, homie5_trace_read(file, len, 4, out, out_len));
    REFUSES(HOMIE5_NO_SUCH_NUMBER, homie5_trace_next(file, len, 4, out, out_len));
    REFUSES(HOMIE5_NO_SUCH_NUMBER, homie5_trace_next(file, len, SIZE_MAX, out, out_len));
    REFUSES(HOMIE5_BAD_HEADER, homie5_trace_next(file, 15, 0, out, out_len));
}

static void bad_entry(uint8_t *file, size_t len)
{
    file[16 + 14] = 2; /* the flags of the first entry */
    REFUSES(HOMIE5_BAD_ENTRY, homie5_trace_check(file, len, out, out_len));
    REFUSES(HOMIE5_BAD_ENTRY, homie5_trace_next(file, len, 0, out, out_len));
    REFUSES(HOMIE5_BAD_ENTRY, homie5_trace_append(file, len, len, UINT64_MAX, TEXT("a"), 0, TEXT(""), out, out_len));
    file[16 + 14] = 1;
}

static void topics(void)
{
    const char *set = "homie/5/lamp/light/on/set";
    ANSWERS(HOMIE5_OK, homie5_topic_read(HOMIE, TEXT(set), out, out_len), HOMIE5_FORM_SET, 8, 12, 13, 18, 19, 21);
    ANSWERS(HOMIE5_OK, homie5_topic_read(HOMIE, TEXT("homie/5/lamp/$state"), out, out_len), HOMIE5_FORM_STATE, 8, 12);
    ANSWERS(HOMIE5_OK, homie5_topic_read(HOMIE, TEXT("homie/5/a/$log/warn"), out, out_len), HOMIE5_FORM_LOG, 8, 9, 15, 19);
    ANSWERS(HOMIE5_OK, homie5_topic_read(HOMIE, TEXT("homie/5/a/$b"), out, out_len), HOMIE5_FORM_OTHER, 8, 9, 11, 12, 12, 12);
    REFUSES(HOMIE5_OTHER_DOMAIN, homie5_topic_read(TEXT("other"), TEXT(set), out, out_len));
    REFUSES(HOMIE5_NO_FORM, homie5_topic_read(HOMIE, TEXT("homie/5/lamp"), out, out_len));
    ANSWERS(HOMIE5_OK, homie5_topic_flag(HOMIE, TEXT(set), out, out_len), HOMIE5_FLAG_NOT_RETAINED);
    ANSWERS(HOMIE5_OK, homie5_topic_flag(HOMIE, TEXT("homie/5/lamp/$state"), out, out_len), HOMIE5_FLAG_RETAINED);
    ANSWERS(HOMIE5_OK, homie5_topic_flag(HOMIE, TEXT("homie/5/a/$log/warn"), out, out_len), HOMIE5_FLAG_EITHER);
    ANSWERS(HOMIE5_OK, homie5_topic_flag(HOMIE, TEXT("homie/5/a/b/c"), out, out_len), HOMIE5_FLAG_AS_PROPERTY);
    REFUSES(HOMIE5_OTHER_DOMAIN, homie5_topic_flag(TEXT(""), TEXT(""), out, out_len));
    REFUSES(HOMIE5_NO_FORM, homie5_topic_flag(HOMIE, TEXT("homie/5/a/$log/trace"), out, out_len));
}

static void judgements(void)
{
    assert(homie5_is_payload(HOMIE5_DATATYPE_INTEGER, 1, TEXT("2:6:2"), TEXT("1")) == 1);
    assert(homie5_is_payload(HOMIE5_DATATYPE_INTEGER, 1, TEXT("2:6:2"), TEXT("7")) == 0);
    assert(homie5_is_payload(HOMIE5_DATATYPE_INTEGER, 0, TEXT("2:6:2"), TEXT("7")) == 1);
    assert(homie5_is_payload(HOMIE5_DATATYPE_INTEGER, 1, TEXT(""), TEXT("7")) == 0);
    assert(homie5_is_payload(HOMIE5_DATATYPE_BOOLEAN, 0, TEXT(""), TEXT("true")) == 1);
    assert(homie5_is_payload(HOMIE5_DATATYPE_BOOLEAN, 1, TEXT("off,on"), TEXT("true")) == 1);
    assert(homie5_is_payload(HOMIE5_DATATYPE_BOOLEAN, 1, TEXT("on,on"), TEXT("true")) == 0);
    assert(homie5_is_payload(HOMIE5_DATATYPE_ENUM, 0, TEXT("a,b"), TEXT("a")) == 0);
    assert(homie5_is_payload(HOMIE5_DATATYPE_COLOR, 1, TEXT("rgb"), TEXT("rgb,0,255,1e2")) == 1);
    assert(homie5_is_payload(255, 1, TEXT(""), TEXT("[]")) == 1);
    assert(homie5_is_payload(255, 0, TEXT(""), TEXT("[]")) == 1);
    ANSWERS(1, homie5_is_datatype(TEXT("string"), out, out_len), HOMIE5_DATATYPE_STRING);
    ANSWERS(1, homie5_is_datatype(TEXT("json"), out, out_len), HOMIE5_DATATYPE_JSON);
    REFUSES(0, homie5_is_datatype(TEXT("strings"), out, out_len));
    REFUSES(0, homie5_is_datatype(TEXT(""), out, out_len));
    ANSWERS(1, homie5_is_format(HOMIE5_DATATYPE_INTEGER, 0, TEXT(""), out, out_len), HOMIE5_KEPT_COLON);
    ANSWERS(1, homie5_is_format(HOMIE5_DATATYPE_ENUM, 1, TEXT("a,b"), out, out_len), HOMIE5_KEPT_AS_GIVEN);
    REFUSES(0, homie5_is_format(HOMIE5_DATATYPE_ENUM, 1, TEXT("a,a"), out, out_len));
}

#define MARK "\xef\xbb\xbf"
#define ENUM(format) "{\"homie\":\"5.0\",\"version\":1,\"nodes\":{\"n\":{\"properties\":{\"p\":{\"datatype\":\"enum\",\"format\":\"" format "\"}}}}}"

/* Byte order marks, and bytes that are not UTF-8, asked outside a table. */
static void marks(void)
{
    assert(homie5_is_payload(HOMIE5_DATATYPE_STRING, 0, TEXT(""), TEXT(MARK)) == 1);
    assert(homie5_is_payload(HOMIE5_DATATYPE_STRING, 0, TEXT(""), TEXT("\xff")) == 0);
    assert(homie5_is_payload(HOMIE5_DATATYPE_ENUM, 1, TEXT(MARK ",\xff"), TEXT(MARK)) == 1);
    assert(homie5_is_payload(HOMIE5_DATATYPE_ENUM, 1, TEXT(MARK ",\xff"), TEXT("\xff")) == 1);
    assert(homie5_is_payload(HOMIE5_DATATYPE_JSON, 0, TEXT(""), TEXT(MARK "[]")) == 0);
    assert(homie5_description_judge(LAMP, TEXT(ENUM(MARK))) == HOMIE5_OK);
    assert(homie5_description_judge(LAMP, TEXT(ENUM("\xff"))) == AT(HOMIE5_NOT_JSON, 88));
    assert(homie5_description_judge(LAMP, TEXT(MARK ENUM("a"))) == AT(HOMIE5_NOT_JSON, 0));
}

static void descriptions(void)
{
    const char *child = "{\"version\":-1,\"homie\":\"5.0\",\"root\":\"hub\",\"parent\":\"hall\"}";
    const char *mode = "{\"homie\":\"5.0\",\"version\":1,\"nodes\":{\"n\":{\"properties\":{\"p\":{\"datatype\":\"enum\",\"format\":\"a,b\",\"settable\":true,"
                       "\"retained\":false}}}}}";
    const char *not_kept = "{\"homie\":\"5.0\",\"version\":1,\"nodes\":{\"n\":{\"properties\":{\"p\":{\"datatype\":\"string\",\"format\":\"\\\"\"}}}}}";
    assert(homie5_description_judge(LAMP, TEXT(lamp)) == HOMIE5_OK);
    ANSWERS(HOMIE5_OK, homie5_description_read(LAMP, TEXT(lamp), out, out_len), 1, 0, 0, 0, 0, 1);
    ANSWERS(HOMIE5_OK, homie5_description_read(LAMP, TEXT(child), out, out_len), (uint64_t)-1, 1, 35, 1, 50, 0);
    ANSWERS(HOMIE5_OK, homie5_description_property(LAMP, TEXT(lamp), 0, out, out_len), 36, 59, HOMIE5_DATATYPE_BOOLEAN, HOMIE5_KEPT_FALSE_TRUE, 0, 1, 1);
    ANSWERS(HOMIE5_OK, homie5_description_property(LAMP, TEXT(mode), 0, out, out_len), 36, 55, HOMIE5_DATATYPE_ENUM, HOMIE5_KEPT_AS_GIVEN, 87, 1, 0);
    ANSWERS(HOMIE5_OK, homie5_description_property(LAMP, TEXT(not_kept), 0, out, out_len), 36, 55, HOMIE5_DATATYPE_STRING, HOMIE5_KEPT_NOTHING, 0, 0, 1);
    REFUSES(HOMIE5_NO_SUCH_NUMBER, homie5_description_property(LAMP, TEXT(lamp), 1, out, out_len));
}

/* A string as it is decoded, in a buffer that it fits, in one that is a byte too short, and its length alone. */
static void decoded(const char *text, size_t place, const char *said)
{
    const size_t len = strlen(said);
    uint8_t buf[64], before[64];
    memset(buf, 0x5a, sizeof buf);
    memset(before, 0x5a, sizeof before);
    ANSWERS(HOMIE5_OK, homie5_description_string(TEXT(text), place, NULL, 0, out, out_len), len);
    if (len > 0)
        ANSWERS(HOMIE5_OK, homie5_description_string(TEXT(text), place, buf, len - 1, out, out_len), len);
    assert(memcmp(buf, before, sizeof buf) == 0);
    ANSWERS(HOMIE5_OK, homie5_description_string(TEXT(text), place, buf, sizeof buf, out, out_len), len);
    assert(memcmp(buf, said, len) == 0 && memcmp(buf + len, before, sizeof buf - len) == 0);
}

static void no_string(const char *text, size_t place, uint32_t returned)
{
    uint8_t buf[4] = {1, 2, 3, 4};
    const uint8_t before[4] = {1, 2, 3, 4};
    REFUSES(returned, homie5_description_string(TEXT(text), place, buf, sizeof buf, out, out_len));
    assert(memcmp(buf, before, sizeof buf) == 0);
}

/* Escapes are decoded before any rule is applied, and the strings that are shown can be asked for. */
static void strings(void)
{
    const char *escaped = "{\"\\u0068omie\":\"5\\u002e0\",\"version\":1,\"nodes\":{\"\\u006e\":{\"properties\":{\"p\\u002dq\":{\"datatype\":\"enum\","
                          "\"format\":\"\\u00b0\\u002C\\ud834\\udd1e\\/\"}}}}}";
    const char *texts = "\"\" \"\\\\ud800\" \"a\\uD834x\" \"\\t\\uDD1E\" \"\\n";
    ANSWERS(HOMIE5_OK, homie5_description_property(LAMP, TEXT(escaped), 0, out, out_len), 46, 70, HOMIE5_DATATYPE_ENUM, HOMIE5_KEPT_AS_GIVEN, 109, 0, 1);
    decoded(escaped, 1, "homie");
    decoded(escaped, 46, "n");
    decoded(escaped, 70, "p-q");
    decoded(escaped, 109, "\xc2\xb0,\xf0\x9d\x84\x9e/");
    decoded(lamp, 36, "light");
    decoded(texts, 0, "");
    decoded(texts, 3, "\\ud800");
    no_string(texts, 13, AT(HOMIE5_RULE_BROKEN, 15));
    no_string(texts, 24, AT(HOMIE5_RULE_BROKEN, 27));
    no_string(texts, 2, AT(HOMIE5_WRONG_KIND, 2));
    no_string(texts, 35, AT(HOMIE5_WRONG_KIND, 35));
    no_string(texts, 38, AT(HOMIE5_WRONG_KIND, 38));
    no_string(texts, SIZE_MAX, AT(HOMIE5_WRONG_KIND, 38));
    no_string("", 1, AT(HOMIE5_WRONG_KIND, 0));
}

/* All calls on a description give the same refusal, and no values. */
static void refused_description(const char *own, const char *text, uint32_t returned)
{
    assert(homie5_description_judge(TEXT(own), TEXT(text)) == returned);
    REFUSES(returned, homie5_description_read(TEXT(own), TEXT(text), out, out_len));
    REFUSES(returned, homie5_description_property(TEXT(own), TEXT(text), 0, out, out_len));
    REFUSES(returned, homie5_description_property(TEXT(own), TEXT(text), SIZE_MAX, out, out_len));
}

#define FRONT "{\"homie\":\"5.0\",\"version\":1,"
#define PROPERTIES(list) FRONT "\"nodes\":{\"n\":{\"properties\":{" list "}}}}"

static void refused_descriptions(void)
{
    static char long_text[8194];
    refused_description("lamp", "", AT(HOMIE5_NOT_JSON, 0));
    refused_description("lamp", FRONT, AT(HOMIE5_NOT_JSON, 27));
    refused_description("lamp", FRONT "\"x\":01}", AT(HOMIE5_NOT_JSON, 32));
    refused_description("lamp", FRONT "\"x\":[[[[[[[[[[[[[[[[", AT(HOMIE5_NOT_JSON, 46));
    refused_description("lamp", " \n null", AT(HOMIE5_WRONG_KIND, 3));
    refused_description("lamp", FRONT "\"name\":null,\"name\":1}", AT(HOMIE5_WRONG_KIND, 34));
    refused_description("lamp", PROPERTIES("\"p\":[]"), AT(HOMIE5_WRONG_KIND, 59));
    refused_description("lamp", "{}", AT(HOMIE5_FIELD_MISSING, 1));
    refused_description("lamp", PROPERTIES("\"p\":{\"datatype\":\"enum\"}"), AT(HOMIE5_FIELD_MISSING, 77));
    refused_description("lamp", FRONT "\"version\":null}", AT(HOMIE5_NAME_REPEATED, 27));
    refused_description("lamp", PROPERTIES("\"p\":{\"datatype\":\"json\"},\"p\":0"), AT(HOMIE5_NAME_REPEATED, 79));
    refused_description("lamp", FRONT "\"parent\":\"hub\"}", AT(HOMIE5_RULE_BROKEN, 36));
    refused_description("lamp", FRONT "\"root\":\"lamp\"}", AT(HOMIE5_RULE_BROKEN, 34));
    refused_description("lamp", "{\"version\":-1.5}", AT(HOMIE5_RULE_BROKEN, 11));
    refused_description("lamp", FRONT "\"\\u0076ersion\":null}", AT(HOMIE5_NAME_REPEATED, 27));
    refused_description("lamp", FRONT "\"root\":\"a\\ud800\"}", AT(HOMIE5_RULE_BROKEN, 36));
    memset(long_text, ' ', sizeof long_text - 1);
    memcpy(long_text, FRONT "\"x\":0}", strlen(FRONT "\"x\":0}"));
    refused_description("lamp", long_text, AT(HOMIE5_NOT_JSON, 8192));
    no_string(long_text, 1, AT(HOMIE5_NOT_JSON, 8192));
    long_text[8192] = '\0';
    assert(homie5_description_judge(LAMP, TEXT(long_text)) == HOMIE5_OK);
    decoded(long_text, 1, "homie");
}

int main(void)
{
    size_t len = 1024;
    uint8_t *buf = malloc(len);
    size_t used;
    if (buf == NULL)
        return 1;
    memset(buf, 0x5a, len);
    ANSWERS(HOMIE5_OK, homie5_trace_empty(buf, len, out, out_len), 16);
    used = write_trace(buf, len);
    for (size_t i = used; i < len; i++)
        assert(buf[i] == 0x5a);
    refused_writing(buf, len, used);
    reading(buf, used);
    bad_entry(buf, used);
    topics();
    judgements();
    marks();
    descriptions();
    strings();
    refused_descriptions();
    fwrite(buf, 1, used, stdout);
    free(buf);
    return 0;
}
