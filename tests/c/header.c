/* What the header itself holds: refusals and their texts, the version, and linkage. Built as C99 and as C++. */
#undef NDEBUG /* the checks are assertions */
#include <assert.h>
#include <stdbool.h>
#include <stdio.h>
#include <string.h>

#include <homie5.h>

static bool is_number(unsigned number)
{
    return number <= HOMIE5_NO_STEP ? number != 15 : number >= HOMIE5_NOT_JSON && number <= HOMIE5_RULE_BROKEN;
}

/* Every number has a text of its own, and the numbers that are none have one. */
static void refusal_texts(void)
{
    const char *unknown = homie5_refusal_text(255);
    assert(strlen(unknown) > 0);
    for (unsigned a = 0; a <= 255; a++) {
        assert(strlen(homie5_refusal_text(a)) > 0 && (strcmp(homie5_refusal_text(a), unknown) != 0) == is_number(a));
        for (unsigned b = 0; b < a; b++)
            assert(!is_number(a) || strcmp(homie5_refusal_text(a), homie5_refusal_text(b)) != 0);
    }
    assert(strcmp(homie5_refusal_text(UINT32_MAX), unknown) == 0);
}

/* Number and place of what a call returned, whose text is that of the number. */
static void taken_apart(void)
{
    const size_t places[] = {0, 1, 255, 256, 8192, 0xffffff};
    for (unsigned number = 0; number <= 255; number++)
        for (size_t i = 0; i < sizeof places / sizeof places[0]; i++) {
            const uint32_t returned = (uint32_t)number + 256 * (uint32_t)places[i];
            assert(HOMIE5_NUMBER(returned) == number && HOMIE5_PLACE(returned) == places[i]);
            assert(strcmp(homie5_refusal_text(returned), homie5_refusal_text(number)) == 0);
        }
    assert(HOMIE5_NUMBER(HOMIE5_OK) == HOMIE5_OK && HOMIE5_PLACE(HOMIE5_OK | 0u) == 0);
}

static void version(void)
{
    char text[32];
    snprintf(text, sizeof text, "%d.%d.%d", HOMIE5_VERSION_MAJOR, HOMIE5_VERSION_MINOR, HOMIE5_VERSION_PATCH);
    assert(strcmp(text, HOMIE5_VERSION) == 0);
}

/* Calls of the library, so that C++ must find their symbols. */
static void linkage(void)
{
    const uint8_t name[] = {'j', 's', 'o', 'n'}, text[] = {' ', '[', ']'};
    uint64_t out[HOMIE5_VALUES];
    const uint32_t judged = homie5_description_judge(name, sizeof name, text, sizeof text);
    assert(homie5_is_datatype(name, sizeof name, out, HOMIE5_VALUES) == 1 && out[0] == HOMIE5_DATATYPE_JSON);
    assert(HOMIE5_NUMBER(judged) == HOMIE5_WRONG_KIND && HOMIE5_PLACE(judged) == 1);
}

int main(void)
{
    refusal_texts();
    taken_apart();
    version();
    linkage();
    return 0;
}
