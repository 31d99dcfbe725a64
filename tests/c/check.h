/* What the tests over the C interface share. */
#undef NDEBUG /* the checks are assertions */
#include <assert.h>
#include <stdbool.h>
#include <stdlib.h>
#include <string.h>

#include <homie5.h>

/* A byte string as its pointer and length. */
#define TEXT(s) (const uint8_t *)(s), strlen(s)

/* What a refusal at a place returns. */
#define AT(number, place) ((uint32_t)(number) | (uint32_t)(place) << 8)

/* No value of these tests. */
#define GUARD UINT64_C(0xa5a5a5a5a5a5a5a5)

static inline void guard(uint64_t *out)
{
    for (size_t i = 0; i <= HOMIE5_VALUES; i++)
        out[i] = GUARD;
}

/* Whether `out`, of this length, was given the values as far as they fit, and nothing else. */
static inline bool given(const uint64_t *out, size_t out_len, const uint64_t *values, size_t count)
{
    for (size_t i = 0; i <= HOMIE5_VALUES; i++)
        if (out[i] != (i < out_len && i < count ? values[i] : GUARD))
            return false;
    return true;
}

/* Holds a call over `out` and `out_len` to what it returns and to its values, with an array of every length. */
#define ANSWERS(returned, call, ...)                                                     \
    do {                                                                                 \
        const uint64_t values[] = {__VA_ARGS__};                                         \
        for (size_t out_len = 0; out_len <= HOMIE5_VALUES; out_len++) {                  \
            uint64_t out[HOMIE5_VALUES + 1];                                             \
            guard(out);                                                                  \
            assert((call) == (returned));                                                \
            assert(given(out, out_len, values, sizeof values / sizeof values[0]));       \
        }                                                                                \
    } while (0)

/* The same of a call that gives no values. */
#define REFUSES(returned, call)                                                          \
    do {                                                                                 \
        for (size_t out_len = 0; out_len <= HOMIE5_VALUES; out_len++) {                  \
            uint64_t out[HOMIE5_VALUES + 1];                                             \
            guard(out);                                                                  \
            assert((call) == (returned));                                                \
            assert(given(out, out_len, NULL, 0));                                        \
        }                                                                                \
    } while (0)
