/* The test load in plain C: set up, and the calls that come from a seed. */
#include "plain.h"
#include "plain_steps.h"

#include <string.h>

#define MOST_CALLS 1000
#define MOST_BYTES 256 /* in one cipher call */

static uint32_t next_word(uint32_t x)
{
    x ^= x << 13;
    x ^= x >> 17;
    x ^= x << 5;
    return x;
}

static uint64_t refusal_of(const struct test *test)
{
    size_t key_bytes = test->code == 1 ? 16 : 32, area_words = test->code == 1 ? 1024 : 2048;
    if (test->seed == 0)
        return 17;
    if (test->count > MOST_CALLS)
        return 18;
    if (test->code != 1 && test->code != 2)
        return 1;
    if (test->key_bytes != key_bytes)
        return 2;
    if (test->iv_bytes != key_bytes)
        return 3;
    return test->area_words == area_words ? 0 : 4;
}

/* Runs the calls after set up, none of which is refused, and returns the mark after them. */
static uint64_t run_calls(struct plain *s, uint32_t seed, uint64_t count)
{
    uint8_t bytes[MOST_BYTES];
    uint64_t mark = 0;
    for (uint32_t w = seed; count > 0; count--) {
        w = next_word(w);
        if (w % 2 == 0) {
            plain_move(s, (int64_t)(w / 2 % 4096) - (int64_t)s->position);
            continue;
        }
        size_t n = w / 2 % (MOST_BYTES + 1);
        memset(bytes, 0, n);
        plain_cipher(s, bytes, n);
        if (n > 0 && s->position > mark)
            mark = s->position;
    }
    return mark;
}

uint64_t plain_test_load(struct plain *s, const struct test *test, struct head *head)
{
    uint64_t refusal = refusal_of(test);
    if (refusal != 0)
        return refusal;
    plain_set_up(s, (int)test->code, test->key, test->iv);
    head->mark = run_calls(s, test->seed, test->count);
    head->code = test->code;
    head->position = s->position;
    head->word = s->position == 0 ? 0 : output_of(s->code, s->area, (s->position - 1) / 4);
    return 0;
}
