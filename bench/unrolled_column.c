/* The unrolled C as the benchmark calls it; COLUMN and TITLE tell apart the compilers that it is compiled with. */
#include "implementation.h"
#include "unrolled.h"

#include <stdlib.h>

static void *create(int code)
{
    struct unrolled *s = calloc(1, sizeof *s);
    if (s == NULL)
        abort();
    s->code = code;
    return s;
}

static void set_up(void *state, const uint8_t *key, const uint8_t *iv, size_t times)
{
    struct unrolled *s = state;
    for (size_t i = 0; i < times; i++)
        unrolled_set_up(s, s->code, key, iv);
}

static void cipher(void *state, uint8_t *bytes, size_t n, size_t calls)
{
    for (size_t i = 0; i < calls; i++, bytes += n)
        unrolled_cipher(state, bytes, n / 64);
}

const struct implementation COLUMN = { TITLE, create, set_up, cipher, 64, NULL, NULL, NULL, NULL, NULL, NULL, NULL, NULL, NULL, NULL, NULL };
