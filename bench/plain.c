/* Set up, cipher and move in plain C. */
#include "plain.h"
#include "implementation.h"
#include "plain_steps.h"

#include <string.h>

/* Fills the area from W(T/2) on with the expansion of w[0..15]. */
static void expand(uint32_t *area, size_t t, const uint32_t *first)
{
    uint32_t w[2560];
    memcpy(w, first, 16 * sizeof *w);
    for (uint32_t i = 16; i < t / 2 + 2 * t; i++)
        w[i] = f2(w[i - 2]) + w[i - 7] + f1(w[i - 15]) + w[i - 16] + i;
    memcpy(area, w + t / 2, 2 * t * sizeof *w);
}

static void set_up_128(uint32_t *area, const uint8_t *key, const uint8_t *iv)
{
    uint32_t w[16];
    memcpy(w, key, 16);
    memcpy(w + 4, key, 16);
    memcpy(w + 8, iv, 16);
    memcpy(w + 12, iv, 16);
    expand(area, 512, w);
    uint32_t *p = area, *q = area + 512;
    for (size_t j = 0; j < 512; j++)
        p[j] = (p[j] + g_p(p, j)) ^ h_128(q, p[(j - 12) & 511]);
    for (size_t j = 0; j < 512; j++)
        q[j] = (q[j] + g_q(q, j)) ^ h_128(p, q[(j - 12) & 511]);
}

static void set_up_256(uint32_t *area, const uint8_t *key, const uint8_t *iv)
{
    uint32_t w[16];
    memcpy(w, key, 32);
    memcpy(w + 8, iv, 32);
    expand(area, 1024, w);
    for (size_t i = 0; i < 4096; i++)
        next_256(area, i);
}

void plain_set_up(struct plain *s, int code, const uint8_t *key, const uint8_t *iv)
{
    s->code = code;
    s->position = 0;
    if (code == 1)
        set_up_128(s->area, key, iv);
    else
        set_up_256(s->area, key, iv);
}

static void xor_word(uint8_t *bytes, uint32_t w)
{
    uint32_t x;
    memcpy(&x, bytes, 4);
    x ^= w;
    memcpy(bytes, &x, 4);
}

/* Enciphers n words, from step i on. */
static void xor_words(struct plain *s, size_t i, uint8_t *bytes, size_t n)
{
    if (s->code == 1)
        for (size_t k = 0; k < n; k++)
            xor_word(bytes + 4 * k, next_128(s->area, i + k));
    else
        for (size_t k = 0; k < n; k++)
            xor_word(bytes + 4 * k, next_256(s->area, i + k));
}

int plain_cipher(struct plain *s, uint8_t *bytes, size_t n)
{
    if (n > LIMIT - s->position)
        return -1;
    while (n > 0 && s->position % 4 != 0) {
        *bytes++ ^= (uint8_t)(s->word >> 8 * (s->position % 4));
        s->position++;
        n--;
    }
    xor_words(s, s->position / 4, bytes, n / 4);
    bytes += n / 4 * 4;
    s->position += n / 4 * 4;
    n %= 4;
    if (n > 0) {
        s->word = s->code == 1 ? next_128(s->area, s->position / 4) : next_256(s->area, s->position / 4);
        for (size_t k = 0; k < n; k++)
            bytes[k] ^= (uint8_t)(s->word >> 8 * k);
        s->position += n;
    }
    return 0;
}

/* Takes the steps from i to before end; their output words are not needed. */
static void advance(struct plain *s, size_t i, size_t end)
{
    if (s->code == 1)
        for (; i < end; i++)
            next_128(s->area, i);
    else
        for (; i < end; i++)
            next_256(s->area, i);
}

/* Undoes the steps before i down to end. */
static void retreat(struct plain *s, size_t i, size_t end)
{
    if (s->code == 1)
        while (i > end)
            back_128(s->area, --i);
    else
        while (i > end)
            back_256(s->area, --i);
}

int plain_move(struct plain *s, int64_t distance)
{
    if (distance < -(int64_t)s->position || distance > (int64_t)(LIMIT - s->position))
        return -1;
    uint64_t end = s->position + (uint64_t)distance;
    if (distance >= 0)
        advance(s, (s->position + 3) / 4, (end + 3) / 4);
    else
        retreat(s, (s->position + 3) / 4, (end + 3) / 4);
    s->position = end;
    if (end % 4 != 0)
        s->word = output_of(s->code, s->area, end / 4);
    return 0;
}
