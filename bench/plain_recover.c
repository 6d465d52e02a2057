/* Recover in plain C: every step undone, then set-up undone, then the expansion checked and undone. */
#include "plain.h"
#include "plain_steps.h"

#include <string.h>

static void undo_last_pass_128(uint32_t *area)
{
    uint32_t *p = area, *q = area + 512;
    for (size_t j = 512; j-- > 0;)
        q[j] = (q[j] ^ h_128(p, q[(j - 12) & 511])) - g_q(q, j);
    for (size_t j = 512; j-- > 0;)
        p[j] = (p[j] ^ h_128(q, p[(j - 12) & 511])) - g_p(p, j);
}

static void undo_last_pass_256(uint32_t *area)
{
    for (size_t i = 4096; i-- > 0;)
        back_256(area, i);
}

/* Finds w[0..15] from the expanded area; returns -1 where the area is no expansion. */
static int undo_expansion(const uint32_t *area, size_t t, uint32_t *first)
{
    uint32_t w[2560];
    size_t start = t / 2;
    memcpy(w + start, area, 2 * t * sizeof *w);
    for (size_t i = start; i-- > 0;)
        w[i] = w[i + 16] - f2(w[i + 14]) - w[i + 9] - f1(w[i + 1]) - (uint32_t)(i + 16);
    for (size_t i = start + 16; i < start + 2 * t; i++)
        if (w[i] != f2(w[i - 2]) + w[i - 7] + f1(w[i - 15]) + w[i - 16] + (uint32_t)i)
            return -1;
    memcpy(first, w, 16 * sizeof *w);
    return 0;
}

int plain_undo(struct plain *s, uint32_t *first)
{
    plain_move(s, -(int64_t)s->position);
    if (s->code == 2) {
        undo_last_pass_256(s->area);
        return undo_expansion(s->area, 1024, first);
    }
    undo_last_pass_128(s->area);
    if (undo_expansion(s->area, 512, first) != 0 || memcmp(first, first + 4, 16) != 0 || memcmp(first + 8, first + 12, 16) != 0)
        return -1;
    return 0;
}

int plain_recover(const struct plain *s, uint8_t *key, uint8_t *iv)
{
    struct plain copy = *s;
    uint32_t w[16];
    size_t key_bytes = s->code == 1 ? 16 : 32;
    if (plain_undo(&copy, w) != 0)
        return -1;
    memcpy(key, w, key_bytes);
    memcpy(iv, w + 8, key_bytes);
    return 0;
}
