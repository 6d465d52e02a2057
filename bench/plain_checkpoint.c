/* Write, load and same run in plain C. */
#include "plain.h"
#include "implementation.h"
#include "plain_steps.h"

#include <string.h>

static size_t area_bytes(int code)
{
    return code == 1 ? 4096 : 8192;
}

size_t plain_write(const struct plain *s, uint8_t *checkpoint)
{
    size_t n = 0;
    uint64_t rest = s->position;
    checkpoint[n++] = (uint8_t)s->code;
    for (; rest >= 128; rest >>= 7)
        checkpoint[n++] = (uint8_t)(rest | 128);
    checkpoint[n++] = (uint8_t)rest;
    memcpy(checkpoint + n, s->area, area_bytes(s->code));
    return n + area_bytes(s->code);
}

/* Reads code, position and tables of a checkpoint; returns 0 or the refusal number. */
static int read_checkpoint(struct plain *s, const uint8_t *checkpoint, size_t length)
{
    size_t n = 1;
    if (length == 0)
        return 9;
    if (checkpoint[0] < 1 || checkpoint[0] > 2)
        return 1;
    s->code = checkpoint[0];
    s->position = 0;
    for (int shift = 0;; shift += 7) {
        if (shift == 28)
            return 10;
        if (n == length)
            return 9;
        uint8_t group = checkpoint[n++];
        s->position |= (uint64_t)(group & 127) << shift;
        if (group == 0 && shift > 0)
            return 10;
        if (group < 128)
            break;
    }
    if (s->position > LIMIT)
        return 5;
    if (length - n != area_bytes(s->code))
        return 11;
    memcpy(s->area, checkpoint + n, length - n);
    return 0;
}

int plain_load(struct plain *s, const uint8_t *checkpoint, size_t length)
{
    struct plain next;
    uint8_t key[32], iv[32];
    if (read_checkpoint(&next, checkpoint, length) != 0 || plain_recover(&next, key, iv) != 0)
        return -1;
    s->code = next.code;
    s->position = next.position;
    memcpy(s->area, next.area, area_bytes(next.code));
    if (s->position % 4 != 0)
        s->word = output_of(s->code, s->area, s->position / 4);
    return 0;
}

/* Finds the cipher of a checkpoint, and w[0..15] of its expansion; returns 0 or the refusal number. */
static int find_origin(const uint8_t *checkpoint, size_t length, int *code, uint32_t *first)
{
    struct plain s;
    int refusal = read_checkpoint(&s, checkpoint, length);
    if (refusal != 0)
        return refusal;
    *code = s.code;
    return plain_undo(&s, first) == 0 ? 0 : 12;
}

int64_t plain_same_run(const uint8_t *first, size_t first_bytes, const uint8_t *second, size_t second_bytes)
{
    int code, other_code;
    uint32_t w[16], other_w[16];
    int refusal = find_origin(first, first_bytes, &code, w);
    if (refusal == 0)
        refusal = find_origin(second, second_bytes, &other_code, other_w);
    if (refusal == 0 && code != other_code)
        refusal = 23;
    return refusal == 0 ? memcmp(w, other_w, sizeof w) == 0 : -refusal;
}
