/* One decision every sixteen steps, and the sixteen words before the current one in a register of their own, X for P and Y for Q. */
#include "unrolled.h"
#include "plain_steps.h"

#include <string.h>

static inline void xor_word(uint8_t *bytes, uint32_t w)
{
    uint32_t m;
    memcpy(&m, bytes, 4);
    m ^= w;
    memcpy(bytes, &m, 4);
}

/* One step of HC-128 in P or Q: u is A[j], v is A[j+1], a is where the register keeps A[j], b, c and d are A[j-10], A[j-3] and A[j-12]. */
#define STEP_128(rotation, other, u, v, a, b, c, d, bytes)              \
    do {                                                                \
        (u) += (rotation((c), 10) ^ rotation((v), 23)) + rotation((b), 8); \
        (a) = (u);                                                      \
        xor_word((bytes), h_128((other), (d)) ^ (u));                   \
    } while (0)

/* One step of HC-256, with the same arguments. */
#define STEP_256(rotation, other, u, v, a, b, c, d, bytes)              \
    do {                                                                \
        (u) += (b) + (rotation((c), 10) ^ rotation((v), 23)) + (other)[((v) ^ (c)) & 1023]; \
        (a) = (u);                                                      \
        xor_word((bytes), h_256((other), (d)) ^ (u));                   \
    } while (0)

/* Sixteen steps in table t from index j on, where k is the index after them and r the register. */
#define SIXTEEN(STEP, rotation, other, t, r, j, k, m)                                        \
    do {                                                                                     \
        STEP(rotation, other, t[j + 0], t[j + 1], r[0], r[6], r[13], r[4], m);               \
        STEP(rotation, other, t[j + 1], t[j + 2], r[1], r[7], r[14], r[5], m + 4);           \
        STEP(rotation, other, t[j + 2], t[j + 3], r[2], r[8], r[15], r[6], m + 8);           \
        STEP(rotation, other, t[j + 3], t[j + 4], r[3], r[9], r[0], r[7], m + 12);           \
        STEP(rotation, other, t[j + 4], t[j + 5], r[4], r[10], r[1], r[8], m + 16);          \
        STEP(rotation, other, t[j + 5], t[j + 6], r[5], r[11], r[2], r[9], m + 20);          \
        STEP(rotation, other, t[j + 6], t[j + 7], r[6], r[12], r[3], r[10], m + 24);         \
        STEP(rotation, other, t[j + 7], t[j + 8], r[7], r[13], r[4], r[11], m + 28);         \
        STEP(rotation, other, t[j + 8], t[j + 9], r[8], r[14], r[5], r[12], m + 32);         \
        STEP(rotation, other, t[j + 9], t[j + 10], r[9], r[15], r[6], r[13], m + 36);        \
        STEP(rotation, other, t[j + 10], t[j + 11], r[10], r[0], r[7], r[14], m + 40);       \
        STEP(rotation, other, t[j + 11], t[j + 12], r[11], r[1], r[8], r[15], m + 44);       \
        STEP(rotation, other, t[j + 12], t[j + 13], r[12], r[2], r[9], r[0], m + 48);        \
        STEP(rotation, other, t[j + 13], t[j + 14], r[13], r[3], r[10], r[1], m + 52);       \
        STEP(rotation, other, t[j + 14], t[j + 15], r[14], r[4], r[11], r[2], m + 56);       \
        STEP(rotation, other, t[j + 15], t[k], r[15], r[5], r[12], r[3], m + 60);            \
    } while (0)

static void xor_block_128(struct unrolled *s, uint8_t *m)
{
    size_t j = s->counter & 511, k = (j + 16) & 511;
    if (s->counter < 512)
        SIXTEEN(STEP_128, right, s->q, s->p, s->x, j, k, m);
    else
        SIXTEEN(STEP_128, left, s->p, s->q, s->y, j, k, m);
    s->counter = (s->counter + 16) & 1023;
}

static void xor_block_256(struct unrolled *s, uint8_t *m)
{
    size_t j = s->counter & 1023, k = (j + 16) & 1023;
    if (s->counter < 1024)
        SIXTEEN(STEP_256, right, s->q, s->p, s->x, j, k, m);
    else
        SIXTEEN(STEP_256, right, s->p, s->q, s->y, j, k, m);
    s->counter = (s->counter + 16) & 2047;
}

/* Fills P and Q with the expansion, inside P and Q as in appendix B of 002; w[0..15] stand in P. */
static void expand(uint32_t *p, uint32_t *q, uint32_t t)
{
#define NEXT(a, i) (f2(a[(i) - 2]) + a[(i) - 7] + f1(a[(i) - 15]) + a[(i) - 16])
    for (uint32_t i = 16; i < t / 2 + 16; i++)
        p[i] = NEXT(p, i) + i;
    memcpy(p, p + t / 2, 64);
    for (uint32_t i = 16; i < t; i++)
        p[i] = NEXT(p, i) + t / 2 + i;
    memcpy(q, p + t - 16, 64);
    for (uint32_t i = 16; i < 32; i++)
        q[i] = NEXT(q, i) + t / 2 + t - 16 + i;
    memcpy(q, q + 16, 64);
    for (uint32_t i = 16; i < t; i++)
        q[i] = NEXT(q, i) + t / 2 + t + i;
#undef NEXT
}

/* The last pass of HC-128 over one table, the indices masked only at its ends. */
#define LAST_PASS_128(rotation, other, t, j, minus3, minus10, minus12, plus1) \
    t[j] = (t[j] + (rotation(t[minus3], 10) ^ rotation(t[plus1], 23)) + rotation(t[minus10], 8)) ^ h_128(other, t[minus12])

#define PASS_128(rotation, other, t)                                                                                     \
    do {                                                                                                                 \
        for (size_t j = 0; j < 12; j++)                                                                                  \
            LAST_PASS_128(rotation, other, t, j, (j - 3) & 511, (j - 10) & 511, (j - 12) & 511, j + 1);                  \
        for (size_t j = 12; j < 511; j++)                                                                                \
            LAST_PASS_128(rotation, other, t, j, j - 3, j - 10, j - 12, j + 1);                                          \
        LAST_PASS_128(rotation, other, t, 511, 508, 501, 499, 0);                                                        \
    } while (0)

/* 1,024 steps of HC-256 in one table, the indices masked only at its ends. */
static void pass_256(uint32_t *a, const uint32_t *b)
{
    for (size_t j = 0; j < 10; j++)
        a[j] += g_256(a, b, j);
    for (size_t j = 10; j < 1023; j++)
        a[j] += a[j - 10] + (right(a[j - 3], 10) ^ right(a[j + 1], 23)) + b[(a[j - 3] ^ a[j + 1]) & 1023];
    a[1023] += g_256(a, b, 1023);
}

static void set_up_128(struct unrolled *s, const uint8_t *key, const uint8_t *iv)
{
    memcpy(s->p, key, 16);
    memcpy(s->p + 4, key, 16);
    memcpy(s->p + 8, iv, 16);
    memcpy(s->p + 12, iv, 16);
    expand(s->p, s->q, 512);
    PASS_128(right, s->q, s->p);
    PASS_128(left, s->p, s->q);
    memcpy(s->x, s->p + 496, 64);
    memcpy(s->y, s->q + 496, 64);
}

static void set_up_256(struct unrolled *s, const uint8_t *key, const uint8_t *iv)
{
    memcpy(s->p, key, 32);
    memcpy(s->p + 8, iv, 32);
    expand(s->p, s->q, 1024);
    for (int i = 0; i < 2; i++) {
        pass_256(s->p, s->q);
        pass_256(s->q, s->p);
    }
    memcpy(s->x, s->p + 1008, 64);
    memcpy(s->y, s->q + 1008, 64);
}

void unrolled_set_up(struct unrolled *s, int code, const uint8_t *key, const uint8_t *iv)
{
    s->code = code;
    s->counter = 0;
    if (code == 1)
        set_up_128(s, key, iv);
    else
        set_up_256(s, key, iv);
}

void unrolled_cipher(struct unrolled *s, uint8_t *bytes, size_t blocks)
{
    if (s->code == 1)
        for (; blocks > 0; blocks--, bytes += 64)
            xor_block_128(s, bytes);
    else
        for (; blocks > 0; blocks--, bytes += 64)
            xor_block_256(s, bytes);
}
