/* The functions of document 01 and one step of each cipher, forward, back and its output. */
#ifndef PLAIN_STEPS_H
#define PLAIN_STEPS_H

#include <stddef.h>
#include <stdint.h>

static inline uint32_t right(uint32_t x, int n)
{
    return x >> n | x << (32 - n);
}

static inline uint32_t left(uint32_t x, int n)
{
    return x << n | x >> (32 - n);
}

static inline uint32_t f1(uint32_t x)
{
    return right(x, 7) ^ right(x, 18) ^ x >> 3;
}

static inline uint32_t f2(uint32_t x)
{
    return right(x, 17) ^ right(x, 19) ^ x >> 10;
}

/* g of HC-128 at index j of P, with what it reads. */
static inline uint32_t g_p(const uint32_t *a, size_t j)
{
    return (right(a[(j - 3) & 511], 10) ^ right(a[(j + 1) & 511], 23)) + right(a[(j - 10) & 511], 8);
}

/* g of HC-128 at index j of Q. */
static inline uint32_t g_q(const uint32_t *a, size_t j)
{
    return (left(a[(j - 3) & 511], 10) ^ left(a[(j + 1) & 511], 23)) + left(a[(j - 10) & 511], 8);
}

/* What A[j] grows by in HC-256, where b is the other table. */
static inline uint32_t g_256(const uint32_t *a, const uint32_t *b, size_t j)
{
    uint32_t x = a[(j - 3) & 1023];
    uint32_t y = a[(j + 1) & 1023];
    return a[(j - 10) & 1023] + (right(x, 10) ^ right(y, 23)) + b[(x ^ y) & 1023];
}

static inline uint32_t h_128(const uint32_t *b, uint32_t x)
{
    return b[x & 255] + b[256 + (x >> 16 & 255)];
}

static inline uint32_t h_256(const uint32_t *b, uint32_t x)
{
    return b[x & 255] + b[256 + (x >> 8 & 255)] + b[512 + (x >> 16 & 255)] + b[768 + (x >> 24)];
}

/* Takes step i of HC-128 and returns its output word. */
static inline uint32_t next_128(uint32_t *area, size_t i)
{
    uint32_t *p = area, *q = area + 512;
    size_t j = i & 511;
    if ((i & 1023) < 512) {
        p[j] += g_p(p, j);
        return h_128(q, p[(j - 12) & 511]) ^ p[j];
    }
    q[j] += g_q(q, j);
    return h_128(p, q[(j - 12) & 511]) ^ q[j];
}

/* Takes step i of HC-256 and returns its output word. */
static inline uint32_t next_256(uint32_t *area, size_t i)
{
    uint32_t *p = area, *q = area + 1024;
    size_t j = i & 1023;
    if ((i & 2047) < 1024) {
        p[j] += g_256(p, q, j);
        return h_256(q, p[(j - 12) & 1023]) ^ p[j];
    }
    q[j] += g_256(q, p, j);
    return h_256(p, q[(j - 12) & 1023]) ^ q[j];
}

/* Undoes step i of HC-128. */
static inline void back_128(uint32_t *area, size_t i)
{
    uint32_t *p = area, *q = area + 512;
    size_t j = i & 511;
    if ((i & 1023) < 512)
        p[j] -= g_p(p, j);
    else
        q[j] -= g_q(q, j);
}

/* Undoes step i of HC-256. */
static inline void back_256(uint32_t *area, size_t i)
{
    uint32_t *p = area, *q = area + 1024;
    size_t j = i & 1023;
    if ((i & 2047) < 1024)
        p[j] -= g_256(p, q, j);
    else
        q[j] -= g_256(q, p, j);
}

/* The output word of step i, from the tables after it. */
static inline uint32_t output_of(int code, const uint32_t *area, size_t i)
{
    size_t t = code == 1 ? 512 : 1024;
    const uint32_t *a = i % (2 * t) < t ? area : area + t;
    const uint32_t *b = i % (2 * t) < t ? area + t : area;
    uint32_t x = a[(i - 12) % t];
    return (code == 1 ? h_128(b, x) : h_256(b, x)) ^ a[i % t];
}

#endif
