/* HC-128 and HC-256 unrolled sixteen steps, as section 5.1 of paper 001 and section 4.1 and appendix B of paper 002 describe, for a
 * little-endian machine. It enciphers whole blocks of 64 bytes and knows neither a limit nor a way back. */
#ifndef UNROLLED_H
#define UNROLLED_H

#include <stddef.h>
#include <stdint.h>

struct unrolled {
    int code;
    size_t counter; /* the step number modulo 2T */
    uint32_t p[1024], q[1024], x[16], y[16];
};

void unrolled_set_up(struct unrolled *s, int code, const uint8_t *key, const uint8_t *iv);
void unrolled_cipher(struct unrolled *s, uint8_t *bytes, size_t blocks);

#endif
