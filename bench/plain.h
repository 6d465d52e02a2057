/* HC-128 and HC-256 in plain C, written from document 01 and requests (h) and (m) of document 02 for a little-endian machine. */
#ifndef PLAIN_H
#define PLAIN_H

#include "implementation.h"

#include <stddef.h>
#include <stdint.h>

/* The tables P then Q, the byte position, and the output word of the step last taken. */
struct plain {
    int code;
    uint64_t position;
    uint32_t word;
    uint32_t area[2048];
};

/* Each call up to load returns 0, or -1 where it is refused; a refused call changes nothing. */
void plain_set_up(struct plain *s, int code, const uint8_t *key, const uint8_t *iv);
int plain_cipher(struct plain *s, uint8_t *bytes, size_t n);
int plain_move(struct plain *s, int64_t distance);
int plain_recover(const struct plain *s, uint8_t *key, uint8_t *iv);
size_t plain_write(const struct plain *s, uint8_t *checkpoint);
int plain_load(struct plain *s, const uint8_t *checkpoint, size_t length);
/* 1 where two checkpoints have the same key and IV, 0 where they have not, or minus the number with which the pair is refused. */
int64_t plain_same_run(const uint8_t *first, size_t first_bytes, const uint8_t *second, size_t second_bytes);
/* 0 with the head after the test load, or the number with which it is refused. */
uint64_t plain_test_load(struct plain *s, const struct test *test, struct head *head);

/* Undoes every step and set-up, and finds w[0..15] of the expansion; returns -1 where no key and IV have the tables. */
int plain_undo(struct plain *s, uint32_t *first);

#endif
