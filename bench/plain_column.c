/* The plain C as the benchmark calls it; COLUMN and TITLE tell apart the compilers that it is compiled with. */
#include "implementation.h"
#include "plain.h"
#include "plain_volume.h"

#include <stdlib.h>

static void expect_accepted(int result)
{
    if (result != 0)
        abort();
}

static void *create(int code)
{
    struct plain *s = calloc(1, sizeof *s);
    if (s == NULL)
        abort();
    s->code = code;
    return s;
}

static void set_up(void *state, const uint8_t *key, const uint8_t *iv, size_t times)
{
    struct plain *s = state;
    for (size_t i = 0; i < times; i++)
        plain_set_up(s, s->code, key, iv);
}

static void cipher(void *state, uint8_t *bytes, size_t n, size_t calls)
{
    for (size_t i = 0; i < calls; i++, bytes += n)
        expect_accepted(plain_cipher(state, bytes, n));
}

static void move(void *state, int64_t distance)
{
    expect_accepted(plain_move(state, distance));
}

static int recover(void *state, uint8_t *key, uint8_t *iv)
{
    return plain_recover(state, key, iv);
}

static size_t write_checkpoint(void *state, uint8_t *checkpoint, size_t times)
{
    size_t length = 0;
    for (size_t i = 0; i < times; i++)
        length = plain_write(state, checkpoint);
    return length;
}

static int load(void *state, const uint8_t *checkpoint, size_t length, size_t times)
{
    for (size_t i = 0; i < times; i++)
        if (plain_load(state, checkpoint, length) != 0)
            return -1;
    return 0;
}

static int64_t same_run(const uint8_t *first, size_t first_bytes, const uint8_t *second, size_t second_bytes, size_t times)
{
    int64_t answer = 0;
    for (size_t i = 0; i < times; i++)
        answer = plain_same_run(first, first_bytes, second, second_bytes);
    return answer;
}

static uint64_t test_load(void *state, const struct test *test, struct head *head, size_t times)
{
    uint64_t refusal = 0;
    for (size_t i = 0; i < times; i++)
        refusal = plain_test_load(state, test, head);
    return refusal;
}

static size_t write_volume(const uint32_t *entries, size_t numbers, uint8_t *lent, size_t lent_bytes, size_t times)
{
    struct plain_answer written = { 0, 0 };
    for (size_t i = 0; i < times; i++)
        written = plain_write_volume(entries, numbers, lent, lent_bytes);
    return written.value;
}

static int64_t read_volume(const uint8_t *volume, size_t volume_bytes, uint32_t *entries, size_t numbers, size_t times)
{
    struct plain_answer read = { 0, 0 };
    for (size_t i = 0; i < times; i++)
        read = plain_read_volume(volume, volume_bytes, entries, numbers);
    return read.refusal == 0 ? (int64_t)read.value : -1;
}

static int64_t duty(const uint8_t *volume, size_t volume_bytes, size_t times)
{
    static const uint16_t rates[8] = { 120, 95, 95, 60, 40, 40, 15, 0 };
    struct plain_answer owed = { 0, 0 };
    for (size_t i = 0; i < times; i++)
        owed = plain_duty(rates, volume, volume_bytes);
    return owed.refusal == 0 ? (int64_t)owed.value : -1;
}

static int64_t soundness(const uint8_t *volume, size_t volume_bytes, size_t times)
{
    int64_t found = 0;
    for (size_t i = 0; i < times; i++)
        found = plain_soundness(volume, volume_bytes);
    return found;
}

static int64_t compare(const uint8_t *blender, size_t blender_bytes, const uint8_t *gauge, size_t gauge_bytes, size_t times)
{
    int64_t from = 0;
    for (size_t i = 0; i < times; i++)
        from = plain_compare(blender, blender_bytes, gauge, gauge_bytes);
    return from;
}

const struct implementation COLUMN = { TITLE, create, set_up, cipher, 1, move, recover, write_checkpoint, load, same_run, test_load, write_volume,
                                       read_volume, duty, soundness, compare };
