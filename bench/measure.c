/* The timing: in every turn each implementation is timed once, so that a change of the machine's speed reaches all of them. A round goes through all
 * rows, with as many turns as each row has. */
#include "measure.h"

#include <stdio.h>
#include <stdlib.h>
#include <string.h>
#include <time.h>

#define SMALL_POSITION 1001
#define NEXT_WORD_POSITION 1005 /* The tables have taken one step more there. */
#define SEED 1

const struct row_about about[ROWS] = {
    [BULK_64_KIB] = { "bulk, 64 KiB buffer", MIB_PER_SECOND, 20 },
    [BULK_16_MIB] = { "bulk, 16 MiB buffer", MIB_PER_SECOND, 4 },
    [CALL_1] = { "call of 1 byte", NANOSECONDS, 10 },
    [CALL_3] = { "call of 3 bytes", NANOSECONDS, 10 },
    [CALL_12] = { "call of 12 bytes", NANOSECONDS, 10 },
    [CALL_16] = { "call of 16 bytes", NANOSECONDS, 10 },
    [CALL_64] = { "call of 64 bytes", NANOSECONDS, 10 },
    [SET_UP] = { "set-up", MICROSECONDS, 20 },
    [FORWARD] = { "move forward, 0 to the limit", MILLISECONDS, 2 },
    [RECOVER] = { "recover at the limit", MILLISECONDS, 1 },
    [WRITE] = { "write", MICROSECONDS, 20 },
    [LOAD_LIMIT] = { "load at the limit", MILLISECONDS, 1 },
    [BACK] = { "move back, the limit to 0", MILLISECONDS, 2 },
    [LOAD_SMALL] = { "load at position 1,001", MICROSECONDS, 20 },
    [SAME_RUN_SMALL] = { "same run at 1,001 and 1,005", MICROSECONDS, 20 },
    [SAME_RUN_LIMIT] = { "same run at the limit", MILLISECONDS, 1 },
    [TEST_LOAD] = { "test load of 1,000 calls", MICROSECONDS, 10 },
    [WRITE_VOLUME] = { "write volume, 2,000 entries", MICROSECONDS, 20 },
    [READ_VOLUME] = { "read volume, 2,000 entries", MICROSECONDS, 20 },
    [DUTY] = { "duty on 2,000 entries", MICROSECONDS, 20 },
    [SOUNDNESS] = { "soundness of 2,000 entries", MICROSECONDS, 20 },
    [COMPARE] = { "compare two of 2,000 entries", MICROSECONDS, 20 },
};

double seconds[ROWS][2][MOST_COLUMNS];

/* One implementation with a state of its own and the position that the state is at, or -1 before set-up. */
struct engine {
    const struct implementation *it;
    void *state;
    int64_t position;
};

static struct engine engines[2][MOST_COLUMNS];
static uint8_t key[32] = { 1, 2, 3 }, iv[32] = { 4, 5, 6 };
static uint8_t buffer[16777216];
static uint8_t checkpoint[LONGEST_CHECKPOINT], second_checkpoint[LONGEST_CHECKPOINT];
static uint32_t entries[4 * VOLUME_ENTRIES], entries_read[4 * VOLUME_ENTRIES];
static uint8_t volume[LONGEST_VOLUME], gauge[LONGEST_VOLUME];

/* The processor time of this process, which other work on the machine does not add to. */
static double now(void)
{
    struct timespec t;
    clock_gettime(CLOCK_PROCESS_CPUTIME_ID, &t);
    return (double)t.tv_sec + 1e-9 * (double)t.tv_nsec;
}

int ciphers_of(enum row row)
{
    return row == WRITE_VOLUME || row == READ_VOLUME || row == DUTY || row == SOUNDNESS || row == COMPARE ? 1 : 2;
}

size_t bulk_bytes(enum row row)
{
    return row == BULK_16_MIB ? sizeof buffer : 65536;
}

/* The bytes of one call in a row that enciphers. */
static size_t call_bytes(enum row row)
{
    switch (row) {
    case CALL_1: return 1;
    case CALL_3: return 3;
    case CALL_12: return 12;
    case CALL_16: return 16;
    case CALL_64: return 64;
    default: return bulk_bytes(row);
    }
}

static int has(const struct implementation *it, enum row row)
{
    if (it == NULL)
        return 0;
    switch (row) {
    case SET_UP: return it->set_up != NULL;
    case FORWARD:
    case BACK: return it->move != NULL;
    case RECOVER: return it->recover != NULL;
    case WRITE: return it->write != NULL;
    case LOAD_LIMIT:
    case LOAD_SMALL: return it->load != NULL;
    case SAME_RUN_SMALL:
    case SAME_RUN_LIMIT: return it->same_run != NULL;
    case TEST_LOAD: return it->test_load != NULL;
    case WRITE_VOLUME: return it->write_volume != NULL;
    case READ_VOLUME: return it->read_volume != NULL;
    case DUTY: return it->duty != NULL;
    case SOUNDNESS: return it->soundness != NULL;
    case COMPARE: return it->compare != NULL;
    default: return call_bytes(row) >= it->least_call;
    }
}

/* Brings the engine to position p, which is not timed. */
static void bring_to(struct engine *e, int64_t p)
{
    if (e->position == p)
        return;
    e->it->set_up(e->state, key, iv, 1);
    if (p > 0)
        e->it->move(e->state, p);
    e->position = p;
}

static double time_cipher(struct engine *e, size_t n)
{
    size_t calls = n > 65536 ? 1 : 65536 / n;
    bring_to(e, 0);
    double start = now();
    e->it->cipher(e->state, buffer, n, calls);
    double end = now();
    e->position = (int64_t)(n * calls);
    return (end - start) / (double)calls;
}

static double time_set_up(struct engine *e)
{
    size_t times = 16;
    double start = now();
    e->it->set_up(e->state, key, iv, times);
    double end = now();
    e->position = 0;
    return (end - start) / (double)times;
}

static double time_move(struct engine *e, int64_t from, int64_t to)
{
    bring_to(e, from);
    double start = now();
    e->it->move(e->state, to - from);
    double end = now();
    e->position = to;
    return end - start;
}

static double time_recover(struct engine *e)
{
    uint8_t key_found[32], iv_found[32];
    bring_to(e, LIMIT);
    double start = now();
    if (e->it->recover(e->state, key_found, iv_found) != 0)
        abort();
    return now() - start;
}

static double time_write(struct engine *e)
{
    size_t times = 256;
    bring_to(e, LIMIT);
    double start = now();
    e->it->write(e->state, checkpoint, times);
    return (now() - start) / (double)times;
}

static double time_load(struct engine *e, int64_t p, size_t times)
{
    bring_to(e, p);
    size_t length = e->it->write(e->state, checkpoint, 1);
    double start = now();
    if (e->it->load(e->state, checkpoint, length, times) != 0)
        abort();
    return (now() - start) / (double)times;
}

/* Both checkpoints are of one key and IV, so that all sixteen words are compared. */
static double time_same_run(struct engine *e, int64_t p, int64_t q, size_t times)
{
    bring_to(e, p);
    size_t first_bytes = e->it->write(e->state, checkpoint, 1);
    bring_to(e, q);
    size_t second_bytes = e->it->write(e->state, second_checkpoint, 1);
    double start = now();
    if (e->it->same_run(checkpoint, first_bytes, second_checkpoint, second_bytes, times) != 1)
        abort();
    return (now() - start) / (double)times;
}

static double time_test_load(struct engine *e, int code)
{
    size_t times = 4, key_bytes = code == 1 ? 16 : 32, area_words = code == 1 ? 1024 : 2048;
    struct test test = { SEED, 1000, (uint32_t)code, key, iv, key_bytes, key_bytes, area_words };
    struct head head;
    double start = now();
    if (e->it->test_load(e->state, &test, &head, times) != 0)
        abort();
    double end = now();
    e->position = (int64_t)head.position;
    return (end - start) / (double)times;
}

/* The entries have random numbers over their whole ranges, the same in every run. */
static void fill_entries(void)
{
    static const uint32_t least[4] = { 0, 0, 0, 1 }, most[4] = { 1440, 100000, 10000, 8 };
    uint32_t x = 12345;
    for (size_t i = 0; i < 4 * VOLUME_ENTRIES; i++) {
        x ^= x << 13;
        x ^= x >> 17;
        x ^= x << 5;
        entries[i] = least[i % 4] + x % (most[i % 4] - least[i % 4] + 1);
    }
}

static double time_write_volume(const struct implementation *it)
{
    size_t times = 16;
    double start = now();
    if (it->write_volume(entries, 4 * VOLUME_ENTRIES, volume, sizeof volume, times) == 0)
        abort();
    return (now() - start) / (double)times;
}

static double time_read_volume(const struct implementation *it)
{
    size_t times = 16, length = it->write_volume(entries, 4 * VOLUME_ENTRIES, volume, sizeof volume, 1);
    double start = now();
    if (it->read_volume(volume, length, entries_read, 4 * VOLUME_ENTRIES, times) != VOLUME_ENTRIES)
        abort();
    return (now() - start) / (double)times;
}

static double time_duty(const struct implementation *it)
{
    size_t times = 16, length = it->write_volume(entries, 4 * VOLUME_ENTRIES, volume, sizeof volume, 1);
    double start = now();
    if (it->duty(volume, length, times) < 0)
        abort();
    return (now() - start) / (double)times;
}

static double time_soundness(const struct implementation *it)
{
    size_t times = 16, length = it->write_volume(entries, 4 * VOLUME_ENTRIES, volume, sizeof volume, 1);
    double start = now();
    if (it->soundness(volume, length, times) != 0)
        abort();
    return (now() - start) / (double)times;
}

/* The recordings are the same, so that each of their entries is compared. */
static double time_compare(const struct implementation *it)
{
    size_t times = 16, length = it->write_volume(entries, 4 * VOLUME_ENTRIES, volume, sizeof volume, 1);
    memcpy(gauge, volume, length);
    double start = now();
    if (it->compare(volume, length, gauge, length, times) != (int64_t)length)
        abort();
    return (now() - start) / (double)times;
}

static double time_row(struct engine *e, enum row row, int cipher)
{
    switch (row) {
    case SET_UP: return time_set_up(e);
    case FORWARD: return time_move(e, 0, LIMIT);
    case RECOVER: return time_recover(e);
    case WRITE: return time_write(e);
    case LOAD_LIMIT: return time_load(e, LIMIT, 1);
    case BACK: return time_move(e, LIMIT, 0);
    case LOAD_SMALL: return time_load(e, SMALL_POSITION, 16);
    case SAME_RUN_SMALL: return time_same_run(e, SMALL_POSITION, NEXT_WORD_POSITION, 16);
    case SAME_RUN_LIMIT: return time_same_run(e, LIMIT, LIMIT, 1);
    case TEST_LOAD: return time_test_load(e, cipher + 1);
    case WRITE_VOLUME: return time_write_volume(e->it);
    case READ_VOLUME: return time_read_volume(e->it);
    case DUTY: return time_duty(e->it);
    case SOUNDNESS: return time_soundness(e->it);
    case COMPARE: return time_compare(e->it);
    default: return time_cipher(e, call_bytes(row));
    }
}

/* Times each implementation once, beginning with another one in each turn. */
static void measure_turn(enum row row, int cipher, size_t count, size_t first)
{
    for (size_t k = 0; k < count; k++) {
        size_t c = (first + k) % count;
        struct engine *e = &engines[cipher][c];
        if (!has(e->it, row))
            continue;
        double t = time_row(e, row, cipher);
        double *least = &seconds[row][cipher][c];
        if (*least == 0 || t < *least)
            *least = t;
    }
}

static void create_engines(const struct implementation *const *columns, size_t count)
{
    for (int cipher = 0; cipher < 2; cipher++)
        for (size_t c = 0; c < count; c++) {
            struct engine *e = &engines[cipher][c];
            e->it = columns[c];
            e->position = -1;
            if (e->it != NULL)
                e->state = e->it->create(cipher + 1);
        }
}

void measure_all(const struct implementation *const *columns, size_t count, int rounds)
{
    create_engines(columns, count);
    fill_entries();
    for (int round = 0; round < rounds; round++) {
        fprintf(stderr, "round %d of %d\n", round + 1, rounds);
        for (int row = 0; row < ROWS; row++)
            for (int cipher = 0; cipher < ciphers_of((enum row)row); cipher++)
                for (int turn = 0; turn < about[row].turns; turn++)
                    measure_turn((enum row)row, cipher, count, (size_t)(round + turn));
    }
}
