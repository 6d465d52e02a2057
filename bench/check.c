/* The implementations compared with the first one before anything is timed. */
#include "check.h"

#include <stdio.h>
#include <stdlib.h>
#include <string.h>

#define STREAM 65536

static uint8_t key[32], iv[32];
static uint8_t expected[STREAM], found[STREAM];
static uint8_t expected_checkpoint[LONGEST_CHECKPOINT], found_checkpoint[LONGEST_CHECKPOINT];

static void stop(const struct implementation *it, int code, const char *what)
{
    printf("%s differs in %s of HC-%d; nothing was timed.\n", it->title, what, 128 * code);
    exit(1);
}

static void stop_volume(const struct implementation *it, const char *what)
{
    printf("%s differs in %s; nothing was timed.\n", it->title, what);
    exit(1);
}

/* The keystream in calls of n bytes, the last bytes that n does not divide left 0. */
static void keystream(const struct implementation *it, int code, size_t n, uint8_t *bytes)
{
    void *state = it->create(code);
    memset(bytes, 0, STREAM);
    it->set_up(state, key, iv, 1);
    it->cipher(state, bytes, n, STREAM / n);
}

static void check_keystream(const struct implementation *const *all, size_t count, int code)
{
    static const size_t lengths[] = { STREAM, 64, 16, 3, 1 };
    for (size_t l = 0; l < sizeof lengths / sizeof *lengths; l++) {
        size_t n = lengths[l];
        keystream(all[0], code, n, expected);
        for (size_t k = 1; k < count; k++) {
            if (n < all[k]->least_call)
                continue;
            keystream(all[k], code, n, found);
            if (memcmp(expected, found, STREAM) != 0)
                stop(all[k], code, "the keystream");
        }
    }
}

/* The checkpoint after a move to p, and after recover, which must give the key and the IV, and load, which must accept it. */
static size_t checkpoint_at(const struct implementation *it, int code, int64_t p, uint8_t *checkpoint)
{
    uint8_t key_found[32] = { 0 }, iv_found[32] = { 0 };
    size_t key_bytes = code == 1 ? 16 : 32;
    void *state = it->create(code);
    it->set_up(state, key, iv, 1);
    it->move(state, p + 5000);
    it->move(state, -5000);
    if (it->recover(state, key_found, iv_found) != 0 || memcmp(key, key_found, key_bytes) != 0 || memcmp(iv, iv_found, key_bytes) != 0)
        stop(it, code, "the recovered key and IV");
    size_t length = it->write(state, checkpoint, 1);
    if (it->load(state, checkpoint, length, 1) != 0)
        stop(it, code, "loading its own checkpoint");
    length = it->write(state, checkpoint, 1);
    return length;
}

static void check_checkpoint(const struct implementation *const *all, size_t count, int code)
{
    static const int64_t positions[] = { 0, 1, 4097, 100000, LIMIT - 5000 };
    for (size_t p = 0; p < sizeof positions / sizeof *positions; p++) {
        size_t length = checkpoint_at(all[0], code, positions[p], expected_checkpoint);
        for (size_t k = 1; k < count; k++) {
            if (all[k]->write == NULL)
                continue;
            if (checkpoint_at(all[k], code, positions[p], found_checkpoint) != length ||
                memcmp(expected_checkpoint, found_checkpoint, length) != 0)
                stop(all[k], code, "the checkpoint");
        }
    }
}

struct checkpoint {
    size_t length;
    uint8_t bytes[LONGEST_CHECKPOINT];
};

static void make_checkpoint(const struct implementation *it, int code, int64_t p, struct checkpoint *made)
{
    void *state = it->create(code);
    it->set_up(state, key, iv, 1);
    it->move(state, p);
    made->length = it->write(state, made->bytes, 1);
}

static void check_pair(const struct implementation *it, int code, const struct checkpoint *first, const struct checkpoint *second, int64_t answer)
{
    if (it->same_run(first->bytes, first->length, second->bytes, second->length, 1) != answer)
        stop(it, code, "what it tells of two checkpoints");
}

static void check_both_ways(const struct implementation *it, int code, const struct checkpoint *one, const struct checkpoint *other, int64_t answer)
{
    check_pair(it, code, one, other, answer);
    check_pair(it, code, other, one, answer);
}

/* Each refusal of one string, as the first and as the second. Faults that are refused later are left in it. */
static void check_refused(const struct implementation *it, int code, const struct checkpoint *sound)
{
    struct checkpoint bad = *sound;
    bad.bytes[bad.length - 1] ^= 1;
    check_both_ways(it, code, &bad, sound, -12);
    bad.length--;
    check_both_ways(it, code, &bad, sound, -11);
    memset(bad.bytes + 1, 0xFF, 3);
    bad.bytes[4] = 0x7F; /* the greatest number of four groups */
    check_both_ways(it, code, &bad, sound, -5);
    bad.bytes[4] = 0;
    check_both_ways(it, code, &bad, sound, -10);
    bad.length = 4;
    check_both_ways(it, code, &bad, sound, -9);
    bad.length = 5;
    bad.bytes[4] = 0x80; /* a fourth group that announces another, where the string ends */
    check_both_ways(it, code, &bad, sound, -10);
    bad.bytes[0] = 3;
    check_both_ways(it, code, &bad, sound, -1);
    bad.length = 0;
    check_both_ways(it, code, &bad, sound, -9);
}

/* Checkpoints of one run at three positions, of another IV, of another key, and of the other cipher; and each refusal, that of the first string
 * before that of the second, and 23 last. */
static void check_same_run(const struct implementation *const *all, size_t count, int code)
{
    static const int64_t positions[3] = { 0, 1001, 100000 };
    static struct checkpoint same[3], other_iv, other_key, other_cipher, damaged;
    for (size_t p = 0; p < 3; p++)
        make_checkpoint(all[0], code, positions[p], &same[p]);
    iv[15]++;
    make_checkpoint(all[0], code, positions[1], &other_iv);
    iv[15]--;
    key[0]++;
    make_checkpoint(all[0], code, positions[1], &other_key);
    key[0]--;
    make_checkpoint(all[0], 3 - code, positions[1], &other_cipher);
    damaged = other_cipher;
    damaged.bytes[damaged.length - 1] ^= 1;
    for (size_t k = 0; k < count; k++) {
        if (all[k]->same_run == NULL)
            continue;
        for (size_t p = 0; p < 3; p++) {
            for (size_t q = 0; q < 3; q++)
                check_pair(all[k], code, &same[p], &same[q], 1);
            check_both_ways(all[k], code, &same[p], &other_iv, 0);
            check_both_ways(all[k], code, &same[p], &other_key, 0);
            check_both_ways(all[k], code, &same[p], &other_cipher, -23);
            check_both_ways(all[k], code, &same[p], &damaged, -12);
            check_refused(all[k], code, &same[p]);
        }
        struct checkpoint empty = { 0, { 0 } };
        check_pair(all[k], code, &damaged, &empty, -12);
        check_pair(all[k], code, &empty, &damaged, -9);
    }
}

/* What a test load leaves: the head, and in a checkpoint the tables. */
struct end {
    struct head head;
    struct checkpoint checkpoint;
};

static void run_test_load(const struct implementation *it, int code, void *state, const struct test *test, uint64_t refusal, struct end *end)
{
    if (it->test_load(state, test, &end->head, 1) != refusal)
        stop(it, code, "the refusal of a test load");
    end->checkpoint.length = it->write(state, end->checkpoint.bytes, 1);
}

static void check_end(const struct implementation *it, int code, const struct end *wanted, const struct end *end)
{
    if (memcmp(&wanted->head, &end->head, sizeof end->head) != 0)
        stop(it, code, "the head after a test load");
    if (wanted->checkpoint.length != end->checkpoint.length ||
        memcmp(wanted->checkpoint.bytes, end->checkpoint.bytes, end->checkpoint.length) != 0)
        stop(it, code, "the tables after a test load");
}

/* Each refusal, in order: with six faults at once, and then with one fewer each time. Head and tables stay. */
static void check_refused_loads(const struct implementation *it, int code, void *state, const struct test *sound, struct end *end)
{
    static const uint64_t refusals[6] = { 17, 18, 1, 2, 3, 4 };
    struct end before = *end;
    for (int faults = 6; faults > 0; faults--) {
        struct test bad = *sound;
        bad.seed = faults > 5 ? 0 : bad.seed;
        bad.count = faults > 4 ? 1001 : bad.count;
        bad.code = faults > 3 ? 3 : bad.code;
        bad.key_bytes -= faults > 2 ? 1 : 0;
        bad.iv_bytes -= faults > 1 ? 1 : 0;
        bad.area_words--;
        run_test_load(it, code, state, &bad, refusals[6 - faults], end);
        check_end(it, code, &before, end);
    }
}

/* Test loads from several seeds with several counts, each on an engine that has another key and IV and is elsewhere. From seed 290 come a move to
 * byte 920 and a cipher call over no bytes, which leaves the mark. */
static void check_test_load(const struct implementation *const *all, size_t count, int code)
{
    static const uint32_t seeds[] = { 1, 290, 0x80000000, 0xFFFFFFFF };
    static const uint64_t counts[] = { 0, 1, 2, 100, 1000 };
    enum { COUNTS = sizeof counts / sizeof *counts, LOADS = COUNTS * (sizeof seeds / sizeof *seeds) };
    size_t key_bytes = code == 1 ? 16 : 32, area_words = code == 1 ? 1024 : 2048;
    for (size_t l = 0; l < LOADS; l++) {
        struct test test = { seeds[l / COUNTS], counts[l % COUNTS], (uint32_t)code, key, iv, key_bytes, key_bytes, area_words };
        struct end wanted, end;
        for (size_t k = 0; k < count; k++) {
            if (all[k]->test_load == NULL)
                continue;
            void *state = all[k]->create(code);
            all[k]->set_up(state, iv, key, 1);
            all[k]->move(state, 1001);
            run_test_load(all[k], code, state, &test, 0, &end);
            if (k == 0)
                wanted = end;
            check_end(all[k], code, &wanted, &end);
            check_refused_loads(all[k], code, state, &test, &end);
        }
    }
}

/* A volume against itself, and against one whose third entry, at byte 10, has a ratio that is smaller by 1, both ways and cut. */
static void check_comparison(const struct implementation *it, const uint8_t *volume, size_t length, uint32_t *list, size_t numbers)
{
    uint8_t other[64];
    list[10]--;
    size_t n = it->write_volume(list, numbers, other, sizeof other, 1);
    if (it->compare(volume, length, volume, length, 1) != (int64_t)length || it->compare(volume, length, other, n, 1) != -10 ||
        it->compare(other, n, volume, length, 1) != 10 || it->compare(volume, length, other, n - 1, 1) != 0)
        stop_volume(it, "the comparison of two volumes");
}

static void check_volume(const struct implementation *const *all, size_t count)
{
    static const uint32_t entries[] = { 0, 0, 0, 1, 127, 128, 127, 8, 128, 16383, 128, 2, 1440, 16384, 10000, 3, 60, 99999, 525, 4 };
    enum { NUMBERS = sizeof entries / sizeof *entries };
    uint32_t list[NUMBERS];
    for (size_t k = 0; k < count; k++) {
        if (all[k]->write_volume == NULL)
            continue;
        size_t length = all[k]->write_volume(entries, NUMBERS, found, STREAM, 1);
        if (length != 32 || (k != 0 && memcmp(expected, found, length) != 0))
            stop_volume(all[k], "the written volume");
        memcpy(expected, found, length);
        if (all[k]->read_volume(found, length, list, NUMBERS, 1) != NUMBERS / 4 || memcmp(list, entries, sizeof entries) != 0)
            stop_volume(all[k], "the entries of a volume");
        /* 16383 * 128 * 95 / 10000, 16384 * 10000 * 95 / 10000 and 99999 * 525 * 60 / 10000, each cut down */
        if (all[k]->duty != NULL && all[k]->duty(found, length, 1) != 19921 + 1556480 + 314996)
            stop_volume(all[k], "the duty on a volume");
        if (all[k]->compare != NULL)
            check_comparison(all[k], found, length, list, NUMBERS);
        if (all[k]->soundness == NULL)
            continue;
        for (size_t n = 0; n <= length; n++)
            if (all[k]->soundness(found, n, 1) != (n == length ? 0 : -1))
                stop_volume(all[k], "the soundness of a volume or of a beginning of one");
        found[15] |= 0x80; /* the second group of the third entry's ratio announces a third */
        if (all[k]->soundness(found, length, 1) != 16)
            stop_volume(all[k], "the length at which a volume became hopeless");
    }
}

void check_all_agree(const struct implementation *const *all, size_t count)
{
    for (size_t i = 0; i < 32; i++) {
        key[i] = (uint8_t)(17 * i + 3);
        iv[i] = (uint8_t)(29 * i + 101);
    }
    for (int code = 1; code <= 2; code++) {
        check_keystream(all, count, code);
        check_checkpoint(all, count, code);
        check_same_run(all, count, code);
        check_test_load(all, count, code);
    }
    check_volume(all, count);
}
