/* The archive, called as hullerbamboo.h says; COLUMN and TITLE tell apart the archive and an earlier one. It has to compile against the
 * headers of both, in which codes and refusals may have different types. */
#include "hullerbamboo.h"
#include "implementation.h"

#include <stdlib.h>
#include <string.h>

struct state {
    struct hc_head head;
    uint8_t code;
    size_t area_words;
    size_t key_bytes;
    uint32_t area[HC_256_AREA_WORDS];
};

/* The state begins at a page, so that two archives find theirs alike: where it lies tells in the times of write. */
static void *create(int code)
{
    void *page;
    if (posix_memalign(&page, 4096, sizeof(struct state)) != 0)
        abort();
    struct state *s = memset(page, 0, sizeof *s);
    s->code = (uint8_t)code;
    s->area_words = code == HC_128 ? HC_128_AREA_WORDS : HC_256_AREA_WORDS;
    s->key_bytes = code == HC_128 ? HC_128_KEY_BYTES : HC_256_KEY_BYTES;
    return s;
}

/* The benchmark gives no call that the archive would refuse, but for a cut recording, pairs of checkpoints and test loads in check.c. */
static void expect_accepted(uint64_t refusal)
{
    if (refusal != HC_OK)
        abort();
}

static void set_up(void *state, const uint8_t *key, const uint8_t *iv, size_t times)
{
    struct state *s = state;
    for (size_t i = 0; i < times; i++)
        expect_accepted(hc_set_up(&s->head, s->code, key, s->key_bytes, iv, s->key_bytes, s->area, s->area_words));
}

static void cipher(void *state, uint8_t *bytes, size_t n, size_t calls)
{
    struct state *s = state;
    for (size_t i = 0; i < calls; i++, bytes += n)
        expect_accepted(hc_cipher(&s->head, s->area, s->area_words, bytes, n));
}

static void move(void *state, int64_t distance)
{
    struct state *s = state;
    expect_accepted(hc_move(&s->head, s->area, s->area_words, distance));
}

static int recover(void *state, uint8_t *key, uint8_t *iv)
{
    struct state *s = state;
    return hc_recover(&s->head, s->area, s->area_words, key, s->key_bytes, iv, s->key_bytes) == HC_OK ? 0 : -1;
}

static size_t write_checkpoint(void *state, uint8_t *checkpoint, size_t times)
{
    struct state *s = state;
    struct hc_length written = { 0, 0 };
    for (size_t i = 0; i < times; i++)
        written = hc_write(&s->head, s->area, s->area_words, checkpoint, LONGEST_CHECKPOINT);
    expect_accepted(written.refusal);
    return written.length;
}

static int load(void *state, const uint8_t *checkpoint, size_t length, size_t times)
{
    struct state *s = state;
    for (size_t i = 0; i < times; i++) {
        struct hc_words words = hc_load(&s->head, s->area, s->area_words, checkpoint, length);
        if (words.refusal != HC_OK)
            return -1;
    }
    return 0;
}

/* An earlier archive may not tell whether two checkpoints belong to one run. */
#ifdef HAS_SAME_RUN
static int64_t same_run(const uint8_t *first, size_t first_bytes, const uint8_t *second, size_t second_bytes, size_t times)
{
    struct hc_yes_or_no same = { 0, 0 };
    for (size_t i = 0; i < times; i++)
        same = hc_same_run(first, first_bytes, second, second_bytes);
    return same.refusal == HC_OK ? (int64_t)same.yes : -(int64_t)same.refusal;
}
#else
#define same_run NULL
#endif

/* An earlier archive may have no test load. */
#ifdef HC_TEST_CALLS
static uint64_t test_load(void *state, const struct test *test, struct head *head, size_t times)
{
    struct state *s = state;
    uint64_t refusal = HC_OK;
    for (size_t i = 0; i < times; i++)
        refusal = hc_test_load(&s->head, test->seed, test->count, test->code, test->key, test->key_bytes, test->iv, test->iv_bytes, s->area,
                               test->area_words);
    *head = (struct head){ s->head.code, s->head.word, s->head.position, s->head.mark };
    return refusal;
}
#else
#define test_load NULL
#endif

/* An earlier archive may have no volumes. */
#ifdef HC_VOLUME_ENTRIES
static size_t write_volume(const uint32_t *entries, size_t numbers, uint8_t *lent, size_t lent_bytes, size_t times)
{
    struct hc_length written = { 0, 0 };
    for (size_t i = 0; i < times; i++)
        written = hc_write_volume(entries, numbers, lent, lent_bytes);
    return written.length;
}

static int64_t read_volume(const uint8_t *volume, size_t volume_bytes, uint32_t *entries, size_t numbers, size_t times)
{
    struct hc_count read = { 0, 0 };
    for (size_t i = 0; i < times; i++)
        read = hc_read_volume(volume, volume_bytes, entries, numbers);
    return read.refusal == HC_OK ? (int64_t)read.count : -1;
}
#else
#define write_volume NULL
#define read_volume NULL
#endif

/* An earlier archive may have no duty, or take it under our rates alone. */
#ifdef HC_MOST_DUTY
static int64_t duty(const uint8_t *volume, size_t volume_bytes, size_t times)
{
    struct hc_duty owed = { 0, 0 };
#ifdef HC_PRODUCTS
    const struct hc_rates rates = hc_our_rates();
    for (size_t i = 0; i < times; i++)
        owed = hc_volume_duty(&rates, volume, volume_bytes);
#else
    for (size_t i = 0; i < times; i++)
        owed = hc_volume_duty(volume, volume_bytes);
#endif
    return owed.refusal == HC_OK ? (int64_t)owed.cents : -1;
}
#else
#define duty NULL
#endif

/* An earlier archive may have no soundness. */
#ifdef HAS_SOUNDNESS
static int64_t soundness(const uint8_t *volume, size_t volume_bytes, size_t times)
{
    struct hc_soundness found = { 0, 0 };
    for (size_t i = 0; i < times; i++)
        found = hc_volume_soundness(volume, volume_bytes);
    return found.answer == HC_CUT ? -1 : (int64_t)found.length;
}
#else
#define soundness NULL
#endif

/* An earlier archive may have no comparison. */
#ifdef HAS_COMPARISON
static int64_t compare(const uint8_t *blender, size_t blender_bytes, const uint8_t *gauge, size_t gauge_bytes, size_t times)
{
    struct hc_part part = { 0, 0, 0 };
    for (size_t i = 0; i < times; i++)
        part = hc_compare_recordings(blender, blender_bytes, gauge, gauge_bytes);
    return part.recording == HC_GAUGE ? -(int64_t)part.from : (int64_t)part.from;
}
#else
#define compare NULL
#endif

const struct implementation COLUMN = { TITLE, create, set_up, cipher, 1, move, recover, write_checkpoint, load, same_run, test_load, write_volume,
                                       read_volume, duty, soundness, compare };
