/* The first program to write: log blend ratios, keep a checkpoint, go on from it elsewhere, and read everything back without the key. On the way it shows
 * that a look back at an old entry leaves what is spent, that a refused call changes nothing, and that a head is refused with an area that was copied
 * too early. At the end a shift's entries are written as a volume, enciphered, deciphered and read, and their duty is worked out, under our rates and
 * under a refinery's own; strings that are no volumes are told apart: those that are only cut, and those that became hopeless; and the tank gauge's
 * recording of the same run is compared with the blender's. Then checkpoints of the same run as the box's first one are told apart from others. Last,
 * two benches run the same test load, and end with the same bytes. */
#include <inttypes.h>
#include <stdio.h>
#include <stdlib.h>
#include <string.h>
#include "hullerbamboo.h"

#define WORDS HC_128_AREA_WORDS

/* An engine: a head with its own area. Each starts with a head of zeros. */
struct engine {
    struct hc_head head;
    uint32_t area[WORDS];
};

static struct engine box = {.head = {0}}, spare = {.head = {0}}, copy, before;
static const uint8_t zeros[HC_128_CHECKPOINT_BYTES]; /* what calloc gives, to compare lent bytes with */

/* This compiles only where each structure is as long as its fields together. It then has no padding, and memcmp compares nothing but values. */
#define SIZE(structure, field) sizeof(((struct structure *)0)->field)
#define NO_PADDING(structure, fields) typedef char structure##_without_padding[sizeof(struct structure) == (fields) ? 1 : -1]
NO_PADDING(hc_head, SIZE(hc_head, code) + SIZE(hc_head, word) + SIZE(hc_head, position) + SIZE(hc_head, mark));
NO_PADDING(hc_length, SIZE(hc_length, refusal) + SIZE(hc_length, length));
NO_PADDING(hc_words, SIZE(hc_words, refusal) + SIZE(hc_words, key) + SIZE(hc_words, iv));
NO_PADDING(hc_count, SIZE(hc_count, refusal) + SIZE(hc_count, count));
NO_PADDING(hc_yes_or_no, SIZE(hc_yes_or_no, refusal) + SIZE(hc_yes_or_no, yes));
NO_PADDING(hc_duty, SIZE(hc_duty, refusal) + SIZE(hc_duty, cents));
NO_PADDING(hc_rates, SIZE(hc_rates, cents));
NO_PADDING(hc_soundness, SIZE(hc_soundness, answer) + SIZE(hc_soundness, length));
NO_PADDING(hc_part, SIZE(hc_part, recording) + SIZE(hc_part, from) + SIZE(hc_part, length));
NO_PADDING(engine, SIZE(engine, head) + SIZE(engine, area));

static void check(const char *call, uint64_t refusal)
{
    if (refusal != HC_OK) {
        printf("%s: refused with %" PRIu64 "\n", call, refusal);
        exit(1);
    }
}

static void check_same(const char *what, const void *expected, const void *found, size_t n)
{
    if (memcmp(expected, found, n) != 0) {
        printf("%s: not as expected\n", what);
        exit(1);
    }
}

static void show(const char *what, const uint8_t *bytes, size_t n)
{
    printf("%s", what);
    for (size_t i = 0; i < n; i++)
        printf(" %02x", bytes[i]);
    printf("\n");
}

/* Says whether a string is a volume, and where it became hopeless. */
static void show_soundness(const char *what, const uint8_t *string, size_t n)
{
    struct hc_soundness found = hc_volume_soundness(string, n);
    if (found.answer == HC_HOPELESS)
        printf("%s: hopeless at byte %zu\n", what, found.length);
    else
        printf("%s: %s\n", what, found.answer == HC_SOUND ? "sound" : "cut");
}

/* Compares the tank gauge's recording with the blender's, and shows the bytes of one of them from the first place where their entries differ. */
static void show_difference(const char *what, const uint8_t *blender, size_t blender_bytes, const uint8_t *gauge, size_t gauge_bytes)
{
    uint64_t refusal = hc_check_recordings(blender, blender_bytes, gauge, gauge_bytes);
    struct hc_part part = hc_compare_recordings(blender, blender_bytes, gauge, gauge_bytes);
    if (refusal != HC_OK) {
        struct hc_part beginning = {HC_BLENDER, 0, 0};
        check_same("the part of a refused pair", &beginning, &part, sizeof part);
        printf("%s: refused with %" PRIu64 "\n", what, refusal);
        return;
    }
    printf("%s: the %s's from byte %zu:", what, part.recording == HC_GAUGE ? "gauge" : "blender", part.from);
    show("", (part.recording == HC_GAUGE ? gauge : blender) + part.from, part.length);
}

#define ENTRIES 2

/* The gauge writes the same two entries, then a smaller ratio in the second, then the first entry alone, both ways, then other litres in the first;
 * and a volume that is cut is refused. */
static void compare_with_gauge(const uint32_t *entries, const uint8_t *blender, size_t blender_bytes)
{
    uint32_t others[ENTRIES * HC_ENTRY_NUMBERS];
    static uint8_t gauge[HC_VOLUME_BYTES];
    memcpy(others, entries, sizeof others);
    size_t n = hc_write_volume(others, ENTRIES * HC_ENTRY_NUMBERS, gauge, sizeof gauge).length;
    show_difference("the gauge has the same entries", blender, blender_bytes, gauge, n);
    others[HC_ENTRY_NUMBERS + 2] = 600;
    n = hc_write_volume(others, ENTRIES * HC_ENTRY_NUMBERS, gauge, sizeof gauge).length;
    show_difference("its second ratio is 600", blender, blender_bytes, gauge, n);
    n = hc_write_volume(others, HC_ENTRY_NUMBERS, gauge, sizeof gauge).length;
    show_difference("it has the first entry alone", blender, blender_bytes, gauge, n);
    show_difference("the blender has the first entry alone", gauge, n, blender, blender_bytes);
    others[1] = 999;
    n = hc_write_volume(others, ENTRIES * HC_ENTRY_NUMBERS, gauge, sizeof gauge).length;
    show_difference("its first entry has 999 litres", blender, blender_bytes, gauge, n);
    show_difference("the gauge's is cut", blender, blender_bytes, gauge, n - 1);
}

/* A refinery loads its own rates, and the duty is then worked out under them. A table that is refused leaves every byte of the one in use. */
static void own_rates(const uint8_t *volume, size_t volume_bytes)
{
    static const uint8_t own[] = {0x02, 0x02, 0xC8, 0x01, 0x04, 0x46};     /* two pairs: product 2 at 200 cents, product 4 at 70 */
    static const uint8_t falling[] = {0x02, 0x04, 0x46, 0x02, 0xC8, 0x01}; /* the same two with the greater product first */
    struct hc_rates rates = hc_our_rates(), in_use;
    check("load rates", hc_load_rates(&rates, own, sizeof own));
    printf("own rates:");
    for (size_t i = 0; i < HC_PRODUCTS; i++)
        printf(" %d", rates.cents[i]);
    struct hc_duty duty = hc_volume_duty(&rates, volume, volume_bytes);
    check("volume duty", duty.refusal);
    printf("; duty under them: %" PRIu64 " cents\n", duty.cents);

    in_use = rates;
    uint64_t missing = hc_load_rates(&rates, own, sizeof own - 1);
    check_same("the table in use", &in_use, &rates, sizeof rates);
    uint64_t order = hc_load_rates(&rates, falling, sizeof falling);
    check_same("the table in use", &in_use, &rates, sizeof rates);
    printf("a table without its last byte is refused with %" PRIu64 ", ", missing);
    printf("a product below the one before with %" PRIu64 ", and every rate stays\n", order);
}

/* A shift's entries are written as a volume and enciphered behind what the box has logged; then the box moves back, deciphers the volume and reads it. */
static void log_shift(void)
{
    const uint32_t entries[ENTRIES * HC_ENTRY_NUMBERS] = {
        0,  1000,  525, 4, /* at once, 1,000 litres at 5.25 percent of product 4 */
        15, 20000, 610, 2, /* 15 minutes later, 20,000 litres at 6.1 percent of product 2 */
    };
    uint32_t found[ENTRIES * HC_ENTRY_NUMBERS];
    static uint8_t volume[HC_VOLUME_BYTES];

    struct hc_length written = hc_write_volume(entries, ENTRIES * HC_ENTRY_NUMBERS, volume, sizeof volume);
    check("write volume", written.refusal);
    show("a shift's volume:", volume, written.length);

    /* One byte more than the volume is refused, and every byte stays. */
    static uint8_t volume_before[HC_VOLUME_BYTES];
    memcpy(volume_before, volume, sizeof volume);
    before = box;
    uint64_t refusal = hc_encipher_volume(&box.head, box.area, WORDS, volume, written.length + 1);
    check_same("head and area", &before, &box, sizeof box);
    check_same("volume", volume_before, volume, sizeof volume);
    printf("enciphering one byte more than the volume is refused with %" PRIu64 ", and every byte stays\n", refusal);

    uint64_t start = box.head.position;
    check("encipher volume", hc_encipher_volume(&box.head, box.area, WORDS, volume, written.length));
    show("enciphered:", volume, written.length);
    printf("position %" PRIu64 ", which was %" PRIu64 "\n", box.head.position, start);

    check("move", hc_move(&box.head, box.area, WORDS, -(int64_t)written.length));
    check("cipher", hc_cipher(&box.head, box.area, WORDS, volume, written.length));
    struct hc_count read = hc_read_volume(volume, written.length, found, ENTRIES * HC_ENTRY_NUMBERS);
    check("read volume", read.refusal);
    check_same("entries", entries, found, sizeof found);
    printf("deciphered and read: %" PRIu64 " entries\n", read.count);
    for (size_t i = 0; i < read.count; i++) {
        const uint32_t *entry = found + HC_ENTRY_NUMBERS * i;
        printf("  after %" PRIu32 " minutes %" PRIu32 " litres at %" PRIu32 " of product %" PRIu32 "\n", entry[0], entry[1], entry[2], entry[3]);
    }
    struct hc_rates rates = hc_our_rates();
    struct hc_duty duty = hc_volume_duty(&rates, volume, written.length);
    check("volume duty", duty.refusal);
    printf("duty: %" PRIu64 " cents\n", duty.cents);
    own_rates(volume, written.length);

    /* The example of document 02: one entry of 1,000 litres at 525 of product 4 owes 3,150 cents. */
    written = hc_write_volume(entries, HC_ENTRY_NUMBERS, volume, sizeof volume);
    check("write volume", written.refusal);
    duty = hc_volume_duty(&rates, volume, written.length);
    check("volume duty", duty.refusal);
    printf("duty on the first entry alone: %" PRIu64 " cents\n", duty.cents);

    /* No volume owes more than HC_MOST_DUTY under our rates, nor more than HC_MOST_OWN_DUTY under any. 2,000 entries of 100,000 litres at 10,000 of
     * product 1 owe the one under our rates, and the other where the rate of product 1 is 65,535. */
    static uint32_t most[HC_VOLUME_ENTRIES * HC_ENTRY_NUMBERS];
    static uint8_t longest[HC_VOLUME_BYTES];
    for (size_t i = 0; i < HC_VOLUME_ENTRIES; i++) {
        most[HC_ENTRY_NUMBERS * i + 1] = 100000;
        most[HC_ENTRY_NUMBERS * i + 2] = 10000;
        most[HC_ENTRY_NUMBERS * i + 3] = 1;
    }
    struct hc_length most_written = hc_write_volume(most, HC_VOLUME_ENTRIES * HC_ENTRY_NUMBERS, longest, sizeof longest);
    check("write volume", most_written.refusal);
    duty = hc_volume_duty(&rates, longest, most_written.length);
    check("volume duty", duty.refusal);
    printf("the greatest duty: %" PRIu64 " cents, which is %sHC_MOST_DUTY\n", duty.cents, duty.cents == HC_MOST_DUTY ? "" : "not ");
    const struct hc_rates greatest = {{65535}};
    duty = hc_volume_duty(&greatest, longest, most_written.length);
    check("volume duty", duty.refusal);
    const char *equal = duty.cents == HC_MOST_OWN_DUTY ? "" : "not ";
    printf("the greatest duty under any rates: %" PRIu64 " cents, which is %sHC_MOST_OWN_DUTY\n", duty.cents, equal);

    /* A volume that is cut is refused with 16, and has no duty. */
    duty = hc_volume_duty(&rates, volume, written.length - 1);
    printf("duty on that volume without its last byte: refused with %" PRIu64 ", %" PRIu64 " cents\n", duty.refusal, duty.cents);

    /* The volume of the first entry is 01 00 e8 07 8d 04 04: it is sound, and without its last byte it is cut. With a byte after the last entry it is
     * hopeless at that byte. With the top bit of its sixth byte set the second group of the ratio announces a third, so it is hopeless there. */
    show_soundness("the volume of the first entry", volume, written.length);
    show_soundness("without its last byte", volume, written.length - 1);
    show_soundness("with a byte more", volume, written.length + 1);
    volume[5] |= 0x80;
    show_soundness("with the top bit of its sixth byte set", volume, written.length);

    written = hc_write_volume(entries, ENTRIES * HC_ENTRY_NUMBERS, volume, sizeof volume);
    check("write volume", written.refusal);
    compare_with_gauge(entries, volume, written.length);
}

/* Says whether two checkpoints belong to one run. Whatever the answer, every byte of both stays; where the pair is refused, yes is 0. */
static void show_same_run(const char *what, const uint8_t *first, size_t first_bytes, const uint8_t *second, size_t second_bytes)
{
    static uint8_t first_before[HC_256_CHECKPOINT_BYTES], second_before[HC_256_CHECKPOINT_BYTES];
    memcpy(first_before, first, first_bytes);
    memcpy(second_before, second, second_bytes);
    struct hc_yes_or_no same = hc_same_run(first, first_bytes, second, second_bytes), yes = {HC_OK, 1}, no = {same.refusal, 0};
    check_same("the first checkpoint", first_before, first, first_bytes);
    check_same("the second checkpoint", second_before, second, second_bytes);
    check_same("yes or no", same.yes ? &yes : &no, &same, sizeof same);
    if (same.refusal != HC_OK)
        printf("%s: refused with %" PRIu64 ", and every byte stays\n", what, same.refusal);
    else
        printf("%s: %s\n", what, same.yes ? "yes" : "no");
}

/* Moves an engine to a position, and writes its checkpoint there. */
static size_t write_at(struct engine *engine, uint64_t position, uint8_t lent[HC_128_CHECKPOINT_BYTES])
{
    check("move", hc_move(&engine->head, engine->area, WORDS, (int64_t)position - (int64_t)engine->head.position));
    struct hc_length written = hc_write(&engine->head, engine->area, WORDS, lent, HC_128_CHECKPOINT_BYTES);
    check("write", written.refusal);
    return written.length;
}

/* Beside the checkpoint that the box wrote at position 7: others of the box, moved on and moved back; those of a spare board with another key, and
 * with the box's key and another IV; one of the other cipher; one with a bit of its tables changed, as the second and as the first; and the empty
 * string. */
static void same_run_or_not(const uint8_t *at_7, size_t at_7_bytes, const uint8_t *key, const uint8_t *iv)
{
    const uint8_t other_key[] = "key of the spare", other_iv[] = "IV for the spare";
    static uint8_t other[HC_128_CHECKPOINT_BYTES];
    size_t n = write_at(&box, 1000, other);
    show_same_run("same run as the box at position 1000", at_7, at_7_bytes, other, n);
    n = write_at(&box, 0, other);
    show_same_run("same run as the box at position 0", at_7, at_7_bytes, other, n);

    check("set up", hc_set_up(&spare.head, HC_128, other_key, 16, iv, 16, spare.area, WORDS));
    n = write_at(&spare, 7, other);
    show_same_run("same run as a spare with another key", at_7, at_7_bytes, other, n);
    check("set up", hc_set_up(&spare.head, HC_128, key, 16, other_iv, 16, spare.area, WORDS));
    n = write_at(&spare, 7, other);
    show_same_run("same run as a spare with another IV", at_7, at_7_bytes, other, n);

    struct hc_head head_256 = {0};
    static uint32_t area_256[HC_256_AREA_WORDS];
    static uint8_t checkpoint_256[HC_256_CHECKPOINT_BYTES];
    check("set up", hc_set_up(&head_256, HC_256, zeros, 32, zeros, 32, area_256, HC_256_AREA_WORDS));
    struct hc_length written = hc_write(&head_256, area_256, HC_256_AREA_WORDS, checkpoint_256, sizeof checkpoint_256);
    check("write", written.refusal);
    show_same_run("same run as one of the other cipher", at_7, at_7_bytes, checkpoint_256, written.length);

    memcpy(other, at_7, at_7_bytes);
    other[at_7_bytes - 1] ^= 1;
    show_same_run("same run as a damaged one", at_7, at_7_bytes, other, at_7_bytes);
    show_same_run("the damaged one first", other, at_7_bytes, at_7, at_7_bytes);
    show_same_run("same run as the empty string", at_7, at_7_bytes, other, 0);
}

static const uint8_t bench_key[] = "key of the bench", bench_iv[] = "IV for the bench"; /* which encipher nothing else */

/* Runs a test load, whatever the engine holds, says where it ends and how far it used the keystream, and writes the checkpoint there. */
static size_t run_bench(const char *what, struct engine *engine, uint32_t seed, uint64_t count, uint8_t lent[HC_128_CHECKPOINT_BYTES])
{
    check("test load", hc_test_load(&engine->head, seed, count, HC_128, bench_key, 16, bench_iv, 16, engine->area, WORDS));
    struct hc_count spent = hc_spent(&engine->head);
    check("spent", spent.refusal);
    printf("%s: position %" PRIu64 ", spent %" PRIu64 "\n", what, engine->head.position, spent.count);
    return write_at(engine, engine->head.position, lent);
}

/* Two benches run the same test load, one on the box and one on the spare, and end with the same bytes. From another seed the spare ends elsewhere,
 * and in the same run. */
static void two_benches(void)
{
    static uint8_t first[HC_128_CHECKPOINT_BYTES], second[HC_128_CHECKPOINT_BYTES];
    int differ = memcmp(&box.head, &spare.head, sizeof box.head) != 0 && memcmp(box.area, spare.area, sizeof box.area) != 0;
    printf("two benches, whose heads and areas %s before the test load\n", differ ? "differ" : "are the same");
    run_bench("six calls from seed 1", &box, 1, 6, first); /* five cipher calls over 823 bytes together, and a move to byte 3,560 */
    size_t n = run_bench("1,000 calls from seed 1", &box, 1, HC_TEST_CALLS, first);
    size_t m = run_bench("on the other bench", &spare, 1, HC_TEST_CALLS, second);
    check_same("the other bench's head and area", &box, &spare, sizeof box);
    printf("both checkpoints: %s\n", n == m && memcmp(first, second, n) == 0 ? "the same bytes" : "different bytes");
    show_same_run("same run on both benches", first, n, second, m);
    m = run_bench("1,000 calls from seed 2", &spare, 2, HC_TEST_CALLS, second);
    printf("its checkpoint: %s\n", n == m && memcmp(first, second, n) == 0 ? "the same bytes" : "other bytes");
    show_same_run("same run from seed 2", first, n, second, m);

    /* Each refusal, in order: with six faults at once, and then with one fewer each time. */
    before = spare;
    printf("test loads with six faults, then one fewer each time, are refused with");
    for (int faults = 6; faults > 0; faults--) {
        uint64_t refusal = hc_test_load(&spare.head, faults > 5 ? 0 : 1, faults > 4 ? HC_TEST_CALLS + 1 : HC_TEST_CALLS, faults > 3 ? 3 : HC_128,
                                        bench_key, faults > 2 ? 15 : 16, bench_iv, faults > 1 ? 15 : 16, spare.area, WORDS - 1);
        check_same("head and area", &before, &spare, sizeof spare);
        printf(" %" PRIu64, refusal);
    }
    printf(", and every byte stays\n");
}

int main(void)
{
    const uint8_t key[] = "sixteen byte key", iv[] = "and a 16 byte IV";
    uint8_t found_key[16], found_iv[16];
    uint8_t log[10] = {0x01, 0x90, 0x02, 0x58, 0x0f, 0x00, 0x64, 0x03, 0xe8, 0x0a}; /* ratios of two, two, three and three bytes */
    uint8_t again[3] = {0x03, 0xe8, 0x0a};                                          /* the fourth ratio, for the second engine */
    uint8_t more[5] = {0x02, 0x1c, 0x01, 0x2c, 0x05};                               /* two more ratios, of two and three bytes */
    uint8_t seventh[2] = {0x01, 0xf4}, seventh_before[2] = {0x01, 0xf4};            /* a ratio that is not logged, and a copy of it */

    check("set up", hc_set_up(&box.head, HC_128, key, 16, iv, 16, box.area, WORDS));
    check("cipher", hc_cipher(&box.head, box.area, WORDS, log, 2));
    check("cipher", hc_cipher(&box.head, box.area, WORDS, log + 2, 2));
    check("cipher", hc_cipher(&box.head, box.area, WORDS, log + 4, 3));
    show("three ratios logged:", log, 7);

    struct hc_length needed = hc_checkpoint_length(box.head.code, box.head.position);
    check("checkpoint length", needed.refusal);
    uint8_t *checkpoint = calloc(needed.length, 1);
    if (checkpoint == NULL)
        return 1;

    /* A refused call changes no byte of head, area and lent bytes, and what it returns is all zero but for the refusal. */
    before = box;
    struct hc_length refused = hc_write(&box.head, box.area, WORDS, checkpoint, needed.length - 1), only_refusal = {HC_LITTLE_ROOM, 0};
    check_same("head and area", &before, &box, sizeof box);
    check_same("lent bytes", zeros, checkpoint, needed.length);
    check_same("what is returned", &only_refusal, &refused, sizeof refused);
    printf("a write with one byte fewer than the checkpoint's %zu is refused with %" PRIu64 ", and every byte stays\n", needed.length, refused.refusal);

    struct hc_length written = hc_write(&box.head, box.area, WORDS, checkpoint, needed.length);
    check("write", written.refusal);
    struct hc_words loaded = hc_load(&spare.head, spare.area, WORDS, checkpoint, written.length);
    check("load", loaded.refusal);
    printf("checkpoint of %zu bytes, loaded: position %" PRIu64 "\n", written.length, spare.head.position);

    check("cipher", hc_cipher(&box.head, box.area, WORDS, log + 7, 3));
    check("cipher", hc_cipher(&spare.head, spare.area, WORDS, again, 3));
    show("fourth ratio logged:", log + 7, 3);
    show("on the other engine:", again, 3);

    /* A look at the second ratio, the two bytes from position 2 on: the head goes back, and what is spent stays. */
    uint8_t second[2] = {log[2], log[3]};
    check("move", hc_move(&box.head, box.area, WORDS, 2 - (int64_t)box.head.position));
    check("cipher", hc_cipher(&box.head, box.area, WORDS, second, sizeof second));
    struct hc_count spent = hc_spent(&box.head);
    check("spent", spent.refusal);
    show("a look at the second:", second, sizeof second);
    printf("position %" PRIu64 ", spent %" PRIu64 "\n", box.head.position, spent.count);

    check("move", hc_move(&box.head, box.area, WORDS, -(int64_t)box.head.position));
    check("cipher", hc_cipher(&box.head, box.area, WORDS, log, sizeof log));
    show("moved back and read:", log, sizeof log);

    check("recover", hc_recover(&box.head, box.area, WORDS, found_key, 16, found_iv, 16));
    printf("key and IV recovered: \"%.16s\", \"%.16s\"\n", (char *)found_key, (char *)found_iv);

    before = box;
    uint64_t refusal = hc_move(&box.head, box.area, WORDS, -11);
    check_same("head and area", &before, &box, sizeof box);
    printf("a move to before the start is refused with %" PRIu64 ", and every byte stays\n", refusal);

    /* The area is copied, two more ratios are logged, the second of which begins a new word of the keystream, and only then the head is copied: head and
     * area do not belong together, and 13 says so. */
    memcpy(copy.area, box.area, sizeof copy.area);
    check("cipher", hc_cipher(&box.head, box.area, WORDS, more, 2));
    check("cipher", hc_cipher(&box.head, box.area, WORDS, more + 2, 3));
    show("two more ratios logged:", more, sizeof more);
    copy.head = box.head;
    before = copy;
    refusal = hc_cipher(&copy.head, copy.area, WORDS, seventh, sizeof seventh);
    check_same("head and area", &before, &copy, sizeof copy);
    check_same("lent bytes", seventh_before, seventh, sizeof seventh);
    printf("a head copied two ratios after its area is refused with %" PRIu64 ", and every byte stays\n", refusal);

    log_shift();
    same_run_or_not(checkpoint, written.length, key, iv);
    two_benches();
    free(checkpoint);
    return 0;
}
