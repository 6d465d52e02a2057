/* The stack that each call takes, on x86-64: a call is made on a stack of its own, filled beforehand, and the lowest byte that has changed shows how deep
 * it went. Printed is the most over both ciphers and over positions with one to four groups, below the return address, in eights. */
#include <stdio.h>
#include <stdlib.h>
#include <string.h>
#include "hullerbamboo.h"

enum { STACK = 1 << 16, ABOVE = 64, FILL = 0xa5 };

static _Alignas(64) uint8_t stack[STACK];
static uint32_t area[HC_256_AREA_WORDS], other[HC_256_AREA_WORDS];
static uint8_t key[32], iv[32], found_key[32], found_iv[32], checkpoint[HC_256_CHECKPOINT_BYTES], bytes[9000];

struct call {
    const char *name;
    uintptr_t most;
};

static struct call set_up = {"hc_set_up", 0}, cipher = {"hc_cipher", 0}, move = {"hc_move", 0}, checkpoint_length = {"hc_checkpoint_length", 0},
                   writing = {"hc_write", 0}, recover = {"hc_recover", 0}, load = {"hc_load", 0}, same_run = {"hc_same_run", 0},
                   test_load = {"hc_test_load", 0}, spent = {"hc_spent", 0}, write_volume = {"hc_write_volume", 0},
                   read_volume = {"hc_read_volume", 0}, encipher_volume = {"hc_encipher_volume", 0}, our_rates = {"hc_our_rates", 0},
                   load_rates = {"hc_load_rates", 0}, duty = {"hc_volume_duty", 0}, soundness = {"hc_volume_soundness", 0},
                   check_pair = {"hc_check_recordings", 0}, compare = {"hc_compare_recordings", 0};

/* Makes a call with up to ten arguments, the last four on the stack, and keeps the most that it took. */
static void measure(struct call *call, void *function, const uintptr_t arguments[10])
{
    uint8_t *top = stack + STACK - ABOVE;
    memset(stack, FILL, STACK);
    memcpy(top, arguments + 6, 4 * sizeof *arguments);
    __asm__ volatile("mov %%rsp, %%rbx\n\tmov %0, %%rsp\n\tmov %1, %%rax\n\tmov %2, %%r10\n\t"
                     "mov 0(%%r10), %%rdi\n\tmov 8(%%r10), %%rsi\n\tmov 16(%%r10), %%rdx\n\t"
                     "mov 24(%%r10), %%rcx\n\tmov 32(%%r10), %%r8\n\tmov 40(%%r10), %%r9\n\t"
                     "call *%%rax\n\tmov %%rbx, %%rsp"
                     :
                     : "r"(top), "r"(function), "r"(arguments)
                     : "rax", "rbx", "rcx", "rdx", "rsi", "rdi", "r8", "r9", "r10", "r11", "xmm0", "xmm1", "xmm2", "xmm3", "xmm4", "xmm5", "xmm6", "xmm7",
                       "xmm8", "xmm9", "xmm10", "xmm11", "xmm12", "xmm13", "xmm14", "xmm15", "memory", "cc");
    size_t low = 0;
    while (low < STACK && stack[low] == FILL)
        low++;
    uintptr_t depth = (size_t)(top - stack) - sizeof(void *) > low ? (size_t)(top - stack) - sizeof(void *) - low : 0;
    if (depth > call->most)
        call->most = depth;
}

#define MEASURE(call, function, ...) measure(&call, (void *)function, (const uintptr_t[10]){__VA_ARGS__})
#define AT(pointer) (uintptr_t)(pointer)

/* Every call of one cipher: at each position what a head there can do, and then cipher and move calls of many lengths. */
static void of_cipher(uint32_t code, size_t key_bytes, size_t words)
{
    memset(key, (int)code, sizeof key);
    static const uint64_t positions[] = {0, 1, 127, 128, 16383, 16384, 2097151, 2097152, HC_LIMIT};
    struct hc_head head = {0}, loaded = {0};
    struct hc_words key_and_iv;
    MEASURE(set_up, hc_set_up, AT(&head), code, AT(key), key_bytes, AT(iv), key_bytes, AT(area), words);
    for (size_t i = 0; i < sizeof positions / sizeof *positions; i++) {
        MEASURE(move, hc_move, AT(&head), AT(area), words, positions[i] - head.position);
        MEASURE(checkpoint_length, hc_checkpoint_length, code, positions[i]);
        MEASURE(writing, hc_write, AT(&head), AT(area), words, AT(checkpoint), sizeof checkpoint);
        MEASURE(recover, hc_recover, AT(&head), AT(area), words, AT(found_key), key_bytes, AT(found_iv), key_bytes);
        size_t length = hc_checkpoint_length(code, positions[i]).length;
        MEASURE(load, hc_load, AT(&key_and_iv), AT(&loaded), AT(other), words, AT(checkpoint), length);
        MEASURE(spent, hc_spent, AT(&head));
        if (key_and_iv.refusal != HC_OK || loaded.position != positions[i] || memcmp(found_key, key, key_bytes) != 0) {
            printf("not every call was accepted at position %llu\n", (unsigned long long)positions[i]);
            exit(1);
        }
    }
    memset(checkpoint + 1, 0x80, 4); /* a fourth group that announces another, which is read deepest */
    MEASURE(load, hc_load, AT(&key_and_iv), AT(&loaded), AT(other), words, AT(checkpoint), sizeof checkpoint);
    MEASURE(move, hc_move, AT(&head), AT(area), words, -(uintptr_t)head.position);
    for (size_t n = 0; n < sizeof bytes; n += 7)
        MEASURE(cipher, hc_cipher, AT(&head), AT(area), words, AT(bytes), n);
    for (size_t n = 0; n < sizeof bytes; n += 7) {
        MEASURE(move, hc_move, AT(&head), AT(area), words, n);
        MEASURE(move, hc_move, AT(&head), AT(area), words, -(uintptr_t)n);
    }
}

struct checkpoint {
    size_t length;
    uint8_t bytes[HC_256_CHECKPOINT_BYTES];
};

/* The checkpoint at a position of the run whose key and IV are this byte throughout. */
static void make_checkpoint(struct checkpoint *made, uint32_t code, int byte, uint64_t position)
{
    size_t key_bytes = code == HC_128 ? HC_128_KEY_BYTES : HC_256_KEY_BYTES, words = code == HC_128 ? HC_128_AREA_WORDS : HC_256_AREA_WORDS;
    struct hc_head head = {0};
    uint8_t both[HC_256_KEY_BYTES];
    memset(both, byte, sizeof both);
    hc_set_up(&head, code, both, key_bytes, both, key_bytes, area, words);
    hc_move(&head, area, words, (int64_t)position);
    made->length = hc_write(&head, area, words, made->bytes, sizeof made->bytes).length;
}

/* A pair of checkpoints whose answer is known. */
static void of_pair(const struct checkpoint *first, const struct checkpoint *second, uint64_t refusal, uint64_t yes)
{
    MEASURE(same_run, hc_same_run, AT(first->bytes), first->length, AT(second->bytes), second->length);
    struct hc_yes_or_no same = hc_same_run(first->bytes, first->length, second->bytes, second->length);
    if (same.refusal != refusal || same.yes != yes) {
        printf("two checkpoints were not answered with refusal %d and yes %d\n", (int)refusal, (int)yes);
        exit(1);
    }
}

/* A checkpoint that is refused, as the first and as the second, where the other one is sound. */
static void of_refused(const struct checkpoint *bad, const struct checkpoint *sound, uint64_t refusal)
{
    of_pair(bad, sound, refusal, 0);
    of_pair(sound, bad, refusal, 0);
}

/* Checkpoints with another one of the same run and of another run, with one of the other cipher, and with one that is refused, for each refusal. */
static void of_same_runs(uint32_t code)
{
    static const uint64_t positions[] = {0, 1, 127, 128, 1001, 16384, 2097152, HC_LIMIT};
    enum { COUNT = sizeof positions / sizeof *positions };
    static struct checkpoint same[COUNT], others[COUNT], other_cipher, sound, bad;
    make_checkpoint(&other_cipher, code == HC_128 ? HC_256 : HC_128, 1, 1001);
    make_checkpoint(&sound, code, 1, 1001);
    for (size_t i = 0; i < COUNT; i++) {
        make_checkpoint(&same[i], code, 1, positions[i]);
        make_checkpoint(&others[i], code, 2, positions[i]);
    }
    for (size_t i = 0; i < COUNT; i++) {
        of_pair(&same[i], &same[i], HC_OK, 1);
        of_pair(&same[i], &same[COUNT - 1 - i], HC_OK, 1);
        of_pair(&same[i], &others[COUNT - 1 - i], HC_OK, 0);
        of_refused(&same[i], &other_cipher, HC_TWO_CIPHERS);
        bad = same[i];
        bad.bytes[bad.length - 1] ^= 1;
        of_refused(&bad, &sound, HC_NO_KEY);
        bad.length--;
        of_refused(&bad, &sound, HC_STRING_LENGTH);
    }
    memset(bad.bytes + 1, 0xFF, 3);
    bad.bytes[4] = 0x7F; /* the greatest number of four groups, which is over the limit */
    of_refused(&bad, &sound, HC_BAD_POSITION);
    bad.bytes[4] = 0;
    of_refused(&bad, &sound, HC_BAD_NUMBER);
    bad.bytes[4] = 0x80; /* a fourth group that announces another */
    of_refused(&bad, &sound, HC_BAD_NUMBER);
    for (bad.length = 0; bad.length < 5; bad.length++)
        of_refused(&bad, &sound, HC_ENDS_EARLY);
    bad.bytes[0] = 3;
    of_refused(&bad, &sound, HC_BAD_CODE);
}

/* A test load whose refusal is known, on a head and an area that other test loads left. */
static void of_test_load(uint32_t seed, uint64_t count, uint32_t code, size_t key_bytes, size_t iv_bytes, size_t words, uint64_t refusal)
{
    static struct hc_head head;
    MEASURE(test_load, hc_test_load, AT(&head), seed, count, code, AT(key), key_bytes, AT(iv), iv_bytes, AT(area), words);
    if (hc_test_load(&head, seed, count, code, key, key_bytes, iv, iv_bytes, area, words) != refusal) {
        printf("a test load was not answered with %d\n", (int)refusal);
        exit(1);
    }
}

/* Test loads from several seeds, with none to 1,000 calls; and each refusal, where all that is refused later is at fault as well. */
static void of_test_loads(uint32_t code, size_t key_bytes, size_t words)
{
    static const uint32_t seeds[] = {1, 2, 3, 12345, 0x80000000, 0xFFFFFFFF};
    static const uint64_t counts[] = {0, 1, 2, 6, 100, HC_TEST_CALLS};
    for (size_t i = 0; i < sizeof seeds / sizeof *seeds; i++)
        for (size_t k = 0; k < sizeof counts / sizeof *counts; k++)
            of_test_load(seeds[i], counts[k], code, key_bytes, key_bytes, words, HC_OK);
    size_t short_key = key_bytes - 1, few_words = words - 1;
    of_test_load(0, HC_TEST_CALLS + 1, 3, short_key, short_key, few_words, HC_SEED_ZERO);
    of_test_load(1, HC_TEST_CALLS + 1, 3, short_key, short_key, few_words, HC_MANY_CALLS);
    of_test_load(1, HC_TEST_CALLS, 3, short_key, short_key, few_words, HC_BAD_CODE);
    of_test_load(1, HC_TEST_CALLS, code, short_key, short_key, few_words, HC_KEY_LENGTH);
    of_test_load(1, HC_TEST_CALLS, code, key_bytes, short_key, few_words, HC_IV_LENGTH);
    of_test_load(1, HC_TEST_CALLS, code, key_bytes, key_bytes, few_words, HC_AREA_LENGTH);
}

/* A volume against itself, against beginnings of it, against one with another ratio, both ways, and against that one cut. */
static void of_recordings(const uint8_t *volume, size_t length, uint32_t *entries, size_t n)
{
    static uint8_t gauge[HC_VOLUME_BYTES];
    struct hc_part part;
    for (size_t other = 0; other < n; other += other < 16 ? 1 : 61) {
        size_t fewer = hc_write_volume(entries, 4 * other, gauge, sizeof gauge).length;
        MEASURE(check_pair, hc_check_recordings, AT(volume), length, AT(gauge), fewer);
        MEASURE(compare, hc_compare_recordings, AT(&part), AT(volume), length, AT(gauge), fewer);
        MEASURE(compare, hc_compare_recordings, AT(&part), AT(gauge), fewer, AT(volume), length);
        entries[4 * other + 2] ^= 16; /* another ratio */
        size_t changed = hc_write_volume(entries, 4 * n, gauge, sizeof gauge).length;
        entries[4 * other + 2] ^= 16;
        MEASURE(compare, hc_compare_recordings, AT(&part), AT(volume), length, AT(gauge), changed);
        MEASURE(compare, hc_compare_recordings, AT(&part), AT(gauge), changed, AT(volume), length);
        MEASURE(check_pair, hc_check_recordings, AT(volume), length, AT(gauge), changed - 1);
        MEASURE(compare, hc_compare_recordings, AT(&part), AT(volume), length, AT(gauge), changed - 1);
    }
    MEASURE(check_pair, hc_check_recordings, AT(volume), length, AT(volume), length);
    MEASURE(compare, hc_compare_recordings, AT(&part), AT(volume), length, AT(volume), length);
    if (part.recording != HC_BLENDER || part.from != length || part.length != 0) {
        printf("a volume of %zu entries was not compared with itself\n", n);
        exit(1);
    }
}

/* Volumes of none to 2,000 entries, whose numbers have one to three groups: written, read, and enciphered at the position that the last one left. */
static void of_volumes(uint32_t code, size_t key_bytes, size_t words)
{
    static const uint32_t kinds[3][4] = {{0, 0, 0, 1}, {128, 128, 128, 8}, {1440, 100000, 10000, 4}};
    static uint32_t entries[4 * HC_VOLUME_ENTRIES], list[4 * HC_VOLUME_ENTRIES];
    static uint8_t volume[HC_VOLUME_BYTES];
    struct hc_head head = {0};
    struct hc_rates rates = hc_our_rates();
    hc_set_up(&head, code, key, key_bytes, iv, key_bytes, area, words);
    for (size_t n = 0; n <= HC_VOLUME_ENTRIES; n = n < HC_VOLUME_ENTRIES && 2 * n + 1 > HC_VOLUME_ENTRIES ? HC_VOLUME_ENTRIES : 2 * n + 1) {
        for (size_t i = 0; i < 4 * n; i++)
            entries[i] = kinds[i / 4 % 3][i % 4];
        MEASURE(write_volume, hc_write_volume, AT(entries), 4 * n, AT(volume), sizeof volume);
        size_t length = hc_write_volume(entries, 4 * n, volume, sizeof volume).length;
        MEASURE(read_volume, hc_read_volume, AT(volume), length, AT(list), 4 * n);
        if (memcmp(list, entries, 4 * n * sizeof *list) != 0) {
            printf("a volume of %zu entries was not read back\n", n);
            exit(1);
        }
        MEASURE(duty, hc_volume_duty, AT(&rates), AT(volume), length);
        for (size_t cut = 0; cut <= length; cut += cut < 64 ? 1 : 61)
            MEASURE(soundness, hc_volume_soundness, AT(volume), cut);
        for (size_t at = 0; at < length; at += at < 64 ? 1 : 61) { /* a group that announces another, and one that does not */
            volume[at] ^= 0x80;
            MEASURE(soundness, hc_volume_soundness, AT(volume), length);
            volume[at] ^= 0x80;
        }
        of_recordings(volume, length, entries, n);
        uint64_t end = head.position + length;
        MEASURE(encipher_volume, hc_encipher_volume, AT(&head), AT(area), words, AT(volume), length);
        if (head.position != end) {
            printf("a volume of %zu entries was not enciphered\n", n);
            exit(1);
        }
    }
}

/* Our rates; and tables of none to eight pairs, whose rates have one to three groups, loaded whole and cut after every byte. */
static void of_rates(void)
{
    static const uint8_t string[HC_RATES_BYTES] = {8,    1,    0xFF, 0xFF, 0x03, 2,    0x80, 0x01, 3,    0x7F, 4,    0xFF, 0xFF, 0x03, 5,
                                                   0xFF, 0x7F, 6,    0x01, 7,    0xFF, 0xFF, 0x03, 8,    0x80, 0x80, 0x01};
    static const size_t lengths[] = {1, 5, 8, 10, 14, 17, 19, 23, 27}; /* of the tables of so many pairs */
    static uint8_t table[HC_RATES_BYTES];
    struct hc_rates rates = hc_our_rates();
    MEASURE(our_rates, hc_our_rates, 0);
    for (uint8_t pairs = 0; pairs <= HC_PRODUCTS; pairs++) {
        memcpy(table, string, lengths[pairs]);
        table[0] = pairs;
        for (size_t length = 0; length <= lengths[pairs]; length++)
            MEASURE(load_rates, hc_load_rates, AT(&rates), AT(table), length);
        if (pairs > 0 && rates.cents[pairs - 1] == 0) {
            printf("a table of %d pairs was not loaded\n", pairs);
            exit(1);
        }
    }
}

int main(void)
{
    const struct call *calls[] = {&set_up, &cipher, &move, &checkpoint_length, &writing, &recover, &load, &same_run, &test_load,
                                  &spent, &write_volume, &read_volume, &encipher_volume, &our_rates, &load_rates, &duty, &soundness,
                                  &check_pair, &compare};
    of_cipher(HC_128, HC_128_KEY_BYTES, HC_128_AREA_WORDS);
    of_cipher(HC_256, HC_256_KEY_BYTES, HC_256_AREA_WORDS);
    of_same_runs(HC_128);
    of_same_runs(HC_256);
    of_test_loads(HC_128, HC_128_KEY_BYTES, HC_128_AREA_WORDS);
    of_test_loads(HC_256, HC_256_KEY_BYTES, HC_256_AREA_WORDS);
    of_volumes(HC_128, HC_128_KEY_BYTES, HC_128_AREA_WORDS);
    of_volumes(HC_256, HC_256_KEY_BYTES, HC_256_AREA_WORDS);
    of_rates();
    for (size_t i = 0; i < sizeof calls / sizeof *calls; i++)
        printf("%-21s %5zu bytes\n", calls[i]->name, (calls[i]->most + 7) / 8 * 8);
    return 0;
}
