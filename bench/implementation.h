/* What the benchmark asks of an implementation; one that lacks an operation has a null pointer there. */
#ifndef IMPLEMENTATION_H
#define IMPLEMENTATION_H

#include <stddef.h>
#include <stdint.h>

#define LIMIT 67108864
#define LONGEST_CHECKPOINT 8197
#define VOLUME_ENTRIES 2000
#define LONGEST_VOLUME 16002

/* What a test load is given. Its area is that of the state, of which so many words are lent. */
struct test {
    uint32_t seed;
    uint64_t count;
    uint32_t code;
    const uint8_t *key, *iv;
    size_t key_bytes, iv_bytes, area_words;
};

/* A head, with the word and the mark of requests (a) and (b) of document 02. */
struct head {
    uint32_t code, word;
    uint64_t position, mark;
};

struct implementation {
    const char *title;
    /* A state for the cipher with this code, 1 for HC-128 and 2 for HC-256; it is never freed. */
    void *(*create)(int code);
    /* Sets up anew, so many times in a row. */
    void (*set_up)(void *state, const uint8_t *key, const uint8_t *iv, size_t times);
    /* Enciphers in place: so many calls in a row, each with the next n bytes. */
    void (*cipher)(void *state, uint8_t *bytes, size_t n, size_t calls);
    /* The shortest call, in bytes, for which cipher is meant. */
    size_t least_call;
    void (*move)(void *state, int64_t distance);
    /* Fills key and IV; returns 0, or another number where no key and IV have the tables. */
    int (*recover)(void *state, uint8_t *key, uint8_t *iv);
    /* Writes the checkpoint, so many times in a row, and returns its length. */
    size_t (*write)(void *state, uint8_t *checkpoint, size_t times);
    /* Loads the checkpoint, so many times in a row; returns 0, or another number where it is refused. */
    int (*load)(void *state, const uint8_t *checkpoint, size_t length, size_t times);
    /* Tells whether two checkpoints belong to one run, so many times in a row, and returns 1 for yes and 0 for no; minus the number of the refusal
     * where the pair is refused. */
    int64_t (*same_run)(const uint8_t *first, size_t first_bytes, const uint8_t *second, size_t second_bytes, size_t times);
    /* Runs a test load, so many times in a row, and gives the head after it; returns 0, or the number of the refusal, where the head stays. */
    uint64_t (*test_load)(void *state, const struct test *test, struct head *head, size_t times);
    /* Writes the volume of entries, four numbers each, so many times in a row, and returns its length; 0 where it is refused. */
    size_t (*write_volume)(const uint32_t *entries, size_t numbers, uint8_t *lent, size_t lent_bytes, size_t times);
    /* Reads a volume, so many times in a row, and returns the count of its entries; -1 where it is refused. */
    int64_t (*read_volume)(const uint8_t *volume, size_t volume_bytes, uint32_t *entries, size_t numbers, size_t times);
    /* Works out the duty on a volume, so many times in a row, and returns it in cents; -1 where the volume is refused. */
    int64_t (*duty)(const uint8_t *volume, size_t volume_bytes, size_t times);
    /* Takes the soundness of a string, so many times in a row, and returns 0 where it is sound, -1 where it is cut, else the hopeless length. */
    int64_t (*soundness)(const uint8_t *volume, size_t volume_bytes, size_t times);
    /* Compares two recordings, so many times in a row, and returns the byte from which the blender's is handed back, or minus that byte of the
     * gauge's; 0 where the pair is refused. */
    int64_t (*compare)(const uint8_t *blender, size_t blender_bytes, const uint8_t *gauge, size_t gauge_bytes, size_t times);
};

#endif
