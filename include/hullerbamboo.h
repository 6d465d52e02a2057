/* Hullerbamboo: HC-128 and HC-256 with the way back, for C on x86-64.
 *
 * An engine is a head (cipher code, word, position, mark) and a table area. Both are yours: the library keeps no state, allocates nothing, takes no
 * lock and does no input or output, so every call is reentrant, and two engines may be used by two threads at once. From the C library it needs
 * memcpy and memset.
 *
 * Every call but three returns 0 (HC_OK) or the number of its first refusal, in the order given at the call. hc_our_rates and hc_volume_soundness are
 * never refused; for hc_compare_recordings the number is what hc_check_recordings returns. A refused call changes nothing: the head, the area, the
 * table of rates and every byte and number that you lent keep their values. Keys, IVs and keystream are bytes; an area is 32-bit words; a position
 * counts bytes. No structure below has padding, so a call writes no byte of a head, of a table of rates or of what it returns that is not the value
 * of a field.
 *
 * Your obligations, which C cannot check and the proofs take for granted:
 *   - A pointer is not null and points to as many elements as the length after it says, or to one structure where there is none, aligned for its
 *     type, for the whole call.
 *   - Of what you lend to one call (head, area, table of rates, bytes, buffers), nothing that the call writes may overlap anything else. It writes to
 *     what is not const. Inputs that are const may overlap one another.
 *   - While a call runs, no other thread, interrupt or signal handler writes what you lent, or reads what the call writes.
 *   - Keep a head with its own area, and copy both between the same two calls. Refusal 13 notices some of what goes wrong here, and not all.
 *   - Never encipher two texts at the same positions under one key and IV. Moving back, loading a checkpoint twice, a second set up or a test load
 *     brings you there. hc_spent tells from which position on this head has used no keystream since its last set up or load. It cannot tell what was
 *     used before that, with a copy of head and area, or after another load of the same checkpoint.
 *
 * Secret: the key, the area, a checkpoint, what hc_load returns, and the word of a head, which is four bytes of keystream from position 1 on. The
 * area and a checkpoint are as secret as the key, since hc_recover finds the key in them. hc_load, hc_recover and hc_same_run work on a copy of the
 * tables on the stack, hc_test_load leaves up to 256 bytes of keystream there, and no call wipes its stack.
 *
 * Refusal 13: each step changes one word of the area and makes one word, four bytes, of keystream. A head's word is the one that the last step made,
 * and 0 at position 0. hc_cipher, hc_encipher_volume, hc_move, hc_write and hc_recover work it out from the area and compare. So a head with an area
 * of an earlier position is noticed as soon as a word of keystream begins between the two positions, for the area lacks the head's last step. Not
 * noticed are, among others:
 *   - a head with an area of a later position, as long as no later step has changed one of the four (HC-128) or six (HC-256) words of the area
 *     that the head's word is made of: mostly to the end of the turn of 512 (HC-128) or 1,024 (HC-256) words of keystream in which the head's
 *     step lies, and up to 255 words beyond;
 *   - other damage to the area that leaves those words as they are;
 *   - a head at position 0 with any area, since the word is 0 there whatever the area holds;
 *   - a position that is wrong by a multiple of 4,096 (HC-128) or 8,192 (HC-256) bytes, or inside one word;
 *   - two words that are equal by chance.
 * The full test of an area is hc_recover, whose refusal 12 means that no key and IV have these tables; it takes every step back to set up.
 *
 * Nothing here is authenticated: hc_load and hc_same_run refuse a damaged checkpoint whose tables have no key and IV at its position, and that is all
 * they can tell. A position that was changed inside one word, such as 5 to 8, has the same tables, and they take it as it is.
 *
 * "Stack" is the most that a call took below its return address in a measurement on x86-64 (bench/stack), with memcpy and memset bound beforehand. */
#ifndef HULLERBAMBOO_H
#define HULLERBAMBOO_H

#include <stddef.h>
#include <stdint.h>

#ifdef __cplusplus
extern "C" {
#endif

/* Cipher codes. */
#define HC_128 1
#define HC_256 2

/* Lengths. A key and an IV are 16 bytes each (HC-128) or 32 bytes each (HC-256). */
#define HC_128_KEY_BYTES 16
#define HC_256_KEY_BYTES 32
#define HC_128_AREA_WORDS 1024
#define HC_256_AREA_WORDS 2048

/* The longest checkpoints, those from position 2,097,152 on: a buffer of this size is always enough. hc_checkpoint_length gives the length at any
 * position. */
#define HC_128_CHECKPOINT_BYTES 4101
#define HC_256_CHECKPOINT_BYTES 8197

/* The last position: no key and IV gives more than 64 MiB of keystream. */
#define HC_LIMIT 67108864

/* A shift volume: the count of its entries, then the entries, four numbers each and in this order:
 *     minutes since the previous entry   0 to 1,440
 *     litres                             0 to 100,000
 *     ratio in hundredths of a percent   0 to 10,000
 *     product                            1 to 8
 * The count is 0 to HC_VOLUME_ENTRIES. Each number is in groups of seven bits, lowest first; the top bit of a byte says that another group follows;
 * the last group is not 0, except in the single byte of number 0; at most three groups. You lend entries as one list of numbers, four an entry, so
 * that entry i begins at element 4 * i; HC_VOLUME_BYTES is the length of the longest volume. */
#define HC_VOLUME_ENTRIES 2000
#define HC_ENTRY_NUMBERS 4
#define HC_VOLUME_BYTES 16002

/* The component duty: for an entry litres times ratio times the rate of its product, divided by 10,000 and cut down to whole cents; for a volume the
 * sum over its entries. The rates are those of the table in use, which is ours until a refinery loads its own. Our rates, in cents per litre:
 *     product   1    2   3   4   5   6   7   8
 *     rate      120  95  95  60  40  40  15  0
 * Where the ratio of one entry changes by d hundredths of a percent and nothing else changes, the duty on the volume changes by at most litres times
 * rate times d over 10,000, rounded up, with the litres of that entry and the rate of its product. That holds under every table of rates.
 * HC_MOST_DUTY is the greatest duty of any volume under our rates, in cents: 2,000 entries of 100,000 litres at 10,000 of product 1.
 * HC_MOST_OWN_DUTY is the greatest under any table of rates: the same volume where the rate of product 1 is 65,535. Neither fits 32 bits. */
#define HC_MOST_DUTY UINT64_C(24000000000)
#define HC_MOST_OWN_DUTY UINT64_C(13107000000000)

/* A refinery's own table of rates, as a string: a count of pairs, 0 to HC_PRODUCTS, then that many pairs, two numbers each and in this order:
 *     product                            1 to HC_PRODUCTS, each above the one of the pair before
 *     rate in cents per litre            0 to 65,535
 * Each number is written as a number of a volume is: in groups of seven bits, in its shortest form, three groups at most. A product without a pair
 * has rate 0. HC_RATES_BYTES is the length of the longest string. */
#define HC_PRODUCTS 8
#define HC_RATES_BYTES 33

/* The most calls that a test load runs after its set up. */
#define HC_TEST_CALLS 1000

enum hc_refusal {
    HC_OK = 0,
    HC_BAD_CODE = 1,       /* the cipher code is neither 1 nor 2; a head before set up or load has code 0 */
    HC_KEY_LENGTH = 2,     /* the key buffer has not the cipher's key length */
    HC_IV_LENGTH = 3,      /* the IV buffer has not the cipher's IV length */
    HC_AREA_LENGTH = 4,    /* the area has not the cipher's number of words */
    HC_BAD_POSITION = 5,   /* the position is over HC_LIMIT */
    HC_PAST_LIMIT = 6,     /* the call would end past HC_LIMIT */
    HC_BEFORE_START = 7,   /* the move would end before position 0 */
    HC_LITTLE_ROOM = 8,    /* fewer bytes lent than the checkpoint or the volume has, or fewer numbers than its entries have */
    HC_ENDS_EARLY = 9,     /* the checkpoint is empty or ends inside its position */
    HC_BAD_NUMBER = 10,    /* the checkpoint's position is longer than four bytes, or not in its shortest form */
    HC_STRING_LENGTH = 11, /* the bytes after the position are not as many as the tables */
    HC_NO_KEY = 12,        /* no key and IV have these tables at this position */
    HC_FALSE_WORD = 13,    /* the head's word is not the one that the area has at the head's position */
    HC_VOLUME_NUMBER = 14, /* a number of the volume is not in its shortest form, or its third group announces another */
    HC_VOLUME_RANGE = 15,  /* a number of the volume, or of the entries to write, is out of its range */
    HC_VOLUME_ENDS = 16,   /* the volume ends early or has bytes after its last entry; or the numbers to write are not whole entries */
    HC_SEED_ZERO = 17,     /* the seed of the test load is 0 */
    HC_MANY_CALLS = 18,    /* the test load is to run more than HC_TEST_CALLS calls */
    HC_TWO_CIPHERS = 23,   /* the two checkpoints are of different ciphers */
    HC_BAD_RATES = 24,     /* a number of the table of rates is not in its shortest form, its third group announces another, or it is out of its
                              range; or the table ends early or has bytes after its last pair */
    HC_RATES_ORDER = 25    /* a product of the table of rates is not above the one before it */
};

/* A head. Start with { 0, 0, 0, 0 }; only the calls below change it. */
struct hc_head {
    uint32_t code;     /* 0 before set up or load, then HC_128 or HC_256 */
    uint32_t word;     /* the word of keystream that the last step made, 0 at position 0 */
    uint64_t position; /* in bytes, 0 to HC_LIMIT */
    uint64_t mark;     /* how far the keystream has been used since the last set up or load: see hc_spent */
};

/* What hc_checkpoint_length, hc_write and hc_write_volume return. length is 0 where the call is refused. */
struct hc_length {
    uint64_t refusal;
    size_t length;
};

/* What hc_load returns: key and IV as 32-bit words, least significant byte first. HC-128 uses the first four of each and leaves the others 0. All
 * are 0 where the call is refused. */
struct hc_words {
    uint64_t refusal;
    uint32_t key[8];
    uint32_t iv[8];
};

/* What hc_spent and hc_read_volume return. count is 0 where the call is refused. */
struct hc_count {
    uint64_t refusal;
    uint64_t count;
};

/* What hc_same_run returns. yes is 1 for yes and 0 for no, and 0 where the call is refused. */
struct hc_yes_or_no {
    uint64_t refusal;
    uint64_t yes;
};

/* A table of rates: the rate of product p is cents[p - 1], in cents per litre. The table in use is yours. Start with what hc_our_rates returns and
 * not with zeros, under which nothing is owed, and let hc_load_rates replace it. Any eight 16-bit numbers are a table, also eight that you made
 * up. */
struct hc_rates {
    uint16_t cents[HC_PRODUCTS];
};

/* What hc_volume_duty returns. cents is 0 where the call is refused. */
struct hc_duty {
    uint64_t refusal;
    uint64_t cents;
};

/* What hc_volume_soundness answers. A beginning of a string is its first bytes: none, some or all of them. It can be completed where some bytes after
 * it, or none, make it a volume that hc_read_volume accepts into a list that is long enough. */
enum hc_soundness_answer {
    HC_SOUND = 0,   /* hc_read_volume accepts the string into a list that is long enough */
    HC_CUT = 1,     /* it does not, but every beginning of the string, the whole string included, can be completed */
    HC_HOPELESS = 2 /* a beginning of the string can't be completed, whatever bytes come after it */
};

/* What hc_volume_soundness returns. answer is one of enum hc_soundness_answer. length is, for a string that is hopeless, how many bytes its shortest
 * beginning has that can't be completed, 2 to HC_VOLUME_BYTES + 1; it is 0 for one that is sound or cut. */
struct hc_soundness {
    uint64_t answer;
    size_t length;
};

/* Which of two recordings of one run, each a volume: the blender's log or the tank gauge's. */
enum hc_recording {
    HC_BLENDER = 0,
    HC_GAUGE = 1
};

/* What hc_compare_recordings returns, part of one of the two buffers: it begins at buffer[from] and has length bytes. recording is one of enum
 * hc_recording. All three are 0 where the pair is refused: the empty beginning of the blender's buffer. Where it is not, from is 1 at least and the
 * part goes to the end of its buffer; so from is 0 exactly where the pair is refused. */
struct hc_part {
    uint64_t recording;
    size_t from;
    size_t length;
};

/* Set up: fills the area from a key and an IV, and the head becomes the given code and word 0 at position 0 with mark 0, whatever it was.
 * Refusals: 1, 2, 3, 4. Stack: 336 bytes. */
uint64_t hc_set_up(struct hc_head *head, uint32_t code, const uint8_t *key, size_t key_bytes, const uint8_t *iv, size_t iv_bytes, uint32_t *area,
                   size_t area_words);

/* Cipher: replaces each lent byte by its exclusive or with the keystream byte, and advances by byte_count. The same call enciphers and deciphers.
 * Any number of bytes may be given at a time, also 0, which changes nothing. A call of one byte or more makes the mark the larger of the mark and the
 * position at its end.
 * Refusals: 1, 4, 5, 13, 6. Stack: 224 bytes. */
uint64_t hc_cipher(struct hc_head *head, uint32_t *area, size_t area_words, uint8_t *bytes, size_t byte_count);

/* Move: takes head and tables forward, or back where distance is negative, by a number of bytes; the mark stays. The time grows with the distance.
 * Refusals: 1, 4, 5, 13, 7, 6. Stack: 112 bytes. */
uint64_t hc_move(struct hc_head *head, uint32_t *area, size_t area_words, int64_t distance);

/* Checkpoint length: how many bytes the checkpoint of a cipher has at a position: 1, plus the bytes of the position as a number (1 below 128, 2 below
 * 16,384, 3 below 2,097,152, else 4), plus 4 times the words of the area. For a head's code and position it is what hc_write returns, and the fewest
 * bytes that it takes. It grows with the position: ask again after a cipher call or a move.
 * Refusals: 1, 5. Stack: 0 bytes. */
struct hc_length hc_checkpoint_length(uint32_t code, uint64_t position);

/* Write: puts the checkpoint of head and area at the start of the lent bytes and returns its length; later bytes, area and head stay. Lend at least
 * the length that hc_checkpoint_length gives for the head's code and position. A checkpoint does not hold the mark.
 * Refusals: 1, 4, 5, 13, 8. Stack: 56 bytes. */
struct hc_length hc_write(struct hc_head *head, const uint32_t *area, size_t area_words, uint8_t *lent, size_t lent_bytes);

/* Recover: fills the buffers with the key and the IV from which the tables came. Area and head stay. It takes every step back to set up.
 * Refusals: 1, 4, 5, 13, 2, 3, 12. Stack: 8,768 bytes. */
uint64_t hc_recover(struct hc_head *head, const uint32_t *area, size_t area_words, uint8_t *key, size_t key_bytes, uint8_t *iv, size_t iv_bytes);

/* Load: fills area and head from a checkpoint, whatever the head was, and returns its key and IV. The mark becomes the loaded position. The area must
 * already have the size for the checkpoint's cipher. string is the checkpoint and no byte more. Before it accepts, it takes every step back to set
 * up and checks the key and IV that it finds there.
 * Refusals: 9, 1, 4, then for the position 10 or 9, then 5, 11, 12. Stack: 9,056 bytes. */
struct hc_words hc_load(struct hc_head *head, uint32_t *area, size_t area_words, const uint8_t *string, size_t string_bytes);

/* Same run: whether two checkpoints belong to one run, which means that they have the same key and IV, at whatever positions. It is yes exactly where
 * loading first, moving by the position of second less that of first and writing gives second, byte for byte. first and second are a checkpoint each
 * and no byte more. No area and no head is needed. A run that was set up again with the same key and IV can't be told from the first. For each
 * checkpoint it takes every step back to set up, as hc_load does, so that the time grows with both positions.
 * Refusals: those of hc_load but for 4, which is about an area: 9, 1, then for the position 10 or 9, then 5, 11, 12, for first; then these for
 * second; then 23 where the two are of different ciphers. hc_same_run(first, first) tells whether it was first that was refused. Stack: 8,840 bytes.
 *
 * Whether a spare board's checkpoint is of the same run as the box's:
 *
 *     struct hc_yes_or_no same = hc_same_run(box, box_bytes, spare, spare_bytes);
 *     if (same.refusal == HC_OK && same.yes)
 *         puts("the same run");
 */
struct hc_yes_or_no hc_same_run(const uint8_t *first, size_t first_bytes, const uint8_t *second, size_t second_bytes);

/* Test load: sets up as hc_set_up does, and then runs count calls that come from a seed, so that two benches put the same strain on a box. The calls
 * come from words of 32 bits. From a word x, which is the seed at first, comes the new word
 *
 *     x ^= x << 13; // each shift is of the word so far and cut to 32 bits, so x is a uint32_t
 *     x ^= x >> 17;
 *     x ^= x << 5;
 *
 * Each new word w gives one call; the seed itself gives none. Where w is even, it is a move to the byte (w / 2) % 4096, forward or back; where w is
 * odd, it is a cipher call over (w / 2) % 257 zero bytes, also over none. These bytes are the call's own, and you do not get them. None of these
 * calls is refused. Head and tables are then those after the set up and these calls, whatever they were before, and hc_write gives the checkpoint of
 * this code, key and IV at the position that the words lead to, which is never over 260,095. With a count of 0 it is the set up alone. Wherever this
 * page speaks of a set up, a test load is one. Give it a key and an IV with which nothing else is enciphered, for it uses keystream from position 0
 * on and leaves some of it on the stack.
 * Refusals: 17 where the seed is 0, 18 where count is over HC_TEST_CALLS, then 1, 2, 3, 4 as hc_set_up. Stack: 1,120 bytes.
 *
 *     From seed 1 come 0x00042021, 0x04080601, 0x9DCCA8C5, 0x1255994F and 0x8EF917D1, cipher calls over 2, 256, 166, 253 and 146 bytes,
 *     and then 0x2C6F5BD0, a move to byte 3560: the position is 3560 and the mark 823.
 */
uint64_t hc_test_load(struct hc_head *head, uint32_t seed, uint64_t count, uint32_t code, const uint8_t *key, size_t key_bytes, const uint8_t *iv,
                      size_t iv_bytes, uint32_t *area, size_t area_words);

/* Spent: how far the keystream has been used, which is the head's mark: the farthest position that a cipher call, or the enciphering of a volume,
 * reached since the last set up or load. Set up starts it at 0, load at the loaded position, and a move leaves it. A mark that you made up is taken
 * as it is: no call checks it, hc_spent returns it, and hc_cipher and hc_encipher_volume take the larger of it and their own end. Refusal 5 is about
 * the position, whatever the mark. The head stays.
 * Refusals: 1, 5. Stack: 0 bytes. */
struct hc_count hc_spent(struct hc_head *head);

/* Write volume: puts the volume of these entries at the start of the lent bytes and returns its length; later bytes and the entries stay.
 * numbers is four times the count of entries.
 * Refusals: 16 where numbers is not a multiple of 4; 15 for more than HC_VOLUME_ENTRIES entries or a number out of its range; 8 for fewer lent
 * bytes than the volume has. Stack: 48 bytes. */
struct hc_length hc_write_volume(const uint32_t *entries, size_t numbers, uint8_t *lent, size_t lent_bytes);

/* Read volume: puts the entries of a volume at the start of the lent list and returns their count; later elements stay. volume is the volume and no
 * byte more. Nothing is put into the list before the whole volume has been read.
 * Refusals, for the first number from the volume's start that is at fault: 16 where the volume ends before the number's last group, 14 where it is
 * not in its shortest form or its third group announces another (also where the volume ends there), 15 where it is out of its range (14 where it
 * earns both); then 16 for bytes after the last entry; then 8 where the list has fewer than four elements for each entry. Four times
 * HC_VOLUME_ENTRIES elements are always enough. Stack: 112 bytes. */
struct hc_count hc_read_volume(const uint8_t *volume, size_t volume_bytes, uint32_t *entries, size_t numbers);

/* Encipher volume: enciphers a written volume in its buffer, as hc_cipher does with these bytes: position, tables, word and mark are then those after
 * that call. volume is the volume and no byte more: lend as many bytes as hc_write_volume returned. hc_cipher deciphers it again, at the same
 * position.
 * Refusals: 16, 14, 15 as hc_read_volume, then 1, 4, 5, 13, 6 as hc_cipher. Stack: 288 bytes.
 *
 * A shift's entries, written and enciphered:
 *
 *     uint32_t entries[2 * HC_ENTRY_NUMBERS] = {
 *         0, 1000, 525, 4,    // at once, 1,000 litres at 5.25 percent of product 4
 *         15, 20000, 610, 2,  // 15 minutes later, 20,000 litres at 6.1 percent of product 2
 *     };
 *     uint8_t volume[HC_VOLUME_BYTES];
 *     struct hc_length written = hc_write_volume(entries, 2 * HC_ENTRY_NUMBERS, volume, sizeof volume);
 *     if (written.refusal == HC_OK)
 *         refusal = hc_encipher_volume(&head, area, HC_128_AREA_WORDS, volume, written.length);
 */
uint64_t hc_encipher_volume(struct hc_head *head, uint32_t *area, size_t area_words, uint8_t *volume, size_t volume_bytes);

/* Our rates: our table, which is in use until a refinery loads its own. Refusals: none. Stack: 0 bytes. */
struct hc_rates hc_our_rates(void);

/* Load rates: the rates of a refinery's own table take the place of the table in use; a product without a pair then has rate 0. string is the table's
 * string and no byte more. Where it is refused, the table in use stays.
 * Refusals, for the first number from the string's start that is at fault: 24 where the string ends before the number's last group, where it is not
 * in its shortest form, where its third group announces another, or where it is out of its range; 25 where it is a product that is not above the
 * product before it (24 where it earns both); then 24 for bytes after the last pair. Stack: 56 bytes.
 *
 * A refinery with duty on two products:
 *
 *     static const uint8_t own[] = {0x02, 0x02, 0xC8, 0x01, 0x04, 0x46}; // two pairs: product 2 at 200 cents, product 4 at 70
 *     struct hc_rates rates = hc_our_rates();
 *     refusal = hc_load_rates(&rates, own, sizeof own);
 *     if (refusal == HC_OK)
 *         duty = hc_volume_duty(&rates, volume, volume_bytes);
 */
uint64_t hc_load_rates(struct hc_rates *rates, const uint8_t *string, size_t string_bytes);

/* Volume duty: the component duty on a volume under the table of rates in use, in whole cents. volume is the volume and no byte more, and not
 * enciphered. Every table is taken as it is: under any of them the duty fits 64 bits.
 * Refusals: 16, 14, 15 as hc_read_volume. Stack: 56 bytes. */
struct hc_duty hc_volume_duty(const struct hc_rates *rates, const uint8_t *volume, size_t volume_bytes);

/* Volume soundness: whether a string is a volume (sound), the beginning of one and no volume itself (cut), or neither (hopeless), and then the length
 * of its shortest beginning that no bytes whatsoever could complete into a volume. The last byte of that beginning is the one that made it hopeless.
 * That may be before the last group of a number, where no number in its range has these groups: the second group of a ratio that announces a third
 * is such a byte. The empty string is cut. A string with bytes after its last entry is hopeless at the first of them. volume is the string and no
 * byte more, and not enciphered. Where the answer is HC_CUT, hc_read_volume refuses with 16; a string that it refuses with 14 or 15 is hopeless, and
 * one that it refuses with 16 may be cut or hopeless. The time grows with volume_bytes.
 * Refusals: none. Stack: 24 bytes.
 *
 *     0x01 0x00 0x64 0x90           cut: one entry, no minutes, 100 litres, the first group of a ratio
 *     0x01 0x00 0x64 0x90 0x4F      hopeless at 5: ratio 10,128 is out of its range
 *     0x01 0x00 0x64 0x90 0xCE 0x01 hopeless at 5: a ratio has no third group
 */
struct hc_soundness hc_volume_soundness(const uint8_t *volume, size_t volume_bytes);

/* Check recordings: whether hc_compare_recordings takes this pair. blender and gauge are a volume each and no byte more, and not enciphered.
 * Refusals: 16, 14, 15 as hc_read_volume for the blender's recording, then 16, 14, 15 for the gauge's. Stack: 80 bytes. */
uint64_t hc_check_recordings(const uint8_t *blender, size_t blender_bytes, const uint8_t *gauge, size_t gauge_bytes);

/* Compare recordings: goes through both recordings of one run, entry by entry, up to the first place where they don't have the same entry, and
 * returns the part of one of them from there to its end. Entries are the same where all four numbers are; the counts in front are not compared. The
 * part is of
 *     the recording that goes on, where the other has ended;
 *     else the one whose ratio there is the smaller, and the blender's where the ratios are equal;
 *     the blender's, where both have ended: its empty end, so that from is blender_bytes and length is 0.
 * Refusals: those of hc_check_recordings, which returns the number; here all three fields are then 0. Stack: 256 bytes.
 *
 * Where the recordings first differ:
 *
 *     refusal = hc_check_recordings(blender, blender_bytes, gauge, gauge_bytes);
 *     if (refusal == HC_OK) {
 *         struct hc_part part = hc_compare_recordings(blender, blender_bytes, gauge, gauge_bytes);
 *         const uint8_t *rest = (part.recording == HC_GAUGE ? gauge : blender) + part.from; // part.length bytes, whole entries
 *     }
 *
 *     blender 0x01 0x00 0x64 0x06 0x01, gauge 0x01 0x00 0x64 0x05 0x01    HC_GAUGE, from 1, 4 bytes: ratio 5 is smaller than 6
 *     blender 0x01 0x00 0x64 0x05 0x01, gauge 0x01 0x00 0x63 0x05 0x01    HC_BLENDER, from 1, 4 bytes: the litres differ, and the ratios are equal
 *     blender 0x00,                     gauge 0x01 0x00 0x64 0x05 0x01    HC_GAUGE, from 1, 4 bytes: the blender's has ended
 */
struct hc_part hc_compare_recordings(const uint8_t *blender, size_t blender_bytes, const uint8_t *gauge, size_t gauge_bytes);

#ifdef __cplusplus
}
#endif

#endif
