/* Openings, draws and closings, each with the refusal and the share account that it is to have, and draws compared with cipher calls. */
#include "check.h"

#include <string.h>

#define STREAM 65536
#define LEFT 1000 /* bytes of the stream from where sharing is opened, but for draws in turn */

static uint8_t expected[STREAM], found[STREAM];
static const uint8_t zeros[STREAM];
static const struct account closed = { { 0, 0, 0, 0 }, 0, 0 };

/* A draw and the number that it is refused with, and what is left of the shares and of the common part after it. */
struct drawing {
    uint64_t line;
    size_t n;
    uint64_t refusal, shares[LINES], common;
};

/* Draws from the opening to the limit. Refusal 6, which is the engine's, comes before 19, and 19 before 20. */
static const uint64_t opening[LINES] = { 100, 200, 300, 0 };
static const struct drawing drawings[] = {
    { 3, 10, 0, { 100, 200, 300, 0 }, 390 },
    { 0, 100, 0, { 0, 200, 300, 0 }, 390 },
    { 0, 0, 0, { 0, 200, 300, 0 }, 390 },
    { 1, 250, 0, { 0, 0, 300, 0 }, 340 },
    { 3, 341, 20, { 0, 0, 300, 0 }, 340 },
    { 2, 641, 6, { 0, 0, 300, 0 }, 340 },
    { 4, 641, 6, { 0, 0, 300, 0 }, 340 },
    { 4, 0, 19, { 0, 0, 300, 0 }, 340 },
    { UINT64_MAX, 640, 19, { 0, 0, 300, 0 }, 340 },
    { 3, 340, 0, { 0, 0, 300, 0 }, 0 },
    { 1, 1, 20, { 0, 0, 300, 0 }, 0 },
    { 2, 299, 0, { 0, 0, 1, 0 }, 0 },
    { 2, 1, 0, { 0, 0, 0, 0 }, 0 },
    { 0, 1, 6, { 0, 0, 0, 0 }, 0 },
    { 3, 0, 0, { 0, 0, 0, 0 }, 0 },
};

/* An implementation, its cipher and a state. */
struct subject {
    const struct implementation *it;
    int code;
    void *state;
};

static struct subject subject_at(const struct implementation *it, int code, const uint8_t *key, const uint8_t *iv, int64_t p)
{
    struct subject s = { it, code, it->create(code) };
    it->set_up(s.state, key, iv, 1);
    if (p > 0)
        it->move(s.state, p);
    return s;
}

static void expect_account(struct subject s, const struct account *account, const struct account *wanted)
{
    if (memcmp(account, wanted, sizeof *wanted) != 0)
        stop(s.it, s.code, "a share account");
}

static void expect_open(struct subject s, const struct account *account, const uint64_t *shares, uint64_t common)
{
    struct account wanted = { { shares[0], shares[1], shares[2], shares[3] }, common, 1 };
    expect_account(s, account, &wanted);
}

static void expect_refusal(struct subject s, uint64_t refusal, uint64_t wanted)
{
    if (refusal != wanted)
        stop(s.it, s.code, "the refusal of an opening, a draw or a closing");
}

static void expect_bytes(struct subject s, const uint8_t *wanted, const uint8_t *bytes, size_t n)
{
    if (memcmp(wanted, bytes, n) != 0)
        stop(s.it, s.code, "the bytes of a draw");
}

static void check_refused_opening(struct subject s, const struct account *given, const uint64_t *shares, uint64_t refusal)
{
    struct account account = *given;
    expect_refusal(s, s.it->open_sharing(s.state, &account, shares), refusal);
    expect_account(s, &account, given);
}

/* Openings with all shares 0, with shares of all that is left, and with shares of more, also where their sum does not fit 64 bits; a second opening,
 * and a draw and a closing while sharing is closed, with every other fault. */
static void check_openings(struct subject s)
{
    static const uint64_t none[LINES] = { 0, 0, 0, 0 }, all[LINES] = { 1, 0, 0, LEFT - 1 }, over[LINES] = { 1, 1, 0, LEFT - 1 };
    static const uint64_t wrapped[LINES] = { UINT64_MAX, 1, 0, 0 }, halves[LINES] = { 0, UINT64_MAX / 2 + 1, 0, UINT64_MAX / 2 + 1 };
    struct account account = closed;
    expect_refusal(s, s.it->close_sharing(&account), 21);
    expect_refusal(s, s.it->draw(s.state, &account, LINES, found, LEFT + 1, 1), 21);
    expect_account(s, &account, &closed);
    check_refused_opening(s, &closed, over, 20);
    check_refused_opening(s, &closed, wrapped, 20);
    check_refused_opening(s, &closed, halves, 20);
    expect_refusal(s, s.it->open_sharing(s.state, &account, none), 0);
    expect_open(s, &account, none, LEFT);
    check_refused_opening(s, &account, over, 21);
    expect_refusal(s, s.it->close_sharing(&account), 0);
    expect_account(s, &account, &closed);
    expect_refusal(s, s.it->open_sharing(s.state, &account, all), 0);
    expect_open(s, &account, all, 0);
    expect_refusal(s, s.it->close_sharing(&account), 0);
    expect_refusal(s, s.it->open_and_close(s.state, &account, all, 3), 0);
    expect_account(s, &account, &closed);
}

/* Draws from an account that the caller made up, whose share and common part together do not fit 64 bits. */
static void check_made_up(struct subject s)
{
    static const uint64_t first[LINES] = { 0, UINT64_MAX, 7, 7 }, second[LINES] = { 0, UINT64_MAX - 10, 7, 7 };
    struct account account = { { 5, UINT64_MAX, 7, 7 }, UINT64_MAX, 1 };
    memset(found, 0, 20);
    expect_refusal(s, s.it->draw(s.state, &account, 0, found, 10, 1), 0);
    expect_open(s, &account, first, UINT64_MAX - 5);
    expect_refusal(s, s.it->draw(s.state, &account, 1, found + 10, 10, 1), 0);
    expect_open(s, &account, second, UINT64_MAX - 5);
    expect_bytes(s, expected, found, 20);
    s.it->move(s.state, -20);
}

/* Makes the drawings, each of the bytes after those drawn so far; a refused one leaves every byte. */
static void check_drawings(struct subject s)
{
    struct account account = closed;
    size_t at = 0;
    memset(found, 0, sizeof found);
    expect_refusal(s, s.it->open_sharing(s.state, &account, opening), 0);
    expect_open(s, &account, opening, 400);
    for (size_t i = 0; i < sizeof drawings / sizeof *drawings; i++) {
        const struct drawing *d = &drawings[i];
        expect_refusal(s, s.it->draw(s.state, &account, d->line, found + at, d->n, 1), d->refusal);
        expect_open(s, &account, d->shares, d->common);
        at += d->refusal == 0 ? d->n : 0;
        expect_bytes(s, expected, found, at);
        expect_bytes(s, zeros, found + at, sizeof found - at);
    }
}

/* Draws in turn from set-up on, in calls of several lengths, with the bytes that n does not divide left 0. */
static void check_turns(const struct implementation *it, int code, const uint8_t *key, const uint8_t *iv)
{
    static const size_t lengths[] = { STREAM, 64, 16, 12, 3, 1 };
    static const uint64_t shares[LINES] = { 8192, 8192, 8192, 8192 };
    for (size_t l = 0; l < sizeof lengths / sizeof *lengths; l++) {
        size_t n = lengths[l], calls = STREAM / n;
        struct account account = closed;
        struct subject s = subject_at(it, code, key, iv, 0);
        memset(found, 0, sizeof found);
        expect_refusal(s, it->open_sharing(s.state, &account, shares), 0);
        expect_refusal(s, it->draw(s.state, &account, 0, found, n, calls), 0);
        expect_bytes(s, expected, found, n * calls);
        expect_bytes(s, zeros, found + n * calls, STREAM - n * calls);
    }
}

/* Fills expected with keystream of the first implementation, from p on, and returns it there. */
static struct subject expect_keystream(const struct implementation *it, int code, const uint8_t *key, const uint8_t *iv, int64_t p, size_t n)
{
    struct subject s = subject_at(it, code, key, iv, p);
    memset(expected, 0, sizeof expected);
    it->cipher(s.state, expected, n, 1);
    return s;
}

void check_sharing(const struct implementation *const *all, size_t count, int code, const uint8_t *key, const uint8_t *iv)
{
    static uint8_t wanted[LONGEST_CHECKPOINT], checkpoint[LONGEST_CHECKPOINT];
    for (size_t k = 0; k < count; k++) {
        if (all[k]->draw == NULL)
            continue;
        expect_keystream(all[0], code, key, iv, 0, STREAM);
        check_turns(all[k], code, key, iv);
        struct subject first = expect_keystream(all[0], code, key, iv, LIMIT - LEFT, LEFT);
        struct subject s = subject_at(all[k], code, key, iv, LIMIT - LEFT);
        check_openings(s);
        check_made_up(s);
        check_drawings(s);
        size_t length = all[0]->write(first.state, wanted, 1);
        if (all[k]->write(s.state, checkpoint, 1) != length || memcmp(wanted, checkpoint, length) != 0)
            stop(all[k], code, "the tables after a draw");
    }
}
