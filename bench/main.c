/* Checks that the implementations agree, times them, and prints the table and the goals. */
#include "check.h"
#include "measure.h"

#include <stdio.h>
#include <stdlib.h>

extern const struct implementation archive, plain_gcc, unrolled_gcc;
#ifdef WITH_CLANG
extern const struct implementation plain_clang, unrolled_clang;
#endif
#ifdef WITH_CRYPTOPP
extern const struct implementation cryptopp;
#endif
#ifdef WITH_BEFORE
extern const struct implementation before;
#endif

enum column { ARCHIVE, PLAIN_GCC, PLAIN_CLANG, UNROLLED_GCC, UNROLLED_CLANG, CRYPTOPP, BEFORE, COLUMNS };

static const char *const titles[COLUMNS] = { "archive", "plain gcc", "plain clang", "unrolled gcc", "unrolled clang", "Crypto++", "before" };

static const struct implementation *const columns[COLUMNS] = {
    [ARCHIVE] = &archive,
    [PLAIN_GCC] = &plain_gcc,
    [UNROLLED_GCC] = &unrolled_gcc,
#ifdef WITH_CLANG
    [PLAIN_CLANG] = &plain_clang,
    [UNROLLED_CLANG] = &unrolled_clang,
#endif
#ifdef WITH_CRYPTOPP
    [CRYPTOPP] = &cryptopp,
#endif
#ifdef WITH_BEFORE
    [BEFORE] = &before,
#endif
};

/* The columns of the table: the earlier archive has one only where it was asked for. */
static int shown(void)
{
    return columns[BEFORE] == NULL ? BEFORE : COLUMNS;
}

static const char *const cipher_titles[2] = { "HC-128", "HC-256" };

static void check(void)
{
    const struct implementation *present[COLUMNS];
    size_t count = 0;
    for (int c = 0; c < COLUMNS; c++)
        if (columns[c] != NULL)
            present[count++] = columns[c];
    check_all_agree(present, count);
}

/* The archive's own figure. */
static void print_figure(enum row row, double s)
{
    switch (about[row].unit) {
    case MIB_PER_SECOND: printf("%8.0f MiB/s", (double)bulk_bytes(row) / 1048576 / s); break;
    case NANOSECONDS: printf("%8.1f ns   ", s * 1e9); break;
    case MICROSECONDS: printf("%8.2f us   ", s * 1e6); break;
    case MILLISECONDS: printf("%8.1f ms   ", s * 1e3); break;
    }
}

static void print_table(void)
{
    printf("The archive's own figure, then the archive's time divided by the other's: below 1 the archive is faster, 2 means that it takes twice "
           "as long.\n\n");
    printf("| %-28s | %-6s | %14s |", "what", "cipher", titles[ARCHIVE]);
    for (int c = 1; c < shown(); c++)
        printf(" %14s |", titles[c]);
    printf("\n|---|---|");
    for (int c = 0; c < shown(); c++)
        printf("--:|");
    printf("\n");
    for (int row = 0; row < ROWS; row++)
        for (int cipher = 0; cipher < ciphers_of((enum row)row); cipher++) {
            const double *s = seconds[row][cipher];
            printf("| %-28s | %s | ", about[row].title, ciphers_of((enum row)row) == 1 ? "-     " : cipher_titles[cipher]);
            print_figure((enum row)row, s[ARCHIVE]);
            printf(" |");
            for (int c = 1; c < shown(); c++)
                if (s[c] == 0)
                    printf(" %14s |", "-");
                else
                    printf(" %14.*f |", c == BEFORE ? 3 : 2, s[ARCHIVE] / s[c]);
            printf("\n");
        }
}

static void print_goal(const char *goal, const char *cipher, double number, int met)
{
    printf("| %-66s | %s | %8.3f | %-6s |\n", goal, cipher, number, met ? "met" : "behind");
}

/* The column with the least time among those from first to last. */
static enum column fastest(enum row row, int cipher, int first, int last)
{
    int best = first;
    for (int c = first; c <= last; c++)
        if (seconds[row][cipher][c] != 0 && seconds[row][cipher][c] < seconds[row][cipher][best])
            best = c;
    return (enum column)best;
}

static double against_fastest(enum row row, int cipher, int first, int last)
{
    return seconds[row][cipher][ARCHIVE] / seconds[row][cipher][fastest(row, cipher, first, last)];
}

/* A difference below half a hundredth counts as equal speed. */
static void print_bulk_goal(enum row row, int cipher, const char *size)
{
    char goal[96];
    double number = against_fastest(row, cipher, PLAIN_GCC, CRYPTOPP);
    snprintf(goal, sizeof goal, "bulk, %s: time / fastest other (%s), at most 1", size, titles[fastest(row, cipher, PLAIN_GCC, CRYPTOPP)]);
    print_goal(goal, cipher_titles[cipher], number, number < 1.005);
}

static void print_goals(void)
{
    printf("\n| %-66s | cipher | %8s | %-6s |\n|---|---|--:|---|\n", "goal", "number", "");
    for (int cipher = 0; cipher < 2; cipher++) {
        double set_up = against_fastest(SET_UP, cipher, PLAIN_GCC, PLAIN_CLANG);
        double call = seconds[CALL_3][cipher][ARCHIVE] / seconds[SET_UP][cipher][ARCHIVE];
        print_bulk_goal(BULK_64_KIB, cipher, "64 KiB");
        print_bulk_goal(BULK_16_MIB, cipher, "16 MiB");
        print_goal("set-up: time / faster plain C, at most 2", cipher_titles[cipher], set_up, set_up <= 2);
        if (columns[CRYPTOPP]) {
            double against = against_fastest(SET_UP, cipher, CRYPTOPP, CRYPTOPP);
            print_goal("set-up: time / Crypto++, at most 1", cipher_titles[cipher], against, against < 1.005);
        }
        print_goal("call of 3 bytes: time / set-up, below 0.05", cipher_titles[cipher], call, call < 0.05);
    }
    double writing = against_fastest(WRITE_VOLUME, 0, PLAIN_GCC, PLAIN_CLANG), reading = against_fastest(READ_VOLUME, 0, PLAIN_GCC, PLAIN_CLANG);
    double duty = against_fastest(DUTY, 0, PLAIN_GCC, PLAIN_CLANG);
    print_goal("write volume: time / faster plain C, at most 2", "-     ", writing, writing <= 2);
    print_goal("read volume: time / faster plain C, at most 2", "-     ", reading, reading <= 2);
    print_goal("duty: time / faster plain C, at most 2", "-     ", duty, duty <= 2);
    double soundness = against_fastest(SOUNDNESS, 0, PLAIN_GCC, PLAIN_CLANG);
    print_goal("soundness: time / faster plain C, at most 2", "-     ", soundness, soundness <= 2);
    double comparing = against_fastest(COMPARE, 0, PLAIN_GCC, PLAIN_CLANG);
    print_goal("compare: time / faster plain C, at most 2", "-     ", comparing, comparing <= 2);
}

/* Its argument is the number of rounds. */
int main(int count, char **arguments)
{
    int rounds = count == 2 ? atoi(arguments[1]) : 0;
    if (rounds < 1) {
        printf("The number of rounds is to be 1 or more.\n");
        return 1;
    }
    check();
    measure_all(columns, (size_t)shown(), rounds);
    print_table();
    print_goals();
    return 0;
}
