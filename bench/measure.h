/* The rows of the table and their timing. */
#ifndef MEASURE_H
#define MEASURE_H

#include "implementation.h"

enum row {
    BULK_64_KIB,
    BULK_16_MIB,
    CALL_1,
    CALL_3,
    CALL_12,
    CALL_16,
    CALL_64,
    SET_UP,
    FORWARD,
    BACK,
    RECOVER,
    WRITE,
    LOAD_SMALL,
    LOAD_LIMIT,
    SAME_RUN_SMALL,
    SAME_RUN_LIMIT,
    TEST_LOAD,
    WRITE_VOLUME,
    READ_VOLUME,
    DUTY,
    SOUNDNESS,
    COMPARE,
    ROWS
};

/* How a row's time is shown. */
enum unit { MIB_PER_SECOND, NANOSECONDS, MICROSECONDS, MILLISECONDS };

struct row_about {
    const char *title;
    enum unit unit;
    int turns; /* in one round */
};

extern const struct row_about about[ROWS];

#define MOST_COLUMNS 8

/* The least time in seconds of one call, or of one buffer in the bulk rows; 0 where the implementation lacks the operation. */
extern double seconds[ROWS][2][MOST_COLUMNS];

/* Fills seconds for all rows and their ciphers, in so many rounds; a null pointer stands for an implementation that is not installed. */
void measure_all(const struct implementation *const *columns, size_t count, int rounds);

/* How many ciphers a row has: volumes are the same for both. */
int ciphers_of(enum row row);

/* The bytes of one buffer in a bulk row. */
size_t bulk_bytes(enum row row);

#endif
