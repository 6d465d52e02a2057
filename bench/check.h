/* Whether all implementations agree. */
#ifndef CHECK_H
#define CHECK_H

#include "implementation.h"

/* Stops the program with a sentence where an implementation differs from the first one in keystream, head, tables, key or IV, or answers or
 * refuses otherwise than it should. */
void check_all_agree(const struct implementation *const *all, size_t count);

#endif
