/* Bytes and numbers that are lent to a call, with guards of a known pattern on both sides. */

#ifndef LENT_H
#define LENT_H

#include <stddef.h>
#include <stdint.h>

enum { GUARD = 32 };

/* A copy of some bytes between two guards. It is aligned in another way from one to the next. */
struct lent {
    uint8_t *block;
    uint8_t *bytes;
    size_t length;
};

struct lent lend(const uint8_t *bytes, size_t length);
void take_back(struct lent *lent);

/* A guard byte: its place counted from the first of the lent bytes, what it was and what it is. */
struct touched {
    long place;
    uint8_t was;
    uint8_t is;
};

/* Gives 1, and the first guard byte that was changed, if there is one. */
int guard_touched(const struct lent *lent, struct touched *touched);

/* A number that a call answers through a pointer, between two guards. */
struct lent_number {
    uint64_t before[2];
    uint64_t value;
    uint64_t behind[2];
};

/* The value is a pattern too, so that one left as it was is seen. From one to the next it changes: to the pattern's opposite, to 0, to FFFF
 * hex and to all ones, so that one that depends on what was there is seen too. */
struct lent_number lend_number(void);
int number_guard_touched(const struct lent_number *number);

#endif
