/* Guarded bytes and numbers: see lent.h. */

#include "lent.h"

#include <stdio.h>
#include <stdlib.h>
#include <string.h>

enum { ALIGNMENTS = 16 };

#define PATTERN UINT64_C(0xA5C396F05A3C690F)

static const uint64_t number_guard[2] = {PATTERN, ~PATTERN};

/* What a number holds before it is answered, one after the other. These are five, and for a question 2, 3 or 14 numbers are lent: so each
 * of them comes to hold each value. */
static const uint64_t held_before[] = {PATTERN, 0, ~PATTERN, 0xFFFF, UINT64_MAX};

/* No two neighbours are alike, and none is 0: a guard that is moved, cleared or filled shows. */
static uint8_t guard_byte(size_t k)
{
    return (uint8_t)(0x91 + 7 * k);
}

static void put_guard(uint8_t *guard)
{
    for (size_t k = 0; k < GUARD; k++)
        guard[k] = guard_byte(k);
}

struct lent lend(const uint8_t *bytes, size_t length)
{
    static size_t alignment = 0;
    alignment = (alignment + 1) % ALIGNMENTS;
    uint8_t *block = malloc(alignment + GUARD + length + GUARD);
    if (block == NULL) {
        fprintf(stderr, "face: no memory\n");
        exit(2);
    }
    struct lent lent = {block, block + alignment + GUARD, length};
    put_guard(lent.bytes - GUARD);
    memcpy(lent.bytes, bytes, length);
    put_guard(lent.bytes + length);
    return lent;
}

void take_back(struct lent *lent)
{
    free(lent->block);
}

int guard_touched(const struct lent *lent, struct touched *touched)
{
    const uint8_t *guards[2] = {lent->bytes - GUARD, lent->bytes + lent->length};
    for (size_t side = 0; side < 2; side++) {
        for (size_t k = 0; k < GUARD; k++) {
            if (guards[side][k] != guard_byte(k)) {
                touched->place = (long)(&guards[side][k] - lent->bytes);
                touched->was = guard_byte(k);
                touched->is = guards[side][k];
                return 1;
            }
        }
    }
    return 0;
}

struct lent_number lend_number(void)
{
    static size_t turn = 0;
    struct lent_number number;
    turn = (turn + 1) % (sizeof held_before / sizeof held_before[0]);
    number.value = held_before[turn];
    memcpy(number.before, number_guard, sizeof number.before);
    memcpy(number.behind, number_guard, sizeof number.behind);
    return number;
}

int number_guard_touched(const struct lent_number *number)
{
    return memcmp(number->before, number_guard, sizeof number_guard) != 0 || memcmp(number->behind, number_guard, sizeof number_guard) != 0;
}
