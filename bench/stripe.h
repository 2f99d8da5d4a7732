/* What ISA-L and Jerasure are given: the text of a tile as p-3 columns, each in memory of its own, and two columns of checks in their
 * own code, Reed-Solomon over bytes. Their copies are pairs of columns: the checks, or two lost columns. */

#ifndef BENCH_STRIPE_H
#define BENCH_STRIPE_H

#include <stdbool.h>
#include <stddef.h>
#include <stdint.h>

#include "job.h"

enum { MOST_COLUMNS = 256, CHECKS = 2 };

struct stripe {
    int columns;                   /* how many hold text */
    int length;                    /* bytes of a column */
    size_t stride;                 /* from one column of a pair to the next: the length, rounded up */
    uint8_t *column[MOST_COLUMNS]; /* the text's, then the checks */
    uint8_t *checks;               /* the two check columns as a pair */
    int lost[CHECKS];              /* the columns that are lost where two are */
    uint8_t *found;                /* and what they hold, as a pair */
};

/* The stripe of the text that all jobs of a size share. `factors` are those of the check columns, the first one's for each column,
 * then the second one's. The checks are worked out here, bit by bit, and not by the library that is measured. */
struct stripe *new_stripe(size_t p, const uint8_t *factors);

/* Jobs that write the check columns, and that fill the lost ones. */
void stripe_encode_job(struct job *job, size_t p, const struct stripe *stripe, const void *given);
void stripe_decode_job(struct job *job, size_t p, const struct stripe *stripe, const void *given);

#endif
