/* A restored tile is judged, and the answer held to what is known of it beforehand. */

#ifndef JUDGED_H
#define JUDGED_H

#include <stddef.h>
#include <stdint.h>

#include "peer_rules.h"

/* What cf_judge is told. */
struct told {
    size_t p, l, scan_len, restored_len, first, second;
};

/* With lengths that are right. */
struct told told_of(size_t p, size_t l, size_t first, size_t second);

/* Asks all sides, and holds the answer to the one that is known: ACCEPTED, or a refusal. What was judged is told in words. */
void judge(struct told told, const uint8_t *scan, const uint8_t *restored, enum refusal known, const char *what);

#endif
