/* A small seeded generator: the same seed gives the same bytes on every machine. */

#ifndef CHANCE_H
#define CHANCE_H

#include <stddef.h>
#include <stdint.h>

struct chance {
    uint64_t state;
};

struct chance chance_from(uint64_t seed);

/* A number below the limit, which is not 0. */
size_t chance_below(struct chance *chance, size_t limit);

/* A byte that is not 0: a change that is made with it is one. */
uint8_t chance_change(struct chance *chance);

void chance_bytes(struct chance *chance, uint8_t *bytes, size_t count);

#endif
