/* The good tile of SPEC 4 as a system of linear equations, and its solution by elimination, from SPEC 5.8.
 *
 * A line is a diagonal here (SPEC 4.1), and a strip is a row or a column. Each of the 2p lines is an equation: the XOR of the line's cells
 * is the common byte, b in SPEC 4.3. The unknowns are the bytes of some cells, and the common byte; the other cells' bytes make the right
 * sides. A coefficient is a bit; a right side is a byte, so that one elimination serves the eight bits of a byte at once. The added zeros
 * (SPEC 3.3) are in no equation, for a zero adds nothing to an XOR. */

#ifndef PEER_SYSTEM_H
#define PEER_SYSTEM_H

#include <stddef.h>
#include <stdint.h>

#include "peer_rules.h"

/* A tile with the right sides of its equations while no cell is unknown, which are the sums of SPEC 4.2: the lines of slope 1 first, then
 * those of slope l. */
struct given_tile {
    size_t p;
    const uint8_t *bytes;
    size_t l_times[LARGEST_SIZE];   /* l times each number below p, modulo p */
    size_t l_divides[LARGEST_SIZE]; /* the number of which l times, modulo p, is each number below p */
    uint8_t right_side[2 * LARGEST_SIZE];
    size_t in_order[2 * LARGEST_SIZE]; /* the lines, in the order in which elimination takes their equations */
};

/* For a size p and a slope l from 2 to p-2. */
void give_tile(struct given_tile *tile, size_t p, size_t l, const uint8_t *bytes);

/* A row or a column, which SPEC 3.4 calls a line of the tile. */
struct strip {
    int is_column;
    size_t number;
};

/* How many good tiles there are. */
enum solutions { NO_SOLUTION, ONE_SOLUTION, SEVERAL_SOLUTIONS };

/* Counts the ways to give bytes to the cells of some strips, none, one or two, so that the tile is good. What it holds there does not
 * matter. If there is one way, the bytes are laid into a copy of the tile's bytes, or into these themselves; otherwise nothing is. */
enum solutions solve(const struct given_tile *tile, const struct strip *strips, size_t count, uint8_t *copy);

#endif
