/* What the peer's sheet (SPEC 6.4) needs of its tile calls. */

#ifndef PEER_TILE_H
#define PEER_TILE_H

#include <stddef.h>
#include <stdint.h>

/* SPEC 5.1, without the judgement: makes the good tile that has the text, for a size p and a slope l from 2 to p-2. */
void make_good(size_t p, size_t l, const uint8_t *text, uint8_t *tile);

#endif
