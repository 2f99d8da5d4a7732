/* Reels that are asked, at every place and from tile to tile, and what stands there held to what is known of it. */

#ifndef WALKED_H
#define WALKED_H

#include <stddef.h>
#include <stdint.h>

#include "ask.h"
#include "peer_rules.h"
#include "reels.h"

/* Asks at every place of a reel and at three behind it; and at places far behind its last byte. */
void ask_each_place(const uint8_t *reel, size_t length);
void ask_far_places(const uint8_t *reel, size_t length);

/* A walk (SPEC 7.5), as a caller makes it: from tile to tile, until no tile is answered. Gives the offset at which it ended. */
size_t walk(const uint8_t *reel, size_t length);

/* This walk, and the same one by the rest alone: each question is asked of what the tiles before it have left, at offset 0. Both have to
 * end at the same offset, which is given. */
size_t walk_both_ways(const uint8_t *reel, size_t length);

/* Asks what stands at a place, and holds it to what is known: the tile of this header, or a refusal. What stands there is told in words. */
void look_up(const uint8_t *reel, size_t length, size_t at, struct header header, enum refusal known, const char *what);

/* SPEC 7.6, as a reader does it with the calls: the tile that was found, of which this is a copy, is filled where it has a flag, a lone one
 * being named twice, and repaired where it has none. Gives what was answered. */
uint64_t restore(const struct found *found, uint8_t *tile);

#endif
