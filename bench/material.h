/* What jobs are made of: memory, pseudo-random bytes, and for each size one text with its good tile. The good tile is the
 * independent implementation's (tests/face/peer.h), so no contender is held to its own answers unless it is that one. */

#ifndef BENCH_MATERIAL_H
#define BENCH_MATERIAL_H

#include <stddef.h>
#include <stdint.h>

/* The house slope of each of the three sizes that are measured, 17, 127 and 257. */
enum { SLOPE = 3 };

/* The next multiple of 64, which is the length of a cache line and of the widest vector. */
size_t rounded_up(size_t length);

/* New memory of zeros, of at least one byte, that begins at a multiple of 64. It is never given back: the program prepares one job and
 * ends. */
void *new_memory(size_t length);

/* Bytes that depend on the seed alone; none of them is zero, so adding them always changes something. */
void put_random(uint8_t *bytes, size_t length, uint64_t seed);

/* A copy that is about to be written over: bytes that no job leaves behind. */
uint8_t *new_waste(size_t length);

/* The pseudo-random text that all jobs of a size share. */
uint8_t *new_text(size_t p);

/* The good tile with that text. */
uint8_t *new_tile(size_t p, const uint8_t *text);

uint8_t *new_copy(const uint8_t *bytes, size_t length);

#endif
