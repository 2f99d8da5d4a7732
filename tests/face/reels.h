/* Records and reels to be lent, made byte by byte as FORMATS has them. */

#ifndef REELS_H
#define REELS_H

#include <stddef.h>
#include <stdint.h>

#include "chance.h"

/* The mark of each record. */
enum { NEW_MARK = 0xD55D, OLD_MARK = 0x5DD5, FLAGGED_MARK = 0xD55E };

/* The length of a header, without flags and with them. */
enum { HEADER = 10, FLAGGED_HEADER = 14 };

/* The mark of a record by its number (SPEC 11.6); and the length of a header by its mark, 10 also where it is none of the three. */
size_t mark_of(size_t which);
size_t header_length(size_t mark);

/* What a header says. The flags are laid where the mark is that of a flagged record, and otherwise left out. */
struct header {
    size_t mark, p, l;
    uint32_t number;
    size_t first, second;
};

/* A header whose flags are none. */
struct header without_flags(size_t mark, size_t p, size_t l, uint32_t number);

/* Any header of a mark and a size: with a slope that the kind takes, any number, and flags where the record has them. */
struct header some_header(struct chance *chance, size_t mark, size_t p);

void put_header(uint8_t *bytes, struct header header);

/* None or any line of a tile of size p. */
size_t some_flag(struct chance *chance, size_t p);

/* The n-th of the flags on both sides of each edge. First come those that a record of size p can carry, none among them; then those that it
 * cannot and that two bytes can say, as on a reel; and last larger ones, of which some are a line or FFFF hex in their low bits. */
enum { RIGHT_FLAGS = 7, SHORT_FLAGS = RIGHT_FLAGS + 12, EDGE_FLAGS = SHORT_FLAGS + 16 };
size_t nth_edge_flag(size_t p, size_t n);

/* Any of them that cannot be carried, of the first so many. */
size_t some_wrong_flag(struct chance *chance, size_t p, size_t count);

enum { LONGEST_REEL = 300000 };

struct reel {
    size_t length;
    uint8_t bytes[LONGEST_REEL];
};

/* Adds a record with this header and a tile of any bytes. */
void add_record(struct reel *reel, struct chance *chance, struct header header);

/* A reel with records of the given sizes, the three sorts mixed. */
void make_reel(struct reel *reel, struct chance *chance, const size_t *sizes, size_t count);

#endif
