/* What the peer's files share: sizes and slopes (SPEC 2), lengths and lines (SPEC 3), the numbers for no (SPEC 9), and the word in which a
 * call answers (SPEC 11.1). */

#ifndef PEER_RULES_H
#define PEER_RULES_H

#include <stddef.h>
#include <stdint.h>

/* SPEC 2.1, 3.1 and 3.2. */
enum { LARGEST_SIZE = 257, LARGEST_TILE = 256 * 256, LARGEST_TEXT = 256 * 254 };

/* SPEC 9.1. ACCEPTED is the judgement that none of them is to be said. */
enum refusal {
    ACCEPTED,
    BAD_SIZE,
    BAD_SLOPE,
    BAD_LENGTH,
    BAD_PLACE,
    DAMAGED,
    BAD_MARK,
    CUT_SHORT,
    DOUBTFUL,
    TOO_SMALL,
    NOT_GOOD,
    DIFFERS_ELSEWHERE
};

/* SPEC 11.5: the number of each kind (SPEC 2.5). Every other number counts as new. */
enum { NEW = 0, OLD = 1 };

/* SPEC 11.6: which record is to be laid. Those without flags have the number of their tile's kind; this is the third. Every other number
 * counts as that of a new tile without flags. */
enum { FLAGGED = 2, SORTS = 3 };

/* SPEC 3.5: the flag that tells of no line. */
enum { NO_FLAG = 0xFFFF };

/* SPEC 2.1. */
int is_size(size_t p);

/* SPEC 2.2, for a size p. */
int allows(size_t p, size_t l);

/* SPEC 3.1 and 3.2, for a size p. */
size_t tile_length(size_t p);
size_t text_length(size_t p);

/* SPEC 3.4, for a size p and a line that is named by a number (SPEC 3.5). */
int has_line(size_t p, size_t name);

/* SPEC 2.4, a kind, p and l judged together: 1 or 2. */
enum refusal judge_slope(size_t kind, size_t p, size_t l);

/* SPEC 9.2, for a call that is lent a tile: 1, 2 or 3. */
enum refusal judge_tile(size_t kind, size_t p, size_t l, size_t tile_len);

/* SPEC 11.1: kind * 2^32 + first * 2^16 + second. The second is 0 in all of them but the cell's. */
uint64_t word_done(void);
uint64_t word_slope(size_t slope);
uint64_t word_column(size_t column);
uint64_t word_row(size_t row);
uint64_t word_cell(size_t row, size_t column);
uint64_t word_refused(enum refusal refusal);
uint64_t word_end(void);

#endif
