/* What the cases are made of: sizes, slopes and kinds to go through, texts, good tiles, and damage. */

#ifndef MADE_H
#define MADE_H

#include <stddef.h>
#include <stdint.h>

#include "chance.h"
#include "peer_rules.h"

/* Up to this size every allowed slope is tried. */
enum { SMALL_SIZE = 31 };

/* Numbers far above every size, slope, line and length, down from the largest; some of them are 2, 5, 7 or 257 in their low bits. */
enum { FAR_NUMBERS = 20 };
extern const size_t far_numbers[FAR_NUMBERS];

/* The n-th number that is no size, p being one; and the n-th slope that no tile of size p has, of either kind, l being one that it has. All
 * far numbers are among them. */
enum { WRONG_SIZES = 14 + FAR_NUMBERS, WRONG_SLOPES = 8 + FAR_NUMBERS };
size_t nth_wrong_size(size_t p, size_t n);
size_t nth_wrong_slope(size_t p, size_t l, size_t n);

/* The smallest size above p, or 0 where there is none. */
size_t size_above(size_t p);

/* The smallest slope above l that the size p allows, or 0 where there is none; and the smallest one, up to p-2, that it does not allow. */
size_t slope_above(size_t p, size_t l);
size_t old_slope_above(size_t p, size_t l);

size_t house_slope(size_t p);
size_t some_slope(struct chance *chance, size_t p);

/* A slope that is not allowed at p, for a size above 5, which has none. */
size_t some_old_slope(struct chance *chance, size_t p);

/* What is done with a kind, a size and a slope that the kind takes there. */
typedef void (*with_tile)(size_t kind, size_t p, size_t l);

/* Does the same with every size up to a largest, which is below 257: as of a new tile, with each slope that the size allows; and as of an
 * old tile, with each slope from 2 to p-2 that it does not allow. (Old tiles with the other slopes come with the new ones: see ask.h.) */
void for_small_sizes(size_t largest, with_tile with);
void for_small_old_sizes(size_t largest, with_tile with);

/* Does the same with every size, as of a new tile, with the smallest slope that it allows, the largest, and any. */
void for_all_sizes(struct chance *chance, with_tile with);

/* Does the same with the sizes from 7 to 31 and every fourth above, to 257, as of an old tile, with some slope that is not allowed. */
void for_some_old_sizes(struct chance *chance, with_tile with);

/* The texts that are tried: each byte 0, each FF hex, each 1, any. */
enum text_kind { TEXT_OF_ZEROS, TEXT_OF_FF, TEXT_OF_ONES, TEXT_OF_ANY, TEXT_KINDS };

void make_text(struct chance *chance, size_t p, enum text_kind filled_with, uint8_t *text);

/* Marks a text that is lent to be recovered, so that it shows whether it is left: no two neighbours are alike, nor are two texts that are
 * marked one after the other. */
void mark_text(uint8_t *text, size_t length);

/* The good tile of a text of any bytes. */
void make_tile(struct chance *chance, size_t p, size_t l, uint8_t *tile);

/* Whether all the sums of a tile are one byte: SPEC 4.3, taken at its word. */
int has_one_sum(size_t p, size_t l, const uint8_t *tile);

/* A tile of any bytes, and one of which each byte is 0 or 1: of such many can be repaired or filled, though nobody wrote them. */
enum garbage { GARBAGE_OF_BYTES, GARBAGE_OF_BITS, GARBAGES };

void make_garbage(struct chance *chance, size_t p, uint8_t *tile, enum garbage garbage);

/* A line as cf_fill and cf_judge are told it. */
size_t row_name(size_t row);
size_t column_name(size_t column);

/* The n-th of the lines of a tile of size p: its rows, then its columns. */
size_t nth_line(size_t p, size_t n);

int is_row(size_t line);

/* Whether two lines of a good tile may be lost (SPEC 4.6), so that it comes back when they are filled (SPEC 5.4): not if they are a row with
 * a column and the slope, which is from 2 to p-2, is not allowed. */
int may_lose(size_t p, size_t l, size_t first, size_t second);

/* A row, a column, or either, of a tile of size p. */
size_t some_row(struct chance *chance, size_t p);
size_t some_column(struct chance *chance, size_t p);
size_t some_line(struct chance *chance, size_t p);

/* Any other line of the same kind. */
size_t another_line(struct chance *chance, size_t p, size_t line);

/* Any pair of a kind: two rows, two columns, a row with a column and the other way about, a row that is named twice, and a column. */
enum { PAIR_KINDS = 6 };

struct pair {
    size_t first, second;
};

struct pair some_pair(struct chance *chance, size_t p, size_t pair_kind);

/* Where the n-th cell of a line is, in a tile of size p; and whether a line has the cell at a place. */
size_t place_on_line(size_t p, size_t line, size_t n);
int is_on(size_t p, size_t line, size_t place);

/* The place of another cell, in another row and another column, on the same diagonal of a slope as the cell at this place (SPEC 4.1). Both
 * changed alike, they leave all sums of that slope as they were. */
size_t other_on_diagonal(struct chance *chance, size_t p, size_t slope, size_t place);

/* Changes one cell of a line, every cell by the same byte, or the cells by any bytes, at least one of them. */
enum hurt { HURT_ONE, HURT_ALIKE, HURT_ANY, HURTS };

void hurt_line(struct chance *chance, size_t p, uint8_t *tile, size_t line, enum hurt hurt);

/* Changes exactly so many cells of a line, any of them: all by the same byte, or each by one of its own. Gives the place of the last. */
size_t hurt_some_of_line(struct chance *chance, size_t p, uint8_t *tile, size_t line, size_t count, int is_alike);

/* Changes some cells, which need not be different ones. */
void hurt_cells(struct chance *chance, size_t p, uint8_t *tile, size_t count);

#endif
