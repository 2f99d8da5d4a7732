/* What is known of a row and a column at a slope from 2 to p-2 that is not allowed, without solving anything (SPEC 4.5, 5.3 and 5.4). The
 * cases hold the library and the peer to it; the peer itself knows nothing of this.
 *
 * A round is what one passes who goes from a number o, from 1 to p-1, to l * o, then to l * l * o and so on, modulo p, until o comes again.
 * At an allowed slope there is one round; at any other there are several, of equal length, which is three or more since l is neither 1 nor
 * p-1.
 *
 * A cross is a good tile that is 0 outside one row and one column. Let x(o) be its byte o cells behind the crossing along the row, and y(o)
 * the one o cells below it along the column, modulo p, so that each meets an added zero once (SPEC 3.3). Of the diagonals of slope 1, the
 * one that is o behind the crossing's has x(o) and y(o); of those of slope l, the one that is l * o behind has x(o) and y(l * o); the two
 * through the crossing have its byte alone. If b is the common byte, then b stands at the crossing, y(o) is x(o) XOR b, and x(l * o) is
 * x(o): in each round x is one byte, and so is y. In the round of the added column x is 0, and in that of the added row y is. All else can
 * be chosen freely. */

#ifndef DOUBT_H
#define DOUBT_H

#include <stddef.h>
#include <stdint.h>

#include "chance.h"

/* Makes a cross that is not 0 throughout. With any good tile, the XOR of both is a second one that agrees with it outside the two lines. */
void make_cross(struct chance *chance, size_t p, size_t l, size_t row, size_t column, uint8_t *cross);

/* Whether a good tile, changed within one line, is explained by a line that crosses this one too, and by another good tile: the change is
 * then a part of a cross, and so is one byte in each round about some crossing; and it has two bytes or more. For slopes from 2 to p-2. */
int is_doubtful(size_t p, size_t l, size_t line, const uint8_t *good, const uint8_t *changed);

/* Whether a row and a column have fillings though one cell on neither of them was changed, in a tile that is good but for these two lines.
 * They have if both diagonals through the cell meet the lines in one round, and neither goes through the crossing. */
int still_fills(size_t p, size_t l, size_t row, size_t column, size_t cell);

/* The same, of the crossing alone: whether neither of the cell's diagonals goes through it. */
int spares_crossing(size_t p, size_t l, size_t row, size_t column, size_t cell);

#endif
