/* Fill (SPEC 5.4): every pair of lines at the smallest sizes, there also with each cell hurt in turn; rows and columns, crossed and side by
 * side, at all sizes. The same of old tiles at slopes that are not allowed. Which pairs are filled is known: all sides are held to it. */

#include <stddef.h>
#include <stdint.h>
#include <string.h>

#include "ask.h"
#include "cases.h"
#include "differences.h"
#include "made.h"

static struct chance chance;
static uint8_t good[LARGEST_TILE], tile[LARGEST_TILE], lent[LARGEST_TILE];

/* What is hurt besides the named lines: nothing, one cell, one line, all; and all again, in a tile of bits. */
enum besides { NOTHING, A_CELL, A_LINE, ALL, ALL_BITS, BESIDES };

static void hurt_besides(size_t p, enum besides besides)
{
    if (besides == A_CELL)
        hurt_cells(&chance, p, tile, 1);
    if (besides == A_LINE)
        hurt_line(&chance, p, tile, some_line(&chance, p), HURT_ANY);
    if (besides == ALL)
        make_garbage(&chance, p, tile, GARBAGE_OF_BYTES);
    if (besides == ALL_BITS)
        make_garbage(&chance, p, tile, GARBAGE_OF_BITS);
}

/* What has to be said of two lines. If nothing else is hurt, the good tile comes back, or there are several. Whatever else is hurt, two
 * rows and two columns are filled, and what cannot be filled is not. */
static void hold_filled(size_t p, size_t l, size_t first, size_t second, enum besides besides, uint64_t said)
{
    int can = may_lose(p, l, first, second), is_two_alike = is_row(first) == is_row(second) && first != second;
    if (besides == NOTHING)
        hold(said == (can ? word_done() : word_refused(DOUBTFUL)) && memcmp(tile, can ? good : lent, tile_length(p)) == 0,
             "p %zu, l %zu: lines %zx and %zx hex are filled otherwise, word %llx", p, l, first, second, (unsigned long long)said);
    if (is_two_alike)
        hold(said == word_done(), "p %zu, l %zu: lines %zx and %zx hex are not filled", p, l, first, second);
    if (!can)
        hold(said != word_done(), "p %zu, l %zu: lines %zx and %zx hex are filled", p, l, first, second);
}

/* Two lines are lost of a good tile, and what stands in their place is any bytes. */
static void fill_two(size_t kind, size_t p, size_t l, size_t first, size_t second, enum besides besides)
{
    memcpy(tile, good, tile_length(p));
    hurt_line(&chance, p, tile, first, HURT_ANY);
    hurt_line(&chance, p, tile, second, HURT_ANY);
    hurt_besides(p, besides);
    memcpy(lent, tile, tile_length(p));
    hold_filled(p, l, first, second, besides, ask_fill(kind, p, l, tile, tile_length(p), first, second));
}

static void fill_each_way(size_t kind, size_t p, size_t l, size_t first, size_t second)
{
    for (int besides = 0; besides < BESIDES; besides++)
        fill_two(kind, p, l, first, second, (enum besides)besides);
}

static void every_pair(size_t kind, size_t p, size_t l)
{
    make_tile(&chance, p, l, good);
    for (size_t first = 0; first < 2 * (p - 1); first++)
        for (size_t second = 0; second < 2 * (p - 1); second++)
            fill_each_way(kind, p, l, nth_line(p, first), nth_line(p, second));
}

/* One cell of a good tile is hurt, each in turn, and nothing is lost: where it stands on a named line the good tile comes back,
 * elsewhere there is another filling or none. */
static void each_cell_hurt(size_t kind, size_t p, size_t l, size_t first, size_t second)
{
    for (size_t k = 0; k < tile_length(p); k++) {
        memcpy(tile, good, tile_length(p));
        tile[k] ^= chance_change(&chance);
        ask_fill(kind, p, l, tile, tile_length(p), first, second);
    }
}

static void every_pair_and_cell(size_t kind, size_t p, size_t l)
{
    make_tile(&chance, p, l, good);
    for (size_t first = 0; first < 2 * (p - 1); first++)
        for (size_t second = 0; second < 2 * (p - 1); second++)
            each_cell_hurt(kind, p, l, nth_line(p, first), nth_line(p, second));
}

/* Pairs with the first, the last and a middle line, crossed and side by side, and such lines alone. */
static void pairs_at_the_edges(size_t kind, size_t p, size_t l)
{
    const size_t last_row = row_name(p - 2), last_column = column_name(p - 2), row = row_name(p / 2), column = column_name(p / 2);
    const size_t pairs[][2] = {
        {row_name(p / 3), last_column}, {column_name(0), last_row}, {row, column},   {row_name(1), row},
        {column, column_name(1)},       {last_row, last_row},       {row, row},      {last_column, last_column},
    };
    make_tile(&chance, p, l, good);
    for (size_t k = 0; k < sizeof pairs / sizeof pairs[0]; k++)
        fill_two(kind, p, l, pairs[k][0], pairs[k][1], NOTHING);
}

static void some_pairs(size_t kind, size_t p, size_t l)
{
    make_tile(&chance, p, l, good);
    size_t row = some_row(&chance, p), column = some_column(&chance, p);
    const size_t pairs[][2] = {
        {row, some_row(&chance, p)},       {column, some_column(&chance, p)}, {row, column},
        {some_column(&chance, p), row},    {row, row},                        {column, column},
        {row_name(p - 2), row_name(0)},    {column_name(0), column_name(p - 2)},
        {row_name(p - 2), column_name(p - 2)},
    };
    for (size_t k = 0; k < sizeof pairs / sizeof pairs[0]; k++) {
        fill_two(kind, p, l, pairs[k][0], pairs[k][1], NOTHING);
        fill_two(kind, p, l, pairs[k][0], pairs[k][1], (enum besides)(1 + chance_below(&chance, BESIDES - 1)));
    }
}

static void many_pairs(size_t kind, size_t p, size_t l)
{
    for (int round = 0; round < 5; round++)
        some_pairs(kind, p, l);
}

void cases_fill(void)
{
    chance = chance_from(3);
    for_small_sizes(11, every_pair);
    for_small_sizes(7, every_pair_and_cell);
    for_small_sizes(SMALL_SIZE, many_pairs);
    for_all_sizes(&chance, some_pairs);
    for (size_t p = size_above(0); p != 0; p = size_above(p))
        pairs_at_the_edges(NEW, p, house_slope(p));
    for_small_old_sizes(11, every_pair);
    for_small_old_sizes(7, every_pair_and_cell);
    for_small_old_sizes(17, some_pairs);
    for_some_old_sizes(&chance, pairs_at_the_edges);
}
