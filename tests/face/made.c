/* What the cases are made of: see made.h. */

#include "made.h"

#include <string.h>

#include "peer_tile.h"

const size_t far_numbers[FAR_NUMBERS] = {
    SIZE_MAX,
    SIZE_MAX - 1,
    SIZE_MAX - 2,
    SIZE_MAX - 4,
    SIZE_MAX - 256,
    ((size_t)1 << 63) + 5,
    (size_t)1 << 63,
    ((size_t)1 << 63) - 1,
    ((size_t)1 << 32) + 257,
    ((size_t)1 << 32) + 7,
    ((size_t)1 << 32) + 5,
    ((size_t)1 << 32) + 2,
    (size_t)1 << 32,
    ((size_t)1 << 32) - 1,
    (size_t)1 << 31,
    65536 + 257,
    65536 + 5,
    65536 + 2,
    65536,
    65535,
};

size_t nth_wrong_size(size_t p, size_t n)
{
    const size_t sizes[WRONG_SIZES - FAR_NUMBERS] = {0, 1, 2, 3, 4, 6, 9, 25, p - 1, p + 1, 256, 258, 263, 289};
    return n < FAR_NUMBERS ? far_numbers[n] : sizes[n - FAR_NUMBERS];
}

size_t nth_wrong_slope(size_t p, size_t l, size_t n)
{
    const size_t slopes[WRONG_SLOPES - FAR_NUMBERS] = {0, 1, p - 1, p, p + 1, p + l, 2 * p + l, (SIZE_MAX / p - 1) * p + l};
    return n < FAR_NUMBERS ? far_numbers[n] : slopes[n - FAR_NUMBERS];
}

size_t size_above(size_t p)
{
    while (p++ < LARGEST_SIZE)
        if (is_size(p))
            return p;
    return 0;
}

size_t slope_above(size_t p, size_t l)
{
    while (l++ < p)
        if (allows(p, l))
            return l;
    return 0;
}

size_t old_slope_above(size_t p, size_t l)
{
    while (l++ < p - 2)
        if (l >= 2 && !allows(p, l))
            return l;
    return 0;
}

size_t house_slope(size_t p)
{
    return slope_above(p, 0);
}

static size_t largest_slope(size_t p)
{
    size_t slope = p - 2;
    while (!allows(p, slope))
        slope--;
    return slope;
}

size_t some_slope(struct chance *chance, size_t p)
{
    size_t slope = slope_above(p, chance_below(chance, p));
    return slope != 0 ? slope : house_slope(p);
}

size_t some_old_slope(struct chance *chance, size_t p)
{
    size_t slope = old_slope_above(p, chance_below(chance, p));
    return slope != 0 ? slope : old_slope_above(p, 0);
}

void for_small_sizes(size_t largest, with_tile with)
{
    for (size_t p = size_above(0); p <= largest; p = size_above(p))
        for (size_t l = house_slope(p); l != 0; l = slope_above(p, l))
            with(NEW, p, l);
}

void for_small_old_sizes(size_t largest, with_tile with)
{
    for (size_t p = size_above(0); p <= largest; p = size_above(p))
        for (size_t l = old_slope_above(p, 0); l != 0; l = old_slope_above(p, l))
            with(OLD, p, l);
}

void for_all_sizes(struct chance *chance, with_tile with)
{
    for (size_t p = size_above(0); p != 0; p = size_above(p)) {
        with(NEW, p, house_slope(p));
        with(NEW, p, largest_slope(p));
        with(NEW, p, some_slope(chance, p));
    }
}

void for_some_old_sizes(struct chance *chance, with_tile with)
{
    size_t above = 0;
    for (size_t p = size_above(5); p != 0; p = size_above(p)) {
        above += p > SMALL_SIZE;
        if (above % 4 == 0)
            with(OLD, p, some_old_slope(chance, p));
    }
}

void make_text(struct chance *chance, size_t p, enum text_kind filled_with, uint8_t *text)
{
    static const uint8_t byte_of[TEXT_KINDS] = {0x00, 0xFF, 0x01, 0x00};
    if (filled_with == TEXT_OF_ANY)
        chance_bytes(chance, text, text_length(p));
    else
        memset(text, byte_of[filled_with], text_length(p));
}

void mark_text(uint8_t *text, size_t length)
{
    static uint8_t first = 0;
    first++;
    for (size_t k = 0; k < length; k++)
        text[k] = (uint8_t)(first + 7 * k);
}

void make_tile(struct chance *chance, size_t p, size_t l, uint8_t *tile)
{
    static uint8_t text[LARGEST_TEXT];
    make_text(chance, p, TEXT_OF_ANY, text);
    make_good(p, l, text, tile);
}

int has_one_sum(size_t p, size_t l, const uint8_t *tile)
{
    uint8_t sums[2][LARGEST_SIZE] = {{0}};
    for (size_t row = 0; row < p - 1; row++) {
        for (size_t column = 0; column < p - 1; column++) {
            sums[0][(row + column) % p] ^= tile[row * (p - 1) + column];
            sums[1][(row + l * column) % p] ^= tile[row * (p - 1) + column];
        }
    }
    for (size_t t = 0; t < p; t++)
        if (sums[0][t] != sums[0][0] || sums[1][t] != sums[0][0])
            return 0;
    return 1;
}

void make_garbage(struct chance *chance, size_t p, uint8_t *tile, enum garbage garbage)
{
    chance_bytes(chance, tile, tile_length(p));
    if (garbage == GARBAGE_OF_BITS)
        for (size_t k = 0; k < tile_length(p); k++)
            tile[k] &= 1;
}

size_t row_name(size_t row)
{
    return row;
}

size_t column_name(size_t column)
{
    return 0x8000 + column;
}

int is_row(size_t line)
{
    return line < 0x8000;
}

int may_lose(size_t p, size_t l, size_t first, size_t second)
{
    return is_row(first) == is_row(second) || allows(p, l);
}

size_t nth_line(size_t p, size_t n)
{
    return n < p - 1 ? row_name(n) : column_name(n - (p - 1));
}

size_t some_row(struct chance *chance, size_t p)
{
    return row_name(chance_below(chance, p - 1));
}

size_t some_column(struct chance *chance, size_t p)
{
    return column_name(chance_below(chance, p - 1));
}

size_t some_line(struct chance *chance, size_t p)
{
    return nth_line(p, chance_below(chance, 2 * (p - 1)));
}

size_t another_line(struct chance *chance, size_t p, size_t line)
{
    size_t step = 1 + chance_below(chance, p - 2);
    return is_row(line) ? row_name((line + step) % (p - 1)) : column_name((line - column_name(0) + step) % (p - 1));
}

struct pair some_pair(struct chance *chance, size_t p, size_t pair_kind)
{
    size_t row = some_row(chance, p), column = some_column(chance, p);
    const struct pair pairs[PAIR_KINDS] = {{row, another_line(chance, p, row)}, {column, another_line(chance, p, column)},
                                           {row, column},                       {column, row},
                                           {row, row},                          {column, column}};
    return pairs[pair_kind];
}

size_t place_on_line(size_t p, size_t line, size_t n)
{
    return is_row(line) ? line * (p - 1) + n : n * (p - 1) + (line - 0x8000);
}

int is_on(size_t p, size_t line, size_t place)
{
    return line == row_name(place / (p - 1)) || line == column_name(place % (p - 1));
}

size_t other_on_diagonal(struct chance *chance, size_t p, size_t slope, size_t place)
{
    size_t row = place / (p - 1), column = place % (p - 1), other_row, other_column;
    do {
        other_column = (column + 1 + chance_below(chance, p - 2)) % (p - 1);
        other_row = (row + slope * column + (p - slope) * other_column) % p;
    } while (other_row == p - 1);
    return other_row * (p - 1) + other_column;
}

void hurt_line(struct chance *chance, size_t p, uint8_t *tile, size_t line, enum hurt hurt)
{
    uint8_t change = chance_change(chance);
    size_t first = chance_below(chance, p - 1);
    for (size_t n = 0; n < p - 1; n++) {
        uint8_t any = (uint8_t)chance_below(chance, 256);
        if (n == first || hurt == HURT_ALIKE)
            tile[place_on_line(p, line, n)] ^= change;
        else if (hurt == HURT_ANY)
            tile[place_on_line(p, line, n)] ^= any;
    }
}

/* A cell is taken with the odds of those that are still to be taken among those that are left, so that any choice is as likely. */
size_t hurt_some_of_line(struct chance *chance, size_t p, uint8_t *tile, size_t line, size_t count, int is_alike)
{
    uint8_t change = chance_change(chance);
    size_t place = 0;
    for (size_t n = 0; n < p - 1; n++) {
        if (chance_below(chance, p - 1 - n) < count) {
            place = place_on_line(p, line, n);
            tile[place] ^= is_alike ? change : chance_change(chance);
            count--;
        }
    }
    return place;
}

void hurt_cells(struct chance *chance, size_t p, uint8_t *tile, size_t count)
{
    for (size_t k = 0; k < count; k++)
        tile[chance_below(chance, tile_length(p))] ^= chance_change(chance);
}
