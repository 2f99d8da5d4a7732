/* Rounds and crosses: see doubt.h. */

#include "doubt.h"

#include <string.h>

#include "made.h"

/* Gives each number from 1 to p-1 the number of its round, from 0 on, and tells how many rounds there are. */
static size_t number_rounds(size_t p, size_t l, size_t round_of[LARGEST_SIZE])
{
    size_t rounds = 0;
    uint8_t is_numbered[LARGEST_SIZE] = {0};
    for (size_t first = 1; first < p; first++) {
        if (is_numbered[first])
            continue;
        for (size_t o = first; !is_numbered[o]; o = l * o % p) {
            is_numbered[o] = 1;
            round_of[o] = rounds;
        }
        rounds++;
    }
    return rounds;
}

/* A byte for each round, 0 for that of the added column, and for the others some zeros, but not all. */
static void choose_bytes(struct chance *chance, size_t rounds, size_t added, uint8_t *bytes)
{
    int is_zero = 1;
    while (is_zero) {
        for (size_t round = 0; round < rounds; round++) {
            bytes[round] = round == added || chance_below(chance, 3) == 0 ? 0 : chance_change(chance);
            is_zero = is_zero && bytes[round] == 0;
        }
    }
}

void make_cross(struct chance *chance, size_t p, size_t l, size_t row, size_t column, uint8_t *cross)
{
    size_t round_of[LARGEST_SIZE], rounds = number_rounds(p, l, round_of);
    uint8_t along_row[LARGEST_SIZE];
    choose_bytes(chance, rounds, round_of[p - 1 - column], along_row);
    uint8_t common = along_row[round_of[p - 1 - row]];
    memset(cross, 0, tile_length(p));
    cross[row * (p - 1) + column] = common;
    for (size_t o = 1; o < p; o++) {
        if ((column + o) % p != p - 1)
            cross[row * (p - 1) + (column + o) % p] = along_row[round_of[o]];
        if ((row + o) % p != p - 1)
            cross[(row + o) % p * (p - 1) + column] = along_row[round_of[o]] ^ common;
    }
}

/* Whether the change is one byte in each round about this crossing. */
static int is_part_of_cross(size_t p, size_t l, size_t crossing, const uint8_t change[LARGEST_SIZE])
{
    for (size_t o = 1; o < p; o++)
        if (change[(crossing + o) % p] != change[(crossing + l * o) % p])
            return 0;
    return 1;
}

int is_doubtful(size_t p, size_t l, size_t line, const uint8_t *good, const uint8_t *changed)
{
    uint8_t change[LARGEST_SIZE] = {0};
    size_t count = 0;
    for (size_t n = 0; n < p - 1; n++) {
        size_t place = place_on_line(p, line, n);
        change[n] = good[place] ^ changed[place];
        count += change[n] != 0;
    }
    for (size_t crossing = 0; count >= 2 && crossing < p - 1; crossing++)
        if (is_part_of_cross(p, l, crossing, change))
            return 1;
    return 0;
}

/* How far behind the crossing's diagonal that of a cell is, along a slope. */
static size_t behind_crossing(size_t p, size_t slope, size_t row, size_t column, size_t cell)
{
    size_t cell_row = cell / (p - 1), cell_column = cell % (p - 1);
    return (cell_row + p - row + slope * (cell_column + p - column)) % p;
}

int spares_crossing(size_t p, size_t l, size_t row, size_t column, size_t cell)
{
    return behind_crossing(p, 1, row, column, cell) != 0 && behind_crossing(p, l, row, column, cell) != 0;
}

int still_fills(size_t p, size_t l, size_t row, size_t column, size_t cell)
{
    size_t round_of[LARGEST_SIZE];
    number_rounds(p, l, round_of);
    return spares_crossing(p, l, row, column, cell) &&
           round_of[behind_crossing(p, 1, row, column, cell)] == round_of[behind_crossing(p, l, row, column, cell)];
}
