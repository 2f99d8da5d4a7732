/* Elimination over bits, from SPEC 5.8: see peer_system.h. */

#include "peer_system.h"

#include <string.h>

/* The unknowns are the cells of two strips, and the common byte. */
enum { MOST_UNKNOWNS = 2 * (LARGEST_SIZE - 1) + 1, MOST_WORDS = (MOST_UNKNOWNS + 63) / 64, MOST_EQUATIONS = 2 * LARGEST_SIZE };

struct equation {
    uint64_t coefficients[MOST_WORDS]; /* bit k of the whole belongs to unknown k */
    uint8_t right_side;
};

/* The unknowns are the cells of the first strip in their order, those of the second that the first does not have, and the common byte. */
struct system {
    const struct given_tile *tile;
    size_t strips;
    struct strip strip[2];
    size_t shared; /* which cell of the second strip is on the first too, or p-1 where none is */
    size_t unknowns;
    size_t words; /* how many words of the coefficients are in use */
    uint8_t is_taken[MOST_EQUATIONS];
    struct equation equation[MOST_EQUATIONS];
    const struct equation *leading[MOST_UNKNOWNS]; /* the equation whose first unknown is this one, or none */
};

/* SPEC 4.1 and 4.2: a cell is on the lines row + column and row + l * column. The remainder modulo p is taken last. */
static void find_right_sides(struct given_tile *tile)
{
    size_t p = tile->p;
    uint8_t slope_1[2 * LARGEST_SIZE], slope_l[2 * LARGEST_SIZE];
    memset(slope_1, 0, 2 * p);
    memset(slope_l, 0, 2 * p);
    for (size_t row = 0; row < p - 1; row++) {
        for (size_t column = 0; column < p - 1; column++) {
            uint8_t byte = tile->bytes[row * (p - 1) + column];
            slope_1[row + column] ^= byte;
            slope_l[row + tile->l_times[column]] ^= byte;
        }
    }
    for (size_t line = 0; line < p; line++) {
        tile->right_side[line] = slope_1[line] ^ slope_1[line + p];
        tile->right_side[p + line] = slope_l[line] ^ slope_l[line + p];
    }
}

/* Any order would do. Lines that do not agree with the first one come first, for where a tile is hurt a contradiction shows there. */
static void find_order(struct given_tile *tile)
{
    size_t count = 0;
    for (int agrees = 0; agrees < 2; agrees++)
        for (size_t line = 0; line < 2 * tile->p; line++)
            if ((tile->right_side[line] == tile->right_side[0]) == agrees)
                tile->in_order[count++] = line;
}

void give_tile(struct given_tile *tile, size_t p, size_t l, const uint8_t *bytes)
{
    tile->p = p;
    tile->bytes = bytes;
    for (size_t n = 0; n < p; n++) {
        tile->l_times[n] = l * n % p;
        tile->l_divides[tile->l_times[n]] = n;
    }
    find_right_sides(tile);
    find_order(tile);
}

/* Sums and differences, modulo p, of numbers below p. */
static size_t sum(size_t p, size_t a, size_t b)
{
    return a + b < p ? a + b : a + b - p;
}

static size_t difference(size_t p, size_t a, size_t b)
{
    return a < b ? a + p - b : a - b;
}

/* SPEC 3.1: where the n-th cell of a strip is. */
static size_t row_of(struct strip strip, size_t n)
{
    return strip.is_column ? n : strip.number;
}

static size_t column_of(struct strip strip, size_t n)
{
    return strip.is_column ? strip.number : n;
}

static size_t place_of(const struct given_tile *tile, struct strip strip, size_t n)
{
    return row_of(strip, n) * (tile->p - 1) + column_of(strip, n);
}

/* SPEC 4.1: the two lines through the n-th cell of a strip, by the numbers of their equations. */
static size_t slope_1_line(const struct given_tile *tile, struct strip strip, size_t n)
{
    return sum(tile->p, row_of(strip, n), column_of(strip, n));
}

static size_t slope_l_line(const struct given_tile *tile, struct strip strip, size_t n)
{
    return tile->p + sum(tile->p, row_of(strip, n), tile->l_times[column_of(strip, n)]);
}

/* SPEC 4.1: which cell of a strip is on the line of an equation. It is p-1 where only the added row or column (SPEC 3.3) would have it. */
static size_t cell_on_line(const struct given_tile *tile, struct strip strip, size_t equation)
{
    size_t p = tile->p;
    if (equation < p)
        return difference(p, equation, strip.number);
    if (strip.is_column)
        return difference(p, equation - p, tile->l_times[strip.number]);
    return tile->l_divides[difference(p, equation - p, strip.number)];
}

/* SPEC 5.4: one line is told by naming it twice. */
static int is_same(struct strip first, struct strip second)
{
    return first.is_column == second.is_column && first.number == second.number;
}

static void set_up(struct system *system, const struct given_tile *tile, const struct strip *strips, size_t count)
{
    system->tile = tile;
    system->strips = count == 2 && is_same(strips[0], strips[1]) ? 1 : count;
    for (size_t s = 0; s < system->strips; s++)
        system->strip[s] = strips[s];
    int is_crossed = system->strips == 2 && strips[0].is_column != strips[1].is_column;
    system->shared = is_crossed ? strips[0].number : tile->p - 1;
    system->unknowns = system->strips * (tile->p - 1) - (is_crossed ? 1 : 0) + 1;
    system->words = (system->unknowns + 63) / 64;
    memset(system->is_taken, 0, 2 * tile->p);
    for (size_t k = 0; k < system->unknowns; k++)
        system->leading[k] = NULL;
}

/* The number of the unknown that the n-th cell of a strip is. The shared cell is one of the first strip. */
static size_t unknown_of(const struct system *system, size_t s, size_t n)
{
    return s == 0 ? n : system->tile->p - 1 + n - (n > system->shared ? 1 : 0);
}

static void take_in(struct equation *equation, size_t unknown)
{
    equation->coefficients[unknown / 64] |= (uint64_t)1 << unknown % 64;
}

/* The equation of a line, from SPEC 5.8: an unknown cell has a coefficient, and its byte no longer counts. The common byte is the last
 * unknown, and stands in each. */
static void write_down(const struct system *system, struct equation *equation, size_t line)
{
    for (size_t word = 0; word < system->words; word++)
        equation->coefficients[word] = 0;
    take_in(equation, system->unknowns - 1);
    equation->right_side = system->tile->right_side[line];
    for (size_t s = 0; s < system->strips; s++) {
        size_t n = cell_on_line(system->tile, system->strip[s], line);
        if (n == system->tile->p - 1 || (s == 1 && n == system->shared))
            continue;
        take_in(equation, unknown_of(system, s, n));
        equation->right_side ^= system->tile->bytes[place_of(system->tile, system->strip[s], n)];
    }
}

/* The first unknown of an equation, which has none in the words before that one, or the number of unknowns where it has none at all. */
static size_t first_unknown(const struct system *system, const struct equation *equation, size_t word)
{
    for (; word < system->words; word++)
        if (equation->coefficients[word] != 0)
            return word * 64 + (size_t)__builtin_ctzll(equation->coefficients[word]);
    return system->unknowns;
}

/* Takes from an equation, one by one, the first unknowns that an earlier equation begins with. Gives 0 if it ends as a contradiction: no
 * unknown is left, and the right side is not zero. */
static int reduce(struct system *system, struct equation *equation)
{
    size_t first = first_unknown(system, equation, 0);
    while (first < system->unknowns) {
        const struct equation *leading = system->leading[first];
        if (leading == NULL) {
            system->leading[first] = equation;
            return 1;
        }
        for (size_t word = first / 64; word < system->words; word++)
            equation->coefficients[word] ^= leading->coefficients[word];
        equation->right_side ^= leading->right_side;
        first = first_unknown(system, equation, first / 64);
    }
    return equation->right_side == 0;
}

/* Takes the equation of a line to those that are there, unless it is there already. Gives 0 at a contradiction. */
static int take(struct system *system, size_t line)
{
    if (system->is_taken[line])
        return 1;
    system->is_taken[line] = 1;
    write_down(system, &system->equation[line], line);
    return reduce(system, &system->equation[line]);
}

/* The other line through the cell that the first strip has on a line, or the same line where the strip has none there. */
static size_t crossing_line(const struct system *system, size_t line)
{
    const struct given_tile *tile = system->tile;
    size_t n = system->strips == 0 ? tile->p - 1 : cell_on_line(tile, system->strip[0], line);
    if (n == tile->p - 1)
        return line;
    return line < tile->p ? slope_l_line(tile, system->strip[0], n) : slope_1_line(tile, system->strip[0], n);
}

/* Takes all equations. Two that share an unknown follow each other, so that few unknowns have to be taken from the second. */
static int take_all(struct system *system)
{
    for (size_t k = 0; k < 2 * system->tile->p; k++) {
        size_t line = system->tile->in_order[k];
        if (!take(system, line) || !take(system, crossing_line(system, line)))
            return 0;
    }
    return 1;
}

/* Whether an unknown is left free, when all equations are taken: none of them begins with it, and so it may be any byte. */
static int leaves_a_choice(const struct system *system)
{
    for (size_t unknown = 0; unknown < system->unknowns; unknown++)
        if (system->leading[unknown] == NULL)
            return 1;
    return 0;
}

/* The byte of an unknown, when those of all later unknowns are known. */
static uint8_t substituted(const struct system *system, const uint8_t *byte, size_t unknown)
{
    const struct equation *equation = system->leading[unknown];
    uint8_t value = equation->right_side;
    for (size_t word = unknown / 64; word < system->words; word++) {
        for (uint64_t left = equation->coefficients[word]; left != 0; left &= left - 1) {
            size_t later = word * 64 + (size_t)__builtin_ctzll(left);
            if (later != unknown)
                value ^= byte[later];
        }
    }
    return value;
}

/* SPEC 5.8: with an unknown that is left free there are several solutions, and no two of them have the same cells. */
enum solutions solve(const struct given_tile *tile, const struct strip *strips, size_t count, uint8_t *copy)
{
    static struct system system;
    uint8_t byte[MOST_UNKNOWNS];
    set_up(&system, tile, strips, count);
    if (!take_all(&system))
        return NO_SOLUTION;
    if (leaves_a_choice(&system))
        return SEVERAL_SOLUTIONS;
    for (size_t unknown = system.unknowns; unknown-- > 0;)
        byte[unknown] = substituted(&system, byte, unknown);
    for (size_t s = 0; s < system.strips; s++)
        for (size_t n = 0; n < tile->p - 1; n++)
            if (s == 0 || n != system.shared)
                copy[place_of(tile, system.strip[s], n)] = byte[unknown_of(&system, s, n)];
    return ONE_SOLUTION;
}
