/* Judge (SPEC 5.5), by what it is told: sizes, slopes, lengths and lines on both sides of their edges and at the largest numbers, with
 * tiles that would be accepted and with such that would not. Every set of the faults that a call can have shows the order of the refusals
 * (SPEC 9.2). A length is always that of bytes that are really there. */

#include <stddef.h>
#include <stdint.h>
#include <string.h>

#include "cases.h"
#include "judged.h"
#include "made.h"

/* A tile may be lent twice as long as the longest. */
enum { LONGEST = 2 * LARGEST_TILE };

static struct chance chance;

/* The tile that was printed, the scan of it, and the restored tile. */
static uint8_t good[LARGEST_TILE], scan[LONGEST], restored[LONGEST];

/* What is wrong with the tiles: nothing, so that the restored one is accepted; a cell elsewhere in which they differ; a byte that the
 * restored one has on the first line, so that it is not good; or both. */
enum state { ACCEPTABLE, DIFFERS, SPOILT, SPOILT_AND_DIFFERS, STATES };

static void make_state(size_t p, struct pair hurt, enum state state)
{
    size_t place;
    memcpy(restored, good, tile_length(p));
    memcpy(scan, good, tile_length(p));
    hurt_line(&chance, p, scan, hurt.first, HURT_ANY);
    hurt_line(&chance, p, scan, hurt.second, HURT_ANY);
    if (state == SPOILT || state == SPOILT_AND_DIFFERS)
        restored[place_on_line(p, hurt.first, chance_below(&chance, p - 1))] ^= chance_change(&chance);
    do
        place = chance_below(&chance, tile_length(p));
    while (is_on(p, hurt.first, place) || is_on(p, hurt.second, place));
    if (state == DIFFERS || state == SPOILT_AND_DIFFERS)
        scan[place] ^= chance_change(&chance);
}

/* The n-th length that no tile of size p has; and line that it does not have, all far numbers among them. */
enum { WRONG_LENGTHS = 7, WRONG_LINES = 11 + FAR_NUMBERS };

static size_t wrong_length(size_t p, size_t n)
{
    const size_t lengths[WRONG_LENGTHS] = {0, 1, text_length(p), tile_length(p) - 1, tile_length(p) + 1, p * p, 2 * tile_length(p)};
    return lengths[n];
}

static size_t wrong_line(size_t p, size_t n)
{
    const size_t lines[WRONG_LINES - FAR_NUMBERS] = {
        row_name(p - 1),     row_name(p), row_name(0x7FFE), row_name(0x7FFF), column_name(p - 1),          column_name(p),
        column_name(0x7FFE), 0x10000,     0x10001,          0x18000,          ((size_t)1 << 32) + 0x8000,
    };
    return n < FAR_NUMBERS ? far_numbers[n] : lines[n - FAR_NUMBERS];
}

/* The first and the last row and column, which the tile has, each with each. */
static void lines_that_there_are(size_t kind, size_t p, size_t l)
{
    const size_t lines[] = {row_name(0), row_name(p - 2), column_name(0), column_name(p - 2)};
    (void)kind;
    make_tile(&chance, p, l, good);
    for (size_t k = 0; k < 16; k++) {
        struct pair pair = {lines[k / 4], lines[k % 4]};
        make_state(p, pair, ACCEPTABLE);
        judge(told_of(p, l, pair.first, pair.second), scan, restored, ACCEPTED, "lines at the edges");
    }
}

/* Lines that the tile does not have, as the first, as the second, and as both: 4, whatever the tiles are. */
static void lines_that_there_are_not(size_t kind, size_t p, size_t l)
{
    (void)kind;
    make_tile(&chance, p, l, good);
    for (size_t n = 0; n < WRONG_LINES; n++) {
        size_t wrong = wrong_line(p, n), another = wrong_line(p, chance_below(&chance, WRONG_LINES));
        struct pair pair = some_pair(&chance, p, n % PAIR_KINDS);
        make_state(p, pair, (enum state)(n % STATES));
        judge(told_of(p, l, wrong, pair.second), scan, restored, BAD_PLACE, "the first line is none of the tile's");
        judge(told_of(p, l, pair.first, wrong), scan, restored, BAD_PLACE, "the second line is none of the tile's");
        judge(told_of(p, l, wrong, another), scan, restored, BAD_PLACE, "neither line is one of the tile's");
    }
}

/* Each length with each, from nothing to one byte too much: 3 unless both are right, and 3 before 4. */
static void each_length_with_each(size_t kind, size_t p, size_t l)
{
    const struct pair pair = {row_name(1), column_name(2)};
    (void)kind;
    make_tile(&chance, p, l, good);
    make_state(p, pair, ACCEPTABLE);
    for (size_t scan_len = 0; scan_len <= tile_length(p) + 1; scan_len++) {
        for (size_t restored_len = 0; restored_len <= tile_length(p) + 1; restored_len++) {
            int are_right = scan_len == tile_length(p) && restored_len == tile_length(p);
            struct told told = {p, l, scan_len, restored_len, pair.first, pair.second};
            judge(told, scan, restored, are_right ? ACCEPTED : BAD_LENGTH, "two lengths");
            told.second = column_name(p - 1);
            judge(told, scan, restored, are_right ? BAD_PLACE : BAD_LENGTH, "two lengths, and a line that there is not");
        }
    }
}

/* A wrong length of the scan, of the restored tile, and of both. */
static void wrong_lengths(size_t kind, size_t p, size_t l)
{
    (void)kind;
    make_tile(&chance, p, l, good);
    for (size_t n = 0; n < WRONG_LENGTHS; n++) {
        size_t right = tile_length(p), wrong = wrong_length(p, n);
        struct pair pair = some_pair(&chance, p, n % PAIR_KINDS);
        struct told of_scan = {p, l, wrong, right, pair.first, pair.second}, of_restored = {p, l, right, wrong, pair.first, pair.second},
                    of_both = {p, l, wrong, wrong, pair.first, pair.second};
        make_state(p, pair, (enum state)(n % STATES));
        judge(of_scan, scan, restored, BAD_LENGTH, "the scan has a wrong length");
        judge(of_restored, scan, restored, BAD_LENGTH, "the restored tile has a wrong length");
        judge(of_both, scan, restored, BAD_LENGTH, "both tiles have a wrong length");
    }
}

/* Slopes of neither kind, with tiles that are good at an allowed one; and 2 before 3. */
static void wrong_slopes(size_t kind, size_t p, size_t l)
{
    (void)kind;
    make_tile(&chance, p, l, good);
    for (size_t n = 0; n < WRONG_SLOPES; n++) {
        struct pair pair = some_pair(&chance, p, n % PAIR_KINDS);
        struct told told = told_of(p, nth_wrong_slope(p, l, n), pair.first, pair.second);
        make_state(p, pair, (enum state)(n % STATES));
        judge(told, scan, restored, BAD_SLOPE, "a wrong slope");
        told.restored_len = wrong_length(p, n % WRONG_LENGTHS);
        judge(told, scan, restored, BAD_SLOPE, "a wrong slope and a wrong length");
    }
}

/* Slopes that old tiles alone take, whatever the tiles are: good at this very slope or not, zeros, which are good at every slope, and
 * garbage. 2 before 3 and 4. */
static void old_slopes(size_t kind, size_t p, size_t l)
{
    (void)kind;
    make_tile(&chance, p, l, good);
    for (size_t n = 0; n < PAIR_KINDS; n++) {
        struct pair pair = some_pair(&chance, p, n);
        struct told told = told_of(p, l, pair.first, pair.second);
        make_state(p, pair, (enum state)(n % STATES));
        judge(told, scan, restored, BAD_SLOPE, "an old slope");
        judge(told, scan, good, BAD_SLOPE, "an old slope, and the original");
        told.first = wrong_line(p, chance_below(&chance, WRONG_LINES));
        judge(told, scan, good, BAD_SLOPE, "an old slope, and a wrong line");
        told.scan_len = wrong_length(p, n);
        judge(told, scan, restored, BAD_SLOPE, "an old slope, a wrong line and a wrong length");
    }
    memset(scan, 0, tile_length(p));
    judge(told_of(p, l, row_name(0), column_name(0)), scan, scan, BAD_SLOPE, "an old slope, and zeros");
    make_garbage(&chance, p, scan, GARBAGE_OF_BYTES);
    judge(told_of(p, l, row_name(0), column_name(0)), scan, scan, BAD_SLOPE, "an old slope, and garbage");
}

/* Numbers that are no size, with all else right for one; and 1 before 2 and 3. */
static void wrong_sizes(size_t kind, size_t p, size_t l)
{
    (void)kind;
    make_tile(&chance, p, l, good);
    for (size_t n = 0; n < WRONG_SIZES; n++) {
        struct pair pair = some_pair(&chance, p, n % PAIR_KINDS);
        struct told told = told_of(p, l, pair.first, pair.second);
        make_state(p, pair, (enum state)(n % STATES));
        told.p = nth_wrong_size(p, n);
        judge(told, scan, restored, BAD_SIZE, "a wrong size");
        told.l = nth_wrong_slope(p, l, n % WRONG_SLOPES);
        judge(told, scan, restored, BAD_SIZE, "a wrong size and a wrong slope");
        told.scan_len = wrong_length(p, n % WRONG_LENGTHS);
        judge(told, scan, restored, BAD_SIZE, "a wrong size, a wrong slope and a wrong length");
    }
}

/* The faults that can be put in, one by one or together. */
enum fault {
    WRONG_SIZE = 1,
    WRONG_SLOPE = 2,
    WRONG_SCAN = 4,
    WRONG_RESTORED = 8,
    WRONG_FIRST = 16,
    WRONG_SECOND = 32,
    IS_NOT_GOOD = 64,
    IS_ELSEWHERE = 128,
    ALL_FAULTS = 255
};

/* SPEC 9.2: which of them is told. */
static enum refusal told_first(unsigned faults)
{
    if (faults & WRONG_SIZE)
        return BAD_SIZE;
    if (faults & WRONG_SLOPE)
        return BAD_SLOPE;
    if (faults & (WRONG_SCAN | WRONG_RESTORED))
        return BAD_LENGTH;
    if (faults & (WRONG_FIRST | WRONG_SECOND))
        return BAD_PLACE;
    if (faults & IS_NOT_GOOD)
        return NOT_GOOD;
    return faults & IS_ELSEWHERE ? DIFFERS_ELSEWHERE : ACCEPTED;
}

static enum state state_of(unsigned faults)
{
    if (faults & IS_NOT_GOOD)
        return faults & IS_ELSEWHERE ? SPOILT_AND_DIFFERS : SPOILT;
    return faults & IS_ELSEWHERE ? DIFFERS : ACCEPTABLE;
}

/* The wrong size is last, since the others lie beside what is right for the size. */
static void put_faults(struct told *told, unsigned faults)
{
    if (faults & WRONG_SLOPE)
        told->l = nth_wrong_slope(told->p, told->l, chance_below(&chance, WRONG_SLOPES));
    if (faults & WRONG_SCAN)
        told->scan_len = wrong_length(told->p, chance_below(&chance, WRONG_LENGTHS));
    if (faults & WRONG_RESTORED)
        told->restored_len = wrong_length(told->p, chance_below(&chance, WRONG_LENGTHS));
    if (faults & WRONG_FIRST)
        told->first = wrong_line(told->p, chance_below(&chance, WRONG_LINES));
    if (faults & WRONG_SECOND)
        told->second = wrong_line(told->p, chance_below(&chance, WRONG_LINES));
    if (faults & WRONG_SIZE)
        told->p = nth_wrong_size(told->p, chance_below(&chance, WRONG_SIZES));
}

static void judge_with_faults(size_t p, size_t l, unsigned faults)
{
    struct pair pair = some_pair(&chance, p, chance_below(&chance, PAIR_KINDS));
    struct told told = told_of(p, l, pair.first, pair.second);
    make_state(p, pair, state_of(faults));
    put_faults(&told, faults);
    judge(told, scan, restored, told_first(faults), "a set of faults");
}

static void every_set_of_faults(size_t kind, size_t p, size_t l)
{
    (void)kind;
    make_tile(&chance, p, l, good);
    for (unsigned faults = 0; faults <= ALL_FAULTS; faults++)
        judge_with_faults(p, l, faults);
}

/* No fault, each alone, and each with the next: where every set would take too long. */
static void some_sets_of_faults(size_t kind, size_t p, size_t l)
{
    (void)kind;
    make_tile(&chance, p, l, good);
    judge_with_faults(p, l, 0);
    for (unsigned fault = 1; fault <= ALL_FAULTS; fault *= 2) {
        judge_with_faults(p, l, fault);
        judge_with_faults(p, l, (fault | fault * 2) & ALL_FAULTS);
    }
}

void cases_judge_faults(void)
{
    chance = chance_from(10);
    for_small_sizes(SMALL_SIZE, lines_that_there_are);
    for_small_sizes(SMALL_SIZE, lines_that_there_are_not);
    for_small_sizes(5, each_length_with_each);
    for_small_sizes(13, wrong_lengths);
    for_small_sizes(13, wrong_slopes);
    for_small_old_sizes(17, old_slopes);
    for_small_sizes(7, wrong_sizes);
    for_small_sizes(13, every_set_of_faults);
    lines_that_there_are(NEW, LARGEST_SIZE, house_slope(LARGEST_SIZE));
    lines_that_there_are_not(NEW, LARGEST_SIZE, house_slope(LARGEST_SIZE));
    some_sets_of_faults(NEW, LARGEST_SIZE, some_slope(&chance, LARGEST_SIZE));
}
