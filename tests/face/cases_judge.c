/* Judge (SPEC 5.5), by what the tiles hold. What is accepted is held to what fill leaves of the scan. Tiles that are not good, and tiles
 * that differ from the scan elsewhere, are tried from both sides of the edge, down to a single cell. Mostly the answer is known by the way
 * in which the tiles were made, and all sides are held to it. */

#include <stddef.h>
#include <stdint.h>
#include <string.h>

#include "ask.h"
#include "cases.h"
#include "counterfrost.h"
#include "differences.h"
#include "judged.h"
#include "made.h"
#include "peer_tile.h"

static struct chance chance;

/* The tile that was printed, the scan of it, what fill leaves of the scan, another good tile, and one that is not good. */
static uint8_t good[LARGEST_TILE], scan[LARGEST_TILE], filled[LARGEST_TILE], other[LARGEST_TILE], changed[LARGEST_TILE];

/* Judges a restored tile, of which it is known what has to be said. */
static void judge_restored(size_t p, size_t l, const uint8_t *tile, size_t first, size_t second, enum refusal known, const char *what)
{
    judge(told_of(p, l, first, second), scan, tile, known, what);
}

/* Whether a tile differs from the scan on these lines alone: with the tile's bytes laid along both of them, the scan is that tile. */
static int differs_on_lines_alone(size_t p, const uint8_t *tile, size_t first, size_t second)
{
    static uint8_t laid[LARGEST_TILE];
    memcpy(laid, scan, tile_length(p));
    for (size_t n = 0; n < p - 1; n++) {
        laid[place_on_line(p, first, n)] = tile[place_on_line(p, first, n)];
        laid[place_on_line(p, second, n)] = tile[place_on_line(p, second, n)];
    }
    return memcmp(laid, tile, tile_length(p)) == 0;
}

/* Judges a tile that is good: it is accepted exactly if it differs from the scan on the named lines alone. */
static void judge_good(size_t p, size_t l, const uint8_t *tile, size_t first, size_t second, const char *what)
{
    judge_restored(p, l, tile, first, second, differs_on_lines_alone(p, tile, first, second) ? ACCEPTED : DIFFERS_ELSEWHERE, what);
}

/* The scan is the good tile with these lines hurt, and nothing else. */
static void hurt_scan(size_t p, size_t first, size_t second, enum hurt hurt)
{
    memcpy(scan, good, tile_length(p));
    hurt_line(&chance, p, scan, first, hurt);
    hurt_line(&chance, p, scan, second, hurt);
}

/* Fills a copy of the scan, and tells whether that was done. */
static int fill_scan(size_t p, size_t l, size_t first, size_t second)
{
    memcpy(filled, scan, tile_length(p));
    return ask_fill(NEW, p, l, filled, tile_length(p), first, second) == word_done();
}

/* The original is accepted. Fill leaves the same tile, and this is accepted with the lines named in the other order. */
static void accept_original(size_t p, size_t l, size_t first, size_t second, enum hurt hurt)
{
    hurt_scan(p, first, second, hurt);
    judge_restored(p, l, good, first, second, ACCEPTED, "the original");
    hold(fill_scan(p, l, first, second) && memcmp(filled, good, tile_length(p)) == 0,
         "p %zu, l %zu, lines %zx and %zx hex: fill does not leave the original", p, l, first, second);
    judge_restored(p, l, filled, second, first, ACCEPTED, "what fill leaves");
}

/* Two lines are hurt and one alone is named: the original is refused, unless all that differs stands on this one. */
static void name_one_alone(size_t p, size_t l, size_t first, size_t second)
{
    judge_good(p, l, good, first, first, "the original, the first line alone named");
    judge_good(p, l, good, second, second, "the original, the second line alone named");
}

static void every_pair(size_t kind, size_t p, size_t l)
{
    (void)kind;
    make_tile(&chance, p, l, good);
    for (size_t first = 0; first < 2 * (p - 1); first++) {
        for (size_t second = 0; second < 2 * (p - 1); second++) {
            accept_original(p, l, nth_line(p, first), nth_line(p, second), (enum hurt)((first + second) % HURTS));
            name_one_alone(p, l, nth_line(p, first), nth_line(p, second));
        }
    }
}

static void a_pair_of_each_kind(size_t kind, size_t p, size_t l)
{
    (void)kind;
    make_tile(&chance, p, l, good);
    for (size_t n = 0; n < PAIR_KINDS; n++) {
        struct pair pair = some_pair(&chance, p, n);
        accept_original(p, l, pair.first, pair.second, (enum hurt)chance_below(&chance, HURTS));
        name_one_alone(p, l, pair.first, pair.second);
    }
}

static void a_pair(size_t p, size_t l)
{
    struct pair pair = some_pair(&chance, p, chance_below(&chance, PAIR_KINDS));
    make_tile(&chance, p, l, good);
    accept_original(p, l, pair.first, pair.second, HURT_ANY);
}

/* SPEC 5.5: a tile is accepted exactly if fill is done with the scan, and leaves this tile. Tells whether it is accepted. */
static int hold_to_fill(size_t p, size_t l, const uint8_t *tile, size_t first, size_t second, int is_filled)
{
    int is_filling = is_filled && memcmp(tile, filled, tile_length(p)) == 0;
    int is_accepted = ask_judge(p, l, scan, tile_length(p), tile, tile_length(p), first, second) == word_done();
    hold(is_accepted == is_filling, "p %zu, l %zu, lines %zx and %zx hex: a tile that fill %s is %s", p, l, first, second,
         is_filling ? "leaves" : "does not leave", is_accepted ? "accepted" : "refused");
    return is_accepted;
}

/* Tiles that one may come upon: what fill has left, the original, the scan itself, zeros, and the good tile that fill makes of the scan
 * when it is told another line beside the first. This is done with any bytes (SPEC 5.4), and accepted when those lines are named. */
static void judge_near_tiles(size_t p, size_t l, size_t first, size_t second, int is_filled)
{
    static const uint8_t zeros[LARGEST_TILE];
    size_t beside = another_line(&chance, p, first);
    memcpy(other, scan, tile_length(p));
    ask_fill(NEW, p, l, other, tile_length(p), first, beside);
    judge_restored(p, l, other, first, beside, ACCEPTED, "what fill leaves, of two lines side by side");
    const uint8_t *const tiles[] = {filled, good, scan, zeros, other};
    for (size_t k = 0; k < sizeof tiles / sizeof tiles[0]; k++)
        hold_to_fill(p, l, tiles[k], first, second, is_filled);
}

/* Scans that fill may refuse: of any bytes, of bits, and such that a cell is hurt besides the named lines, or a line. */
enum scanned { ANY_BYTES, ANY_BITS, A_CELL_BESIDES, A_LINE_BESIDES, SCANNED };

static void make_scan(size_t p, struct pair pair, enum scanned scanned)
{
    hurt_scan(p, pair.first, pair.second, HURT_ANY);
    if (scanned == ANY_BYTES)
        make_garbage(&chance, p, scan, GARBAGE_OF_BYTES);
    if (scanned == ANY_BITS)
        make_garbage(&chance, p, scan, GARBAGE_OF_BITS);
    if (scanned == A_CELL_BESIDES)
        hurt_cells(&chance, p, scan, 1);
    if (scanned == A_LINE_BESIDES)
        hurt_line(&chance, p, scan, some_line(&chance, p), HURT_ANY);
}

static void scans_that_fill_may_refuse(size_t kind, size_t p, size_t l)
{
    (void)kind;
    make_tile(&chance, p, l, good);
    for (size_t n = 0; n < PAIR_KINDS; n++) {
        for (int scanned = 0; scanned < SCANNED; scanned++) {
            struct pair pair = some_pair(&chance, p, n);
            make_scan(p, pair, (enum scanned)scanned);
            judge_near_tiles(p, l, pair.first, pair.second, fill_scan(p, l, pair.first, pair.second));
        }
    }
}

/* A cell on neither of two lines. */
static size_t place_elsewhere(size_t p, size_t first, size_t second)
{
    size_t place;
    do
        place = chance_below(&chance, tile_length(p));
    while (is_on(p, first, place) || is_on(p, second, place));
    return place;
}

/* A line is hurt and named, and a cell elsewhere is hurt too. A filling would be another good tile, and would differ from the original on
 * two lines alone, the named one and one through the cell: there is none (SPEC 4.6). So fill refuses the scan, and no tile is accepted. */
static void scan_that_fill_refuses(size_t p, size_t l, size_t line)
{
    hurt_scan(p, line, line, HURT_ANY);
    scan[place_elsewhere(p, line, line)] ^= chance_change(&chance);
    int is_filled = fill_scan(p, l, line, line);
    hold(!is_filled, "p %zu, l %zu: line %zx hex is filled, though a byte elsewhere is hurt", p, l, line);
    judge_near_tiles(p, l, line, line, is_filled);
    judge_restored(p, l, good, line, line, DIFFERS_ELSEWHERE, "the original of a scan without a filling");
    judge_restored(p, l, scan, line, line, NOT_GOOD, "a scan without a filling");
}

static void scans_that_fill_refuses(size_t kind, size_t p, size_t l)
{
    (void)kind;
    make_tile(&chance, p, l, good);
    scan_that_fill_refuses(p, l, some_row(&chance, p));
    scan_that_fill_refuses(p, l, some_column(&chance, p));
}

/* There are 256 good tiles of bits at size 5. With a scan of bits one of them is accepted, if fill is done, and otherwise none. */
static void every_good_tile_of_bits(size_t l, struct pair pair)
{
    int accepted = 0;
    make_garbage(&chance, 5, scan, GARBAGE_OF_BITS);
    int is_filled = fill_scan(5, l, pair.first, pair.second);
    for (unsigned bits = 0; bits < 256; bits++) {
        uint8_t text[8];
        for (unsigned k = 0; k < 8; k++)
            text[k] = bits >> k & 1;
        make_good(5, l, text, other);
        accepted += hold_to_fill(5, l, other, pair.first, pair.second, is_filled);
    }
    hold(accepted == is_filled, "l %zu, lines %zx and %zx hex: %d good tiles of bits are accepted", l, pair.first, pair.second, accepted);
}

static void good_tiles_of_bits(size_t kind, size_t p, size_t l)
{
    (void)kind;
    for (size_t n = 0; n < 2 * PAIR_KINDS; n++)
        every_good_tile_of_bits(l, some_pair(&chance, p, n % PAIR_KINDS));
}

/* The original with a byte changed is not good: on one of the named lines, on both, and elsewhere, where it differs from the scan besides,
 * or does not, since the scan has that byte too. */
static void change_cell(size_t p, size_t l, size_t place, uint8_t change)
{
    size_t row = row_name(place / (p - 1)), column = column_name(place % (p - 1));
    size_t other_row = another_line(&chance, p, row), other_column = another_line(&chance, p, column);
    memcpy(changed, good, tile_length(p));
    changed[place] ^= change;
    hurt_scan(p, row, other_column, HURT_ANY);
    judge_restored(p, l, changed, row, other_column, NOT_GOOD, "a byte changed on the first line");
    judge_restored(p, l, changed, other_column, row, NOT_GOOD, "a byte changed on the second line");
    judge_restored(p, l, changed, row, column, NOT_GOOD, "a byte changed on both lines, others differ elsewhere");
    judge_restored(p, l, changed, other_row, other_column, NOT_GOOD, "a byte changed elsewhere");
    memcpy(scan, changed, tile_length(p));
    judge_restored(p, l, changed, other_row, other_column, NOT_GOOD, "a scan with a byte changed elsewhere");
    judge_restored(p, l, changed, column, column, NOT_GOOD, "a scan with a byte changed on the line");
}

static void each_bit_of_each_cell_changed(size_t kind, size_t p, size_t l)
{
    (void)kind;
    make_tile(&chance, p, l, good);
    for (size_t place = 0; place < tile_length(p); place++)
        for (unsigned bit = 0; bit < 8; bit++)
            change_cell(p, l, place, (uint8_t)(1 << bit));
}

static void each_cell_changed(size_t kind, size_t p, size_t l)
{
    (void)kind;
    make_tile(&chance, p, l, good);
    for (size_t place = 0; place < tile_length(p); place++)
        change_cell(p, l, place, chance_change(&chance));
}

/* Two bytes on one diagonal are changed alike: the sums of its slope are as they were, and those of the other slope tell. The scan is the
 * same, so that nothing differs. */
static void change_two_on_a_diagonal(size_t p, size_t l, size_t slope)
{
    size_t place = chance_below(&chance, tile_length(p)), second = other_on_diagonal(&chance, p, slope, place);
    uint8_t change = chance_change(&chance);
    memcpy(changed, good, tile_length(p));
    changed[place] ^= change;
    changed[second] ^= change;
    memcpy(scan, changed, tile_length(p));
    judge_restored(p, l, changed, some_line(&chance, p), some_line(&chance, p), NOT_GOOD, "two bytes changed alike on a diagonal");
}

/* The place of the cell in which two diagonals meet, one of each slope (SPEC 4.1), found by trying; or the tile's length, where the added
 * row or column has it (SPEC 3.3). */
static size_t meeting(size_t p, size_t l, size_t of_slope_1, size_t of_slope_l)
{
    size_t place = 0;
    while (place < tile_length(p) && ((place / (p - 1) + place % (p - 1)) % p != of_slope_1 ||
                                      (place / (p - 1) + l * (place % (p - 1))) % p != of_slope_l))
        place++;
    return place;
}

/* All sums are one byte but two, one of each slope, which are another. For this three cells are changed alike, of which the first two share
 * a diagonal of slope l, and the last two one of slope 1. The scan is the same, so that nothing differs. */
static void change_two_sums(size_t p, size_t l, size_t of_slope_1, size_t of_slope_l)
{
    size_t places[3];
    uint8_t change = chance_change(&chance);
    do {
        size_t shared_of_1 = chance_below(&chance, p), shared_of_l = chance_below(&chance, p);
        places[0] = meeting(p, l, of_slope_1, shared_of_l);
        places[1] = meeting(p, l, shared_of_1, shared_of_l);
        places[2] = meeting(p, l, shared_of_1, of_slope_l);
    } while (places[0] == tile_length(p) || places[1] == tile_length(p) || places[2] == tile_length(p));
    memcpy(changed, good, tile_length(p));
    for (size_t k = 0; k < 3; k++)
        changed[places[k]] ^= change;
    memcpy(scan, changed, tile_length(p));
    judge_restored(p, l, changed, some_line(&chance, p), some_line(&chance, p), NOT_GOOD, "one sum of each slope changed");
}

static void each_two_sums_changed(size_t kind, size_t p, size_t l)
{
    (void)kind;
    make_tile(&chance, p, l, good);
    for (size_t of_slope_1 = 0; of_slope_1 < p; of_slope_1++)
        for (size_t of_slope_l = 0; of_slope_l < p; of_slope_l++)
            change_two_sums(p, l, of_slope_1, of_slope_l);
}

/* Two bytes on a diagonal; the last sums; a whole line changed alike; and a tile that is good at another slope. */
static void other_tiles_that_are_not_good(size_t kind, size_t p, size_t l)
{
    size_t line = some_line(&chance, p), slope = some_slope(&chance, p);
    (void)kind;
    make_tile(&chance, p, l, good);
    change_two_on_a_diagonal(p, l, 1);
    change_two_on_a_diagonal(p, l, l);
    change_two_sums(p, l, p - 1, p - 1);
    memcpy(scan, good, tile_length(p));
    memcpy(changed, good, tile_length(p));
    hurt_line(&chance, p, changed, line, HURT_ALIKE);
    judge_restored(p, l, changed, line, line, NOT_GOOD, "a line changed alike");
    make_tile(&chance, p, slope, scan);
    judge_restored(p, l, scan, line, line, has_one_sum(p, l, scan) ? ACCEPTED : NOT_GOOD, "a tile that is good at another slope");
}

/* The scan differs from the good tile in one bit, and the tile is accepted exactly if one of the named lines has the cell. */
static void differ_in_cell(size_t p, size_t l, size_t place, size_t first, size_t second)
{
    enum refusal known = is_on(p, first, place) || is_on(p, second, place) ? ACCEPTED : DIFFERS_ELSEWHERE;
    memcpy(scan, good, tile_length(p));
    scan[place] ^= (uint8_t)(1 << chance_below(&chance, 8));
    judge_restored(p, l, good, first, second, known, "a scan that differs in one bit");
}

static void every_pair_and_cell(size_t kind, size_t p, size_t l)
{
    (void)kind;
    make_tile(&chance, p, l, good);
    for (size_t place = 0; place < tile_length(p); place++)
        for (size_t first = 0; first < 2 * (p - 1); first++)
            for (size_t second = 0; second < 2 * (p - 1); second++)
                differ_in_cell(p, l, place, nth_line(p, first), nth_line(p, second));
}

/* The row and the column of a cell, the column that has the row's number and the row that has the column's, and any others. */
static void lines_about_cell(size_t p, size_t l, size_t row, size_t column)
{
    const size_t lines[] = {row_name(row),    column_name(column),                    column_name(row),
                            row_name(column), another_line(&chance, p, row_name(row)), another_line(&chance, p, column_name(column))};
    enum { LINES = sizeof lines / sizeof lines[0] };
    for (size_t first = 0; first < LINES; first++)
        for (size_t second = 0; second < LINES; second++)
            differ_in_cell(p, l, row * (p - 1) + column, lines[first], lines[second]);
}

static void lines_about_some_cells(size_t kind, size_t p, size_t l)
{
    (void)kind;
    make_tile(&chance, p, l, good);
    lines_about_cell(p, l, p - 2, chance_below(&chance, p - 1));
    lines_about_cell(p, l, chance_below(&chance, p - 1), p - 2);
}

/* Two bytes of the scan differ alike, so that the XOR of all that differs is 0. */
static void differ_in_two_cells(size_t kind, size_t p, size_t l)
{
    (void)kind;
    make_tile(&chance, p, l, good);
    for (size_t n = 0; n < PAIR_KINDS; n++) {
        struct pair pair = some_pair(&chance, p, n);
        size_t place = chance_below(&chance, tile_length(p));
        uint8_t change = chance_change(&chance);
        memcpy(scan, good, tile_length(p));
        scan[place] ^= change;
        scan[other_on_diagonal(&chance, p, 1, place)] ^= change;
        judge_good(p, l, good, pair.first, pair.second, "a scan that differs in two bytes alike");
    }
}

/* Makes another good tile, which differs from the good one on three lines alone, of which the first two are parallel: a cell of the third
 * that is on neither of these is changed, and they are filled (SPEC 4.6). */
static void make_other(size_t p, size_t l, const size_t lines[3])
{
    size_t place;
    do
        place = place_on_line(p, lines[2], chance_below(&chance, p - 1));
    while (is_on(p, lines[0], place) || is_on(p, lines[1], place));
    memcpy(other, good, tile_length(p));
    other[place] ^= chance_change(&chance);
    ask_fill(NEW, p, l, other, tile_length(p), lines[0], lines[1]);
}

/* Judges a good tile with each two of the three lines named, and with each of them alone. */
static void judge_with_each_two(size_t p, size_t l, const uint8_t *tile, const size_t lines[3], const char *what)
{
    for (size_t i = 0; i < 3; i++)
        for (size_t j = 0; j <= i; j++)
            judge_good(p, l, tile, lines[i], lines[j], what);
}

/* With the good tile as the scan, the other one is refused. Then the scan has the third line of the other tile, and may have come from
 * either of them: the lines that are named tell from which. */
static void two_good_tiles(size_t p, size_t l, const size_t lines[3])
{
    make_other(p, l, lines);
    memcpy(scan, good, tile_length(p));
    judge_with_each_two(p, l, other, lines, "another good tile than the scan");
    for (size_t n = 0; n < p - 1; n++)
        scan[place_on_line(p, lines[2], n)] = other[place_on_line(p, lines[2], n)];
    hold(differs_on_lines_alone(p, good, lines[2], lines[2]) && differs_on_lines_alone(p, other, lines[0], lines[1]) &&
             !differs_on_lines_alone(p, good, lines[0], lines[1]) && !differs_on_lines_alone(p, other, lines[2], lines[2]),
         "p %zu, l %zu: no scan is made from two good tiles in lines %zx, %zx and %zx hex", p, l, lines[0], lines[1], lines[2]);
    judge_with_each_two(p, l, good, lines, "the one of two good tiles");
    judge_with_each_two(p, l, other, lines, "the other of two good tiles");
}

static void every_three(size_t kind, size_t p, size_t l)
{
    (void)kind;
    make_tile(&chance, p, l, good);
    for (size_t a = 0; a < 2 * (p - 1); a++) {
        for (size_t b = 0; b < a; b++) {
            for (size_t c = 0; c < 2 * (p - 1); c++) {
                const size_t lines[] = {nth_line(p, a), nth_line(p, b), nth_line(p, c)};
                if (is_row(lines[0]) == is_row(lines[1]) && c != a && c != b)
                    two_good_tiles(p, l, lines);
            }
        }
    }
}

static void some_three(size_t kind, size_t p, size_t l)
{
    size_t first = some_line(&chance, p), second = another_line(&chance, p, first), third;
    (void)kind;
    do
        third = some_line(&chance, p);
    while (third == first || third == second);
    const size_t lines[] = {first, second, third};
    make_tile(&chance, p, l, good);
    two_good_tiles(p, l, lines);
}

/* Tiles that nobody wrote, as the scan, as the restored tile, and as both. Of bits some are good. */
static void garbage(size_t kind, size_t p, size_t l)
{
    (void)kind;
    make_tile(&chance, p, l, good);
    for (int round = 0; round < 8; round++) {
        size_t first = some_line(&chance, p), second = some_line(&chance, p);
        make_garbage(&chance, p, scan, (enum garbage)(round % GARBAGES));
        make_garbage(&chance, p, changed, (enum garbage)(round % GARBAGES));
        judge_good(p, l, good, first, second, "a good tile, of garbage");
        judge_restored(p, l, scan, first, second, has_one_sum(p, l, scan) ? ACCEPTED : NOT_GOOD, "garbage, of itself");
        if (has_one_sum(p, l, changed))
            judge_good(p, l, changed, first, second, "garbage that is good, of garbage");
        else
            judge_restored(p, l, changed, first, second, NOT_GOOD, "garbage, of garbage");
    }
}

/* One of each at a large size: a byte changed on a line, and scans that differ in one cell, on a line and elsewhere. */
static void a_little_of_each(size_t p, size_t l)
{
    size_t place = chance_below(&chance, tile_length(p)), last = tile_length(p) - 1;
    size_t row = row_name(place / (p - 1)), column = another_line(&chance, p, column_name(place % (p - 1)));
    make_tile(&chance, p, l, good);
    memcpy(changed, good, tile_length(p));
    changed[place] ^= chance_change(&chance);
    hurt_scan(p, row, column, HURT_ANY);
    judge_restored(p, l, changed, row, column, NOT_GOOD, "a byte changed on a line");
    differ_in_cell(p, l, place, column, row);
    differ_in_cell(p, l, place, column, another_line(&chance, p, row));
    differ_in_cell(p, l, last, row_name(p - 3), column_name(p - 3));
}

/* Without the peer: one tile may be lent as both, since nothing is written. It is tile 1 of SPEC 10, and then has a byte changed. */
static void same_memory(void)
{
    uint8_t tile[16] = {1, 0, 0, 1, 0, 0, 1, 1, 0, 0, 1, 0, 0, 0, 1, 0}, before[16];
    const enum refusal known[] = {ACCEPTED, NOT_GOOD};
    for (size_t k = 0; k < 2; k++) {
        tile[5] = (uint8_t)k;
        memcpy(before, tile, 16);
        count_call();
        uint64_t said = cf_judge(5, 2, tile, 16, tile, 16, cf_row(0), cf_column(0));
        hold(said == (known[k] == ACCEPTED ? word_done() : word_refused(known[k])) && memcmp(tile, before, 16) == 0,
             "a tile that is lent as both is not answered by %d, or is touched, word %llx", (int)known[k], (unsigned long long)said);
    }
}

void cases_judge(void)
{
    chance = chance_from(9);
    same_memory();
    for_small_sizes(11, every_pair);
    for_small_sizes(SMALL_SIZE, a_pair_of_each_kind);
    for_small_sizes(17, scans_that_fill_may_refuse);
    for_small_sizes(SMALL_SIZE, scans_that_fill_refuses);
    for_small_sizes(5, good_tiles_of_bits);
    for_small_sizes(5, each_bit_of_each_cell_changed);
    for_small_sizes(11, each_cell_changed);
    for_small_sizes(11, each_two_sums_changed);
    for_small_sizes(SMALL_SIZE, other_tiles_that_are_not_good);
    for_small_sizes(7, every_pair_and_cell);
    for_small_sizes(17, lines_about_some_cells);
    for_small_sizes(SMALL_SIZE, differ_in_two_cells);
    for_small_sizes(7, every_three);
    for_small_sizes(SMALL_SIZE, some_three);
    for_small_sizes(SMALL_SIZE, garbage);
    for (size_t p = size_above(17); p != 0; p = size_above(p)) {
        a_pair(p, house_slope(p));
        a_little_of_each(p, some_slope(&chance, p));
    }
    a_pair_of_each_kind(NEW, LARGEST_SIZE, some_slope(&chance, LARGEST_SIZE));
}
