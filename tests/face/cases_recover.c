/* Inspect and recover (SPEC 5.6 and 5.7), by what the scan holds: good tiles, lone bytes, bursts along a column and along a row, lines that
 * were overwritten, two hurt lines, doubtful tiles, and garbage. Where a good tile was changed on one line alone, the answer and the text
 * are known, and all sides are held to them. Elsewhere, and on many scans without the peer, the library is held to what it says and leaves
 * when it repairs a copy and reads that. */

#include <stddef.h>
#include <stdint.h>
#include <string.h>

#include "cases.h"
#include "doubt.h"
#include "made.h"
#include "peer_tile.h"
#include "recovered.h"

static struct chance chance;

/* The tile that was printed, the scan of it, and a cross (doubt.h). */
static uint8_t good[LARGEST_TILE], scan[LARGEST_TILE], cross[LARGEST_TILE];

/* A tile is printed, and the scan is the same. */
static void print_tile(size_t p, size_t l)
{
    make_tile(&chance, p, l, good);
    memcpy(scan, good, tile_length(p));
}

/* The scan is the good tile once more, without any damage. */
static void scan_again(size_t p)
{
    memcpy(scan, good, tile_length(p));
}

static void each_kind_of_text(size_t kind, size_t p, size_t l)
{
    static uint8_t text[LARGEST_TEXT];
    for (int filled_with = 0; filled_with < TEXT_KINDS; filled_with++) {
        make_text(&chance, p, (enum text_kind)filled_with, text);
        make_good(p, l, text, good);
        look_at(kind, p, l, good, word_done(), good, "a good tile");
    }
}

/* One byte is hurt, and nothing else. In a check column this is no byte of the text. */
static void one_cell(size_t kind, size_t p, size_t l, size_t row, size_t column)
{
    scan_again(p);
    scan[row * (p - 1) + column] ^= chance_change(&chance);
    look_at(kind, p, l, scan, word_cell(row, column), good, "a lone byte");
}

static void each_cell(size_t kind, size_t p, size_t l)
{
    print_tile(p, l);
    for (size_t row = 0; row < p - 1; row++)
        for (size_t column = 0; column < p - 1; column++)
            one_cell(kind, p, l, row, column);
}

/* In the first row, the last and any: the first column of the text, the last and any, and both check columns. */
static void cells_of_each_place(size_t kind, size_t p, size_t l)
{
    print_tile(p, l);
    for (size_t k = 0; k < 15; k++) {
        const size_t rows[] = {0, p - 2, chance_below(&chance, p - 1)};
        const size_t columns[] = {0, p - 4, chance_below(&chance, p - 3), p - 3, p - 2};
        one_cell(kind, p, l, rows[k / 5], columns[k % 5]);
    }
}

/* A few of these: the last byte of the text, one in the first row, one anywhere else, and one in each check column. */
static void some_cells(size_t kind, size_t p, size_t l)
{
    const size_t rows[] = {p - 2, 0, chance_below(&chance, p - 1)};
    print_tile(p, l);
    one_cell(kind, p, l, rows[0], p - 4);
    one_cell(kind, p, l, rows[1], chance_below(&chance, p - 3));
    one_cell(kind, p, l, rows[2], chance_below(&chance, p - 3));
    one_cell(kind, p, l, rows[chance_below(&chance, 3)], p - 3);
    one_cell(kind, p, l, rows[chance_below(&chance, 3)], p - 2);
}

/* Cells of a line that follow each other are changed: by one byte all of them, or each by its own. */
static void hurt_run(size_t p, size_t line, size_t first, size_t count, int is_alike)
{
    uint8_t change = chance_change(&chance);
    for (size_t n = first; n < first + count; n++)
        scan[place_on_line(p, line, n)] ^= is_alike ? change : chance_change(&chance);
}

/* A line reads something else than was printed, some of it by chance the same: one byte all along, or any bytes. */
static void overwrite(size_t p, size_t line, uint8_t byte, int is_any)
{
    for (size_t n = 0; n < p - 1; n++)
        scan[place_on_line(p, line, n)] = is_any ? (uint8_t)chance_below(&chance, 256) : byte;
}

/* The ways in which a line is hurt: bursts of two bytes at its beginning and at its end, some bytes together, the whole line changed, and
 * overwritten with zeros, with FF hex and with any bytes. */
enum way { TWO_AT_FIRST, TWO_AT_LAST, SOME_TOGETHER, ALL_ALIKE, ALL_OF_THEM, ZEROS_OVER, FF_OVER, ANY_OVER, WAYS };

static void hurt_in_way(size_t p, size_t line, enum way way)
{
    size_t count = 2 + chance_below(&chance, p - 3), first = chance_below(&chance, p - count);
    int is_alike = (int)chance_below(&chance, 2);
    if (way == TWO_AT_FIRST)
        hurt_run(p, line, 0, 2, is_alike);
    if (way == TWO_AT_LAST)
        hurt_run(p, line, p - 3, 2, is_alike);
    if (way == SOME_TOGETHER)
        hurt_run(p, line, first, count, is_alike);
    if (way == ALL_ALIKE || way == ALL_OF_THEM)
        hurt_run(p, line, 0, p - 1, way == ALL_ALIKE);
    if (way >= ZEROS_OVER)
        overwrite(p, line, way == FF_OVER ? 0xFF : 0, way == ANY_OVER);
}

/* Looks at a scan that is hurt on this line alone: by how many bytes is seen along it. */
static void look_at_line(size_t kind, size_t p, size_t l, size_t line, const char *what)
{
    look_at(kind, p, l, scan, known_of_line(p, l, line, good, scan), good, what);
}

static void one_line(size_t kind, size_t p, size_t l, size_t line, enum way way)
{
    scan_again(p);
    hurt_in_way(p, line, way);
    look_at_line(kind, p, l, line, way < ZEROS_OVER ? "a burst along a line" : "a line that was overwritten");
}

static void each_line_in_each_way(size_t kind, size_t p, size_t l)
{
    print_tile(p, l);
    for (size_t n = 0; n < 2 * (p - 1); n++)
        for (int way = 0; way < WAYS; way++)
            one_line(kind, p, l, nth_line(p, n), (enum way)way);
}

/* The lines that are chosen where each would be too many: columns at the edges of the text, both check columns, rows at the edges, and
 * any line. */
enum { CHOSEN = 7 };

static size_t chosen_line(size_t p, size_t n)
{
    const size_t lines[CHOSEN] = {column_name(0), column_name(p - 4), column_name(p - 3), column_name(p - 2),
                                  row_name(0),    row_name(p - 2),    some_line(&chance, p)};
    return lines[n];
}

static void chosen_in_some_way(size_t kind, size_t p, size_t l, size_t n)
{
    size_t line = chosen_line(p, n);
    one_line(kind, p, l, line, (enum way)chance_below(&chance, WAYS));
}

static void chosen_lines(size_t kind, size_t p, size_t l)
{
    print_tile(p, l);
    for (size_t n = 0; n < CHOSEN; n++)
        chosen_in_some_way(kind, p, l, n);
}

/* One cell, and one of these lines. */
static void a_cell_and_a_line(size_t kind, size_t p, size_t l)
{
    size_t cell = chance_below(&chance, tile_length(p));
    print_tile(p, l);
    one_cell(kind, p, l, cell / (p - 1), cell % (p - 1));
    chosen_in_some_way(kind, p, l, chance_below(&chance, CHOSEN));
}

/* Every choice of cells of every line is changed alike, from one cell to all of them. */
static void every_choice_of_a_line(size_t kind, size_t p, size_t l)
{
    print_tile(p, l);
    for (size_t k = 0; k < 2 * (p - 1); k++) {
        for (unsigned choice = 1; choice < 1u << (p - 1); choice++) {
            uint8_t change = chance_change(&chance);
            scan_again(p);
            for (size_t n = 0; n < p - 1; n++)
                scan[place_on_line(p, nth_line(p, k), n)] ^= choice >> n & 1 ? change : 0;
            look_at_line(kind, p, l, nth_line(p, k), "some cells of a line");
        }
    }
}

/* Two bytes of one diagonal are changed alike. All sums of its slope are as they were, and of the other slope two are not: no line explains
 * this (SPEC 5.8, the short way), so it is refused with 5. */
static void two_on_a_diagonal(size_t kind, size_t p, size_t l, size_t slope)
{
    size_t place = chance_below(&chance, tile_length(p));
    uint8_t change = chance_change(&chance);
    scan_again(p);
    scan[place] ^= change;
    scan[other_on_diagonal(&chance, p, slope, place)] ^= change;
    look_at(kind, p, l, scan, word_refused(DAMAGED), good, "two bytes of a diagonal");
}

static void two_on_diagonals(size_t kind, size_t p, size_t l)
{
    print_tile(p, l);
    two_on_a_diagonal(kind, p, l, 1);
    two_on_a_diagonal(kind, p, l, l);
}

/* Two hurt lines are mostly refused. Now and then they look like a single one, and the text is that of another good tile. */
static void two_lines(size_t kind, size_t p, size_t l, size_t pair_kind, enum hurt hurt)
{
    struct pair pair = some_pair(&chance, p, pair_kind);
    scan_again(p);
    hurt_line(&chance, p, scan, pair.first, hurt);
    hurt_line(&chance, p, scan, pair.second, hurt);
    look_at_any(kind, p, l, scan);
}

static void two_lines_of_each_kind(size_t kind, size_t p, size_t l)
{
    print_tile(p, l);
    for (size_t n = 0; n < PAIR_KINDS; n++)
        two_lines(kind, p, l, n, (enum hurt)chance_below(&chance, HURTS));
}

/* Each two cells of a good tile, changed by the same byte or by two. */
static void each_two_cells(size_t kind, size_t p, size_t l)
{
    print_tile(p, l);
    for (size_t first = 0; first < tile_length(p); first++) {
        for (size_t second = 0; second < first; second++) {
            uint8_t change = chance_change(&chance);
            scan_again(p);
            scan[first] ^= change;
            scan[second] ^= chance_below(&chance, 2) == 0 ? change : chance_change(&chance);
            look_at_any(kind, p, l, scan);
        }
    }
}

/* Tiles that nobody wrote: of bytes nearly all are refused, of bits many are not. */
static void garbage(size_t kind, size_t p, size_t l)
{
    for (int round = 0; round < 16; round++) {
        make_garbage(&chance, p, scan, (enum garbage)(round % GARBAGES));
        look_at_any(kind, p, l, scan);
    }
}

static void much_garbage(size_t kind, size_t p, size_t l)
{
    for (int round = 0; round < 16; round++)
        garbage(kind, p, l);
}

/* Two hurt lines, garbage, and a tile that was written at another slope. */
static void more_than_a_line(size_t kind, size_t p, size_t l)
{
    print_tile(p, some_slope(&chance, p));
    look_at_any(kind, p, l, scan);
    print_tile(p, l);
    two_lines(kind, p, l, chance_below(&chance, PAIR_KINDS), HURT_ANY);
    make_garbage(&chance, p, scan, GARBAGE_OF_BYTES);
    look_at_any(kind, p, l, scan);
}

/* A good tile is changed by the part of a cross that lies in its row, then by the part in its column, with the crossing and without it.
 * Both lines explain this, by two good tiles: it is refused with 8 (cases_doubtful.c has more on this). */
static void half_a_cross(size_t p, size_t l, size_t row, size_t column)
{
    make_cross(&chance, p, l, row, column, cross);
    for (size_t k = 0; k < 4; k++) {
        size_t line = k / 2 == 0 ? row_name(row) : column_name(column);
        scan_again(p);
        for (size_t n = 0; n < p - 1; n++)
            scan[place_on_line(p, line, n)] ^= cross[place_on_line(p, line, n)];
        if (k % 2 == 1)
            scan[row * (p - 1) + column] = good[row * (p - 1) + column];
        look_at(OLD, p, l, scan, word_refused(DOUBTFUL), good, "half a cross");
        hold_to_repair(OLD, p, l, scan);
    }
}

static void every_crossing(size_t kind, size_t p, size_t l)
{
    (void)kind;
    print_tile(p, l);
    for (size_t row = 0; row < p - 1; row++)
        for (size_t column = 0; column < p - 1; column++)
            half_a_cross(p, l, row, column);
}

static void a_crossing(size_t kind, size_t p, size_t l)
{
    size_t row = chance_below(&chance, p - 1), column = chance_below(&chance, p - 1);
    (void)kind;
    print_tile(p, l);
    half_a_cross(p, l, row, column);
}

/* Crossings at the corners, of the text and of the tile, and any. */
static void some_crossings(size_t kind, size_t p, size_t l)
{
    a_crossing(kind, p, l);
    half_a_cross(p, l, 0, 0);
    half_a_cross(p, l, p - 2, p - 4);
    half_a_cross(p, l, p - 2, p - 2);
}

/* From here on the peer is not asked. So many cells of a line are changed, from none to all of them. */
static void some_of_line_alone(size_t kind, size_t p, size_t l, size_t line, size_t count)
{
    scan_again(p);
    hurt_some_of_line(&chance, p, scan, line, count, (int)chance_below(&chance, 2));
    hold_to_repair(kind, p, l, scan);
}

static void each_count_alone(size_t kind, size_t p, size_t l)
{
    for (size_t n = 0; n < 2 * (p - 1); n++) {
        print_tile(p, l);
        for (size_t count = 0; count < p; count++)
            some_of_line_alone(kind, p, l, nth_line(p, n), count);
    }
}

/* Two cells of each chosen line, and of a column one, none, and all. */
static void some_counts_alone(size_t kind, size_t p, size_t l)
{
    print_tile(p, l);
    for (size_t n = 0; n < CHOSEN; n++)
        some_of_line_alone(kind, p, l, chosen_line(p, n), 2);
    some_of_line_alone(kind, p, l, some_column(&chance, p), 1);
    some_of_line_alone(kind, p, l, some_column(&chance, p), 0);
    some_of_line_alone(kind, p, l, some_column(&chance, p), p - 1);
}

/* Of new tiles, and so of old ones with the same slopes. */
static void of_new_tiles(void)
{
    for_small_sizes(SMALL_SIZE, each_kind_of_text);
    for_small_sizes(11, each_cell);
    for_small_sizes(SMALL_SIZE, cells_of_each_place);
    for_small_sizes(17, each_line_in_each_way);
    for_small_sizes(SMALL_SIZE, chosen_lines);
    for_small_sizes(7, every_choice_of_a_line);
    for_small_sizes(SMALL_SIZE, two_on_diagonals);
    for_small_sizes(SMALL_SIZE, two_lines_of_each_kind);
    for_small_sizes(5, each_two_cells);
    for_small_sizes(5, much_garbage);
    for_small_sizes(17, garbage);
    for_small_sizes(13, each_count_alone);
}

/* Of new tiles at all sizes, the large ones too. */
static void at_all_sizes(void)
{
    for (size_t p = size_above(SMALL_SIZE); p != 0; p = size_above(p)) {
        each_kind_of_text(NEW, p, house_slope(p));
        some_cells(NEW, p, house_slope(p));
        chosen_lines(NEW, p, house_slope(p));
    }
    cells_of_each_place(NEW, LARGEST_SIZE, house_slope(LARGEST_SIZE));
    for_all_sizes(&chance, a_cell_and_a_line);
    for_all_sizes(&chance, two_on_diagonals);
    for_all_sizes(&chance, more_than_a_line);
    for_all_sizes(&chance, some_counts_alone);
}

/* Of old tiles at slopes that are not allowed. */
static void of_old_tiles(void)
{
    for_small_old_sizes(17, each_kind_of_text);
    for_small_old_sizes(11, each_cell);
    for_small_old_sizes(17, cells_of_each_place);
    for_small_old_sizes(17, each_line_in_each_way);
    for_small_old_sizes(7, every_choice_of_a_line);
    for_small_old_sizes(17, two_on_diagonals);
    for_small_old_sizes(17, two_lines_of_each_kind);
    for_small_old_sizes(17, garbage);
    for_small_old_sizes(11, each_count_alone);
    for_small_old_sizes(7, every_crossing);
    for_small_old_sizes(17, some_crossings);
    for_some_old_sizes(&chance, some_cells);
    for_some_old_sizes(&chance, chosen_lines);
    for_some_old_sizes(&chance, more_than_a_line);
    for_some_old_sizes(&chance, some_counts_alone);
    for (size_t p = size_above(5); p != 0; p = size_above(p))
        a_crossing(OLD, p, some_old_slope(&chance, p));
}

void cases_recover(void)
{
    chance = chance_from(11);
    of_new_tiles();
    at_all_sizes();
    of_old_tiles();
}
