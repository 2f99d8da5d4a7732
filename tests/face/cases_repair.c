/* Repair (SPEC 5.3): lines and cells hurt in each way, damage that no line explains, and at the smallest size every tile of bits. Then the
 * edge between a cell and a line: one hurt byte, two, and more, where the answer is known beforehand, and all sides are held to it. Most of
 * it is asked of old tiles too, at slopes that are not allowed. */

#include <stddef.h>
#include <stdint.h>
#include <string.h>

#include "ask.h"
#include "cases.h"
#include "counterfrost.h"
#include "differences.h"
#include "doubt.h"
#include "made.h"

static struct chance chance;
static uint8_t good[LARGEST_TILE], tile[LARGEST_TILE], lent[LARGEST_TILE], text[LARGEST_TEXT];

/* Damage to a good tile: how many cells of a line are changed, and the place of one of them. Nothing else is. */
struct damage {
    size_t line, count, place;
};

/* What has to be answered (SPEC 5.3, step 3): the cell, where one is changed, and otherwise the line. SPEC 11.1 for the word. */
static uint64_t name_of(size_t p, struct damage damage)
{
    if (damage.count == 1)
        return ((uint64_t)CF_KIND_CELL << 32) + ((uint64_t)(damage.place / (p - 1)) << 16) + damage.place % (p - 1);
    if (damage.line < 0x8000)
        return ((uint64_t)CF_KIND_ROW << 32) + ((uint64_t)damage.line << 16);
    return ((uint64_t)CF_KIND_COLUMN << 32) + ((uint64_t)(damage.line - 0x8000) << 16);
}

/* Holds an answer to the damage, and the tile to the good one; or, where a line that crosses this one explains the damage too, to 8, and
 * the tile to the one that was lent. A single cell is not doubtful, nor are two of a line: see doubt.h. */
static void hold_repaired(size_t p, size_t l, struct damage damage, uint64_t said)
{
    int is_doubted = damage.count > 2 && is_doubtful(p, l, damage.line, good, lent);
    uint64_t known = is_doubted ? word_refused(DOUBTFUL) : name_of(p, damage);
    hold(said == known && memcmp(tile, is_doubted ? lent : good, tile_length(p)) == 0,
         "p %zu, l %zu: %zu cells of line %zx hex were hurt, one of them byte %zu, and this is repaired otherwise, word %llx", p, l,
         damage.count, damage.line, damage.place, (unsigned long long)said);
}

/* Repairs a tile of which the damage is known. */
static void repair_known(size_t kind, size_t p, size_t l, struct damage damage)
{
    memcpy(lent, tile, tile_length(p));
    hold_repaired(p, l, damage, ask_repair(kind, p, l, tile, tile_length(p)));
}

/* Repairs the tile, and reads what has become of it. */
static void repair_and_read(size_t kind, size_t p, size_t l)
{
    ask_repair(kind, p, l, tile, tile_length(p));
    ask_read(kind, p, l, tile, tile_length(p), text, text_length(p));
}

static void one_line_hurt(size_t kind, size_t p, size_t l, size_t line, enum hurt hurt)
{
    memcpy(tile, good, tile_length(p));
    hurt_line(&chance, p, tile, line, hurt);
    repair_and_read(kind, p, l);
}

static void two_lines_hurt(size_t kind, size_t p, size_t l, size_t first, size_t second, enum hurt hurt)
{
    memcpy(tile, good, tile_length(p));
    hurt_line(&chance, p, tile, first, hurt);
    hurt_line(&chance, p, tile, second, hurt);
    ask_repair(kind, p, l, tile, tile_length(p));
}

static void each_line_in_turn(size_t kind, size_t p, size_t l)
{
    make_tile(&chance, p, l, good);
    for (size_t n = 0; n < p - 1; n++) {
        for (int hurt = 0; hurt < HURTS; hurt++) {
            one_line_hurt(kind, p, l, column_name(n), (enum hurt)hurt);
            one_line_hurt(kind, p, l, row_name(n), (enum hurt)hurt);
        }
    }
}

/* The first line, the last, which among the columns is a check column, the first check column, and any. */
static void some_lines(size_t kind, size_t p, size_t l)
{
    const size_t lines[] = {column_name(0), column_name(p - 3), column_name(p - 2), some_column(&chance, p),
                            row_name(0),    row_name(p - 2),    some_row(&chance, p)};
    make_tile(&chance, p, l, good);
    for (size_t k = 0; k < sizeof lines / sizeof lines[0]; k++)
        one_line_hurt(kind, p, l, lines[k], (enum hurt)chance_below(&chance, HURTS));
}

/* A hurt cell: the tile is not read, the cell is put right, and then it is. */
static void one_cell_hurt(size_t kind, size_t p, size_t l, size_t cell)
{
    struct damage damage = {row_name(cell / (p - 1)), 1, cell};
    memcpy(tile, good, tile_length(p));
    tile[cell] ^= chance_change(&chance);
    ask_read(kind, p, l, tile, tile_length(p), text, text_length(p));
    repair_known(kind, p, l, damage);
    ask_read(kind, p, l, tile, tile_length(p), text, text_length(p));
}

static void each_cell_in_turn(size_t kind, size_t p, size_t l)
{
    make_tile(&chance, p, l, good);
    for (size_t cell = 0; cell < tile_length(p); cell++)
        one_cell_hurt(kind, p, l, cell);
}

/* The first, a middle and the last cell, and the lines in the middle. */
static void middle_lines_and_cells(size_t kind, size_t p, size_t l)
{
    make_tile(&chance, p, l, good);
    one_cell_hurt(kind, p, l, 0);
    one_cell_hurt(kind, p, l, tile_length(p) / 3);
    one_cell_hurt(kind, p, l, tile_length(p) - 1);
    one_line_hurt(kind, p, l, column_name(p / 2), HURT_ANY);
    one_line_hurt(kind, p, l, row_name(p / 3), HURT_ANY);
}

/* Tiles that nobody wrote: nearly all of bytes are refused, and of bits some are explained by a line. */
static void garbage(size_t kind, size_t p, size_t l)
{
    for (int filled_with = 0; filled_with < GARBAGES; filled_with++) {
        for (int round = 0; round < 16; round++) {
            make_garbage(&chance, p, tile, (enum garbage)filled_with);
            repair_and_read(kind, p, l);
        }
    }
}

static void more_than_a_line(size_t kind, size_t p, size_t l)
{
    make_tile(&chance, p, l, good);
    for (int hurt = 0; hurt < HURTS; hurt++) {
        two_lines_hurt(kind, p, l, some_column(&chance, p), some_column(&chance, p), (enum hurt)hurt);
        two_lines_hurt(kind, p, l, some_row(&chance, p), some_row(&chance, p), (enum hurt)hurt);
        two_lines_hurt(kind, p, l, some_row(&chance, p), some_column(&chance, p), (enum hurt)hurt);
    }
    for (size_t count = 2; count <= 5; count++) {
        memcpy(tile, good, tile_length(p));
        hurt_cells(&chance, p, tile, count);
        ask_repair(kind, p, l, tile, tile_length(p));
    }
    chance_bytes(&chance, tile, tile_length(p));
    repair_and_read(kind, p, l);
}

static void much_more_than_a_line(size_t kind, size_t p, size_t l)
{
    for (int round = 0; round < 8; round++)
        more_than_a_line(kind, p, l);
}

/* The same damage, a little of each kind: where no line explains it, all lines of a large tile have to be tried. */
static void a_little_more_than_a_line(size_t kind, size_t p, size_t l)
{
    const size_t pairs[][2] = {{some_column(&chance, p), some_column(&chance, p)},
                               {some_row(&chance, p), some_row(&chance, p)},
                               {some_row(&chance, p), some_column(&chance, p)}};
    make_tile(&chance, p, l, good);
    for (size_t k = 0; k < sizeof pairs / sizeof pairs[0]; k++)
        two_lines_hurt(kind, p, l, pairs[k][0], pairs[k][1], (enum hurt)chance_below(&chance, HURTS));
    memcpy(tile, good, tile_length(p));
    hurt_cells(&chance, p, tile, 2);
    ask_repair(kind, p, l, tile, tile_length(p));
    chance_bytes(&chance, tile, tile_length(p));
    ask_repair(kind, p, l, tile, tile_length(p));
}

/* Two cells of a good tile are changed. Those of one line are put right. Those of two lines may look like a hurt line, but never like a
 * hurt cell: this good tile and the one that is found would differ in three cells at most, and no two good tiles do. (Take a bit of their
 * difference. An odd number of ones would have one on each of the p diagonals of slope 1; two would share a diagonal of each slope.) */
static void two_cells_hurt(size_t kind, size_t p, size_t l, size_t first, size_t second, uint8_t first_change, uint8_t second_change)
{
    size_t row = first / (p - 1), column = first % (p - 1);
    struct damage in_row = {row_name(row), 2, first}, in_column = {column_name(column), 2, first};
    memcpy(tile, good, tile_length(p));
    tile[first] ^= first_change;
    tile[second] ^= second_change;
    if (second / (p - 1) == row)
        repair_known(kind, p, l, in_row);
    else if (second % (p - 1) == column)
        repair_known(kind, p, l, in_column);
    else
        hold(cf_kind(ask_repair(kind, p, l, tile, tile_length(p))) != CF_KIND_CELL, "bytes %zu and %zu were hurt, and the peer says a cell",
             first, second);
}

/* Each two cells of a good tile, changed by the same byte and by two. */
static void each_two_cells(size_t kind, size_t p, size_t l)
{
    make_tile(&chance, p, l, good);
    for (size_t first = 0; first < tile_length(p); first++) {
        for (size_t second = 0; second < first; second++) {
            uint8_t change = chance_change(&chance), first_change = chance_change(&chance), second_change = chance_change(&chance);
            two_cells_hurt(kind, p, l, first, second, change, change);
            two_cells_hurt(kind, p, l, first, second, first_change, second_change);
        }
    }
}

/* Every tile of size 5 that holds one byte or zero in each cell. */
static void every_tile_of_bits(size_t l)
{
    for (unsigned bits = 0; bits < 0x10000; bits++) {
        uint8_t byte = chance_change(&chance);
        for (unsigned k = 0; k < 16; k++)
            tile[k] = bits >> k & 1 ? byte : 0;
        ask_repair(NEW, 5, l, tile, 16);
    }
}

/* Every choice of cells of every line is changed alike, from one cell to all of them: at size 7 these are few. */
static void every_choice_of_a_line(size_t kind, size_t p, size_t l)
{
    make_tile(&chance, p, l, good);
    for (size_t k = 0; k < 2 * (p - 1); k++) {
        for (unsigned choice = 1; choice < 1u << (p - 1); choice++) {
            struct damage damage = {nth_line(p, k), 0, 0};
            uint8_t change = chance_change(&chance);
            memcpy(tile, good, tile_length(p));
            for (size_t n = 0; n < p - 1; n++) {
                if (choice >> n & 1) {
                    damage.place = place_on_line(p, damage.line, n);
                    damage.count++;
                    tile[damage.place] ^= change;
                }
            }
            repair_known(kind, p, l, damage);
        }
    }
}

/* Of a line, its n-th cell is changed. */
static void one_of_line(size_t kind, size_t p, size_t l, size_t line, size_t n)
{
    struct damage damage = {line, 1, place_on_line(p, line, n)};
    memcpy(tile, good, tile_length(p));
    tile[damage.place] ^= chance_change(&chance);
    repair_known(kind, p, l, damage);
}

/* Of a line, two cells are changed: alike, so that the XOR of the whole line is what it was, and by any two bytes. */
static void two_of_line(size_t kind, size_t p, size_t l, size_t line, size_t first, size_t second)
{
    size_t one = place_on_line(p, line, first), other = place_on_line(p, line, second);
    uint8_t change = chance_change(&chance), other_change = chance_change(&chance);
    two_cells_hurt(kind, p, l, one, other, change, change);
    two_cells_hurt(kind, p, l, one, other, change, other_change);
}

/* One cell of a line, and two: at its ends and within. In a row the last two stand in the check columns. */
static void one_and_two_of_line(size_t kind, size_t p, size_t l, size_t line)
{
    size_t within = 1 + chance_below(&chance, p - 3);
    one_of_line(kind, p, l, line, 0);
    one_of_line(kind, p, l, line, within);
    one_of_line(kind, p, l, line, p - 3);
    one_of_line(kind, p, l, line, p - 2);
    two_of_line(kind, p, l, line, 0, 1);
    two_of_line(kind, p, l, line, 0, p - 2);
    two_of_line(kind, p, l, line, within, p - 2);
    two_of_line(kind, p, l, line, p - 3, p - 2);
}

/* A scratch makes a whole line read one byte. The good tile had that byte there already, in all cells but so many: only these are hurt.
 * Such a tile is had by laying the line, and filling two others of its kind (SPEC 5.4). */
static void scratched_line(size_t kind, size_t p, size_t l, size_t line, size_t count)
{
    struct damage damage = {line, count, 0};
    uint8_t byte = (uint8_t)chance_below(&chance, 256);
    size_t first_of_kind = line < 0x8000 ? row_name(0) : column_name(0), number = line - first_of_kind;
    make_garbage(&chance, p, good, GARBAGE_OF_BYTES);
    for (size_t n = 0; n < p - 1; n++)
        good[place_on_line(p, line, n)] = byte;
    damage.place = hurt_some_of_line(&chance, p, good, line, count, 0);
    ask_fill(kind, p, l, good, tile_length(p), first_of_kind + (number + 1) % (p - 1), first_of_kind + (number + 2) % (p - 1));
    memcpy(tile, good, tile_length(p));
    for (size_t n = 0; n < p - 1; n++)
        tile[place_on_line(p, line, n)] = byte;
    repair_known(kind, p, l, damage);
}

static void edge_at_line(size_t kind, size_t p, size_t l, size_t line)
{
    make_tile(&chance, p, l, good);
    one_and_two_of_line(kind, p, l, line);
    scratched_line(kind, p, l, line, 1);
    scratched_line(kind, p, l, line, 2);
}

static void edge_at_each_line(size_t kind, size_t p, size_t l)
{
    for (size_t n = 0; n < 2 * (p - 1); n++)
        edge_at_line(kind, p, l, nth_line(p, n));
}

/* The lines that are chosen where each would be too many: the check columns, the last row, and any. */
enum { CHOSEN = 4 };

static size_t chosen_line(size_t p, size_t n)
{
    const size_t lines[CHOSEN] = {column_name(p - 3), column_name(p - 2), row_name(p - 2), some_line(&chance, p)};
    return lines[n];
}

static void edge_at_chosen_lines(size_t kind, size_t p, size_t l)
{
    for (size_t n = 0; n < CHOSEN; n++)
        edge_at_line(kind, p, l, chosen_line(p, n));
}

/* Two cells of two lines, on one diagonal of a slope (SPEC 4.1): changed alike, they leave all sums of that slope as they were. */
static void two_on_a_diagonal(size_t kind, size_t p, size_t l, size_t slope)
{
    size_t row = chance_below(&chance, p - 1), column = chance_below(&chance, p - 1), place = row * (p - 1) + column;
    uint8_t change = chance_change(&chance);
    two_cells_hurt(kind, p, l, place, other_on_diagonal(&chance, p, slope, place), change, change);
}

static void some_on_diagonals(size_t kind, size_t p, size_t l)
{
    make_tile(&chance, p, l, good);
    for (int round = 0; round < 4; round++) {
        two_on_a_diagonal(kind, p, l, 1);
        two_on_a_diagonal(kind, p, l, l);
    }
}

/* From here on the peer is not asked. The library writes a tile, which is seen to be good by its sums. */
static void write_alone(size_t kind, size_t p, size_t l, enum text_kind filled_with)
{
    make_text(&chance, p, filled_with, text);
    cf_write(kind, p, l, text, text_length(p), good, tile_length(p));
    hold(has_one_sum(p, l, good), "the tile that was written is not good, p %zu, l %zu", p, l);
}

/* So many cells of a line are changed, and the library repairs them: what it has to say, and to leave, is known. */
static void repair_alone(size_t kind, size_t p, size_t l, size_t line, size_t count)
{
    struct damage damage = {line, count, 0};
    memcpy(tile, good, tile_length(p));
    damage.place = hurt_some_of_line(&chance, p, tile, line, count, (int)chance_below(&chance, 2));
    memcpy(lent, tile, tile_length(p));
    count_call();
    hold_repaired(p, l, damage, cf_repair(kind, p, l, tile, tile_length(p)));
}

/* Each number of cells in each line. */
static void each_count_in_each_line(size_t kind, size_t p, size_t l)
{
    for (size_t n = 0; n < 2 * (p - 1); n++) {
        write_alone(kind, p, l, (enum text_kind)(n % TEXT_KINDS));
        for (size_t count = 1; count < p; count++)
            repair_alone(kind, p, l, nth_line(p, n), count);
    }
}

/* One cell, two, and all. */
static void some_counts_in_chosen_lines(size_t kind, size_t p, size_t l)
{
    write_alone(kind, p, l, TEXT_OF_ANY);
    for (size_t n = 0; n < CHOSEN; n++) {
        repair_alone(kind, p, l, chosen_line(p, n), 1);
        repair_alone(kind, p, l, chosen_line(p, n), 2);
        repair_alone(kind, p, l, chosen_line(p, n), p - 1);
    }
}

/* Of new tiles, and so of old ones with the same slopes. */
static void of_new_tiles(void)
{
    every_tile_of_bits(2);
    every_tile_of_bits(3);
    for_small_sizes(7, each_two_cells);
    for_small_sizes(11, each_cell_in_turn);
    for_small_sizes(11, garbage);
    for_small_sizes(SMALL_SIZE, each_line_in_turn);
    for_small_sizes(SMALL_SIZE, much_more_than_a_line);
    for_all_sizes(&chance, some_lines);
    for (size_t p = size_above(0); p != 0; p = size_above(p))
        middle_lines_and_cells(NEW, p, house_slope(p));
    for_all_sizes(&chance, a_little_more_than_a_line);
    for_small_sizes(11, edge_at_each_line);
    for_small_sizes(SMALL_SIZE, edge_at_chosen_lines);
    for_small_sizes(SMALL_SIZE, some_on_diagonals);
    for_small_sizes(13, each_count_in_each_line);
    for (size_t p = size_above(13); p <= SMALL_SIZE; p = size_above(p))
        each_count_in_each_line(NEW, p, house_slope(p));
    for (size_t p = size_above(SMALL_SIZE); p != 0; p = size_above(p)) {
        edge_at_line(NEW, p, house_slope(p), chosen_line(p, chance_below(&chance, CHOSEN)));
        some_counts_in_chosen_lines(NEW, p, some_slope(&chance, p));
    }
    edge_at_chosen_lines(NEW, LARGEST_SIZE, some_slope(&chance, LARGEST_SIZE));
    for_small_sizes(7, every_choice_of_a_line);
}

/* Of old tiles at slopes that are not allowed. */
static void of_old_tiles(void)
{
    for_small_old_sizes(7, every_choice_of_a_line);
    for_small_old_sizes(7, each_two_cells);
    for_small_old_sizes(11, each_cell_in_turn);
    for_small_old_sizes(17, garbage);
    for_small_old_sizes(17, each_line_in_turn);
    for_small_old_sizes(17, more_than_a_line);
    for_small_old_sizes(7, edge_at_each_line);
    for_small_old_sizes(17, edge_at_chosen_lines);
    for_small_old_sizes(17, some_on_diagonals);
    for_small_old_sizes(17, each_count_in_each_line);
    for_some_old_sizes(&chance, some_lines);
    for_some_old_sizes(&chance, a_little_more_than_a_line);
    for_some_old_sizes(&chance, some_counts_in_chosen_lines);
}

void cases_repair(void)
{
    chance = chance_from(2);
    of_new_tiles();
    of_old_tiles();
}
