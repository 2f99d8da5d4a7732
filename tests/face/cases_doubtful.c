/* Old tiles at slopes that are not allowed, made so that it is known whether they are doubtful (SPEC 5.3 and 5.4): lost rows with columns
 * that have several fillings, and such that have none; hurt lines that a line across explains too; the same with a sheet over them; and the
 * case of the projectionist. How the tiles are made is told in doubt.h. */

#include <stddef.h>
#include <stdint.h>
#include <string.h>

#include "ask.h"
#include "cases.h"
#include "counterfrost.h"
#include "differences.h"
#include "doubt.h"
#include "made.h"
#include "sheets.h"

static struct chance chance;
static uint8_t good[LARGEST_TILE], cross[LARGEST_TILE], tile[LARGEST_TILE], lent[LARGEST_TILE];

/* The tile that was lent has to be as it was, and the answer to be this refusal. */
static void hold_refused(uint64_t said, enum refusal refusal, size_t p, size_t l, size_t row, size_t column, const char *what)
{
    hold(said == word_refused(refusal) && memcmp(tile, lent, tile_length(p)) == 0,
         "p %zu, l %zu, row %zu and column %zu: %s, which is not refused by %d, or the tile is touched, word %llx", p, l, row, column, what,
         (int)refusal, (unsigned long long)said);
}

static void fill_refused(size_t p, size_t l, size_t row, size_t column, enum refusal refusal, const char *what)
{
    memcpy(lent, tile, tile_length(p));
    uint64_t said = ask_fill(OLD, p, l, tile, tile_length(p), row_name(row), column_name(column));
    hold_refused(said, refusal, p, l, row, column, what);
    said = ask_fill(OLD, p, l, tile, tile_length(p), column_name(column), row_name(row));
    hold_refused(said, refusal, p, l, row, column, what);
}

static void repair_refused(size_t p, size_t l, size_t row, size_t column, enum refusal refusal, const char *what)
{
    memcpy(lent, tile, tile_length(p));
    uint64_t said = ask_repair(OLD, p, l, tile, tile_length(p));
    hold_refused(said, refusal, p, l, row, column, what);
}

/* Changes the text under what is lost or hurt, by some records (SPEC 6.4). */
static void correct(size_t p, size_t l)
{
    static struct sheet sheet;
    uint64_t count;
    make_sheet(&sheet, &chance, p, 1 + chance_below(&chance, 5));
    ask_correct(OLD, p, l, tile, tile_length(p), sheet.bytes, sheet.length, &count);
}

/* The good tile of which these lines are lost, and hold any bytes. */
static void lose_both(size_t p, size_t row, size_t column)
{
    memcpy(tile, good, tile_length(p));
    hurt_line(&chance, p, tile, row_name(row), HURT_ANY);
    hurt_line(&chance, p, tile, column_name(column), HURT_ANY);
}

/* A row and a column of a good tile are lost: there are several fillings, of which two are seen to be good, and a sheet changes nothing. */
static void lost_of_good(size_t p, size_t l, size_t row, size_t column)
{
    for (size_t k = 0; k < tile_length(p); k++)
        tile[k] = good[k] ^ cross[k];
    hold(has_one_sum(p, l, good) && has_one_sum(p, l, tile), "p %zu, l %zu: a good tile with a cross is not good", p, l);
    lose_both(p, row, column);
    fill_refused(p, l, row, column, DOUBTFUL, "both are lost of a good tile");
    correct(p, l);
    fill_refused(p, l, row, column, DOUBTFUL, "both are lost of a good tile, under a sheet");
}

/* One cell elsewhere is hurt too. Mostly there is no filling then, and the answer stays so under a sheet. */
static void lost_and_hurt(size_t p, size_t l, size_t row, size_t column, size_t cell)
{
    enum refusal refusal = still_fills(p, l, row, column, cell) ? DOUBTFUL : DAMAGED;
    const char *what = refusal == DOUBTFUL                         ? "both are lost, a byte elsewhere hurt within a round"
                       : spares_crossing(p, l, row, column, cell) ? "both are lost, a byte elsewhere hurt across two rounds"
                                                                  : "both are lost, a byte on a diagonal of the crossing hurt";
    lose_both(p, row, column);
    tile[cell] ^= chance_change(&chance);
    fill_refused(p, l, row, column, refusal, what);
    correct(p, l);
    fill_refused(p, l, row, column, refusal, what);
}

/* A good tile is changed by the part of a cross that lies in its column, then by the part in its row, the crossing once with it and once
 * not. The line explains this by the good tile, and the other line by the good tile with the cross. A part has three bytes or more, by the
 * length of a round, so it is never a cell. */
static void hurt_by_half_a_cross(size_t p, size_t l, size_t row, size_t column)
{
    const size_t lines[] = {row_name(row), column_name(column)};
    for (size_t k = 0; k < 4; k++) {
        size_t line = lines[k / 2], crossing = row * (p - 1) + column;
        memcpy(tile, good, tile_length(p));
        for (size_t n = 0; n < p - 1; n++) {
            size_t place = place_on_line(p, line, n);
            if (place != crossing || k % 2 == 0)
                tile[place] ^= cross[place];
        }
        hold(is_doubtful(p, l, line, good, tile), "p %zu, l %zu, row %zu and column %zu: half a cross is not told", p, l, row, column);
        repair_refused(p, l, row, column, DOUBTFUL, "hurt by half a cross");
        correct(p, l);
        repair_refused(p, l, row, column, DOUBTFUL, "hurt by half a cross, under a sheet");
    }
}

static void at_crossing(size_t p, size_t l, size_t row, size_t column)
{
    make_cross(&chance, p, l, row, column, cross);
    hold(has_one_sum(p, l, cross), "p %zu, l %zu, row %zu and column %zu: a cross is not good", p, l, row, column);
    lost_of_good(p, l, row, column);
    hurt_by_half_a_cross(p, l, row, column);
}

/* Each cell elsewhere is hurt in turn. */
static void each_cell_elsewhere(size_t p, size_t l, size_t row, size_t column)
{
    for (size_t cell = 0; cell < tile_length(p); cell++)
        if (cell / (p - 1) != row && cell % (p - 1) != column)
            lost_and_hurt(p, l, row, column, cell);
}

/* Every crossing, with every cell elsewhere. */
static void every_crossing(size_t kind, size_t p, size_t l)
{
    (void)kind;
    make_tile(&chance, p, l, good);
    for (size_t row = 0; row < p - 1; row++) {
        for (size_t column = 0; column < p - 1; column++) {
            at_crossing(p, l, row, column);
            each_cell_elsewhere(p, l, row, column);
        }
    }
}

/* A cell on neither line, found by trying: one under which the two lines still have fillings, one under which they have not though the
 * crossing is spared, and one that meets the crossing's diagonals. */
static size_t cell_elsewhere(size_t p, size_t l, size_t row, size_t column, int fills, int spares)
{
    size_t cell;
    do
        cell = chance_below(&chance, tile_length(p));
    while (cell / (p - 1) == row || cell % (p - 1) == column || still_fills(p, l, row, column, cell) != fills ||
           spares_crossing(p, l, row, column, cell) != spares);
    return cell;
}

static void one_cell_of_each_kind(size_t p, size_t l, size_t row, size_t column)
{
    lost_and_hurt(p, l, row, column, cell_elsewhere(p, l, row, column, 1, 1));
    lost_and_hurt(p, l, row, column, cell_elsewhere(p, l, row, column, 0, 1));
    lost_and_hurt(p, l, row, column, cell_elsewhere(p, l, row, column, 0, 0));
}

/* Crossings at the corners, and any. */
static void some_crossings(size_t kind, size_t p, size_t l)
{
    const size_t crossings[][2] = {{0, 0}, {p - 2, p - 2}, {0, p - 2}, {p - 2, p - 3}, {chance_below(&chance, p - 1), 1}, {p / 2, p / 3}};
    (void)kind;
    make_tile(&chance, p, l, good);
    for (size_t k = 0; k < sizeof crossings / sizeof crossings[0]; k++) {
        at_crossing(p, l, crossings[k][0], crossings[k][1]);
        one_cell_of_each_kind(p, l, crossings[k][0], crossings[k][1]);
    }
}

/* One crossing, of any two lines: at the large sizes the peer takes its time. */
static void a_crossing(size_t kind, size_t p, size_t l)
{
    size_t row = chance_below(&chance, p - 1), column = chance_below(&chance, p - 1);
    (void)kind;
    make_tile(&chance, p, l, good);
    make_cross(&chance, p, l, row, column, cross);
    hurt_by_half_a_cross(p, l, row, column);
    lose_both(p, row, column);
    fill_refused(p, l, row, column, DOUBTFUL, "both are lost of a good tile");
    tile[cell_elsewhere(p, l, row, column, 0, 1)] ^= chance_change(&chance);
    fill_refused(p, l, row, column, DAMAGED, "both are lost, a byte elsewhere hurt across two rounds");
}

/* The case of the projectionist, without the peer, at size 17: a caption on an old tile at slope 2, which is not allowed there, and on a
 * new one at slope 3, which is. */
enum { SIZE = 17, OLD_SLOPE = 2, NEW_SLOPE = 3, LOST_ROW = 1, LOST_COLUMN = 9, TILE = 16 * 16, TEXT = 16 * 14 };

/* The library writes the caption, and the two lines are lost: they read 0. The scan is kept. */
static void write_and_lose(size_t kind, size_t l, const uint8_t *caption)
{
    count_call();
    uint64_t said = cf_write(kind, SIZE, l, caption, TEXT, good, TILE);
    hold(said == word_done() && has_one_sum(SIZE, l, good), "the projectionist's tile at slope %zu is not written", l);
    memcpy(tile, good, TILE);
    for (size_t n = 0; n < SIZE - 1; n++)
        tile[place_on_line(SIZE, row_name(LOST_ROW), n)] = tile[place_on_line(SIZE, column_name(LOST_COLUMN), n)] = 0;
    memcpy(lent, tile, TILE);
}

/* No single line explains the scan. */
static void repair_scan(size_t kind, size_t l)
{
    count_call();
    uint64_t said = cf_repair(kind, SIZE, l, tile, TILE);
    hold_refused(said, DAMAGED, SIZE, l, LOST_ROW, LOST_COLUMN, "the projectionist's tile is to be repaired");
}

static uint64_t fill_scan(size_t kind, size_t l)
{
    count_call();
    return cf_fill(kind, SIZE, l, tile, TILE, cf_row(LOST_ROW), cf_column(LOST_COLUMN));
}

/* The old tile cannot be filled, and the scan stays; of the new one, tile and caption come back. */
static void projectionist(void)
{
    static const char words[] = "- Which of the two did she sing?\n- Nobody wrote it down.\n- Then leave the line dark.\n";
    uint8_t caption[TEXT], text[TEXT] = {0};
    memset(caption, ' ', TEXT);
    memcpy(caption, words, sizeof words - 1);

    write_and_lose(CF_OLD, OLD_SLOPE, caption);
    repair_scan(CF_OLD, OLD_SLOPE);
    uint64_t said = fill_scan(CF_OLD, OLD_SLOPE);
    hold_refused(said, DOUBTFUL, SIZE, OLD_SLOPE, LOST_ROW, LOST_COLUMN, "the projectionist's tile is to be filled");
    said = fill_scan(CF_NEW, OLD_SLOPE);
    hold_refused(said, BAD_SLOPE, SIZE, OLD_SLOPE, LOST_ROW, LOST_COLUMN, "the projectionist's tile is taken for a new one");

    write_and_lose(CF_NEW, NEW_SLOPE, caption);
    repair_scan(CF_NEW, NEW_SLOPE);
    said = fill_scan(CF_NEW, NEW_SLOPE);
    hold(said == word_done() && memcmp(tile, good, TILE) == 0, "the projectionist's new tile is not filled");
    count_call();
    said = cf_read(CF_NEW, SIZE, NEW_SLOPE, tile, TILE, text, TEXT);
    hold(said == word_done() && memcmp(text, caption, TEXT) == 0, "the projectionist's caption is not read");
}

void cases_doubtful(void)
{
    chance = chance_from(7);
    projectionist();
    for_small_old_sizes(7, every_crossing);
    for_small_old_sizes(31, some_crossings);
    for_some_old_sizes(&chance, a_crossing);
}
