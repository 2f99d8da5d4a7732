/* Repairs of tiles that are hurt at the far end of the search, by the library alone. It looks for one hurt line, and tries the columns from
 * 0 upward, then the rows; so a damage is dear where it lies on the last line of its kind. Beside these, the damage that makes the search
 * dearest of all that were found. */

#include <stdlib.h>
#include <string.h>

#include "counterfrost.h"
#include "job.h"
#include "material.h"

enum { LONGEST_BURST = 8, BURST_SEED = 6, SAME_CHANGE = 0x5a, OVERWRITTEN = 0x00 };

static uint64_t call_repair(const struct job *job, uint8_t *copy)
{
    return cf_repair(CF_NEW, job->p, SLOPE, copy, job->length);
}

/* An answer as the library gives it, put together here from its parts. */
static uint64_t answer_of(uint64_t kind, uint64_t first, uint64_t second) { return kind << 32 | first << 16 | second; }

/* Cells of one line: where the first stands in the tile, how far it is from each to the next, and how many there are. */
struct cells {
    size_t first, step, count;
};

/* The cells of a column from a row on, downward. */
static struct cells down(size_t p, size_t row, size_t column, size_t count)
{
    return (struct cells){ .first = row * (p - 1) + column, .step = p - 1, .count = count };
}

/* The last so many cells of the last column, and of the last row. */
static struct cells end_of_column(size_t p, size_t count) { return down(p, p - 1 - count, p - 2, count); }

static struct cells end_of_row(size_t p, size_t count)
{
    return (struct cells){ .first = (p - 2) * (p - 1) + p - 1 - count, .step = 1, .count = count };
}

static void add_random(uint8_t *tile, struct cells cells)
{
    uint8_t change[LONGEST_BURST];

    put_random(change, cells.count, BURST_SEED + cells.count);
    for (size_t i = 0; i < cells.count; i++)
        tile[cells.first + i * cells.step] ^= change[i];
}

static void add_same(uint8_t *tile, struct cells cells)
{
    for (size_t i = 0; i < cells.count; i++)
        tile[cells.first + i * cells.step] ^= SAME_CHANGE;
}

static void overwrite(uint8_t *tile, struct cells cells)
{
    for (size_t i = 0; i < cells.count; i++)
        tile[cells.first + i * cells.step] = OVERWRITTEN;
}

/* The worst damage that was found, for slope 3: the same change in each second byte of column 1, from row 0 on, and in two bytes of column
 * 3, those in the rows p-7 and p-6.
 *
 * The search holds the sums of slope 3. Of those of slope 1 it holds two neighbours that differ, the first such pair. A line along which
 * this pair agrees with the sums of slope 3 is looked at further: its sums of slope 1 are taken from the tile, one after the other, until
 * one does not agree. So a damage is dear where many lines agree with the pair, and then go on agreeing for long.
 *
 * A pair that differs can be found at every second place of the sums of slope 3, and no more often. It is where these alternate, as they do
 * if the bytes of a column alternate. Then every second column agrees with the pair, and goes on agreeing up to the one place where the
 * sums of slope 3 do not alternate; there is one, since p is odd. For rows they are taken in steps of 3, and still alternate, but for
 * three places: every second row agrees with the pair too, and goes on for a third as long.
 *
 * The two bytes of column 3 are there so that no line agrees as a whole: all columns are tried, and all rows, and the repair is refused.
 * They let nearly every line agree for as long as before: of slope 1 they change two sums that are among the last to be taken, and of slope
 * 3 they only move the place that does not alternate. */
static void add_worst(uint8_t *tile, size_t p)
{
    struct cells each_second = { .first = 1, .step = 2 * (p - 1), .count = (p - 1) / 2 };

    add_same(tile, each_second);
    add_same(tile, down(p, p - 7, 3, 2));
}

/* The length of a burst, where the name is this beginning and that length; 0 for any other name. */
static size_t burst(const char *name, const char *beginning)
{
    size_t length = strlen(beginning), count;

    if (strncmp(name, beginning, length) != 0)
        return 0;
    count = strtoul(name + length, NULL, 10);
    return count >= 2 && count <= LONGEST_BURST ? count : 0;
}

/* Hurts the tile as the name of the job says, and gives what a right repair of it answers; 0, which no hurt tile is answered, where there
 * is no job of that name. */
static uint64_t hurt_as_named(const char *name, uint8_t *tile, size_t p)
{
    size_t last = p - 2, count;
    uint64_t column = answer_of(CF_KIND_COLUMN, last, 0), row = answer_of(CF_KIND_ROW, last, 0);

    if (strcmp(name, "repair-byte") == 0) {
        add_same(tile, end_of_column(p, 1));
        return answer_of(CF_KIND_CELL, last, last);
    } else if ((count = burst(name, "repair-column-burst-random-")) != 0) {
        add_random(tile, end_of_column(p, count));
        return column;
    } else if ((count = burst(name, "repair-column-burst-same-")) != 0) {
        add_same(tile, end_of_column(p, count));
        return column;
    } else if ((count = burst(name, "repair-row-burst-random-")) != 0) {
        add_random(tile, end_of_row(p, count));
        return row;
    } else if ((count = burst(name, "repair-row-burst-same-")) != 0) {
        add_same(tile, end_of_row(p, count));
        return row;
    } else if (strcmp(name, "repair-column-overwritten") == 0) {
        overwrite(tile, end_of_column(p, p - 1));
        return column;
    } else if (strcmp(name, "repair-row-overwritten") == 0) {
        overwrite(tile, end_of_row(p, p - 1));
        return row;
    } else if (strcmp(name, "repair-worst") == 0) {
        add_worst(tile, p);
        return answer_of(CF_KIND_REFUSED, CF_DAMAGED, 0);
    }
    return 0;
}

bool prepare_hurt(const char *name, size_t p, struct job *job)
{
    uint8_t *tile = new_tile(p, new_text(p));
    uint8_t *hurt = new_copy(tile, cf_tile_len(p));
    uint64_t answer = hurt_as_named(name, hurt, p);
    bool refused = cf_kind(answer) == CF_KIND_REFUSED;

    *job = (struct job){
        .call = call_repair, .p = p, .length = cf_tile_len(p), .before = hurt, .after = refused ? hurt : tile, .answer = answer,
    };
    return answer != 0;
}
