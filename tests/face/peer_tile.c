/* The peer's tile calls, from SPEC 5. Each takes some cells as unknown, or none, and solves for them, as SPEC 5.8 has it. */

#include "peer_tile.h"

#include <string.h>

#include "peer.h"
#include "peer_rules.h"
#include "peer_system.h"

/* SPEC 4.3: the equations hold as the tile stands. No cell is unknown then, only the common byte. */
static int is_good(const struct given_tile *given)
{
    return solve(given, NULL, 0, NULL) == ONE_SOLUTION;
}

/* SPEC 5.4: counts the good tiles that agree with the tile outside the two strips. If there is one, the tile becomes that one; otherwise
 * it is left. */
static enum solutions fill_strips(size_t p, size_t l, uint8_t *tile, struct strip first, struct strip second)
{
    struct given_tile given;
    give_tile(&given, p, l, tile);
    const struct strip strips[] = {first, second};
    return solve(&given, strips, 2, tile);
}

/* The text is laid into its columns (SPEC 3.2), and the check columns are filled (SPEC 5.8). There is one such tile (SPEC 4.5). */
void make_good(size_t p, size_t l, const uint8_t *text, uint8_t *tile)
{
    struct strip first_checks = {1, p - 3}, second_checks = {1, p - 2};
    for (size_t row = 0; row < p - 1; row++)
        memcpy(&tile[row * (p - 1)], &text[row * (p - 3)], p - 3);
    fill_strips(p, l, tile, first_checks, second_checks);
}

/* SPEC 9.2, of a tile's length and a text's (SPEC 3.1 and 3.2): 1, 2 or 3. */
static enum refusal judge_text(size_t kind, size_t p, size_t l, size_t tile_len, size_t text_len)
{
    enum refusal refusal = judge_tile(kind, p, l, tile_len);
    if (refusal == ACCEPTED && text_len != text_length(p))
        return BAD_LENGTH;
    return refusal;
}

/* SPEC 5.1: what the tile held has no influence. */
uint64_t peer_write(size_t kind, size_t p, size_t l, const uint8_t *text, size_t text_len, uint8_t *tile, size_t tile_len)
{
    enum refusal refusal = judge_text(kind, p, l, tile_len, text_len);
    if (refusal != ACCEPTED)
        return word_refused(refusal);
    make_good(p, l, text, tile);
    return word_done();
}

/* SPEC 3.2: the text's bytes are those of the columns before the check columns, row behind row. */
static void take_text(size_t p, const uint8_t *tile, uint8_t *text)
{
    for (size_t row = 0; row < p - 1; row++)
        memcpy(&text[row * (p - 3)], &tile[row * (p - 1)], p - 3);
}

/* SPEC 5.2: 5 for a tile that is not good. */
uint64_t peer_read(size_t kind, size_t p, size_t l, const uint8_t *tile, size_t tile_len, uint8_t *text, size_t text_len)
{
    enum refusal refusal = judge_text(kind, p, l, tile_len, text_len);
    if (refusal != ACCEPTED)
        return word_refused(refusal);
    struct given_tile given;
    give_tile(&given, p, l, tile);
    if (!is_good(&given))
        return word_refused(DAMAGED);
    take_text(p, tile, text);
    return word_done();
}

/* SPEC 5.3 and 5.4: done with one good tile, 5 where there is none, 8 where there are several. */
static uint64_t word_solved(enum solutions solutions)
{
    if (solutions == ONE_SOLUTION)
        return word_done();
    return word_refused(solutions == NO_SOLUTION ? DAMAGED : DOUBTFUL);
}

/* SPEC 5.3, step 2: takes each column and each row in turn as unknown, and counts the different good tiles that come out. If there is
 * one, it is laid into `good`. */
static enum solutions explain(const struct given_tile *given, uint8_t *good)
{
    static uint8_t tried[LARGEST_TILE];
    enum solutions found = NO_SOLUTION;
    size_t length = tile_length(given->p);
    memcpy(tried, given->bytes, length);
    for (size_t n = 0; n < 2 * (given->p - 1); n++) {
        struct strip strip = {n % 2 == 0, n / 2};
        enum solutions explained = solve(given, &strip, 1, tried);
        if (explained == NO_SOLUTION)
            continue;
        if (explained == SEVERAL_SOLUTIONS || (found == ONE_SOLUTION && memcmp(tried, good, length) != 0))
            return SEVERAL_SOLUTIONS;
        found = ONE_SOLUTION;
        memcpy(good, tried, length);
        memcpy(tried, given->bytes, length);
    }
    return found;
}

/* SPEC 5.3, step 3: all cells of the two tiles are compared, and those in which they differ (SPEC 3.4) are counted. One is told by its row
 * and its column. Of more, all stand in one column, or else in one row. */
static uint64_t name_difference(size_t p, const uint8_t *lent, const uint8_t *good)
{
    size_t count = 0, row = 0, column = 0;
    int is_one_column = 1;
    for (size_t k = 0; k < tile_length(p); k++) {
        if (lent[k] == good[k])
            continue;
        if (count > 0 && k % (p - 1) != column)
            is_one_column = 0;
        row = k / (p - 1);
        column = k % (p - 1);
        count++;
    }
    if (count == 1)
        return word_cell(row, column);
    return is_one_column ? word_column(column) : word_row(row);
}

/* SPEC 5.3: clean; or the name of what the one good tile differs in; or 5 where there is none, and 8 where there are several. */
uint64_t peer_repair(size_t kind, size_t p, size_t l, uint8_t *tile, size_t tile_len)
{
    static uint8_t good[LARGEST_TILE];
    enum refusal refusal = judge_tile(kind, p, l, tile_len);
    if (refusal != ACCEPTED)
        return word_refused(refusal);
    struct given_tile given;
    give_tile(&given, p, l, tile);
    if (is_good(&given))
        return word_done();
    enum solutions found = explain(&given, good);
    if (found != ONE_SOLUTION)
        return word_solved(found);
    uint64_t name = name_difference(p, tile, good);
    memcpy(tile, good, tile_len);
    return name;
}

/* SPEC 3.5: rows below 8000 hex, columns from there on. */
static struct strip named(size_t name)
{
    struct strip row = {0, name}, column = {1, name - 0x8000};
    return name < 0x8000 ? row : column;
}

/* SPEC 5.4, with 4 before 5 and 8 (SPEC 9.2). What the lines hold has no influence. */
uint64_t peer_fill(size_t kind, size_t p, size_t l, uint8_t *tile, size_t tile_len, size_t first, size_t second)
{
    enum refusal refusal = judge_tile(kind, p, l, tile_len);
    if (refusal != ACCEPTED)
        return word_refused(refusal);
    if (!has_line(p, first) || !has_line(p, second))
        return word_refused(BAD_PLACE);
    return word_solved(fill_strips(p, l, tile, named(first), named(second)));
}

/* SPEC 9.2, of the lengths of two tiles of the new kind, the only one that is judged (SPEC 5.5): 1, 2 or 3. */
static enum refusal judge_two_tiles(size_t p, size_t l, size_t scan_len, size_t restored_len)
{
    enum refusal refusal = judge_tile(NEW, p, l, scan_len);
    if (refusal == ACCEPTED && restored_len != tile_length(p))
        return BAD_LENGTH;
    return refusal;
}

/* SPEC 3.4: whether the cell at a place (SPEC 3.1) lies on a strip. */
static int lies_on(size_t p, size_t place, struct strip strip)
{
    return (strip.is_column ? place % (p - 1) : place / (p - 1)) == strip.number;
}

/* SPEC 3.4: whether every cell that lies on neither strip holds the same byte in both tiles. */
static int agree_outside(size_t p, const uint8_t *one, const uint8_t *other, struct strip first, struct strip second)
{
    for (size_t place = 0; place < tile_length(p); place++)
        if (one[place] != other[place] && !lies_on(p, place, first) && !lies_on(p, place, second))
            return 0;
    return 1;
}

/* SPEC 5.5, in the order of SPEC 9.2: 4 before 10, and 10 before 11. */
uint64_t peer_judge(size_t p, size_t l, const uint8_t *scan, size_t scan_len, const uint8_t *restored, size_t restored_len, size_t first,
                    size_t second)
{
    enum refusal refusal = judge_two_tiles(p, l, scan_len, restored_len);
    if (refusal != ACCEPTED)
        return word_refused(refusal);
    if (!has_line(p, first) || !has_line(p, second))
        return word_refused(BAD_PLACE);
    struct given_tile given;
    give_tile(&given, p, l, restored);
    if (!is_good(&given))
        return word_refused(NOT_GOOD);
    if (!agree_outside(p, scan, restored, named(first), named(second)))
        return word_refused(DIFFERS_ELSEWHERE);
    return word_done();
}

/* A copy of the scan is repaired (SPEC 5.3), and what repair says is answered. The scan has its right length. */
static uint64_t repair_copy(size_t kind, size_t p, size_t l, const uint8_t *scan, uint8_t *copy)
{
    memcpy(copy, scan, tile_length(p));
    return peer_repair(kind, p, l, copy, tile_length(p));
}

/* SPEC 5.6: the copy is made for the answer alone. */
uint64_t peer_inspect(size_t kind, size_t p, size_t l, const uint8_t *scan, size_t scan_len)
{
    static uint8_t copy[LARGEST_TILE];
    enum refusal refusal = judge_tile(kind, p, l, scan_len);
    if (refusal != ACCEPTED)
        return word_refused(refusal);
    return repair_copy(kind, p, l, scan, copy);
}

/* SPEC 5.7: both lengths are judged before the scan is looked into (SPEC 9.2). Where repair refuses, which is by 5 or 8 then, the text is
 * left; otherwise it is taken out of the repaired copy. */
uint64_t peer_recover(size_t kind, size_t p, size_t l, const uint8_t *scan, size_t scan_len, uint8_t *text, size_t text_len)
{
    static uint8_t copy[LARGEST_TILE];
    enum refusal refusal = judge_text(kind, p, l, scan_len, text_len);
    if (refusal != ACCEPTED)
        return word_refused(refusal);
    uint64_t said = repair_copy(kind, p, l, scan, copy);
    if (said != word_refused(DAMAGED) && said != word_refused(DOUBTFUL))
        take_text(p, copy, text);
    return said;
}
