/* Measures how deep each call of counterfrost.h goes on the stack, on every way that it can go, and holds it to its goal. Prints a table.
 * The exit status is 0 only where each call answered what is expected of its way, and none is deeper than its goal.
 *
 * What is counted: all from the caller's stack pointer, as it stands before anything is pushed for the call, down to the lowest byte that
 * was changed. So the return address counts, which is 8 bytes, and so do the arguments past the sixth, which the caller pushes, 16 bytes
 * for every two or a last one. The caller's own frame does not. What memcpy, memmove and memset change is counted as the call's. Bytes that
 * are set aside below the lowest changed one, and never written, are not seen. */

#include <stddef.h>
#include <stdint.h>
#include <stdio.h>
#include <stdlib.h>
#include <string.h>

#include "counterfrost.h"
#include "doubt.h"
#include "made.h"
#include "own_stack.h"
#include "reels.h"
#include "sheets.h"

/* The two sizes that are measured, and a row and a column of text that both have. */
enum { LARGE = LARGEST_SIZE, SMALL = 5, ROW = 1, COLUMN = 1 };

/* What the calls are told and lent. A record is laid into the reel. What they find in the tile is the scan, which is laid there before
 * each. */
static struct told {
    size_t kind, p, l, tile_len, text_len, first, second, sheet_len, reel_len, which;
} told;

static struct chance chance;
static struct sheet sheet;
static uint8_t good[LARGEST_TILE], scan[LARGEST_TILE], tile[LARGEST_TILE], restored[LARGEST_TILE], cross[LARGEST_TILE];
static uint8_t text[LARGEST_TEXT], reel[FLAGGED_HEADER + LARGEST_TILE];
static uint64_t numbers[7], said;

/* Each call is asked by a function of its own, which asks the library, or an empty call in its place: it takes the same arguments and does
 * nothing. One and the same instruction calls both; volatile keeps the compiler from telling them apart. */
static int is_empty;

#define CALL(name, parameters, ...)                                                                                                        \
    static uint64_t empty_##name parameters { return 0; }                                                                                  \
    static void ask_##name(void)                                                                                                           \
    {                                                                                                                                      \
        static uint64_t(*const volatile either[]) parameters = {cf_##name, empty_##name};                                                  \
        said = either[is_empty](__VA_ARGS__);                                                                                              \
    }
#define KIND_P_L size_t kind, size_t p, size_t l
#define TOLD told.kind, told.p, told.l

#pragma GCC diagnostic push
#pragma GCC diagnostic ignored "-Wunused-parameter"
CALL(write, (KIND_P_L, const uint8_t *from, size_t from_len, uint8_t *to, size_t to_len), TOLD, text, told.text_len, tile, told.tile_len)
CALL(read, (KIND_P_L, const uint8_t *from, size_t from_len, uint8_t *to, size_t to_len), TOLD, tile, told.tile_len, text, told.text_len)
CALL(repair, (KIND_P_L, uint8_t *of, size_t of_len), TOLD, tile, told.tile_len)
CALL(inspect, (KIND_P_L, const uint8_t *of, size_t of_len), TOLD, tile, told.tile_len)
CALL(recover, (KIND_P_L, const uint8_t *from, size_t from_len, uint8_t *to, size_t to_len), TOLD, tile, told.tile_len, text, told.text_len)
CALL(fill, (KIND_P_L, uint8_t *of, size_t of_len, size_t first, size_t second), TOLD, tile, told.tile_len, told.first, told.second)
CALL(judge, (size_t p, size_t l, const uint8_t *of, size_t of_len, const uint8_t *by, size_t by_len, size_t first, size_t second), told.p,
     told.l, tile, told.tile_len, restored, told.tile_len, told.first, told.second)
CALL(correct, (KIND_P_L, uint8_t *of, size_t of_len, const uint8_t *by, size_t by_len, uint64_t *number), TOLD, tile, told.tile_len,
     sheet.bytes, told.sheet_len, &numbers[0])
CALL(next, (const uint8_t *of, size_t of_len, size_t at, uint64_t *kind, uint64_t *number, uint64_t *p, uint64_t *l, uint64_t *first,
            uint64_t *second, uint64_t *offset), reel, told.reel_len, 0, &numbers[0], &numbers[1], &numbers[2], &numbers[3], &numbers[4],
     &numbers[5], &numbers[6])
CALL(lay, (size_t which, size_t p, size_t l, uint32_t number, size_t first, size_t second, const uint8_t *of, size_t of_len, uint8_t *to,
           size_t to_len, uint64_t *length), told.which, told.p, told.l, 1, told.first, told.second, tile, told.tile_len, reel,
     told.reel_len, &numbers[0])
CALL(house_slope, (size_t p), told.p)
CALL(takes, (KIND_P_L), TOLD)
CALL(version, (void), )
#pragma GCC diagnostic pop

/* The calls, with how many arguments they have, and the most that each may hold: its goal, in bytes. */
enum call { WRITE, READ, REPAIR, INSPECT, RECOVER, FILL, JUDGE, CORRECT, NEXT, LAY, HOUSE_SLOPE, TAKES, VERSION, CALLS };

static const struct {
    const char *name;
    void (*ask)(void);
    size_t arguments, goal;
} calls[CALLS] = {
    [WRITE] = {"write", ask_write, 7, 2048},
    [READ] = {"read", ask_read, 7, 1280},
    [REPAIR] = {"repair", ask_repair, 5, 1280},
    [INSPECT] = {"inspect", ask_inspect, 5, 1280},
    [RECOVER] = {"recover", ask_recover, 7, 1280},
    [FILL] = {"fill", ask_fill, 7, 2048},
    [JUDGE] = {"judge", ask_judge, 8, 1280},
    [CORRECT] = {"correct", ask_correct, 8, 2048},
    [NEXT] = {"next", ask_next, 10, 512},
    [LAY] = {"lay", ask_lay, 11, 512},
    [HOUSE_SLOPE] = {"house_slope", ask_house_slope, 1, 512},
    [TAKES] = {"takes", ask_takes, 3, 512},
    [VERSION] = {"version", ask_version, 0, 512},
};

/* The deepest of each call at a size, and the first way on which it was found so deep. The table shows the large size. */
struct found {
    size_t depth, kind, l;
    const char *way;
};

static struct found at_large[CALLS], at_small[CALLS], *deepest;

static void lay_scan(void)
{
    memcpy(tile, scan, sizeof tile);
}

/* What is pushed for a call, on x86-64: the arguments past the sixth, 8 bytes each, and where their number is odd 8 bytes more. */
static size_t pushed_for(enum call call)
{
    size_t arguments = calls[call].arguments;
    return arguments > 6 ? (arguments - 6 + 1) / 2 * 16 : 0;
}

/* How deep a call goes. An empty one goes down to its return address; what this and the pushed arguments take is known. */
static size_t depth_of(enum call call)
{
    const size_t return_address = 8, pushed = pushed_for(call);
    is_empty = 1;
    size_t by_empty_call = changed_on_own_stack(lay_scan, calls[call].ask);
    is_empty = 0;
    size_t by_call = changed_on_own_stack(lay_scan, calls[call].ask);
    hold_or_end(by_call >= by_empty_call, "an empty call is deeper than the library's");
    return by_call - by_empty_call + return_address + pushed;
}

/* Measures a call that goes one way, which shows by what it answers. Judge takes new tiles alone. */
static void measure(enum call call, const char *way, uint64_t expected)
{
    if (call == JUDGE && told.kind == OLD)
        return;
    struct found found = {depth_of(call), told.kind, told.l, way};
    if (said != expected) {
        fprintf(stderr, "stack: cf_%s, %s, kind %zu, p %zu, l %zu: answers %llx hex, not %llx\n", calls[call].name, way, told.kind,
                told.p, told.l, (unsigned long long)said, (unsigned long long)expected);
        exit(1);
    }
    if (found.depth > deepest[call].depth)
        deepest[call] = found;
}

/* Measures the calls from one to another, which all answer alike. */
static void measure_all(enum call from, enum call to, const char *way, uint64_t expected)
{
    for (enum call call = from; call <= to; call++)
        measure(call, way, expected);
}

static void hurt_nothing(void)
{
    memcpy(scan, good, sizeof scan);
    memcpy(restored, good, sizeof restored);
}

static void hurt_too(size_t line)
{
    hurt_line(&chance, told.p, scan, line, HURT_ANY);
}

static void hurt_only(size_t line)
{
    hurt_nothing();
    hurt_too(line);
}

/* What is refused before a tile is looked at. */
static void refused_early(void)
{
    size_t p = told.p, l = told.l;
    told.p = 9;
    measure_all(WRITE, CORRECT, "a bad size", word_refused(BAD_SIZE));
    measure_all(HOUSE_SLOPE, TAKES, "a bad size", word_refused(BAD_SIZE));
    told.p = p;
    told.l = 1;
    measure_all(WRITE, CORRECT, "a bad slope", word_refused(BAD_SLOPE));
    measure(TAKES, "a bad slope", word_refused(BAD_SLOPE));
    told.l = l;
    told.tile_len--;
    measure_all(WRITE, CORRECT, "a bad length", word_refused(BAD_LENGTH));
    told.tile_len++;
    told.first = row_name(p - 1);
    measure_all(FILL, JUDGE, "a bad line", word_refused(BAD_PLACE));
}

static void asked_written_and_read(void)
{
    measure(HOUSE_SLOPE, "a size", word_slope(house_slope(told.p)));
    measure(TAKES, "a size and a slope", word_done());
    measure(VERSION, "its only way", cf_version());
    hurt_nothing();
    measure_all(WRITE, READ, "a good tile", word_done());
    scan[0] ^= 1;
    measure(READ, "a tile that is not good", word_refused(DAMAGED));
}

/* Scans that repair, inspect and recover answer alike. The last column is one of checks. */
static void repaired(void)
{
    size_t last = told.p - 2;
    hurt_nothing();
    measure_all(REPAIR, RECOVER, "a clean tile", word_done());
    scan[ROW * (told.p - 1) + COLUMN] ^= 1;
    measure_all(REPAIR, RECOVER, "a lone byte", word_cell(ROW, COLUMN));
    hurt_only(column_name(last));
    measure_all(REPAIR, RECOVER, "a hurt column of checks", word_column(last));
    hurt_only(column_name(COLUMN));
    measure_all(REPAIR, RECOVER, "a hurt column", word_column(COLUMN));
    hurt_too(column_name(last));
    measure_all(REPAIR, RECOVER, "two hurt columns, refused 5", word_refused(DAMAGED));
    hurt_only(row_name(ROW));
    measure_all(REPAIR, RECOVER, "a hurt row", word_row(ROW));
    hurt_too(row_name(last));
    measure_all(REPAIR, RECOVER, "two hurt rows, refused 5", word_refused(DAMAGED));
}

/* At a slope that is not allowed, a line is hurt by its part of a cross, so that a line across explains it too: see doubt.h. */
static void doubtful(size_t line, const char *way)
{
    hurt_nothing();
    make_cross(&chance, told.p, told.l, ROW, COLUMN, cross);
    for (size_t place = 0; place < tile_length(told.p); place++)
        scan[place] ^= is_on(told.p, line, place) ? cross[place] : 0;
    measure_all(REPAIR, RECOVER, way, word_refused(DOUBTFUL));
}

/* Two lines are lost. Fill fills them, or refuses a row with a column at a slope that is not allowed; judge accepts the good tile. */
static void lost(size_t first, size_t second, const char *way)
{
    hurt_only(told.first = first);
    hurt_too(told.second = second);
    measure(FILL, way, may_lose(told.p, told.l, first, second) ? word_done() : word_refused(DOUBTFUL));
    measure(JUDGE, way, word_done());
}

/* The first cell on neither line, hurt in which the row and the column have no filling; a diagonal of it meets their crossing, or none. */
static size_t cell_elsewhere(int spares)
{
    size_t cell = 0;
    while (is_on(told.p, row_name(ROW), cell) || is_on(told.p, column_name(COLUMN), cell) ||
           still_fills(told.p, told.l, ROW, COLUMN, cell) || spares_crossing(told.p, told.l, ROW, COLUMN, cell) != spares)
        cell++;
    return cell;
}

/* Two lines are lost, or one, and such a cell is hurt. Fill finds no filling, and judge a difference; or the restored tile is not good. */
static void lost_and_hurt(size_t first, size_t second, int spares, const char *way)
{
    hurt_only(told.first = first);
    hurt_too(told.second = second);
    scan[cell_elsewhere(spares)] ^= 1;
    measure(FILL, way, word_refused(DAMAGED));
    measure(JUDGE, "refused 11", word_refused(DIFFERS_ELSEWHERE));
    restored[0] ^= 1;
    measure(JUDGE, "refused 10", word_refused(NOT_GOOD));
}

static void filled_and_judged(void)
{
    size_t row = row_name(ROW), column = column_name(COLUMN);
    lost(column, column_name(told.p - 2), "two columns");
    lost(row, row_name(told.p - 2), "two rows");
    lost(row, column, "a row and a column");
    lost(column, row, "a column and a row");
    lost(column, column, "a column twice");
    lost(row, row, "a row twice");
    lost_and_hurt(column, column, 0, "a column twice, refused 5");
    lost_and_hurt(row, row, 0, "a row twice, refused 5");
    lost_and_hurt(row, column, 0, "a row and a column, refused 5");
    if (!allows(told.p, told.l))
        lost_and_hurt(row, column, 1, "a row and a column, refused 5");
}

/* A sheet of some records; one in the middle has a fault, or where it is SHEET_FAULTS none has. */
static void corrected_by(size_t records, enum sheet_fault fault, const char *way, uint64_t expected)
{
    make_sheet(&sheet, &chance, told.p, records);
    put_fault(&sheet, told.p, records / 2, fault);
    told.sheet_len = sheet.length;
    measure(CORRECT, way, expected);
}

static void corrected(void)
{
    hurt_nothing();
    corrected_by(0, SHEET_FAULTS, "no record", word_done());
    corrected_by(1, SHEET_FAULTS, "a record", word_done());
    corrected_by(100, FIRST_MARK_BYTE, "a bad mark", word_refused(BAD_MARK));
    corrected_by(100, ROW_JUST_ABOVE, "a bad place", word_refused(BAD_PLACE));
    corrected_by(100, SHEET_FAULTS, "100 records", word_done());
    told.sheet_len--;
    measure(CORRECT, "a sheet that is cut", word_refused(CUT_SHORT));
}

/* A reel of one record with this header, which ends after so many bytes. */
static void stands(struct header header, size_t length, const char *way, uint64_t expected)
{
    put_header(reel, header);
    told.reel_len = length;
    measure(NEXT, way, expected);
}

/* What a record of every sort may be, flags aside. */
static void walked(size_t mark)
{
    size_t p = told.p, l = told.l, header = header_length(mark), whole = header + tile_length(p);
    stands(without_flags(mark, p, l, 1), whole, "a tile", word_done());
    stands(without_flags(mark, p, l, 1), whole - 1, "a tile that is cut", word_refused(CUT_SHORT));
    stands(without_flags(mark, p, l, 1), header - 1, "a header that is cut", word_refused(CUT_SHORT));
    stands(without_flags(mark, p, l, 1), HEADER - 1, "a header that is cut to less than ten bytes", word_refused(CUT_SHORT));
    stands(without_flags(mark, p, l, 1), 0, "the end", word_end());
    stands(without_flags(0xC33C, p, l, 1), whole, "a bad mark", word_refused(BAD_MARK));
    stands(without_flags(mark, p, 1, 1), whole, "a bad slope", word_refused(BAD_SLOPE));
    stands(without_flags(mark, 9, l, 1), whole, "a bad size", word_refused(BAD_SIZE));
}

/* A record with these flags, as it is read and as it is laid. */
static void with_flags(size_t first, size_t second, const char *way, uint64_t expected)
{
    struct header header = {FLAGGED_MARK, told.p, told.l, 1, told.first = first, told.second = second};
    stands(header, FLAGGED_HEADER + tile_length(told.p), way, expected);
    measure(LAY, way, expected);
}

static void flagged(void)
{
    size_t row = row_name(ROW), column = column_name(COLUMN), last = told.p - 2;
    told.which = FLAGGED;
    with_flags(NO_FLAG, NO_FLAG, "no flag", word_done());
    with_flags(row, NO_FLAG, "a first flag, a row", word_done());
    with_flags(NO_FLAG, column, "a second flag, a column", word_done());
    with_flags(column, row, "two flags", word_done());
    with_flags(row_name(last + 1), column, "a first flag that is no row", word_refused(BAD_PLACE));
    with_flags(column_name(last + 1), row, "a first flag that is no column", word_refused(BAD_PLACE));
    with_flags(row, row_name(last + 1), "a second flag that is no row", word_refused(BAD_PLACE));
    with_flags(NO_FLAG, column_name(last + 1), "a second flag that is no column", word_refused(BAD_PLACE));
}

/* What comes of laying a record by its number (SPEC 11.6), flags aside. */
static void laid(size_t which)
{
    size_t p = told.p, l = told.l, whole = (which == FLAGGED ? FLAGGED_HEADER : HEADER) + tile_length(p);
    told.which = which;
    told.first = told.second = NO_FLAG;
    told.reel_len = whole;
    measure(LAY, "a record", word_done());
    told.reel_len--;
    measure(LAY, "a room that is too small", word_refused(TOO_SMALL));
    told.reel_len = 0;
    measure(LAY, "no room", word_refused(TOO_SMALL));
    told.p = 9;
    measure(LAY, "a bad size", word_refused(BAD_SIZE));
    told.p = p;
    told.l = 1;
    measure(LAY, "a bad slope", word_refused(BAD_SLOPE));
    told.l = l;
    told.tile_len--;
    measure(LAY, "a bad length", word_refused(BAD_LENGTH));
    told.tile_len++;
}

/* A record that has no place for a flag is given one, in either place. */
static void laid_without_a_place(size_t which)
{
    told.which = which;
    told.first = row_name(ROW);
    measure(LAY, "a first flag without a place", word_refused(BAD_PLACE));
    told.first = NO_FLAG;
    told.second = column_name(COLUMN);
    measure(LAY, "a second flag without a place", word_refused(BAD_PLACE));
}

/* The records that a tile of this kind can have. 3 names none of them, and counts as the number of a new tile's. */
static void walked_and_laid(void)
{
    walked(mark_of(told.kind));
    laid(told.kind);
    laid_without_a_place(told.kind);
    if (told.kind == OLD)
        return;
    walked(FLAGGED_MARK);
    laid(FLAGGED);
    laid(3);
    laid_without_a_place(3);
    flagged();
}

/* Every way of every call, with this kind, size and slope. */
static void every_way(size_t kind, size_t p, size_t l)
{
    const struct told begin = {kind, p, l, tile_length(p), text_length(p), row_name(ROW), column_name(COLUMN), 0, 0, kind};
    told = begin;
    make_tile(&chance, p, l, good);
    asked_written_and_read();
    repaired();
    if (!allows(p, l)) {
        doubtful(column_name(COLUMN), "a column, refused 8");
        doubtful(row_name(ROW), "a row, refused 8");
    }
    filled_and_judged();
    corrected();
    refused_early();
    walked_and_laid();
}

/* New tiles at the house slope and another, old ones at the house slope and one that is not allowed, where the size has such a slope. */
static void at_size(size_t p, struct found found[CALLS])
{
    size_t house = house_slope(p), not_allowed = old_slope_above(p, 0);
    deepest = found;
    every_way(NEW, p, house);
    every_way(NEW, p, slope_above(p, house));
    every_way(OLD, p, house);
    if (not_allowed != 0)
        every_way(OLD, p, not_allowed);
}

static void print_table(void)
{
    printf("stack: %-11s  %7s  %5s  %s\n", "call", "deepest", "goal", "the first way that is so deep");
    for (enum call call = WRITE; call < CALLS; call++)
        printf("stack: %-11s  %7zu  %5zu  %s; %s, l %zu\n", calls[call].name, at_large[call].depth, calls[call].goal, at_large[call].way,
               at_large[call].kind == OLD ? "old" : "new", at_large[call].l);
    fflush(stdout);
}

/* Whether a call is deeper than its goal, or deeper at the small size than at the large one; then it is said. */
static int is_too_deep(enum call call)
{
    size_t depth = at_large[call].depth, small = at_small[call].depth, goal = calls[call].goal;
    if (depth > goal)
        fprintf(stderr, "stack: cf_%s is deeper than its goal: %zu bytes, not %zu\n", calls[call].name, depth, goal);
    if (small > depth)
        fprintf(stderr, "stack: cf_%s is deeper at p %d than at p %d: %zu bytes, not %zu\n", calls[call].name, SMALL, LARGE, small, depth);
    return depth > goal || small > depth;
}

int main(void)
{
    int too_deep = 0;
    chance = chance_from(1);
    at_size(LARGE, at_large);
    at_size(SMALL, at_small);
    print_table();
    for (enum call call = WRITE; call < CALLS; call++)
        too_deep += is_too_deep(call);
    if (too_deep == 0)
        printf("stack: %d calls measured at p %d, none deeper than its goal\n", CALLS, LARGE);
    return too_deep == 0 ? 0 : 1;
}
