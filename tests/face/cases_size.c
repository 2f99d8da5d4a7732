/* Which sizes and slopes are taken, of a new tile and of an old one, by each call that is told them or finds them in a record; and which
 * numbers name a kind. */

#include <stddef.h>
#include <stdint.h>

#include "ask.h"
#include "cases.h"
#include "differences.h"
#include "made.h"
#include "reels.h"

/* Sizes and slopes are tried from 0 on up to here. */
enum { LAST_TRIED = 300, LONGEST_TILE = (LAST_TRIED - 1) * (LAST_TRIED - 1) };

static uint8_t tile[LONGEST_TILE], text[LONGEST_TILE], recovered[LONGEST_TILE];

/* All tile calls, with lengths that are right if p is a size at all. Once it is written, the tile is judged with itself as the scan. */
static void ask_tile_calls(size_t kind, size_t p, size_t l, size_t tile_len, size_t text_len)
{
    static const uint8_t sheet[8] = {0xC3, 0x3C, 0, 0, 0, 0, 0, 1};
    uint64_t count;
    ask_write(kind, p, l, text, text_len, tile, tile_len);
    ask_judge(p, l, tile, tile_len, tile, tile_len, row_name(1), column_name(2));
    ask_read(kind, p, l, tile, tile_len, text, text_len);
    ask_inspect(kind, p, l, tile, tile_len);
    mark_text(recovered, text_len);
    ask_recover(kind, p, l, tile, tile_len, recovered, text_len);
    ask_repair(kind, p, l, tile, tile_len);
    ask_fill(kind, p, l, tile, tile_len, row_name(1), column_name(2));
    ask_correct(kind, p, l, tile, tile_len, sheet, sizeof sheet, &count);
}

/* A reel that holds a record's header alone is refused with 1, 2 or 7: so each slope of each size is judged at little cost. */
static uint64_t ask_header(size_t which, size_t p, size_t l)
{
    uint8_t header[FLAGGED_HEADER];
    struct found found;
    put_header(header, without_flags(mark_of(which), p, l, 1));
    return ask_next(header, header_length(mark_of(which)), 0, &found);
}

/* Without a tile, laying is refused with 1, 2 or 3: the same at the same cost. */
static uint64_t ask_lay_nothing(size_t which, size_t p, size_t l)
{
    uint8_t room[FLAGGED_HEADER] = {9, 8, 7};
    uint64_t length;
    return ask_lay(which, p, l, 1, NO_FLAG, NO_FLAG, tile, 0, room, sizeof room, &length);
}

/* The three records, by the numbers of SPEC 11.6. As the kind of a tile, that of the flagged one counts as new. */
static void ask_records(size_t p, size_t l)
{
    for (size_t which = 0; which < SORTS; which++) {
        ask_takes(which, p, l);
        ask_header(which, p, l);
        ask_lay_nothing(which, p, l);
    }
}

static void each_number_as_size(void)
{
    for (size_t p = 0; p <= LAST_TRIED; p++) {
        ask_house_slope(p);
        for (size_t l = 0; l <= 3; l++)
            ask_records(p, l);
        if (p >= 3)
            ask_tile_calls(NEW, p, is_size(p) ? house_slope(p) : 2, tile_length(p), text_length(p));
        else
            ask_tile_calls(NEW, p, 2, 1, 1);
        if (!is_size(p)) {
            ask_tile_calls(NEW, p, 2, 16, 8);
            ask_tile_calls(NEW, p, 0, 16, 8);
        }
    }
}

/* How many of the numbers from 1 to n have no divisor but 1 in common with n. */
static size_t count_coprime(size_t n)
{
    size_t count = 0;
    for (size_t k = 1; k <= n; k++) {
        size_t a = n, b = k;
        while (b != 0) {
            size_t rest = a % b;
            a = b;
            b = rest;
        }
        count += a == 1;
    }
    return count;
}

/* All slopes of a size, and how many of them are taken for a record, and for the kind that has its number. */
static void each_slope_of_size(size_t which, size_t p, size_t asked)
{
    size_t taken = 0, on_reels = 0, laid = 0;
    for (size_t l = 0; l <= LAST_TRIED; l++) {
        taken += ask_takes(which, p, l) == word_done();
        on_reels += ask_header(which, p, l) == word_refused(CUT_SHORT);
        laid += ask_lay_nothing(which, p, l) == word_refused(BAD_LENGTH);
    }
    hold(taken == asked, "the size %zu: the peer takes %zu slopes for kind %zu", p, taken, which);
    hold(on_reels == asked, "the size %zu: the peer takes %zu slopes on reels for record %zu", p, on_reels, which);
    hold(laid == asked, "the size %zu: the peer takes %zu slopes to lay record %zu", p, laid, which);
}

/* Of new tiles: of the p-1 powers of one slope those with an exponent coprime to p-1 serve. Of old ones: 2 to p-2. */
static void each_slope_of_each_size(void)
{
    for (size_t p = size_above(0); p != 0; p = size_above(p)) {
        each_slope_of_size(NEW, p, count_coprime(p - 1));
        each_slope_of_size(OLD, p, p - 3);
        each_slope_of_size(FLAGGED, p, count_coprime(p - 1));
    }
}

/* The tile calls, with the lengths that are right. */
static void ask_with_lengths(size_t kind, size_t p, size_t l)
{
    ask_tile_calls(kind, p, l, tile_length(p), text_length(p));
}

/* Every slope, as of a new tile; and those that old tiles alone take. */
static void each_slope_in_tile_calls(void)
{
    for (size_t p = size_above(0); p <= SMALL_SIZE; p = size_above(p))
        for (size_t l = 0; l <= 2 * p + 1; l++)
            ask_with_lengths(NEW, p, l);
    for_small_old_sizes(SMALL_SIZE, ask_with_lengths);
}

/* SPEC 11.5: every number but 1 counts as new, also one that is 1 in its low bits. Slope 2 is not taken at 7 then. */
static void each_number_as_kind(void)
{
    static const size_t others[] = {0, 2, 3, 4, 7, 8, 255, 256, 257, 0x8001, 0x10001, ((size_t)1 << 32) + 1, ((size_t)1 << 63) + 1};
    static const size_t sizes_and_slopes[][2] = {{7, 2}, {7, 4}, {17, 2}, {31, 2}, {7, 3}, {7, 1}, {9, 2}};
    for (size_t k = 0; k < FAR_NUMBERS + sizeof others / sizeof others[0]; k++) {
        size_t kind = k < FAR_NUMBERS ? far_numbers[k] : others[k - FAR_NUMBERS];
        for (size_t n = 0; n < sizeof sizes_and_slopes / sizeof sizes_and_slopes[0]; n++) {
            size_t p = sizes_and_slopes[n][0], l = sizes_and_slopes[n][1];
            hold(ask_takes(kind, p, l) == ask_takes(NEW, p, l), "the peer does not take the kind %zu for new, p %zu, l %zu", kind, p, l);
            ask_with_lengths(kind, p, l);
        }
        hold(ask_takes(kind, 7, 2) == word_refused(BAD_SLOPE), "the peer takes slope 2 at 7 for the kind %zu", kind);
    }
    hold(ask_takes(OLD, 7, 2) == word_done(), "the peer does not take slope 2 at 7 for an old tile");
}

static void far_sizes_and_slopes(void)
{
    for (size_t k = 0; k < FAR_NUMBERS; k++) {
        ask_house_slope(far_numbers[k]);
        ask_takes(NEW, far_numbers[k], 2);
        ask_takes(NEW, 5, far_numbers[k]);
        ask_takes(NEW, 257, far_numbers[k]);
        ask_takes(NEW, far_numbers[k], far_numbers[k]);
        ask_tile_calls(NEW, far_numbers[k], 2, 16, 8);
        ask_tile_calls(NEW, 5, far_numbers[k], 16, 8);
        ask_tile_calls(NEW, 7, far_numbers[k], 36, 24);
        ask_tile_calls(NEW, 257, far_numbers[k], 65536, 65024);
        ask_tile_calls(NEW, far_numbers[k], far_numbers[k], 16, 8);
        ask_tile_calls(NEW, far_numbers[k], far_numbers[k] - 2, 16, 8);
    }
}

void cases_size(void)
{
    each_number_as_size();
    each_slope_of_each_size();
    each_slope_in_tile_calls();
    each_number_as_kind();
    far_sizes_and_slopes();
}
