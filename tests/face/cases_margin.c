/* The margin (SPEC 4.6): two texts that are written stay apart when two lines are lost, any two at an allowed slope, and at every slope two
 * rows or two columns; and whichever three lines are lost, there is another good tile that agrees with the printed one outside them. The
 * worked pair of SPEC 10, to the byte. */

#include <stddef.h>
#include <stdint.h>
#include <string.h>

#include "ask.h"
#include "cases.h"
#include "differences.h"
#include "doubt.h"
#include "made.h"

static struct chance chance;
static uint8_t good[LARGEST_TILE], tile[LARGEST_TILE], text[LARGEST_TEXT], other[LARGEST_TEXT];

/* SPEC 3.4: whether the good tile and the other one agree outside some lines. */
static int agree_outside(size_t p, const size_t *lines, size_t count)
{
    for (size_t place = 0; place < tile_length(p); place++) {
        int is_outside = 1;
        for (size_t k = 0; k < count; k++)
            is_outside = is_outside && !is_on(p, lines[k], place);
        if (is_outside && good[place] != tile[place])
            return 0;
    }
    return 1;
}

static void hold_apart(size_t p, size_t l, size_t first, size_t second)
{
    const size_t lines[] = {first, second};
    if (may_lose(p, l, first, second))
        hold(!agree_outside(p, lines, 2), "p %zu, l %zu: the tiles of two texts agree outside lines %zx and %zx hex", p, l, first, second);
}

/* Every two lines are lost in turn, and every line alone, as one that is named twice. */
static void hold_apart_everywhere(size_t p, size_t l)
{
    for (size_t first = 0; first < 2 * (p - 1); first++)
        for (size_t second = 0; second <= first; second++)
            hold_apart(p, l, nth_line(p, first), nth_line(p, second));
}

static void write_both(size_t kind, size_t p, size_t l)
{
    ask_write(kind, p, l, text, text_length(p), good, tile_length(p));
    ask_write(kind, p, l, other, text_length(p), tile, tile_length(p));
}

/* Two texts of which one byte is different, each in turn. */
static void each_letter_changed(size_t kind, size_t p, size_t l)
{
    make_text(&chance, p, TEXT_OF_ANY, text);
    for (size_t k = 0; k < text_length(p); k++) {
        memcpy(other, text, text_length(p));
        other[k] ^= chance_change(&chance);
        write_both(kind, p, l);
        hold_apart_everywhere(p, l);
    }
}

/* Two texts of which the first byte is different, and some others. At a large size not every two lines are tried, only some. */
static void letters_changed(size_t kind, size_t p, size_t l)
{
    make_text(&chance, p, TEXT_OF_ANY, text);
    memcpy(other, text, text_length(p));
    for (size_t changes = chance_below(&chance, 2 * p); changes > 0; changes--)
        other[chance_below(&chance, text_length(p))] ^= chance_change(&chance);
    other[0] = text[0] ^ chance_change(&chance);
    write_both(kind, p, l);
    for (int round = 0; round < 20; round++)
        hold_apart(p, l, some_line(&chance, p), some_line(&chance, p));
}

/* Another good tile: a cell of the third line that is on neither of the first two is changed, and these, which are parallel, are filled. */
static void make_another(size_t kind, size_t p, size_t l, size_t first, size_t second, size_t third)
{
    size_t place;
    do
        place = place_on_line(p, third, chance_below(&chance, p - 1));
    while (is_on(p, first, place) || is_on(p, second, place));
    memcpy(tile, good, tile_length(p));
    tile[place] ^= chance_change(&chance);
    uint64_t said = ask_fill(kind, p, l, tile, tile_length(p), first, second);
    hold(said == word_done() && has_one_sum(p, l, tile) && memcmp(tile, good, tile_length(p)) != 0,
         "p %zu, l %zu: no other good tile is made in lines %zx, %zx and %zx hex", p, l, first, second, third);
}

/* Of three different lines two are parallel. */
static void lose_three(size_t kind, size_t p, size_t l, size_t a, size_t b, size_t c)
{
    const size_t lines[] = {a, b, c};
    if (is_row(a) == is_row(b))
        make_another(kind, p, l, a, b, c);
    else if (is_row(a) == is_row(c))
        make_another(kind, p, l, a, c, b);
    else
        make_another(kind, p, l, b, c, a);
    hold(agree_outside(p, lines, 3), "p %zu, l %zu: two good tiles differ outside lines %zx, %zx and %zx hex", p, l, a, b, c);
}

static void every_three(size_t kind, size_t p, size_t l)
{
    make_tile(&chance, p, l, good);
    for (size_t a = 0; a < 2 * (p - 1); a++)
        for (size_t b = 0; b < a; b++)
            for (size_t c = 0; c < b; c++)
                lose_three(kind, p, l, nth_line(p, a), nth_line(p, b), nth_line(p, c));
}

static void some_three(size_t kind, size_t p, size_t l)
{
    size_t a = some_line(&chance, p), b, c;
    do
        b = some_line(&chance, p);
    while (b == a);
    do
        c = some_line(&chance, p);
    while (c == a || c == b);
    make_tile(&chance, p, l, good);
    lose_three(kind, p, l, a, b, c);
}

/* At a slope that is not allowed each row with each column has another good tile too. */
static void every_crossing(size_t kind, size_t p, size_t l)
{
    (void)kind;
    make_tile(&chance, p, l, good);
    for (size_t row = 0; row < p - 1; row++) {
        for (size_t column = 0; column < p - 1; column++) {
            const size_t lines[] = {row_name(row), column_name(column)};
            make_cross(&chance, p, l, row, column, tile);
            for (size_t k = 0; k < tile_length(p); k++)
                tile[k] ^= good[k];
            hold(has_one_sum(p, l, tile) && memcmp(tile, good, tile_length(p)) != 0 && agree_outside(p, lines, 2),
                 "p %zu, l %zu: no other good tile agrees outside row %zu and column %zu", p, l, row, column);
        }
    }
}

/* Whether three lines hold all six cells in which zeros and tile 1 of SPEC 10 differ. One has to be column 2, as (1, 2), (2, 2) and (3, 2)
 * would need three rows without it; and the others have to hold (0, 0), (0, 3) and (1, 3). Lines come with columns first, the last first. */
static int have_all_six(const size_t lines[3])
{
    static const size_t all[3][3] = {{0x8003, 0x8002, 0x8000}, {0x8003, 0x8002, 0}, {0x8002, 1, 0}};
    for (size_t k = 0; k < 3; k++)
        if (memcmp(lines, all[k], sizeof all[k]) == 0)
            return 1;
    return 0;
}

/* SPEC 10, the margin to the byte: zeros and tile 1. */
static void worked_pair(void)
{
    static const uint8_t zeros[16] = {0}, one[16] = {1, 0, 0, 1, 0, 0, 1, 1, 0, 0, 1, 0, 0, 0, 1, 0};
    memset(text, 0, 8);
    memset(other, 0, 8);
    other[0] = 1;
    write_both(NEW, 5, 2);
    hold(memcmp(good, zeros, 16) == 0 && memcmp(tile, one, 16) == 0, "the worked pair is written otherwise than SPEC 10 says");
    hold_apart_everywhere(5, 2);
    for (size_t a = 0; a < 8; a++) {
        for (size_t b = 0; b < a; b++) {
            for (size_t c = 0; c < b; c++) {
                const size_t lines[] = {nth_line(5, a), nth_line(5, b), nth_line(5, c)};
                hold(agree_outside(5, lines, 3) == have_all_six(lines), "the worked pair and lines %zx, %zx and %zx hex", lines[0], lines[1],
                     lines[2]);
            }
        }
    }
}

void cases_margin(void)
{
    chance = chance_from(8);
    worked_pair();
    for_small_sizes(11, each_letter_changed);
    for_small_old_sizes(11, each_letter_changed);
    for_all_sizes(&chance, letters_changed);
    for_some_old_sizes(&chance, letters_changed);
    for_small_sizes(11, every_three);
    for_small_old_sizes(11, every_three);
    for_all_sizes(&chance, some_three);
    for_some_old_sizes(&chance, some_three);
    for_small_old_sizes(17, every_crossing);
}
