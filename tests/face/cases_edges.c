/* Every number that a tile call is told, on both sides of its edges and at the largest, alone and together: two faults at once show the
 * order of refusals (SPEC 9.2). A length is always that of bytes that are really there. */

#include <stddef.h>
#include <stdint.h>

#include "ask.h"
#include "cases.h"
#include "made.h"
#include "sheets.h"

/* A tile and a text may be lent twice as long as the longest. What is recovered has a text of its own. */
static uint8_t tile[2 * LARGEST_TILE], text[2 * LARGEST_TILE], recovered[2 * LARGEST_TILE];
static struct chance chance;

/* What a call is told. */
struct told {
    size_t kind, p, l, tile_len, text_len, first, second;
};

static size_t pick(const size_t *numbers, size_t count)
{
    return numbers[chance_below(&chance, count)];
}

/* PICK takes one of the numbers that are listed. */
#define PICK(...) pick((const size_t[]){__VA_ARGS__}, sizeof(const size_t[]){__VA_ARGS__} / sizeof(size_t))

static size_t far(void)
{
    return far_numbers[chance_below(&chance, FAR_NUMBERS)];
}

static size_t wrong_size(void)
{
    return PICK(0, 1, 2, 3, 4, 6, 8, 9, 25, 49, 121, 169, 253, 255, 256, 258, 259, 261, 263, 269, 289, far(), far());
}

/* Slopes of neither kind; among these are numbers that leave the remainder of an allowed one. */
static size_t wrong_slope(size_t p)
{
    return PICK(0, 1, p - 1, p, p + 1, p + 2, p + house_slope(p), 2 * p + house_slope(p), far(), (far() / p - 1) * p + house_slope(p));
}

/* What there is to a length: the lengths of other things, and one more or less. */
static size_t wrong_tile_length(size_t p)
{
    return PICK(0, 1, p, tile_length(p) - 1, tile_length(p) + 1, text_length(p), p * p, tile_length(p) - p + 1, 2 * tile_length(p));
}

static size_t wrong_text_length(size_t p)
{
    return PICK(0, 1, p, text_length(p) - 1, text_length(p) + 1, tile_length(p), text_length(p) - p + 1, 2 * text_length(p));
}

static size_t right_line(size_t p)
{
    return PICK(row_name(0), row_name(1), row_name(p - 2), column_name(0), column_name(1), column_name(p - 2));
}

static size_t wrong_line(size_t p)
{
    return PICK(row_name(p - 1), row_name(p), row_name(256), row_name(257), 0x7FFE, 0x7FFF, column_name(p - 1), column_name(p),
                column_name(256), column_name(257), column_name(0x7FFE), column_name(0x7FFF), 0x10000, 0x10001, 0x18000, 0x18001, far(),
                far(), ((size_t)1 << 32) + 0x8000, ((size_t)1 << 63) + 0x8001, SIZE_MAX - 0x7FFF,
                SIZE_MAX - 0x7FFE);
}

static size_t some_size(void)
{
    return PICK(5, 5, 5, 7, 7, 7, 11, 13, 17, 31);
}

/* Of either kind: an old tile has any slope from 2 to p-2. */
static struct told sound(size_t p)
{
    size_t kind = PICK(NEW, OLD), l = kind == OLD ? 2 + chance_below(&chance, p - 3) : some_slope(&chance, p);
    struct told told = {kind, p, l, tile_length(p), text_length(p), right_line(p), right_line(p)};
    return told;
}

/* The faults that can be put in, one by one or together. */
enum fault { WRONG_SIZE = 1, WRONG_SLOPE = 2, WRONG_TILE = 4, WRONG_TEXT = 8, WRONG_FIRST = 16, WRONG_SECOND = 32, ALL_FAULTS = 63 };

/* The wrong size is last, since the others lie beside what is right for the size. */
static void put_faults(struct told *told, unsigned faults)
{
    if (faults & WRONG_SLOPE)
        told->l = wrong_slope(told->p);
    if (faults & WRONG_TILE)
        told->tile_len = wrong_tile_length(told->p);
    if (faults & WRONG_TEXT)
        told->text_len = wrong_text_length(told->p);
    if (faults & WRONG_FIRST)
        told->first = wrong_line(told->p);
    if (faults & WRONG_SECOND)
        told->second = wrong_line(told->p);
    if (faults & WRONG_SIZE)
        told->p = wrong_size();
}

static void ask_recover_marked(const struct told *told)
{
    mark_text(recovered, told->text_len);
    ask_recover(told->kind, told->p, told->l, tile, told->tile_len, recovered, told->text_len);
}

/* Once it is written, the tile is judged with itself as the scan; and before it is repaired, it is inspected and recovered. What else these
 * may be told has cases of its own. */
static void ask_all(const struct told *told)
{
    static struct sheet sheet;
    uint64_t count;
    make_sheet(&sheet, &chance, 5, 2);
    ask_write(told->kind, told->p, told->l, text, told->text_len, tile, told->tile_len);
    ask_judge(told->p, told->l, tile, told->tile_len, tile, told->tile_len, told->first, told->second);
    ask_read(told->kind, told->p, told->l, tile, told->tile_len, text, told->text_len);
    ask_fill(told->kind, told->p, told->l, tile, told->tile_len, told->first, told->second);
    ask_correct(told->kind, told->p, told->l, tile, told->tile_len, sheet.bytes, sheet.length, &count);
    ask_inspect(told->kind, told->p, told->l, tile, told->tile_len);
    ask_recover_marked(told);
    ask_repair(told->kind, told->p, told->l, tile, told->tile_len);
}

/* Every set of faults, many times each, over tiles of any bytes: a call that is not refused before is refused with 5 or 8, or is not. */
static void every_set_of_faults(void)
{
    for (unsigned faults = 0; faults <= ALL_FAULTS; faults++) {
        for (int round = 0; round < 60; round++) {
            struct told told = sound(some_size());
            chance_bytes(&chance, tile, told.tile_len);
            chance_bytes(&chance, text, told.text_len);
            put_faults(&told, faults);
            ask_all(&told);
        }
    }
}

/* Each fault alone at the largest size. */
static void at_the_largest_size(void)
{
    for (unsigned fault = 1; fault <= ALL_FAULTS; fault *= 2) {
        for (int round = 0; round < 6; round++) {
            struct told told = sound(LARGEST_SIZE);
            put_faults(&told, fault);
            ask_all(&told);
        }
    }
}

/* Lines at their edges, each with each, at all sizes up to a small one and at the largest. */
static void each_line_at_its_edge(size_t kind, size_t p, size_t l)
{
    const size_t lines[] = {row_name(0),       row_name(p - 2),    row_name(p - 1), 0x7FFF,   column_name(0), column_name(p - 2),
                            column_name(p - 1), column_name(0x7FFF), 0x10000,       SIZE_MAX, SIZE_MAX - 0x7FFF};
    enum { COUNT = sizeof lines / sizeof lines[0] };
    for (size_t i = 0; i < COUNT; i++)
        for (size_t j = 0; j < COUNT; j++)
            ask_fill(kind, p, l, tile, tile_length(p), lines[i], lines[j]);
}

/* All lengths from nothing to some more than is right. */
static void each_length(size_t p)
{
    struct told told = sound(p);
    for (told.tile_len = 0; told.tile_len <= tile_length(p) + 40; told.tile_len++)
        ask_all(&told);
    told = sound(p);
    for (told.text_len = 0; told.text_len <= text_length(p) + 40; told.text_len++)
        ask_all(&told);
}

/* A text and a tile of which both lengths may be wrong, from nothing on. */
static void each_length_with_each(size_t p)
{
    struct told told = sound(p);
    for (told.tile_len = 0; told.tile_len <= tile_length(p) + 1; told.tile_len++) {
        for (told.text_len = 0; told.text_len <= text_length(p) + 1; told.text_len++) {
            ask_write(told.kind, told.p, told.l, text, told.text_len, tile, told.tile_len);
            ask_read(told.kind, told.p, told.l, tile, told.tile_len, text, told.text_len);
            ask_recover_marked(&told);
        }
    }
}

void cases_edges(void)
{
    chance = chance_from(6);
    every_set_of_faults();
    at_the_largest_size();
    for (size_t p = size_above(0); p <= 13; p = size_above(p))
        each_line_at_its_edge(NEW, p, house_slope(p));
    for_small_old_sizes(13, each_line_at_its_edge);
    each_line_at_its_edge(NEW, LARGEST_SIZE, house_slope(LARGEST_SIZE));
    for (size_t p = size_above(0); p <= 11; p = size_above(p))
        each_length(p);
    each_length_with_each(5);
}
