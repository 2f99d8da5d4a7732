/* Writing and reading (SPEC 5.1, 5.2): the texts that are tried, over whatever the tile held before, and tiles that are no longer good. */

#include <stddef.h>
#include <stdint.h>
#include <string.h>

#include "ask.h"
#include "cases.h"
#include "made.h"

static struct chance chance;
static uint8_t tile[LARGEST_TILE], text[LARGEST_TEXT], text_read[LARGEST_TEXT];

/* A text is written, read, and found clean. */
static void there_and_back(size_t kind, size_t p, size_t l, enum text_kind filled_with)
{
    make_text(&chance, p, filled_with, text);
    chance_bytes(&chance, tile, tile_length(p));
    ask_write(kind, p, l, text, text_length(p), tile, tile_length(p));
    chance_bytes(&chance, text_read, text_length(p));
    ask_read(kind, p, l, tile, tile_length(p), text_read, text_length(p));
    ask_repair(kind, p, l, tile, tile_length(p));
}

/* A tile with one bit changed is not read, nor is garbage. */
static void not_read(size_t kind, size_t p, size_t l)
{
    tile[chance_below(&chance, tile_length(p))] ^= (uint8_t)(1 << chance_below(&chance, 8));
    ask_read(kind, p, l, tile, tile_length(p), text_read, text_length(p));
    chance_bytes(&chance, tile, tile_length(p));
    ask_read(kind, p, l, tile, tile_length(p), text_read, text_length(p));
}

static void each_kind_of_text(size_t kind, size_t p, size_t l)
{
    for (int filled_with = 0; filled_with < TEXT_KINDS; filled_with++)
        there_and_back(kind, p, l, (enum text_kind)filled_with);
    not_read(kind, p, l);
}

/* Texts of zeros but one byte: each place of the text shows alone which checks it reaches. */
static void each_place_of_the_text(size_t kind, size_t p, size_t l)
{
    memset(text, 0, text_length(p));
    for (size_t k = 0; k < text_length(p); k++) {
        text[k] = chance_change(&chance);
        ask_write(kind, p, l, text, text_length(p), tile, tile_length(p));
        text[k] = 0;
    }
}

/* A good tile is no good one for most other slopes. */
static void read_with_another_slope(size_t kind, size_t p, size_t l)
{
    make_tile(&chance, p, l, tile);
    size_t other = some_slope(&chance, p);
    ask_read(kind, p, other, tile, tile_length(p), text_read, text_length(p));
    ask_repair(kind, p, other, tile, tile_length(p));
}

void cases_tile(void)
{
    chance = chance_from(1);
    for_small_sizes(SMALL_SIZE, each_kind_of_text);
    for_small_sizes(SMALL_SIZE, each_kind_of_text);
    for_small_sizes(11, each_place_of_the_text);
    for_small_sizes(SMALL_SIZE, read_with_another_slope);
    for_all_sizes(&chance, each_kind_of_text);
    for_all_sizes(&chance, read_with_another_slope);
    for_small_old_sizes(17, each_kind_of_text);
    for_small_old_sizes(7, each_place_of_the_text);
    for_small_old_sizes(17, read_with_another_slope);
    for_some_old_sizes(&chance, each_kind_of_text);
}
