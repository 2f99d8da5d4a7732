/* The worked tiles and the reels of SPEC 10, and the house slopes of SPEC 2.3. All sides are asked, and the peer is held to what is written
 * there: sides that were wrong in the same way would show here. */

#include <stddef.h>
#include <stdint.h>
#include <string.h>

#include "ask.h"
#include "cases.h"
#include "counterfrost.h"
#include "differences.h"
#include "walked.h"

enum { TILE = 16, TEXT = 8 };

/* An answer whose second number is 0, and a cell, which has two numbers. */
static uint64_t answer(unsigned kind, unsigned first)
{
    return ((uint64_t)kind << 32) + ((uint64_t)first << 16);
}

static uint64_t cell(unsigned row, unsigned column)
{
    return answer(CF_KIND_CELL, row) + column;
}

static void hold_tile(unsigned number, uint64_t said, uint64_t asked, const uint8_t *made, const uint8_t *tile)
{
    hold(said == asked && memcmp(made, tile, TILE) == 0, "worked tile %u: the peer says otherwise than SPEC 10", number);
}

/* Tiles 1 to 3. */
static void written(void)
{
    static const struct {
        unsigned number;
        uint8_t text[TEXT], tile[TILE];
    } tiles[] = {
        {1, {1, 0, 0, 0, 0, 0, 0, 0}, {1, 0, 0, 1, 0, 0, 1, 1, 0, 0, 1, 0, 0, 0, 1, 0}},
        {2, {0, 1, 1, 0, 0, 1, 1, 1}, {0, 1, 1, 1, 1, 0, 0, 1, 0, 1, 1, 0, 1, 1, 1, 1}},
        {3, {1, 2, 2, 0, 0, 2, 2, 2}, {1, 2, 2, 3, 2, 0, 1, 3, 0, 2, 3, 0, 2, 2, 3, 2}},
    };
    for (size_t k = 0; k < sizeof tiles / sizeof tiles[0]; k++) {
        uint8_t tile[TILE] = {0}, text[TEXT] = {0};
        uint64_t said = ask_write(CF_NEW, 5, 2, tiles[k].text, TEXT, tile, TILE);
        hold_tile(tiles[k].number, said, answer(CF_KIND_DONE, 0), tile, tiles[k].tile);
        said = ask_read(CF_NEW, 5, 2, tile, TILE, text, TEXT);
        hold(said == answer(CF_KIND_DONE, 0) && memcmp(text, tiles[k].text, TEXT) == 0, "worked tile %u is not read", tiles[k].number);
    }
}

/* Tiles 4 to 8: the ones of a tile of zeros, and what repair makes of it. */
static void repaired(void)
{
    const struct {
        unsigned number;
        uint64_t answer;
        uint8_t before[TILE], after[TILE];
    } tiles[] = {
        {4, cell(2, 3), {[11] = 1}, {0}},
        {5, answer(CF_KIND_COLUMN, 0), {[0] = 1, [4] = 1}, {0}},
        {6, answer(CF_KIND_ROW, 0), {[0] = 1, [1] = 1}, {0}},
        {7, answer(CF_KIND_REFUSED, CF_DAMAGED), {[0] = 1, [6] = 1}, {[0] = 1, [6] = 1}},
        {8, answer(CF_KIND_COLUMN, 3), {[0] = 1, [5] = 1}, {[0] = 1, [5] = 1, [3] = 1, [7] = 1, [15] = 1}},
    };
    for (size_t k = 0; k < sizeof tiles / sizeof tiles[0]; k++) {
        uint8_t tile[TILE];
        memcpy(tile, tiles[k].before, TILE);
        uint64_t said = ask_repair(CF_NEW, 5, 2, tile, TILE);
        hold_tile(tiles[k].number, said, tiles[k].answer, tile, tiles[k].after);
    }
}

/* Tiles 9 and 10: row 0 and column 0 are to be filled, and what they hold does not matter. */
static void filled(void)
{
    static const uint8_t nine[TILE] = {0, 1, 0, 1, 1, 1, 0, 0, 1, 0, 0, 0, 1, 0, 0, 0};
    uint8_t tile[TILE] = {9, 8, 7, 6, 5, 1, 0, 0, 4, 0, 0, 0, 3, 0, 0, 0};
    uint64_t said = ask_fill(CF_NEW, 5, 2, tile, TILE, 0, 0x8000);
    hold_tile(9, said, answer(CF_KIND_DONE, 0), tile, nine);
    const uint8_t ten[TILE] = {9, 8, 7, 6, 5, 0, 0, 0, 4, 0, 0, 1, 3, 0, 0, 0};
    memcpy(tile, ten, TILE);
    said = ask_fill(CF_NEW, 5, 2, tile, TILE, 0, 0x8000);
    hold_tile(10, said, answer(CF_KIND_REFUSED, CF_DAMAGED), tile, ten);
}

/* Tile 11: a sheet of one record makes tile 1, hurt in a cell, of tile 4, and repair answers this cell as before. */
static void corrected(void)
{
    static const uint8_t sheet[] = {0xC3, 0x3C, 0, 0, 0, 0, 0, 1};
    static const uint8_t after[TILE] = {1, 0, 0, 1, 0, 0, 1, 1, 0, 0, 1, 1, 0, 0, 1, 0};
    static const uint8_t one[TILE] = {1, 0, 0, 1, 0, 0, 1, 1, 0, 0, 1, 0, 0, 0, 1, 0};
    uint8_t tile[TILE] = {[11] = 1};
    uint64_t count, said = ask_correct(CF_NEW, 5, 2, tile, TILE, sheet, sizeof sheet, &count);
    hold_tile(11, said, answer(CF_KIND_DONE, 0), tile, after);
    hold(count == 1, "worked tile 11: the peer counts %u records", (unsigned)count);
    said = ask_repair(CF_NEW, 5, 2, tile, TILE);
    hold_tile(11, said, cell(2, 3), tile, one);
}

/* Number 12: sizes, slopes, lengths and places on both sides of their edges. */
static void refused(void)
{
    static const struct {
        size_t kind, p, l, length;
        unsigned number;
    } tiles[] = {
        {CF_NEW, 4, 2, 9, 1},      {CF_NEW, 9, 2, 64, 1},  {CF_NEW, 258, 3, 66049, 1}, {CF_NEW, 257, 3, 65536, 0}, {CF_NEW, 7, 2, 36, 2},
        {CF_NEW, 7, 6, 36, 2},     {CF_NEW, 7, 10, 36, 2}, {CF_NEW, 7, 3, 36, 0},      {CF_NEW, 7, 5, 36, 0},      {CF_OLD, 7, 1, 36, 2},
        {CF_OLD, 7, 2, 36, 0},     {CF_OLD, 7, 3, 36, 0},  {CF_OLD, 7, 4, 36, 0},      {CF_OLD, 7, 5, 36, 0},      {CF_OLD, 7, 6, 36, 2},
        {CF_NEW, 5, 2, 15, 3},     {CF_NEW, 5, 2, 17, 3},  {CF_NEW, 5, 2, 16, 0},
    };
    static uint8_t zeros[66049];
    for (size_t k = 0; k < sizeof tiles / sizeof tiles[0]; k++) {
        uint64_t said = ask_repair(tiles[k].kind, tiles[k].p, tiles[k].l, zeros, tiles[k].length);
        uint64_t asked = tiles[k].number == 0 ? answer(CF_KIND_DONE, 0) : answer(CF_KIND_REFUSED, tiles[k].number);
        hold(said == asked, "number 12: the peer says otherwise of kind %zu, p %zu, l %zu", tiles[k].kind, tiles[k].p, tiles[k].l);
    }
    for (uint8_t column = 1; column <= 2; column++) {
        uint8_t sheet[] = {0xC3, 0x3C, 0, 0, 0, column, 0, 0}, tile[TILE] = {0};
        uint64_t count, said = ask_correct(CF_NEW, 5, 2, tile, TILE, sheet, sizeof sheet, &count);
        hold(said == (column == 1 ? answer(CF_KIND_DONE, 0) : answer(CF_KIND_REFUSED, CF_BAD_PLACE)), "number 12: a correction's column");
    }
}

/* Tiles 13 to 17: old ones at p 7 and l 2, with 1 in some cells and 0 in all others. */
enum { OLD_TILE = 36, OLD_TEXT = 24 };

/* 1 in row 0, and in column 0, at the places 1, 2 and 4; what is written E there. */
static const uint8_t e[OLD_TILE] = {[1] = 1, [2] = 1, [4] = 1, [1 * 6] = 1, [2 * 6] = 1, [4 * 6] = 1};

static void old_filled(void)
{
    static const struct {
        unsigned number, refusal;
        uint8_t tile[OLD_TILE];
    } tiles[] = {{13, CF_DOUBTFUL, {0}}, {15, CF_DAMAGED, {[1 * 6 + 1] = 1}}};
    for (size_t k = 0; k < sizeof tiles / sizeof tiles[0]; k++) {
        uint8_t tile[OLD_TILE];
        memcpy(tile, tiles[k].tile, OLD_TILE);
        uint64_t said = ask_fill(CF_OLD, 7, 2, tile, OLD_TILE, cf_row(0), cf_column(0));
        hold(said == answer(CF_KIND_REFUSED, tiles[k].refusal) && memcmp(tile, tiles[k].tile, OLD_TILE) == 0,
             "worked tile %u: the peer says otherwise than SPEC 10", tiles[k].number);
    }
}

static void old_repaired(void)
{
    const struct {
        unsigned number;
        uint64_t answer;
        uint8_t before[OLD_TILE], after[OLD_TILE];
    } tiles[] = {
        {14, answer(CF_KIND_REFUSED, CF_DOUBTFUL), {[1 * 6] = 1, [2 * 6] = 1, [4 * 6] = 1}, {[1 * 6] = 1, [2 * 6] = 1, [4 * 6] = 1}},
        {16, cell(1, 1), {[1 * 6 + 1] = 1}, {0}},
    };
    for (size_t k = 0; k < sizeof tiles / sizeof tiles[0]; k++) {
        uint8_t tile[OLD_TILE];
        memcpy(tile, tiles[k].before, OLD_TILE);
        uint64_t said = ask_repair(CF_OLD, 7, 2, tile, OLD_TILE);
        hold(said == tiles[k].answer && memcmp(tile, tiles[k].after, OLD_TILE) == 0, "worked tile %u: the peer says otherwise than SPEC 10",
             tiles[k].number);
    }
}

/* Tile 17: E is clean, and is read; its text is its columns 0 to 3. */
static void old_read(void)
{
    static const uint8_t text_of_e[OLD_TEXT] = {[1] = 1, [2] = 1, [1 * 4] = 1, [2 * 4] = 1, [4 * 4] = 1};
    uint8_t tile[OLD_TILE], text[OLD_TEXT] = {9, 8, 7};
    memcpy(tile, e, OLD_TILE);
    uint64_t said = ask_repair(CF_OLD, 7, 2, tile, OLD_TILE);
    hold(said == answer(CF_KIND_DONE, 0) && memcmp(tile, e, OLD_TILE) == 0, "worked tile 17: the peer does not find it clean");
    said = ask_read(CF_OLD, 7, 2, tile, OLD_TILE, text, OLD_TEXT);
    hold(said == answer(CF_KIND_DONE, 0) && memcmp(text, text_of_e, OLD_TEXT) == 0, "worked tile 17: the peer does not read it");
}

/* Tiles 18 to 24: the scan is the tile of 9, zeros with 1 in cell (1, 1). A line that is named alone is named twice. */
static void judged(void)
{
    static const uint8_t scan[TILE] = {[1 * 4 + 1] = 1};
    const struct {
        unsigned number;
        uint64_t answer;
        uint8_t restored[TILE];
        size_t first, second;
    } tiles[] = {
        {18, answer(CF_KIND_DONE, 0), {0, 1, 0, 1, 1, 1, 0, 0, 1, 0, 0, 0, 1, 0, 0, 0}, 0, 0x8000},
        {19, answer(CF_KIND_REFUSED, CF_DIFFERS_ELSEWHERE), {0}, 0, 0x8000},
        {20, answer(CF_KIND_REFUSED, CF_NOT_GOOD), {[1 * 4 + 1] = 1}, 0, 0x8000},
        {21, answer(CF_KIND_REFUSED, CF_NOT_GOOD), {[2 * 4 + 3] = 1}, 0, 0x8000},
        {22, answer(CF_KIND_REFUSED, CF_DIFFERS_ELSEWHERE), {0, 1, 0, 1, 1, 1, 0, 0, 1, 0, 0, 0, 1, 0, 0, 0}, 0, 0},
        {23, answer(CF_KIND_REFUSED, CF_DIFFERS_ELSEWHERE), {0, 1, 0, 1, 1, 1, 0, 0, 1, 0, 0, 0, 1, 0, 0, 0}, 0x8000, 0x8000},
        {24, answer(CF_KIND_REFUSED, CF_BAD_PLACE), {0, 1, 0, 1, 1, 1, 0, 0, 1, 0, 0, 0, 1, 0, 0, 0}, 0, 0x8004},
    };
    for (size_t k = 0; k < sizeof tiles / sizeof tiles[0]; k++) {
        uint64_t said = ask_judge(5, 2, scan, TILE, tiles[k].restored, TILE, tiles[k].first, tiles[k].second);
        hold(said == tiles[k].answer, "worked tile %u: the peer says otherwise than SPEC 10", tiles[k].number);
    }
}

/* Scans 25 to 31, at slope 2: inspect and recover have to give this answer, and a text that held 9 in each byte has to hold this then. */
static void hold_recovered(unsigned number, size_t kind, size_t p, const uint8_t *scan, uint64_t asked, const uint8_t *left)
{
    uint8_t text[OLD_TEXT];
    memset(text, 9, OLD_TEXT);
    uint64_t said = ask_inspect(kind, p, 2, scan, cf_tile_len(p));
    hold(said == asked, "worked scan %u: the peer inspects otherwise than SPEC 10", number);
    said = ask_recover(kind, p, 2, scan, cf_tile_len(p), text, cf_text_len(p));
    hold(said == asked && memcmp(text, left, cf_text_len(p)) == 0, "worked scan %u: the peer recovers otherwise than SPEC 10", number);
}

/* 25 to 30: the tiles of 2, 4, 5, 6, 8 and 7. */
static void recovered(void)
{
    const struct {
        unsigned number;
        uint64_t answer;
        uint8_t scan[TILE], text[TEXT];
    } scans[] = {
        {25, answer(CF_KIND_DONE, 0), {0, 1, 1, 1, 1, 0, 0, 1, 0, 1, 1, 0, 1, 1, 1, 1}, {0, 1, 1, 0, 0, 1, 1, 1}},
        {26, cell(2, 3), {[2 * 4 + 3] = 1}, {0}},
        {27, answer(CF_KIND_COLUMN, 0), {[0] = 1, [1 * 4] = 1}, {0}},
        {28, answer(CF_KIND_ROW, 0), {[0] = 1, [1] = 1}, {0}},
        {29, answer(CF_KIND_COLUMN, 3), {[0] = 1, [1 * 4 + 1] = 1}, {1, 0, 0, 1, 0, 0, 0, 0}},
        {30, answer(CF_KIND_REFUSED, CF_DAMAGED), {[0] = 1, [1 * 4 + 2] = 1}, {9, 9, 9, 9, 9, 9, 9, 9}},
    };
    for (size_t k = 0; k < sizeof scans / sizeof scans[0]; k++)
        hold_recovered(scans[k].number, CF_NEW, 5, scans[k].scan, scans[k].answer, scans[k].text);
}

/* 31: the tile of 14, an old one. */
static void old_recovered(void)
{
    static const uint8_t scan[OLD_TILE] = {[1 * 6] = 1, [2 * 6] = 1, [4 * 6] = 1};
    uint8_t nines[OLD_TEXT];
    memset(nines, 9, OLD_TEXT);
    hold_recovered(31, CF_OLD, 7, scan, answer(CF_KIND_REFUSED, CF_DOUBTFUL), nines);
}

/* The whole reel: two tiles and one byte more. */
static const uint8_t reel[53] = {[0] = 0xD5, [1] = 0x5D, [3] = 5, [5] = 2, [9] = 7, [26] = 0xD5, [27] = 0x5D,
                                 [29] = 5,   [31] = 2,   [35] = 8, [47] = 0x41};

/* It is asked at every offset, and far behind its end. */
static void walked(void)
{
    static const struct {
        size_t at;
        unsigned kind, first;
        struct found found;
    } places[] = {
        {0, CF_KIND_DONE, 0, {CF_NEW, 7, 5, 2, CF_NO_FLAG, CF_NO_FLAG, 10}},
        {26, CF_KIND_DONE, 0, {CF_NEW, 8, 5, 2, CF_NO_FLAG, CF_NO_FLAG, 36}},
        {52, CF_KIND_REFUSED, CF_CUT_SHORT, {0, 0, 0, 0, CF_NO_FLAG, CF_NO_FLAG, 52}},
        {53, CF_KIND_END, 0, {0, 0, 0, 0, CF_NO_FLAG, CF_NO_FLAG, 0}},
    };
    for (size_t k = 0; k < sizeof places / sizeof places[0]; k++) {
        struct found found;
        uint64_t said = ask_next(reel, sizeof reel, places[k].at, &found);
        hold(said == answer(places[k].kind, places[k].first) && memcmp(&found, &places[k].found, sizeof found) == 0,
             "the reel of SPEC 10: the peer says otherwise at %zu", places[k].at);
    }
    ask_each_place(reel, sizeof reel);
    ask_far_places(reel, sizeof reel);
}

/* The reel's two tiles, as its listing has them: clean, and cell 2 3. Both are zeros then. */
static void reel_repaired(void)
{
    const struct {
        size_t offset;
        uint64_t answer;
    } tiles[] = {{10, answer(CF_KIND_DONE, 0)}, {36, cell(2, 3)}};
    static const uint8_t zeros[TILE];
    for (size_t k = 0; k < sizeof tiles / sizeof tiles[0]; k++) {
        uint8_t tile[TILE];
        memcpy(tile, &reel[tiles[k].offset], TILE);
        uint64_t said = ask_repair(CF_NEW, 5, 2, tile, TILE);
        hold(said == tiles[k].answer && memcmp(tile, zeros, TILE) == 0, "the reel of SPEC 10: the peer says otherwise of a tile's state");
    }
}

/* The reel with flags, as FORMATS has it: a line each for a header and for its tile. The last record has no tile. */
static const uint8_t flagged_reel[190] = {
    0xD5, 0x5E, 0x00, 0x05, 0x00, 0x02, 0x00, 0x00, 0x00, 0x09, 0x00, 0x00, 0x80, 0x00,
    0x00, 0x00, 0x00, 0x00, 0x00, 0x01, 0x00, 0x00, 0x00, 0x00, 0x00, 0x00, 0x00, 0x00, 0x00, 0x00,
    0xD5, 0x5E, 0x00, 0x05, 0x00, 0x02, 0x00, 0x00, 0x00, 0x0A, 0xFF, 0xFF, 0x00, 0x00,
    0x01, 0x01, 0x00, 0x00, 0x00, 0x00, 0x00, 0x00, 0x00, 0x00, 0x00, 0x00, 0x00, 0x00, 0x00, 0x00,
    0xD5, 0x5E, 0x00, 0x05, 0x00, 0x02, 0x00, 0x00, 0x00, 0x0B, 0x80, 0x03, 0xFF, 0xFF,
    0x00, 0x00, 0x00, 0x00, 0x00, 0x00, 0x00, 0x00, 0x00, 0x00, 0x00, 0x00, 0x00, 0x00, 0x00, 0x00,
    0xD5, 0x5E, 0x00, 0x05, 0x00, 0x02, 0x00, 0x00, 0x00, 0x0C, 0xFF, 0xFF, 0xFF, 0xFF,
    0x00, 0x00, 0x00, 0x00, 0x00, 0x00, 0x00, 0x00, 0x00, 0x00, 0x00, 0x01, 0x00, 0x00, 0x00, 0x00,
    0xD5, 0x5D, 0x00, 0x05, 0x00, 0x02, 0x00, 0x00, 0x00, 0x0D,
    0x01, 0x01, 0x00, 0x00, 0x00, 0x00, 0x00, 0x00, 0x00, 0x00, 0x00, 0x00, 0x00, 0x00, 0x00, 0x00,
    0xD5, 0x5E, 0x00, 0x05, 0x00, 0x02, 0x00, 0x00, 0x00, 0x0E, 0x00, 0x00, 0x80, 0x00,
    0x00, 0x00, 0x00, 0x00, 0x00, 0x00, 0x00, 0x00, 0x00, 0x00, 0x00, 0x01, 0x00, 0x00, 0x00, 0x00,
    0xD5, 0x5E, 0x00, 0x05, 0x00, 0x02, 0x00, 0x00, 0x00, 0x0F, 0x00, 0x04, 0xFF, 0xFF,
};

/* Its records, by where they begin: what is answered there, and what their tiles become when they are restored (SPEC 7.6). Those that are
 * listed as filled are done. */
static const struct flagged_record {
    size_t at;
    struct found found;
    unsigned kind, first, second;
    uint8_t restored[TILE];
} flagged_records[] = {
    {0, {CF_NEW, 9, 5, 2, 0, 0x8000, 14}, CF_KIND_DONE, 0, 0, {0, 1, 0, 1, 1, 1, 0, 0, 1, 0, 0, 0, 1, 0, 0, 0}},
    {30, {CF_NEW, 10, 5, 2, CF_NO_FLAG, 0, 44}, CF_KIND_DONE, 0, 0, {0}},
    {60, {CF_NEW, 11, 5, 2, 0x8003, CF_NO_FLAG, 74}, CF_KIND_DONE, 0, 0, {0}},
    {90, {CF_NEW, 12, 5, 2, CF_NO_FLAG, CF_NO_FLAG, 104}, CF_KIND_CELL, 2, 3, {0}},
    {120, {CF_NEW, 13, 5, 2, CF_NO_FLAG, CF_NO_FLAG, 130}, CF_KIND_ROW, 0, 0, {0}},
    {146, {CF_NEW, 14, 5, 2, 0, 0x8000, 160}, CF_KIND_REFUSED, CF_DAMAGED, 0, {[2 * 4 + 3] = 1}},
};
enum { FLAGGED_RECORDS = sizeof flagged_records / sizeof flagged_records[0] };

/* The flag of the last record is row 4, which a tile of size 5 does not have. */
enum { WRONG_FLAG_AT = 176 };

/* It is asked at every offset, and far behind its end. */
static void flagged_walked(void)
{
    static const struct found none = {0, 0, 0, 0, CF_NO_FLAG, CF_NO_FLAG, WRONG_FLAG_AT};
    struct found found;
    for (size_t k = 0; k < FLAGGED_RECORDS; k++) {
        uint64_t said = ask_next(flagged_reel, sizeof flagged_reel, flagged_records[k].at, &found);
        hold(said == answer(CF_KIND_DONE, 0) && memcmp(&found, &flagged_records[k].found, sizeof found) == 0,
             "the reel with flags of SPEC 10: the peer says otherwise at %zu", flagged_records[k].at);
    }
    uint64_t said = ask_next(flagged_reel, sizeof flagged_reel, WRONG_FLAG_AT, &found);
    hold(said == answer(CF_KIND_REFUSED, CF_BAD_PLACE) && memcmp(&found, &none, sizeof found) == 0,
         "the reel with flags of SPEC 10: the peer takes row 4");
    hold(walk(flagged_reel, sizeof flagged_reel) == WRONG_FLAG_AT, "the reel with flags of SPEC 10: the peer walks otherwise");
    ask_each_place(flagged_reel, sizeof flagged_reel);
    ask_far_places(flagged_reel, sizeof flagged_reel);
}

/* Its tiles, as its listing has them. */
static void flagged_restored(void)
{
    for (size_t k = 0; k < FLAGGED_RECORDS; k++) {
        const struct flagged_record *record = &flagged_records[k];
        uint8_t tile[TILE];
        memcpy(tile, &flagged_reel[record->found.offset], TILE);
        uint64_t said = restore(&record->found, tile);
        hold(said == answer(record->kind, record->first) + record->second && memcmp(tile, record->restored, TILE) == 0,
             "the reel with flags of SPEC 10: the peer restores tile %u otherwise", (unsigned)record->found.number);
    }
}

/* Its records are laid from what is answered there, one behind the other, and are the reel's bytes again; the last one is refused. */
static void flagged_laid(void)
{
    uint8_t laid[sizeof flagged_reel] = {0};
    uint64_t length, said;
    for (size_t k = 0; k < FLAGGED_RECORDS; k++) {
        const struct found *found = &flagged_records[k].found;
        size_t at = flagged_records[k].at, which = found->offset - at == 14 ? CF_FLAGGED : CF_NEW;
        said = ask_lay(which, 5, 2, (uint32_t)found->number, found->first, found->second, &flagged_reel[found->offset], TILE, &laid[at],
                       sizeof laid - at, &length);
        hold(said == answer(CF_KIND_DONE, 0) && memcmp(laid, flagged_reel, at + length) == 0,
             "the reel with flags of SPEC 10: the peer lays tile %u otherwise", (unsigned)found->number);
    }
    said = ask_lay(CF_FLAGGED, 5, 2, 15, 4, CF_NO_FLAG, flagged_reel, TILE, &laid[WRONG_FLAG_AT], sizeof laid - WRONG_FLAG_AT, &length);
    hold(said == answer(CF_KIND_REFUSED, CF_BAD_PLACE), "the reel with flags of SPEC 10: the peer lays row 4");
}

/* The house slopes as SPEC 2.3 lists them, and no other sizes. */
static void house_slopes(void)
{
    static const struct {
        unsigned slope;
        size_t sizes[24];
    } listed[] = {
        {2, {5, 11, 13, 19, 29, 37, 53, 59, 61, 67, 83, 101, 107, 131, 139, 149, 163, 173, 179, 181, 197, 211, 227}},
        {3, {7, 17, 31, 43, 79, 89, 113, 127, 137, 199, 223, 233, 257}},
        {5, {23, 47, 73, 97, 103, 157, 167, 193}},
        {6, {41, 109, 151, 229, 251}},
        {7, {71, 239, 241}},
        {19, {191}},
    };
    unsigned slope_of[301] = {0};
    for (size_t k = 0; k < sizeof listed / sizeof listed[0]; k++)
        for (size_t n = 0; listed[k].sizes[n] != 0; n++)
            slope_of[listed[k].sizes[n]] = listed[k].slope;
    for (size_t p = 0; p <= 300; p++) {
        uint64_t asked = slope_of[p] == 0 ? answer(CF_KIND_REFUSED, CF_BAD_SIZE) : answer(CF_KIND_DONE, slope_of[p]);
        hold(ask_house_slope(p) == asked, "the house slope of %zu: the peer says otherwise than SPEC 2.3", p);
    }
}

void cases_worked(void)
{
    written();
    repaired();
    filled();
    corrected();
    refused();
    old_filled();
    old_repaired();
    old_read();
    judged();
    recovered();
    old_recovered();
    walked();
    reel_repaired();
    flagged_walked();
    flagged_restored();
    flagged_laid();
    house_slopes();
}
