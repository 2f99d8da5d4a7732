/*
 * Three captions on their way from the film to the screen. Each is written to a tile of its own. Dust falls on the first tile; a splice and
 * a scratch take a row and a column of the second, and a splice takes a row of the third. A scanner lays the tiles on a reel, and flags the
 * lines that it knows are lost. It lays the second tile twice, first without its flags: two lost lines are more than a repair can find. The
 * reel is read, and each tile is filled where it is flagged, or else repaired. So the flags bring the second caption back.
 *
 * A lab that restored the second tile is judged, once with every byte right and once with one that is wrong, which is found for the lab.
 * The caption on it has a wrong letter, and another scratch goes through that very letter. The letter is corrected all the same, and the
 * caption is recovered from the tile, which stays as it is.
 */
#include "counterfrost.h"

#include <stdio.h>
#include <stdlib.h>
#include <string.h>

/* A new tile of size 11: 10 rows of 10 bytes, of which 8 are text. */
enum { SIZE = 11, ROWS = SIZE - 1, COLUMNS = SIZE - 1, TEXT_COLUMNS = SIZE - 3, TILE = ROWS * COLUMNS, TEXT = ROWS * TEXT_COLUMNS };

/* Room for a tile of any size and for its text, and for a reel of four records, with headers of 14 bytes at most. */
enum { ANY_TILE = 256 * 256, ANY_TEXT = 256 * 254, REEL = 4 * (14 + TILE) };

enum { CAPTIONS = 3 };
static const char *const CAPTION[CAPTIONS] = {
    "- Who let the boat go?",
    "- The ferryman, at noom.",
    "- Then who is that on the far shore?",
};

/* Ends the program where a call was refused. */
static uint64_t accepted(const char *call, uint64_t answer)
{
    if (cf_kind(answer) == CF_KIND_REFUSED) {
        fprintf(stderr, "%s: refused %u: %s\n", call, cf_refusal(answer), cf_refusal_words(cf_refusal(answer)));
        exit(EXIT_FAILURE);
    }
    return answer;
}

/* Writes a caption to a tile. The rest of its text is spaces. */
static void write_caption(size_t slope, const char *caption, uint8_t tile[TILE])
{
    uint8_t text[TEXT];

    memset(text, ' ', TEXT);
    memcpy(text, caption, strlen(caption));
    accepted("cf_write", cf_write(CF_NEW, SIZE, slope, text, TEXT, tile, TILE));
}

/* Prints the caption that a text holds, without the spaces behind it. */
static void print_caption(const uint8_t *text, size_t length)
{
    while (length > 0 && text[length - 1] == ' ') {
        length--;
    }
    printf("%.*s\n", (int)length, (const char *)text);
}

/* What a splice does to a row, a scratch to a column, and a grain of dust to a cell. */
static void splice(uint8_t tile[TILE], size_t row)
{
    for (size_t column = 0; column < COLUMNS; column++) {
        tile[row * COLUMNS + column] = 0;
    }
}

static void scratch(uint8_t tile[TILE], size_t column)
{
    for (size_t row = 0; row < ROWS; row++) {
        tile[row * COLUMNS + column] ^= (uint8_t)(0x55 + row);
    }
}

static void dust(uint8_t tile[TILE], size_t row, size_t column)
{
    tile[row * COLUMNS + column] ^= 0x20;
}

/* Says what a call answered: what was hurt, the number of a refusal, or, where it names nothing, the word that is given here. */
static void tell(uint64_t answer, const char *done)
{
    switch (cf_kind(answer)) {
    case CF_KIND_COLUMN:
        printf("column %u\n", cf_first(answer));
        break;
    case CF_KIND_ROW:
        printf("row %u\n", cf_first(answer));
        break;
    case CF_KIND_CELL:
        printf("cell %u %u\n", cf_first(answer), cf_second(answer));
        break;
    case CF_KIND_REFUSED:
        printf("refused %u\n", cf_refusal(answer));
        break;
    default:
        printf("%s\n", done);
    }
}

/* Lays a record into the room that is left on a reel, and says how long it is. */
static size_t lay(size_t which, size_t slope, uint32_t number, size_t first, size_t second, const uint8_t tile[TILE], uint8_t *room,
                  size_t room_len)
{
    uint64_t length;

    accepted("cf_lay", cf_lay(which, SIZE, slope, number, first, second, tile, TILE, room, room_len, &length));
    return (size_t)length;
}

/* A tile on a reel, as cf_next gives it. */
struct found {
    uint64_t kind, number, p, l, first, second, offset;
};

/* Looks what stands at a place of a reel, and says whether it is a tile; otherwise the reel ends there. */
static int find(const uint8_t *reel, size_t reel_len, size_t at, struct found *found)
{
    uint64_t answer = cf_next(reel, reel_len, at, &found->kind, &found->number, &found->p, &found->l, &found->first, &found->second,
                              &found->offset);
    return cf_kind(accepted("cf_next", answer)) != CF_KIND_END;
}

static int flagged(const struct found *found)
{
    return found->first != CF_NO_FLAG || found->second != CF_NO_FLAG;
}

/* Fills the lines that the flags name, or repairs the tile where there is no flag. If only one of them is set, it is named twice. */
static uint64_t restore(const struct found *found, uint8_t *tile)
{
    size_t first = found->first == CF_NO_FLAG ? found->second : found->first;
    size_t second = found->second == CF_NO_FLAG ? found->first : found->second;

    if (flagged(found))
        return cf_fill(found->kind, found->p, found->l, tile, cf_tile_len(found->p), first, second);
    return cf_repair(found->kind, found->p, found->l, tile, cf_tile_len(found->p));
}

/* Restores a copy of a tile on the reel, says what came of it, and prints its caption. */
static void show(const struct found *found, const uint8_t *scan)
{
    static uint8_t tile[ANY_TILE], text[ANY_TEXT];
    size_t tile_len = cf_tile_len(found->p), text_len = cf_text_len(found->p);
    uint64_t answer;

    memcpy(tile, scan, tile_len);
    answer = restore(found, tile);
    printf("tile %u: ", (unsigned)found->number);
    tell(answer, flagged(found) ? "filled" : "clean");
    if (cf_refusal(answer))
        return;
    accepted("cf_read", cf_read(found->kind, found->p, found->l, tile, tile_len, text, text_len));
    print_caption(text, text_len);
}

/* Judges a tile that was restored from a scan of which row 1 and column 5 were lost. */
static void judge(size_t slope, const uint8_t scan[TILE], const uint8_t restored[TILE])
{
    printf("judged: ");
    tell(cf_judge(SIZE, slope, scan, TILE, restored, TILE, cf_row(1), cf_column(5)), "accepted");
}

/* Puts the wrong letter of the second caption right, on its tile, which is scratched there. */
static void correct_letter(size_t slope, uint8_t tile[TILE])
{
    size_t letter = (size_t)(strstr(CAPTION[1], "noom") + 3 - CAPTION[1]);
    uint8_t sheet[8];
    uint64_t records;

    scratch(tile, letter % TEXT_COLUMNS);
    cf_lay_correction(sheet, letter / TEXT_COLUMNS, letter % TEXT_COLUMNS, 'm', 'n');
    accepted("cf_correct", cf_correct(CF_NEW, SIZE, slope, tile, TILE, sheet, sizeof sheet, &records));
    printf("corrected: %u letter\n", (unsigned)records);
}

int main(void)
{
    uint8_t tiles[CAPTIONS][TILE], scans[CAPTIONS][TILE], by_hand[TILE], text[TEXT], reel[REEL];
    size_t slope = cf_first(accepted("cf_house_slope", cf_house_slope(SIZE)));
    size_t laid = 0;
    struct found found;

    for (size_t i = 0; i < CAPTIONS; i++) {
        write_caption(slope, CAPTION[i], tiles[i]);
    }
    printf("written: %d tiles, size %d, slope %u\n", CAPTIONS, SIZE, (unsigned)slope);

    memcpy(scans, tiles, sizeof tiles);
    dust(scans[0], 1, 3);
    splice(scans[1], 1);
    scratch(scans[1], 5);
    splice(scans[2], 2);

    laid += lay(CF_NEW, slope, 1, CF_NO_FLAG, CF_NO_FLAG, scans[0], reel + laid, REEL - laid);
    laid += lay(CF_NEW, slope, 2, CF_NO_FLAG, CF_NO_FLAG, scans[1], reel + laid, REEL - laid);
    laid += lay(CF_FLAGGED, slope, 2, cf_row(1), cf_column(5), scans[1], reel + laid, REEL - laid);
    laid += lay(CF_FLAGGED, slope, 3, CF_NO_FLAG, cf_row(2), scans[2], reel + laid, REEL - laid);
    printf("laid: 4 records, %u bytes\n", (unsigned)laid);

    for (size_t at = 0; find(reel, laid, at, &found); at = found.offset + cf_tile_len(found.p)) {
        show(&found, reel + found.offset);
    }

    judge(slope, scans[1], tiles[1]);
    memcpy(by_hand, tiles[1], TILE);
    dust(by_hand, 1, 2);
    judge(slope, scans[1], by_hand);

    /* The lab's tile is not ours to change: it is only looked at. */
    printf("inspected: ");
    tell(cf_inspect(CF_NEW, SIZE, slope, by_hand, TILE), "clean");

    /* Here the text is all that is wanted: one call repairs and reads, and leaves the tile with its scratch. */
    correct_letter(slope, tiles[1]);
    printf("recovered: ");
    tell(accepted("cf_recover", cf_recover(CF_NEW, SIZE, slope, tiles[1], TILE, text, TEXT)), "clean");
    print_caption(text, TEXT);
    return EXIT_SUCCESS;
}
