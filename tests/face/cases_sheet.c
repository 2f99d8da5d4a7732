/* Correction sheets (SPEC 6): sound ones of every length over tiles in every state, and faulty ones. */

#include <stddef.h>
#include <stdint.h>
#include <string.h>

#include "ask.h"
#include "cases.h"
#include "differences.h"
#include "made.h"
#include "sheets.h"

static struct chance chance;
static uint8_t tile[LARGEST_TILE], text[LARGEST_TEXT];
static struct sheet sheet;

/* The state of the tile that is corrected: good, hurt in a line, or of any bytes. */
enum state { GOOD, HURT, GARBAGE, STATES };

static void make_state(size_t p, size_t l, enum state state)
{
    if (state == GARBAGE)
        make_garbage(&chance, p, tile, GARBAGE_OF_BYTES);
    else
        make_tile(&chance, p, l, tile);
    if (state == HURT)
        hurt_line(&chance, p, tile, some_line(&chance, p), HURT_ANY);
}

static void correct(size_t kind, size_t p, size_t l)
{
    uint64_t count;
    ask_correct(kind, p, l, tile, tile_length(p), sheet.bytes, sheet.length, &count);
}

/* Corrects a tile, and then repairs and reads it. */
static void correct_and_read(size_t kind, size_t p, size_t l, enum state state)
{
    make_state(p, l, state);
    correct(kind, p, l);
    ask_repair(kind, p, l, tile, tile_length(p));
    ask_read(kind, p, l, tile, tile_length(p), text, text_length(p));
}

/* SPEC 6.5: the tile is repaired without the sheet and with it, and both have the same answer, since a sheet adds a good tile. */
static void repair_without_and_with(size_t kind, size_t p, size_t l)
{
    static uint8_t bare[LARGEST_TILE];
    memcpy(bare, tile, tile_length(p));
    uint64_t without = ask_repair(kind, p, l, bare, tile_length(p));
    correct(kind, p, l);
    uint64_t with = ask_repair(kind, p, l, tile, tile_length(p));
    hold(with == without, "a sheet changed what the peer's repair says, p %zu, l %zu", p, l);
    ask_read(kind, p, l, tile, tile_length(p), text, text_length(p));
}

/* SPEC 6.5, of a fill. */
static void fill_without_and_with(size_t kind, size_t p, size_t l, size_t first, size_t second)
{
    static uint8_t bare[LARGEST_TILE];
    memcpy(bare, tile, tile_length(p));
    uint64_t without = ask_fill(kind, p, l, bare, tile_length(p), first, second);
    correct(kind, p, l);
    uint64_t with = ask_fill(kind, p, l, tile, tile_length(p), first, second);
    hold(with == without, "a sheet changed what the peer's fill says, p %zu, l %zu, lines %zx and %zx hex", p, l, first, second);
}

static void each_length(size_t kind, size_t p, size_t l)
{
    static const size_t records[] = {0, 1, 2, 3, 20};
    for (size_t k = 0; k < sizeof records / sizeof records[0]; k++) {
        for (int state = 0; state < STATES; state++) {
            make_sheet(&sheet, &chance, p, records[k]);
            correct_and_read(kind, p, l, (enum state)state);
        }
    }
}

/* One place is corrected again and again, each record going on from the one before it; then so that nothing is left of it all. */
static void repeated_places(size_t kind, size_t p, size_t l)
{
    size_t row = chance_below(&chance, p - 1), column = chance_below(&chance, p - 3);
    uint8_t first = chance_change(&chance), second = (uint8_t)(first + 1), third = (uint8_t)(first + 2);
    sheet.length = 0;
    add_correction(&sheet, row, column, 0, first);
    add_correction(&sheet, 0, 0, 1, 2);
    add_correction(&sheet, row, column, first, second);
    add_correction(&sheet, row, column, second, third);
    correct_and_read(kind, p, l, HURT);
    add_correction(&sheet, row, column, third, 0);
    add_correction(&sheet, 0, 0, 2, 1);
    correct_and_read(kind, p, l, HURT);
}

/* Records for one place, each with its was and its is (SPEC 6.1); 0 stands for the byte that the text holds. */
struct run {
    size_t count;
    uint8_t was_and_is[3][2];
};

static const struct run runs[] = {
    {1, {{0, 17}}},                       /* once */
    {3, {{0, 17}, {17, 200}, {200, 99}}}, /* each record begins with what the one before it ends with */
    {2, {{0, 17}, {100, 99}}},            /* the second one does not */
    {2, {{5, 80}, {80, 5}}},              /* a record and its opposite */
    {2, {{5, 80}, {5, 80}}},              /* a record twice */
    {1, {{80, 80}}},                      /* a record that changes nothing */
};

/* Makes a sheet of a run, with a record for another place between two of the run, and gives the byte that the text has to hold
 * then (SPEC 6.2 and 6.4). */
static uint8_t make_run(const struct run *run, size_t p, size_t row, size_t column, uint8_t byte)
{
    uint8_t corrected = byte;
    sheet.length = 0;
    for (size_t k = 0; k < run->count; k++) {
        uint8_t was = run->was_and_is[k][0], is = run->was_and_is[k][1];
        if (k > 0)
            add_correction(&sheet, (row + k) % (p - 1), (column + 1) % (p - 3), 1, 2);
        add_correction(&sheet, row, column, byte ^ was, byte ^ is);
        corrected ^= was ^ is;
    }
    return corrected;
}

/* Each run over a good tile; over tiles with a hurt line, which is the place's own column or row, another column of the text, or a check
 * column; and over tiles with one hurt cell, which is the place itself, or one of the last check column. */
static void runs_for_one_place(size_t kind, size_t p, size_t l)
{
    size_t row = chance_below(&chance, p - 1), column = chance_below(&chance, p - 3);
    const size_t hurt[] = {column_name(column), column_name((column + 1) % (p - 3)), column_name(p - 3), column_name(p - 2), row_name(row)};
    enum { HURT_LINES = sizeof hurt / sizeof hurt[0], HURT_PLACE = HURT_LINES, HURT_CHECK, NOT_HURT };
    for (size_t k = 0; k < sizeof runs / sizeof runs[0]; k++) {
        for (size_t n = 0; n <= NOT_HURT; n++) {
            make_state(p, l, GOOD);
            uint8_t corrected = make_run(&runs[k], p, row, column, tile[row * (p - 1) + column]);
            if (n < HURT_LINES)
                hurt_line(&chance, p, tile, hurt[n], HURT_ANY);
            else if (n == HURT_PLACE)
                tile[row * (p - 1) + column] ^= chance_change(&chance);
            else if (n == HURT_CHECK)
                hurt_line(&chance, p, tile, column_name(p - 2), HURT_ONE);
            repair_without_and_with(kind, p, l);
            hold(text[row * (p - 3) + column] == corrected, "the peer's text does not hold the correction, p %zu, l %zu", p, l);
        }
    }
}

/* Tiles that nobody wrote, repaired and filled without the sheet and with it. */
static void over_garbage(size_t kind, size_t p, size_t l)
{
    for (int filled_with = 0; filled_with < GARBAGES; filled_with++) {
        for (int round = 0; round < 8; round++) {
            make_sheet(&sheet, &chance, p, 5);
            make_garbage(&chance, p, tile, (enum garbage)filled_with);
            repair_without_and_with(kind, p, l);
            make_garbage(&chance, p, tile, (enum garbage)filled_with);
            fill_without_and_with(kind, p, l, some_line(&chance, p), some_line(&chance, p));
        }
    }
}

/* Each place of the text by a sheet of its own. */
static void each_place(size_t kind, size_t p, size_t l)
{
    make_state(p, l, GOOD);
    for (size_t row = 0; row < p - 1; row++) {
        for (size_t column = 0; column < p - 3; column++) {
            sheet.length = 0;
            add_correction(&sheet, row, column, (uint8_t)row, chance_change(&chance));
            correct(kind, p, l);
        }
    }
}

/* Sheets of thousands of records: the longest is longer than any tile. */
static void thousands(size_t kind, size_t p, size_t l)
{
    static const size_t records[] = {4096, MOST_RECORDS};
    for (size_t k = 0; k < sizeof records / sizeof records[0]; k++) {
        for (int state = 0; state < STATES; state++) {
            make_sheet(&sheet, &chance, p, records[k]);
            make_state(p, l, (enum state)state);
            repair_without_and_with(kind, p, l);
        }
    }
}

/* Records in which a fault stands: the first, one in the middle, the last. */
enum { RECORDS = 7 };
static const size_t faulty_records[] = {0, 3, RECORDS - 1};
enum { PLACES = sizeof faulty_records / sizeof faulty_records[0] };

static void one_fault(size_t kind, size_t p, size_t l)
{
    make_state(p, l, HURT);
    for (int fault = 0; fault < SHEET_FAULTS; fault++) {
        for (size_t k = 0; k < PLACES; k++) {
            make_sheet(&sheet, &chance, p, RECORDS);
            put_fault(&sheet, p, faulty_records[k], (enum sheet_fault)fault);
            correct(kind, p, l);
        }
    }
}

/* Each byte in the place of each byte of the mark. */
static void each_byte_of_a_mark(size_t kind, size_t p, size_t l)
{
    make_state(p, l, HURT);
    for (size_t k = 0; k < PLACES; k++) {
        for (size_t n = 0; n < 2; n++) {
            for (unsigned byte = 0; byte < 256; byte++) {
                make_sheet(&sheet, &chance, p, RECORDS);
                sheet.bytes[faulty_records[k] * SHEET_RECORD + n] = (uint8_t)byte;
                correct(kind, p, l);
            }
        }
    }
}

/* A record's place as the sheet's only one, then as the first, a middle and the last. */
static void one_place_named(size_t kind, size_t p, size_t l, size_t row, size_t column)
{
    sheet.length = 0;
    add_correction(&sheet, row, column, 90, 15);
    correct(kind, p, l);
    for (size_t k = 0; k < PLACES; k++) {
        make_sheet(&sheet, &chance, p, RECORDS);
        put_place(&sheet, faulty_records[k], row, column);
        correct(kind, p, l);
    }
}

/* Places on each side of the text's edges, and numbers of which the high byte counts, or both: a row with a column of each kind. */
static void places_at_the_edges(size_t kind, size_t p, size_t l)
{
    const size_t rows[] = {0, 1, p - 2, p - 1, 256, 0xFFFF}, columns[] = {0, 1, p - 4, p - 3, p - 2, 256, 0xFFFF};
    make_state(p, l, GOOD);
    for (size_t i = 0; i < sizeof rows / sizeof rows[0]; i++)
        for (size_t j = 0; j < sizeof columns / sizeof columns[0]; j++)
            one_place_named(kind, p, l, rows[i], columns[j]);
}

/* Two faults, in one record or in two: SPEC 6.3 takes the first record that has one, and of this record the mark first. */
static void two_faults(size_t kind, size_t p, size_t l)
{
    make_state(p, l, HURT);
    for (int first = 0; first < SHEET_FAULTS; first++) {
        for (int second = 0; second < SHEET_FAULTS; second++) {
            for (size_t k = 0; k < PLACES; k++) {
                make_sheet(&sheet, &chance, p, RECORDS);
                put_fault(&sheet, p, faulty_records[k], (enum sheet_fault)first);
                put_fault(&sheet, p, faulty_records[chance_below(&chance, PLACES)], (enum sheet_fault)second);
                correct(kind, p, l);
            }
        }
    }
}

/* Sheets of every length up to three records and some bytes, sound and with a faulty first record: SPEC 6.3 looks at the
 * length before it looks at a record. */
static void each_number_of_bytes(size_t kind, size_t p, size_t l)
{
    make_state(p, l, HURT);
    for (size_t length = 0; length <= 3 * SHEET_RECORD + 7; length++) {
        for (int faulty = 0; faulty < 2; faulty++) {
            make_sheet(&sheet, &chance, p, 4);
            if (faulty)
                put_fault(&sheet, p, 0, (enum sheet_fault)chance_below(&chance, SHEET_FAULTS));
            sheet.length = length;
            correct(kind, p, l);
        }
    }
}

/* A size, slope or length that is refused comes before all faults of the sheet, and its offset is 0 (SPEC 6.3). */
static void refused_before_the_sheet(size_t kind, size_t p, size_t l)
{
    const size_t asked[][3] = {{p + 1, l, tile_length(p)}, {p, p - 1, tile_length(p)}, {p, l, tile_length(p) - 1}, {p, 1, 0}};
    uint64_t count;
    make_state(p, l, HURT);
    for (size_t k = 0; k < sizeof asked / sizeof asked[0]; k++) {
        for (size_t cut = 0; cut < SHEET_RECORD; cut++) {
            make_sheet(&sheet, &chance, p, 3);
            put_fault(&sheet, p, 1, (enum sheet_fault)chance_below(&chance, SHEET_FAULTS));
            ask_correct(kind, asked[k][0], asked[k][1], tile, asked[k][2], sheet.bytes, sheet.length - cut, &count);
        }
    }
}

/* Every set of faults, of those that a call and its sheet can have: which number is given shows the order of all of them. */
static void every_set_of_faults(size_t kind, size_t p, size_t l)
{
    enum { SIZE = 1, SLOPE = 2, TILE = 4, CUT = 8, MARK = 16, PLACE = 32, ALL = 63 };
    uint64_t count;
    make_state(p, l, HURT);
    for (unsigned faults = 0; faults <= ALL; faults++) {
        make_sheet(&sheet, &chance, p, 5);
        if (faults & MARK)
            put_fault(&sheet, p, 0, FIRST_MARK_BYTE);
        if (faults & PLACE)
            put_fault(&sheet, p, 0, ROW_JUST_ABOVE);
        ask_correct(kind, faults & SIZE ? 9 : p, faults & SLOPE ? 0 : l, tile, tile_length(p) - (faults & TILE ? 1 : 0), sheet.bytes,
                    sheet.length - (faults & CUT ? 7 : 0), &count);
    }
}

/* Records with places up to one past the last of the text: some sheets are sound, and some are not. */
static void around_the_edges(size_t kind, size_t p, size_t l)
{
    make_state(p, l, GOOD);
    for (int round = 0; round < 20; round++) {
        sheet.length = 0;
        for (size_t k = 0; k < 3; k++)
            add_correction(&sheet, chance_below(&chance, p), chance_below(&chance, p - 2), 0, chance_change(&chance));
        correct(kind, p, l);
    }
}

static void any_bytes(size_t kind, size_t p, size_t l)
{
    make_state(p, l, GOOD);
    sheet.length = chance_below(&chance, 4 * SHEET_RECORD);
    chance_bytes(&chance, sheet.bytes, sheet.length);
    correct(kind, p, l);
}

/* Of new tiles, and so of old ones with the same slopes. */
static void of_new_tiles(void)
{
    for_small_sizes(SMALL_SIZE, each_length);
    for_small_sizes(SMALL_SIZE, repeated_places);
    for_small_sizes(SMALL_SIZE, around_the_edges);
    for_small_sizes(SMALL_SIZE, any_bytes);
    for_small_sizes(11, runs_for_one_place);
    for_small_sizes(11, over_garbage);
    for_small_sizes(11, each_place);
    for_small_sizes(7, places_at_the_edges);
    for_small_sizes(7, every_set_of_faults);
    for_small_sizes(SMALL_SIZE, one_fault);
    for_small_sizes(7, two_faults);
    for_small_sizes(7, each_number_of_bytes);
    for_small_sizes(SMALL_SIZE, refused_before_the_sheet);
    for_all_sizes(&chance, repeated_places);
    for (size_t p = size_above(SMALL_SIZE); p != 0; p = size_above(p)) {
        size_t l = some_slope(&chance, p);
        make_sheet(&sheet, &chance, p, 1 + chance_below(&chance, 200));
        correct_and_read(NEW, p, l, (enum state)(p % STATES));
    }
    each_byte_of_a_mark(NEW, 7, 3);
    places_at_the_edges(NEW, 257, 3);
    one_fault(NEW, 257, 3);
    two_faults(NEW, 257, 3);
    each_number_of_bytes(NEW, 257, 3);
    thousands(NEW, 5, 2);
    thousands(NEW, 31, 3);
    thousands(NEW, 67, 2);
    thousands(NEW, 127, 3);
    thousands(NEW, 257, 3);
}

/* Of old tiles at slopes that are not allowed. */
static void of_old_tiles(void)
{
    for_small_old_sizes(17, each_length);
    for_small_old_sizes(11, runs_for_one_place);
    for_small_old_sizes(17, over_garbage);
    for_small_old_sizes(7, each_place);
    for_small_old_sizes(7, every_set_of_faults);
    for_small_old_sizes(7, one_fault);
    for_small_old_sizes(7, refused_before_the_sheet);
    for_some_old_sizes(&chance, repeated_places);
    thousands(OLD, 17, 2);
    thousands(OLD, 257, 2);
}

void cases_sheet(void)
{
    chance = chance_from(4);
    of_new_tiles();
    of_old_tiles();
}
