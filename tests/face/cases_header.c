/* The small functions that the header brings itself. There is no peer for them: they are held to what the header says. */

#include <stddef.h>
#include <stdint.h>
#include <stdio.h>
#include <string.h>

#include "ask.h"
#include "cases.h"
#include "counterfrost.h"
#include "differences.h"

/* Words are taken apart into kind * 2^32 + first * 2^16 + second. */
static void take_words_apart(void)
{
    static const unsigned numbers[] = {0, 1, 2, 4, 7, 255, 256, 257, 0x7FFF, 0x8000, 0xFFFF};
    enum { COUNT = sizeof numbers / sizeof numbers[0] };
    for (unsigned kind = 0; kind < 8; kind++) {
        for (size_t i = 0; i < COUNT; i++) {
            for (size_t j = 0; j < COUNT; j++) {
                uint64_t word = kind * UINT64_C(0x100000000) + numbers[i] * UINT64_C(0x10000) + numbers[j];
                hold(cf_kind(word) == kind, "cf_kind of kind %u, first %u, second %u", kind, numbers[i], numbers[j]);
                hold(cf_first(word) == numbers[i], "cf_first of kind %u, first %u, second %u", kind, numbers[i], numbers[j]);
                hold(cf_second(word) == numbers[j], "cf_second of kind %u, first %u, second %u", kind, numbers[i], numbers[j]);
                hold(cf_refusal(word) == (kind == 4 ? numbers[i] : 0), "cf_refusal of kind %u, first %u", kind, numbers[i]);
            }
        }
    }
}

/* A cell is answered with its row first and its column second (SPEC 11.1), whichever call answers it. */
static void take_a_cell_apart(void)
{
    uint8_t tile[16] = {[1 * 4 + 2] = 0x41}, text[8] = {9, 9, 9, 9, 9, 9, 9, 9};
    uint64_t said[3];
    said[0] = ask_inspect(CF_NEW, 5, 2, tile, 16);
    said[1] = ask_recover(CF_NEW, 5, 2, tile, 16, text, 8);
    said[2] = ask_repair(CF_NEW, 5, 2, tile, 16);
    for (size_t k = 0; k < 3; k++) {
        hold(cf_kind(said[k]) == CF_KIND_CELL && cf_first(said[k]) == 1 && cf_second(said[k]) == 2, "cell (1, 2) is taken apart");
        hold(cf_refusal(said[k]) == 0, "a cell is no refusal");
    }
}

/* Kinds of an answer have the numbers of SPEC 11.1, refusals those of SPEC 9.1, kinds of a tile those of SPEC 11.5, records those of SPEC
 * 11.6, and the flag for no line that of SPEC 3.5. */
static void know_the_numbers(void)
{
    static const unsigned kinds[][2] = {{CF_KIND_DONE, 0}, {CF_KIND_COLUMN, 1},  {CF_KIND_ROW, 2},
                                        {CF_KIND_CELL, 3}, {CF_KIND_REFUSED, 4}, {CF_KIND_END, 7}};
    for (size_t k = 0; k < sizeof kinds / sizeof kinds[0]; k++)
        hold(kinds[k][0] == kinds[k][1], "the kind %u has the number %u", kinds[k][1], kinds[k][0]);
    static const unsigned refusals[] = {CF_BAD_SIZE, CF_BAD_SLOPE, CF_BAD_LENGTH, CF_BAD_PLACE, CF_DAMAGED,          CF_BAD_MARK,
                                        CF_CUT_SHORT, CF_DOUBTFUL, CF_TOO_SMALL,  CF_NOT_GOOD,  CF_DIFFERS_ELSEWHERE};
    for (unsigned k = 0; k < sizeof refusals / sizeof refusals[0]; k++)
        hold(refusals[k] == k + 1, "the refusal %u has the number %u", k + 1, refusals[k]);
    hold(CF_NEW == 0 && CF_OLD == 1 && CF_FLAGGED == 2, "new has the number %u, old %u, and flagged %u", CF_NEW, CF_OLD, CF_FLAGGED);
    hold(CF_NO_FLAG == 0xFFFF, "no flag has the number %u", CF_NO_FLAG);
}

/* Up to 7FFE hex a line is named by its number, columns from 8000 hex on; a larger number is named as 7FFE hex is, which no tile has. */
static void name_lines(void)
{
    static const size_t larger[] = {0x7FFE, 0x7FFF, 0x8000, 0x8001, 0xFFFE, 0xFFFF, 0x10000, 0x18000, SIZE_MAX / 2, SIZE_MAX / 2 + 1,
                                    SIZE_MAX - 0x8000, SIZE_MAX - 0x7FFF, SIZE_MAX - 1, SIZE_MAX};
    for (size_t n = 0; n <= 0x7FFE; n++) {
        hold(cf_row(n) == n, "cf_row of %zu", n);
        hold(cf_column(n) == 0x8000 + n, "cf_column of %zu", n);
    }
    for (size_t k = 0; k < sizeof larger / sizeof larger[0]; k++) {
        hold(cf_row(larger[k]) == 0x7FFE, "cf_row of %zu", larger[k]);
        hold(cf_column(larger[k]) == 0xFFFE, "cf_column of %zu", larger[k]);
    }
}

/* A line that is named so is refused with 4, to be filled and as a flag: it is not taken for a line that there is, nor for none. */
static void name_far_lines(void)
{
    static const size_t far[] = {0x7FFE, 0x7FFF, 0x8000, 0xFFFF, SIZE_MAX - 0x7FFF, SIZE_MAX};
    for (size_t k = 0; k < 2 * sizeof far / sizeof far[0]; k++) {
        uint8_t tile[16] = {0}, room[30] = {9, 8, 7};
        uint64_t length;
        size_t line = k % 2 == 0 ? cf_row(far[k / 2]) : cf_column(far[k / 2]);
        unsigned no = cf_refusal(ask_fill(CF_NEW, 5, 2, tile, 16, cf_row(0), line));
        hold(no == CF_BAD_PLACE, "line %zx hex, of %zu, is refused to be filled", line, far[k / 2]);
        no = cf_refusal(ask_lay(CF_FLAGGED, 5, 2, 1, cf_row(0), line, tile, 16, room, 30, &length));
        hold(no == CF_BAD_PLACE, "line %zx hex, of %zu, is refused as a flag", line, far[k / 2]);
    }
}

/* The lengths of the table in FORMATS.md. */
static void know_the_lengths(void)
{
    static const size_t lengths[][5] = {{5, 16, 8, 26, 30},
                                        {7, 36, 24, 46, 50},
                                        {11, 100, 80, 110, 114},
                                        {101, 10000, 9800, 10010, 10014},
                                        {251, 62500, 62000, 62510, 62514},
                                        {257, 65536, 65024, 65546, 65550}};
    for (size_t k = 0; k < sizeof lengths / sizeof lengths[0]; k++) {
        hold(cf_tile_len(lengths[k][0]) == lengths[k][1], "cf_tile_len of %zu", lengths[k][0]);
        hold(cf_text_len(lengths[k][0]) == lengths[k][2], "cf_text_len of %zu", lengths[k][0]);
        hold(cf_record_len(CF_NEW, lengths[k][0]) == lengths[k][3], "cf_record_len of a new tile, %zu", lengths[k][0]);
        hold(cf_record_len(CF_OLD, lengths[k][0]) == lengths[k][3], "cf_record_len of an old tile, %zu", lengths[k][0]);
        hold(cf_record_len(CF_FLAGGED, lengths[k][0]) == lengths[k][4], "cf_record_len with flags, %zu", lengths[k][0]);
        hold(cf_record_len(3, lengths[k][0]) == lengths[k][3], "cf_record_len of another number, %zu", lengths[k][0]);
    }
}

/* The library is of the header's version, and the version's number and its text are the same (SPEC 11.4). */
static void know_the_version(void)
{
    unsigned major, minor, patch;
    hold(cf_version() == CF_VERSION, "the library's version is %u, the header's %u", (unsigned)cf_version(), (unsigned)CF_VERSION);
    hold(sscanf(CF_VERSION_TEXT, "%u.%u.%u", &major, &minor, &patch) == 3, "the version's text has three numbers");
    hold(10000 * major + 100 * minor + patch == CF_VERSION, "the version's text is that of its number");
}

/* Every number has words. Each refusal, and none at all, which is 0, has words of its own; 12, which no call says, has not. */
static void have_words(void)
{
    static const unsigned others[] = {12, 13, 255, 265, 266, 0xFFFF, 0x10001, 0x10009, 0x1000A, 0x7FFFFFFF, 0xFFFFFFFF};
    const char *unknown = cf_refusal_words(12);
    hold(strcmp(unknown, "no refusal has this number") == 0, "the refusal 12 has the words: %s", unknown);
    hold(strcmp(cf_refusal_words(CF_TOO_SMALL), "the room is too small for the record") == 0, "the refusal 9 has other words");
    for (unsigned known = 0; known <= CF_DIFFERS_ELSEWHERE; known++) {
        const char *words = cf_refusal_words(known);
        hold(words != NULL && words[0] != 0, "the refusal %u has words", known);
        hold(strcmp(words, unknown) != 0, "the refusal %u is known", known);
        for (unsigned other = 0; other < known; other++)
            hold(strcmp(words, cf_refusal_words(other)) != 0, "the refusals %u and %u have different words", known, other);
    }
    for (size_t k = 0; k < sizeof others / sizeof others[0]; k++)
        hold(strcmp(cf_refusal_words(others[k]), unknown) == 0, "the refusal %u is not known", others[k]);
}

/* A record of a sheet is laid as FORMATS has it, into 8 bytes and no others. */
static void lay_corrections(void)
{
    static const uint8_t examples[][8] = {
        {0xC3, 0x3C, 0, 0, 0, 0, 0x01, 0x41}, {0xC3, 0x3C, 0, 3, 0, 1, 0x00, 0x42}, {0xC3, 0x3C, 0x01, 0x00, 0x00, 0xFD, 0xFF, 0x80}};
    static const size_t places[][2] = {{0, 0}, {3, 1}, {256, 253}};
    for (size_t k = 0; k < sizeof places / sizeof places[0]; k++) {
        uint8_t laid[10] = {0xAA, 0xAA, 0xAA, 0xAA, 0xAA, 0xAA, 0xAA, 0xAA, 0xAA, 0xAA};
        cf_lay_correction(laid + 1, places[k][0], places[k][1], examples[k][6], examples[k][7]);
        hold(memcmp(laid + 1, examples[k], 8) == 0, "cf_lay_correction of row %zu, column %zu", places[k][0], places[k][1]);
        hold(laid[0] == 0xAA && laid[9] == 0xAA, "cf_lay_correction writes 8 bytes");
    }
}

/* A place that two bytes cannot say is laid as one that no text has, and refused with 4, at the record's offset. */
static void lay_far_corrections(void)
{
    static const size_t far[] = {0xFFFE, 0xFFFF, 0x10000, 0x10001, 0x100000000 / 2, SIZE_MAX - 1, SIZE_MAX};
    for (size_t k = 0; k < sizeof far / sizeof far[0]; k++) {
        uint8_t tile[16] = {0}, sheet[16];
        uint64_t offset;
        cf_lay_correction(sheet, 0, 0, 0, 1);
        cf_lay_correction(sheet + 8, far[k], 1, 0, 1);
        unsigned no = cf_refusal(ask_correct(CF_NEW, 5, 2, tile, 16, sheet, 16, &offset));
        hold(no == CF_BAD_PLACE && offset == 8, "row %zu is refused", far[k]);
        cf_lay_correction(sheet + 8, 1, far[k], 0, 1);
        no = cf_refusal(ask_correct(CF_NEW, 5, 2, tile, 16, sheet, 16, &offset));
        hold(no == CF_BAD_PLACE && offset == 8, "column %zu is refused", far[k]);
    }
}

void cases_header(void)
{
    take_words_apart();
    take_a_cell_apart();
    know_the_numbers();
    name_lines();
    name_far_lines();
    know_the_lengths();
    know_the_version();
    have_words();
    lay_corrections();
    lay_far_corrections();
}
