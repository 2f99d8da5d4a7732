/* Reels (SPEC 7.2): asked at every offset and cut at every byte where they are small, with every fault of a record, with tiles of all
 * sizes and records of all three sorts, with many tiles, and of any bytes. What a flag may say has cases of its own. */

#include <stddef.h>
#include <stdint.h>
#include <string.h>

#include "cases.h"
#include "differences.h"
#include "made.h"
#include "walked.h"

#define COUNT_OF(list) (sizeof(list) / sizeof(list)[0])

static struct chance chance;
static struct reel reel;

static uint64_t next(size_t length, size_t at)
{
    struct found found;
    return ask_next(reel.bytes, length, at, &found);
}

static void add_some_record(size_t which, size_t p)
{
    add_record(&reel, &chance, some_header(&chance, mark_of(which), p));
}

/* Two records, each of every sort. */
static void small_reels(void)
{
    for (size_t pair = 0; pair < SORTS * SORTS; pair++) {
        reel.length = 0;
        add_some_record(pair / SORTS, 5);
        add_some_record(pair % SORTS, 7);
        for (size_t length = 0; length <= reel.length; length++)
            ask_each_place(reel.bytes, length);
        ask_far_places(reel.bytes, reel.length);
    }
    ask_far_places(reel.bytes, 0);
}

/* Five records of which every next one is of another sort. */
static void small_reels_mixed(void)
{
    static const size_t sizes[] = {7, 5, 5, 11, 5};
    for (size_t sort = 0; sort < SORTS; sort++) {
        reel.length = 0;
        for (size_t k = 0; k < COUNT_OF(sizes); k++)
            add_some_record((sort + k) % SORTS, sizes[k]);
        ask_each_place(reel.bytes, reel.length);
        for (size_t length = 0; length <= reel.length; length++)
            walk_both_ways(reel.bytes, length);
        ask_far_places(reel.bytes, reel.length);
    }
}

/* Where the second record begins on the reels below, and in it the fields. */
enum { SECOND = 26, SIZE = SECOND + 2, SLOPE = SECOND + 4 };

static void put_second(struct header header)
{
    put_header(&reel.bytes[SECOND], header);
}

/* Three records, of which the second's header is changed: its size, then its slope, then each byte of both. */
static void faulty_numbers(size_t mark)
{
    for (size_t p = 0; p <= 300; p++) {
        put_second(without_flags(mark, p, 3, 1));
        next(reel.length, SECOND);
    }
    for (size_t l = 0; l <= 300; l++) {
        put_second(without_flags(mark, 7, l, 1));
        next(reel.length, SECOND);
    }
    for (size_t k = SIZE; k < SLOPE + 2; k++) {
        for (unsigned byte = 0; byte < 256; byte++) {
            put_second(without_flags(mark, 7, 3, 1));
            reel.bytes[k] = (uint8_t)byte;
            next(reel.length, SECOND);
        }
    }
}

/* Its mark becomes each pair of bytes, and behind its number stands FFFF twice, which flags may be: only three of them are marks. */
static void every_mark(void)
{
    size_t taken = 0;
    put_second(without_flags(FLAGGED_MARK, 7, 3, 1));
    for (size_t mark = 0; mark <= 0xFFFF; mark++) {
        put_second(without_flags(mark, 7, 3, 1));
        taken += next(reel.length, SECOND) == word_done();
    }
    hold(taken == SORTS, "the peer takes %zu marks", taken);
}

static void faulty_headers(void)
{
    reel.length = 0;
    add_some_record(NEW, 5);
    add_some_record(NEW, 7);
    add_some_record(NEW, 5);
    every_mark();
    for (size_t which = 0; which < SORTS; which++)
        faulty_numbers(mark_of(which));
}

/* What can be wrong with a record, besides that it is cut. */
enum fault { WRONG_MARK = 1, WRONG_SIZE = 2, WRONG_SLOPE = 4, WRONG_FIRST = 8, WRONG_SECOND = 16, ALL_FAULTS = 31 };

/* SPEC 9.2: which of them is told of a record of size 7, of which so many bytes are there. */
static enum refusal told_first(size_t mark, unsigned faults, size_t there)
{
    if (there < HEADER)
        return CUT_SHORT;
    if (faults & WRONG_MARK)
        return BAD_MARK;
    if (there < header_length(mark))
        return CUT_SHORT;
    if (faults & WRONG_SIZE)
        return BAD_SIZE;
    if (faults & WRONG_SLOPE)
        return BAD_SLOPE;
    if (mark == FLAGGED_MARK && faults & (WRONG_FIRST | WRONG_SECOND))
        return BAD_PLACE;
    return there < header_length(mark) + tile_length(7) ? CUT_SHORT : ACCEPTED;
}

/* Faults that meet: a mark, a size, a slope and flags, each right or wrong, in a record that is cut by any number of bytes. Where it has no
 * flags, what stands in their place is the tile. */
static void faults_that_meet(size_t mark, unsigned faults)
{
    size_t wrong_slope = mark == OLD_MARK ? 6 : 4;
    struct header header = some_header(&chance, mark, 7);
    reel.length = 0;
    add_some_record(NEW, 5);
    header.p = faults & WRONG_SIZE ? 9 : 7;
    header.l = faults & WRONG_SLOPE ? wrong_slope : 5;
    if (faults & WRONG_FIRST)
        header.first = some_wrong_flag(&chance, 7, SHORT_FLAGS);
    if (faults & WRONG_SECOND)
        header.second = some_wrong_flag(&chance, 7, SHORT_FLAGS);
    chance_bytes(&chance, &reel.bytes[SECOND], FLAGGED_HEADER + tile_length(7));
    put_second(header);
    if (faults & WRONG_MARK)
        reel.bytes[SECOND + 1] ^= 1;
    for (size_t there = 1; there <= header_length(mark) + tile_length(7); there++)
        look_up(reel.bytes, SECOND + there, SECOND, header, told_first(mark, faults, there), "a set of faults");
}

static void every_set_of_faults(void)
{
    for (size_t which = 0; which < SORTS; which++)
        for (unsigned faults = 0; faults <= ALL_FAULTS; faults++)
            faults_that_meet(mark_of(which), faults);
}

/* What is known of a record, by its mark, size and slope (SPEC 7.2): a tile with its kind, or a refusal, with no value but the offset. */
static void known_records(void)
{
    static const struct {
        size_t mark, p, l;
        enum refusal refusal;
    } records[] = {
        {NEW_MARK, 7, 2, BAD_SLOPE},     {NEW_MARK, 7, 3, ACCEPTED},     {NEW_MARK, 7, 5, ACCEPTED},     {OLD_MARK, 7, 0, BAD_SLOPE},
        {OLD_MARK, 7, 1, BAD_SLOPE},     {OLD_MARK, 7, 2, ACCEPTED},     {OLD_MARK, 7, 3, ACCEPTED},     {OLD_MARK, 7, 4, ACCEPTED},
        {OLD_MARK, 7, 5, ACCEPTED},      {OLD_MARK, 7, 6, BAD_SLOPE},    {OLD_MARK, 7, 7, BAD_SLOPE},    {OLD_MARK, 7, 65535, BAD_SLOPE},
        {OLD_MARK, 9, 2, BAD_SIZE},      {OLD_MARK, 11, 2, CUT_SHORT},   {FLAGGED_MARK, 7, 2, BAD_SLOPE}, {FLAGGED_MARK, 7, 3, ACCEPTED},
        {FLAGGED_MARK, 7, 4, BAD_SLOPE}, {FLAGGED_MARK, 7, 5, ACCEPTED}, {FLAGGED_MARK, 9, 2, BAD_SIZE}, {FLAGGED_MARK, 11, 2, CUT_SHORT},
        {0xD5D5, 7, 3, BAD_MARK},        {0x5D5D, 7, 3, BAD_MARK},       {0x5E5E, 7, 3, BAD_MARK},       {0x5ED5, 7, 3, BAD_MARK},
        {0x5DD6, 7, 3, BAD_MARK},        {0x5ED6, 7, 3, BAD_MARK},       {0x5D5E, 7, 3, BAD_MARK},       {0x5E5D, 7, 3, BAD_MARK},
    };
    reel.length = 0;
    add_some_record(NEW, 5);
    add_some_record(FLAGGED, 7);
    for (size_t k = 0; k < COUNT_OF(records); k++) {
        struct header header = without_flags(records[k].mark, records[k].p, records[k].l, 300);
        put_second(header);
        look_up(reel.bytes, reel.length, SECOND, header, records[k].refusal, "a known record");
    }
}

/* Marks of which one bit is wrong, with all that a record may have behind them, with a header that has flags or has none, and with less. */
static void marks_one_bit_off(void)
{
    static const size_t there[] = {HEADER - 1, HEADER, HEADER + 1, FLAGGED_HEADER - 1, FLAGGED_HEADER, FLAGGED_HEADER + 36};
    reel.length = 0;
    add_some_record(NEW, 5);
    put_second(without_flags(FLAGGED_MARK, 7, 3, 1));
    for (size_t k = 0; k < SORTS * 16; k++) {
        struct header header = without_flags(mark_of(k / 16) ^ (size_t)1 << k % 16, 7, 3, 1);
        put_second(header);
        for (size_t n = 0; n < COUNT_OF(there); n++)
            look_up(reel.bytes, SECOND + there[n], SECOND, header, there[n] < HEADER ? CUT_SHORT : BAD_MARK, "a mark that is one bit off");
    }
}

/* Marks, sizes with slopes, and numbers of bytes that are there, on both sides of each edge and each with each: the order of refusals
 * shows in records with several faults. */
static const size_t marks[] = {NEW_MARK, 0xD45D, 0x005D, 0xD55C, 0xD500, 0, OLD_MARK, 0xC33C, 0x5DD4, 0xD5D5, 0x5D5D,
                               FLAGGED_MARK, 0xD55F, 0x5ED5};
static const size_t sizes_with_slopes[][2] = {
    {0, 2},  {1, 2},    {4, 2},     {6, 2},  {9, 2},  {9, 0},  {256, 2}, {258, 2},  {261, 2},  {1285, 2}, {65535, 2},  {5, 0},
    {5, 1},  {5, 2},    {5, 3},     {5, 4},  {5, 5},  {5, 258}, {5, 65535}, {7, 0}, {7, 1},    {7, 2},    {7, 3},      {7, 5},
    {7, 6},  {7, 7},    {7, 65535}, {17, 0}, {17, 1}, {17, 2}, {17, 3},  {17, 14},  {17, 15},  {17, 16},  {17, 17},    {17, 65535},
};
static const size_t numbers_of_bytes[] = {1, 9, 10, 13, 14, 25, 26, 29, 30, 45, 46, 49, 50, 265, 266, 269, 270};

/* A record at the reel's end: asked for at its place, and as the first of a reel; and the reel is walked up to it. */
static void ask_last_record(size_t at, size_t length)
{
    struct found found;
    next(at + length, at);
    ask_next(&reel.bytes[at], length, 0, &found);
    walk(reel.bytes, at + length);
}

/* The first flag is row 4, which size 5 does not have. */
static void last_records(size_t at, size_t mark)
{
    for (size_t k = 0; k < COUNT_OF(sizes_with_slopes); k++) {
        struct header header = {mark, sizes_with_slopes[k][0], sizes_with_slopes[k][1], 9, 4, NO_FLAG};
        put_header(&reel.bytes[at], header);
        for (size_t n = 0; n < COUNT_OF(numbers_of_bytes); n++)
            ask_last_record(at, numbers_of_bytes[n]);
    }
}

/* Behind no record, behind one, two and three. */
static void faults_behind_whole_records(void)
{
    static const size_t sizes[] = {5, 7, 11};
    for (size_t whole = 0; whole <= COUNT_OF(sizes); whole++) {
        make_reel(&reel, &chance, sizes, whole);
        size_t at = reel.length;
        add_some_record(FLAGGED, 17);
        for (size_t k = 0; k < COUNT_OF(marks); k++)
            last_records(at, marks[k]);
    }
}

/* The smallest and the largest, those in which another byte counts, and numbers that come again. */
static void tile_numbers(void)
{
    static const uint32_t numbers[] = {0,          1,          0xFF,       0x100,      0xFFFF, 0x10000, 0x1000000,  0x7FFFFFFF,
                                       0x80000000, 0xFFFFFFFE, 0xFFFFFFFF, 0x01020304, 7,      7,       0xFFFFFFFF, 7};
    for (size_t sort = 0; sort < SORTS; sort++) {
        reel.length = 0;
        for (size_t k = 0; k < COUNT_OF(numbers); k++)
            add_record(&reel, &chance, without_flags(mark_of((sort + k) % SORTS), 5, 2, numbers[k]));
        walk_both_ways(reel.bytes, reel.length);
    }
}

/* One record of each sort and size, with something behind it: whole, cut by one byte, cut to the header, and in the middle. */
static void each_size_of(size_t which)
{
    size_t header = header_length(mark_of(which));
    for (size_t p = size_above(0); p != 0; p = size_above(p)) {
        reel.length = 0;
        add_some_record(which, p);
        size_t record = reel.length;
        add_some_record(NEW, 5);
        walk(reel.bytes, reel.length);
        const size_t lengths[] = {record, record - 1, record + 1, header, header + 1, header - 1, HEADER - 1, HEADER, record / 2};
        for (size_t k = 0; k < COUNT_OF(lengths); k++)
            walk(reel.bytes, lengths[k]);
    }
}

static void each_size(void)
{
    for (size_t which = 0; which < SORTS; which++)
        each_size_of(which);
}

static void large_reels(void)
{
    static const size_t sizes[][6] = {{257, 5, 101, 257, 7, 251}, {5, 251, 257, 11, 31, 257}, {193, 257, 257, 5, 5, 7}};
    for (size_t k = 0; k < COUNT_OF(sizes); k++) {
        make_reel(&reel, &chance, sizes[k], 6);
        walk(reel.bytes, reel.length);
        walk(reel.bytes, reel.length - 1);
        walk(reel.bytes, reel.length - 40);
        for (int round = 0; round < 20; round++)
            next(reel.length, chance_below(&chance, reel.length));
    }
}

/* Reels of up to 130 tiles: whole, without the last byte, and with 9 and 10 bytes of any kind behind them, of which 9 are no header. */
static void long_reels(void)
{
    static const size_t counts[] = {1, 2, 3, 4, 5, 6, 7, 8, 10, 12, 16, 20, 24, 32, 48, 64, 96, 130};
    for (size_t k = 0; k < COUNT_OF(counts); k++) {
        size_t sizes[130];
        for (size_t n = 0; n < counts[k]; n++)
            sizes[n] = size_above(chance_below(&chance, 23));
        make_reel(&reel, &chance, sizes, counts[k]);
        chance_bytes(&chance, &reel.bytes[reel.length], HEADER);
        walk_both_ways(reel.bytes, reel.length);
        walk_both_ways(reel.bytes, reel.length - 1);
        walk_both_ways(reel.bytes, reel.length + HEADER - 1);
        walk_both_ways(reel.bytes, reel.length + HEADER);
    }
}

/* Bytes of any kind, in which sound headers begin anywhere: so many bytes of each are laid, and later ones may lie over earlier. */
static void planted_headers(size_t length, size_t planted)
{
    chance_bytes(&chance, reel.bytes, length);
    for (size_t k = 0; k < length / 16; k++) {
        uint8_t kept[FLAGGED_HEADER];
        size_t p = size_above(chance_below(&chance, 23)), at = chance_below(&chance, length);
        memcpy(kept, &reel.bytes[at], FLAGGED_HEADER);
        put_header(&reel.bytes[at], some_header(&chance, mark_of(k % SORTS), p));
        memcpy(&reel.bytes[at + planted], &kept[planted], FLAGGED_HEADER - planted);
    }
    ask_each_place(reel.bytes, length);
}

/* Nothing is laid, the mark, the size too, the slope too, the number, a flag, and all. */
static void garbage(void)
{
    static const size_t lengths[] = {0, 1, 9, 10, 11, 13, 14, 15, 25, 26, 27, 30, 60, 100, 200, 500, 1000};
    static const size_t planted[] = {0, 2, 4, 6, HEADER, 12, FLAGGED_HEADER};
    for (size_t k = 0; k < COUNT_OF(lengths); k++)
        for (size_t n = 0; n < COUNT_OF(planted); n++)
            for (int round = 0; round < 3; round++)
                planted_headers(lengths[k], planted[n]);
}

/* Bytes of any kind, in which records' headers stand anywhere, of sizes, slopes and flags that are right and that are not. */
static void any_bytes(void)
{
    for (int round = 0; round < 60; round++) {
        size_t length = 20 + chance_below(&chance, 80);
        chance_bytes(&chance, reel.bytes, length);
        for (size_t k = 0; k < SORTS; k++) {
            struct header header = {mark_of(k), 4 + chance_below(&chance, 5), 1 + chance_below(&chance, 6), 5, NO_FLAG, NO_FLAG};
            header.first = chance_below(&chance, 6);
            put_header(&reel.bytes[chance_below(&chance, length - FLAGGED_HEADER)], header);
        }
        ask_each_place(reel.bytes, length);
    }
}

void cases_reel(void)
{
    chance = chance_from(5);
    small_reels();
    small_reels_mixed();
    faulty_headers();
    every_set_of_faults();
    known_records();
    marks_one_bit_off();
    faults_behind_whole_records();
    tile_numbers();
    each_size();
    large_reels();
    long_reels();
    garbage();
    any_bytes();
}
