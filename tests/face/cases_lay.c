/* Laying records (SPEC 7.7): all three at all sizes, into rooms that are too small, right and larger, with tile numbers and flags at their
 * edges, by every number that may name a record, and with every set of faults. All that is laid is known beforehand, byte for byte, and is
 * read back. A reel of many records, laid one behind the other, is walked. The tiles are of any bytes. */

#include <stddef.h>
#include <stdint.h>
#include <string.h>

#include "ask.h"
#include "cases.h"
#include "counterfrost.h"
#include "differences.h"
#include "made.h"
#include "walked.h"

/* A tile may be lent twice as long as the longest, and a room longer than the longest record by this. */
enum { LONGEST_TILE = 2 * LARGEST_TILE, BEHIND = 40, LONGEST_ROOM = FLAGGED_HEADER + LARGEST_TILE + BEHIND };

static struct chance chance;
static uint8_t tile[LONGEST_TILE], room[LONGEST_ROOM], expected[LONGEST_ROOM];

/* What cf_lay is told, and the lengths of what it is lent. */
struct told {
    size_t which, p, l;
    uint32_t number;
    size_t first, second, tile_len, room_len;
};

/* Which record a number names (SPEC 11.6). */
static size_t record_of(size_t which)
{
    return which == OLD || which == FLAGGED ? which : NEW;
}

static size_t record_length(size_t which, size_t p)
{
    return header_length(mark_of(record_of(which))) + tile_length(p);
}

/* No flags, any number, and a room that has no byte more than the record. */
static struct told told_of(size_t which, size_t p, size_t l)
{
    uint32_t number = (uint32_t)chance_below(&chance, (size_t)1 << 32);
    struct told told = {which, p, l, number, NO_FLAG, NO_FLAG, tile_length(p), record_length(which, p)};
    return told;
}

static struct told told_flags(size_t p, size_t l, size_t first, size_t second)
{
    struct told told = told_of(FLAGGED, p, l);
    told.first = first;
    told.second = second;
    return told;
}

/* The header of the record that is told. */
static struct header header_of(struct told told)
{
    struct header header = {mark_of(record_of(told.which)), told.p, told.l, told.number, told.first, told.second};
    return header;
}

/* Marks the room, so that it shows what is left, and puts down what it has to hold afterwards. Gives the length that has to be answered. */
static uint64_t expect(struct told told, enum refusal known)
{
    mark_text(room, told.room_len);
    memcpy(expected, room, told.room_len);
    if (known != ACCEPTED)
        return 0;
    put_header(expected, header_of(told));
    memcpy(&expected[header_length(header_of(told).mark)], tile, told.tile_len);
    return record_length(told.which, told.p);
}

/* Asks all sides to lay a record with a tile of any bytes, and holds what comes of it to what is known: ACCEPTED or a refusal, the length,
 * and every byte of the room. What was laid is read back. What is laid is told in words. */
static void lay(struct told told, enum refusal known, const char *what)
{
    uint64_t length;
    chance_bytes(&chance, tile, told.tile_len);
    uint64_t known_length = expect(told, known);
    uint64_t said =
        ask_lay(told.which, told.p, told.l, told.number, told.first, told.second, tile, told.tile_len, room, told.room_len, &length);
    hold(said == (known == ACCEPTED ? word_done() : word_refused(known)) && length == known_length &&
             memcmp(room, expected, told.room_len) == 0,
         "which %zu, p %zu, l %zu, number %lu, flags %zx and %zx hex, %zu and %zu bytes: %s, which is not answered by %d, word %llx",
         told.which, told.p, told.l, (unsigned long)told.number, told.first, told.second, told.tile_len, told.room_len, what, (int)known,
         (unsigned long long)said);
    if (known == ACCEPTED)
        look_up(room, length, 0, header_of(told), ACCEPTED, "what was laid");
}

/* Rooms that are shorter than the record, with none and one byte less among them; and such that are longer. */
static void each_room(struct told told)
{
    size_t record = told.room_len;
    const size_t shorter[] = {0, 1, HEADER - 1, HEADER, FLAGGED_HEADER, tile_length(told.p), record - 1};
    const size_t longer[] = {record, record + 1, record + 4, record + BEHIND};
    hold(record == cf_record_len(told.which, told.p), "cf_record_len of %zu and %zu", told.which, told.p);
    for (size_t k = 0; k < sizeof shorter / sizeof shorter[0]; k++) {
        told.room_len = shorter[k];
        lay(told, TOO_SMALL, "a room that is too small");
    }
    for (size_t k = 0; k < sizeof longer / sizeof longer[0]; k++) {
        told.room_len = longer[k];
        lay(told, ACCEPTED, "a room that is large enough");
    }
}

/* All three records. Where the slope is one that old tiles alone take, the other two are refused. */
static void each_record(size_t kind, size_t p, size_t l)
{
    if (kind == OLD) {
        lay(told_of(NEW, p, l), BAD_SLOPE, "a slope that old tiles alone take");
        lay(told_of(FLAGGED, p, l), BAD_SLOPE, "a slope that old tiles alone take, with flags");
    } else {
        size_t first = some_flag(&chance, p), second = some_flag(&chance, p);
        each_room(told_of(NEW, p, l));
        each_room(told_flags(p, l, first, second));
    }
    each_room(told_of(OLD, p, l));
}

/* Those in which another byte counts, and the largest. */
static void tile_numbers(void)
{
    static const uint32_t numbers[] = {0, 1, 255, 256, 65535, 65536, 16777216, 0x01020304, 0x7FFFFFFF, 0x80000000, 0xFFFFFFFE, 4294967295};
    for (size_t k = 0; k < SORTS * sizeof numbers / sizeof numbers[0]; k++) {
        struct told told = told_of(k % SORTS, 7, 3);
        told.number = numbers[k / SORTS];
        lay(told, ACCEPTED, "a tile number");
    }
}

/* SPEC 11.6: every other number names the record of a new tile without flags. So slope 2 is not taken at 7, nor a flag, and the record has
 * ten bytes before the tile. */
static void each_number_as_record(void)
{
    static const size_t others[] = {3, 4, 5, 7, 255, 256, 257, 258, 0x8001, 0x8002, 0x10000, 0x10001, 0x10002, ((size_t)1 << 32) + 1,
                                    ((size_t)1 << 63) + 1, ((size_t)1 << 63) + 2};
    for (size_t k = 0; k < FAR_NUMBERS + sizeof others / sizeof others[0]; k++) {
        size_t which = k < FAR_NUMBERS ? far_numbers[k] : others[k - FAR_NUMBERS];
        struct told flagged = told_of(which, 7, 3), small = flagged;
        flagged.first = row_name(0);
        small.room_len--;
        lay(told_of(which, 7, 3), ACCEPTED, "another number for a new tile's record");
        lay(told_of(which, 7, 2), BAD_SLOPE, "another number, and a slope that old tiles alone take");
        lay(flagged, BAD_PLACE, "another number, and a flag");
        lay(small, TOO_SMALL, "another number, and a room that is too small");
    }
}

/* The n-th length that no tile of size p has. */
enum { WRONG_LENGTHS = 9 };

static size_t wrong_length(size_t p, size_t n)
{
    const size_t right = tile_length(p);
    const size_t lengths[WRONG_LENGTHS] = {0, 1, p - 1, text_length(p), right - 1, right + 1, right + HEADER, p * p, 2 * right};
    return lengths[n];
}

static void wrong_lengths(size_t which, size_t p)
{
    for (size_t n = 0; n < WRONG_LENGTHS; n++) {
        struct told told = told_of(which, p, house_slope(p));
        told.tile_len = wrong_length(p, n);
        lay(told, BAD_LENGTH, "a tile of another length");
    }
}

/* Each length of the tile with each of the room, at 5: 3 unless the tile's is right, and then 9 until the room is large enough. */
static void each_length_with_each(size_t which)
{
    struct told told = told_of(which, 5, 2);
    size_t record = told.room_len;
    for (told.tile_len = 0; told.tile_len <= tile_length(5) + 2; told.tile_len++) {
        for (told.room_len = 0; told.room_len <= record + 2; told.room_len++) {
            enum refusal of_room = told.room_len < record ? TOO_SMALL : ACCEPTED;
            lay(told, told.tile_len == tile_length(5) ? of_room : BAD_LENGTH, "two lengths");
        }
    }
}

/* Numbers that are no size, and slopes that no kind takes, with all else right. */
static void wrong_sizes_and_slopes(size_t which, size_t p)
{
    for (size_t n = 0; n < WRONG_SIZES; n++) {
        struct told told = told_of(which, p, house_slope(p));
        told.p = nth_wrong_size(p, n);
        lay(told, BAD_SIZE, "a wrong size");
    }
    for (size_t n = 0; n < WRONG_SLOPES; n++) {
        struct told told = told_of(which, p, house_slope(p));
        told.l = nth_wrong_slope(p, told.l, n);
        lay(told, BAD_SLOPE, "a wrong slope");
    }
}

/* Flags at their edges, each with each: right ones with right ones, and wrong ones with all, in either place. */
static void flags_at_their_edges(size_t p)
{
    size_t l = some_slope(&chance, p);
    for (size_t k = 0; k < EDGE_FLAGS; k++)
        for (size_t n = 0; n < EDGE_FLAGS; n++)
            lay(told_flags(p, l, nth_edge_flag(p, k), nth_edge_flag(p, n)), k < RIGHT_FLAGS && n < RIGHT_FLAGS ? ACCEPTED : BAD_PLACE,
                "flags at their edges");
}

/* The same, where each with each would take too long: in either place, with none in the other, and in both. */
static void each_flag_at_its_edge(size_t p)
{
    size_t l = some_slope(&chance, p);
    for (size_t k = 0; k < EDGE_FLAGS; k++) {
        size_t flag = nth_edge_flag(p, k);
        enum refusal known = k < RIGHT_FLAGS ? ACCEPTED : BAD_PLACE;
        lay(told_flags(p, l, flag, NO_FLAG), known, "a first flag at its edge");
        lay(told_flags(p, l, NO_FLAG, flag), known, "a second flag at its edge");
        lay(told_flags(p, l, flag, flag), known, "a flag at its edge, twice");
    }
}

/* A record without flags takes none but none, whatever else the flag says. */
static void flags_without_a_place(size_t which, size_t p)
{
    for (size_t k = 0; k < EDGE_FLAGS; k++) {
        size_t flag = nth_edge_flag(p, k);
        enum refusal known = flag == NO_FLAG ? ACCEPTED : BAD_PLACE;
        struct told first = told_of(which, p, house_slope(p)), second = first, both = first;
        first.first = both.first = flag;
        second.second = both.second = flag;
        lay(first, known, "a first flag, of a record without flags");
        lay(second, known, "a second flag, of a record without flags");
        lay(both, known, "two flags, of a record without flags");
    }
}

/* The faults that can be put in, one by one or together. */
enum fault { WRONG_SIZE = 1, WRONG_SLOPE = 2, WRONG_TILE = 4, WRONG_FIRST = 8, WRONG_SECOND = 16, WRONG_ROOM = 32, ALL_FAULTS = 63 };

/* SPEC 9.2: which of them is told. */
static enum refusal told_first(unsigned faults)
{
    if (faults & WRONG_SIZE)
        return BAD_SIZE;
    if (faults & WRONG_SLOPE)
        return BAD_SLOPE;
    if (faults & WRONG_TILE)
        return BAD_LENGTH;
    if (faults & (WRONG_FIRST | WRONG_SECOND))
        return BAD_PLACE;
    return faults & WRONG_ROOM ? TOO_SMALL : ACCEPTED;
}

/* A flag that the record cannot carry: in one without flags this may be a line of the tile. */
static size_t wrong_flag(size_t which, size_t p)
{
    if (which != FLAGGED && chance_below(&chance, 2) == 0)
        return some_line(&chance, p);
    return some_wrong_flag(&chance, p, EDGE_FLAGS);
}

/* The wrong size is last, since the others lie beside what is right for the size. */
static void put_faults(struct told *told, unsigned faults)
{
    if (faults & WRONG_SLOPE)
        told->l = nth_wrong_slope(told->p, told->l, chance_below(&chance, WRONG_SLOPES));
    if (faults & WRONG_TILE)
        told->tile_len = wrong_length(told->p, chance_below(&chance, WRONG_LENGTHS));
    if (faults & WRONG_FIRST)
        told->first = wrong_flag(told->which, told->p);
    if (faults & WRONG_SECOND)
        told->second = wrong_flag(told->which, told->p);
    if (faults & WRONG_ROOM)
        told->room_len = chance_below(&chance, told->room_len);
    if (faults & WRONG_SIZE)
        told->p = nth_wrong_size(told->p, chance_below(&chance, WRONG_SIZES));
}

static void every_set_of_faults(size_t which, size_t p)
{
    for (unsigned faults = 0; faults <= ALL_FAULTS; faults++) {
        struct told told = told_of(which, p, some_slope(&chance, p));
        put_faults(&told, faults);
        lay(told, told_first(faults), "a set of faults");
    }
}

/* Each of these with all three records, at a size. */
static void faults_at(size_t p)
{
    for (size_t which = 0; which < SORTS; which++) {
        wrong_lengths(which, p);
        wrong_sizes_and_slopes(which, p);
        every_set_of_faults(which, p);
    }
    flags_without_a_place(NEW, p);
    flags_without_a_place(OLD, p);
    flags_without_a_place(3, p);
}

/* A reel as it is made byte by byte, with the headers that are on it; and as it is laid. */
enum { MOST_LAID = 130 };
static struct reel made, laid;
static struct header headers[MOST_LAID];

/* Lays the next record of the reel that was made behind those that were laid, into a room which has so many bytes more. */
static void lay_next(size_t which, struct header header, size_t behind)
{
    uint64_t length;
    const uint8_t *from = &made.bytes[laid.length + header_length(header.mark)];
    uint8_t *to = &laid.bytes[laid.length];
    size_t room_len = record_length(which, header.p) + behind;
    uint64_t said =
        ask_lay(which, header.p, header.l, header.number, header.first, header.second, from, tile_length(header.p), to, room_len, &length);
    hold(said == word_done(), "a record is not laid at %zu, word %llx", laid.length, (unsigned long long)said);
    laid.length += length;
}

/* All that was laid is listed in order, with the tiles' bytes in place, and then comes the end. */
static void list_laid(size_t count)
{
    struct found found;
    size_t at = 0;
    hold(laid.length == made.length && memcmp(laid.bytes, made.bytes, made.length) == 0, "a reel of %zu records is laid otherwise", count);
    for (size_t k = 0; k < count; k++) {
        look_up(laid.bytes, laid.length, at, headers[k], ACCEPTED, "a record that was laid behind others");
        at += header_length(headers[k].mark) + tile_length(headers[k].p);
    }
    hold(ask_next(laid.bytes, laid.length, at, &found) == word_end(), "a reel of %zu records does not end behind them", count);
}

/* Records of any sort and of the given sizes, laid one behind the other. */
static void lay_reel(const size_t *sizes, size_t count)
{
    made.length = laid.length = 0;
    for (size_t k = 0; k < count; k++) {
        size_t which = chance_below(&chance, SORTS);
        headers[k] = some_header(&chance, mark_of(which), sizes[k]);
        add_record(&made, &chance, headers[k]);
        lay_next(which, headers[k], chance_below(&chance, BEHIND));
    }
    list_laid(count);
}

static void laid_reels(void)
{
    static const size_t large[] = {257, 5, 101, 257, 7, 251}, counts[] = {0, 1, 2, 3, 5, 8, 13, 21, 34, 55, 89, MOST_LAID};
    for (size_t k = 0; k < sizeof counts / sizeof counts[0]; k++) {
        size_t sizes[MOST_LAID];
        for (size_t n = 0; n < counts[k]; n++)
            sizes[n] = size_above(chance_below(&chance, 23));
        lay_reel(sizes, counts[k]);
    }
    lay_reel(large, sizeof large / sizeof large[0]);
}

void cases_lay(void)
{
    chance = chance_from(15);
    for_small_sizes(SMALL_SIZE, each_record);
    for_all_sizes(&chance, each_record);
    for_small_old_sizes(SMALL_SIZE, each_record);
    for_some_old_sizes(&chance, each_record);
    tile_numbers();
    each_number_as_record();
    for (size_t which = 0; which < SORTS; which++)
        each_length_with_each(which);
    for (size_t p = size_above(0); p <= 13; p = size_above(p))
        faults_at(p);
    faults_at(LARGEST_SIZE);
    for (size_t p = size_above(0); p <= SMALL_SIZE; p = size_above(p))
        flags_at_their_edges(p);
    for (size_t p = size_above(0); p != 0; p = size_above(p))
        each_flag_at_its_edge(p);
    laid_reels();
}
