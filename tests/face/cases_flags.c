/* Flags on a reel (SPEC 3.5, 7.1 and 7.2): every number as a flag, flags on both sides of their edges, each with each at all sizes, and the
 * place at which a walk ends that comes to a wrong one. */

#include <stddef.h>
#include <stdint.h>

#include "cases.h"
#include "differences.h"
#include "made.h"
#include "walked.h"

static struct chance chance;
static struct reel reel;

/* A record of size p with these flags, at the allowed slope that is the least, with a tile of any bytes. */
static struct header flagged(size_t p, size_t first, size_t second)
{
    struct header header = {FLAGGED_MARK, p, house_slope(p), 1, first, second};
    return header;
}

/* A reel of one such record. Its flags are put in later. */
static void make_record(size_t p)
{
    reel.length = 0;
    add_record(&reel, &chance, flagged(p, NO_FLAG, NO_FLAG));
}

static void look_up_flags(size_t p, size_t first, size_t second, enum refusal known, const char *what)
{
    put_header(reel.bytes, flagged(p, first, second));
    look_up(reel.bytes, reel.length, 0, flagged(p, first, second), known, what);
}

/* A flag in either place, with none in the other, and in both. */
static void look_up_flag(size_t p, size_t flag, enum refusal known, const char *what)
{
    look_up_flags(p, flag, NO_FLAG, known, what);
    look_up_flags(p, NO_FLAG, flag, known, what);
    look_up_flags(p, flag, flag, known, what);
}

/* The table in FORMATS of what a flag's two bytes say. */
static void known_flags(void)
{
    static const struct {
        size_t flag;
        enum refusal at_5, at_257;
    } flags[] = {
        {0x0000, ACCEPTED, ACCEPTED},  {0x0003, ACCEPTED, ACCEPTED},  {0x0004, BAD_PLACE, ACCEPTED},  {0x00FF, BAD_PLACE, ACCEPTED},
        {0x0100, BAD_PLACE, BAD_PLACE}, {0x7FFF, BAD_PLACE, BAD_PLACE}, {0x8000, ACCEPTED, ACCEPTED}, {0x8003, ACCEPTED, ACCEPTED},
        {0x8004, BAD_PLACE, ACCEPTED}, {0x80FF, BAD_PLACE, ACCEPTED}, {0x8100, BAD_PLACE, BAD_PLACE}, {0xFFFE, BAD_PLACE, BAD_PLACE},
        {0xFFFF, ACCEPTED, ACCEPTED},
    };
    make_record(5);
    for (size_t k = 0; k < sizeof flags / sizeof flags[0]; k++)
        look_up_flag(5, flags[k].flag, flags[k].at_5, "a flag of FORMATS, at 5");
    make_record(257);
    for (size_t k = 0; k < sizeof flags / sizeof flags[0]; k++)
        look_up_flag(257, flags[k].flag, flags[k].at_257, "a flag of FORMATS, at 257");
}

/* Each with each: both have to be right. */
static void flags_at_their_edges(size_t p)
{
    make_record(p);
    for (size_t k = 0; k < SHORT_FLAGS; k++)
        for (size_t n = 0; n < SHORT_FLAGS; n++)
            look_up_flags(p, nth_edge_flag(p, k), nth_edge_flag(p, n), k < RIGHT_FLAGS && n < RIGHT_FLAGS ? ACCEPTED : BAD_PLACE,
                          "flags at their edges");
}

/* Every number that two bytes can say, as the first flag and as the second. What is taken is none, and each line of the tile. Where no tile
 * stands behind the header, a flag that is taken is refused with 7, and any other with 4: at 257 this is the quicker way. */
static void every_number_as_flag(size_t p, size_t length, uint64_t when_taken)
{
    struct found found;
    size_t taken = 0;
    make_record(p);
    for (size_t n = 0; n <= 2 * 0xFFFF + 1; n++) {
        put_header(reel.bytes, n % 2 == 0 ? flagged(p, n / 2, NO_FLAG) : flagged(p, NO_FLAG, n / 2));
        taken += ask_next(reel.bytes, length, 0, &found) == when_taken;
    }
    hold(taken == 2 * (2 * (p - 1) + 1), "p %zu: the peer takes %zu flags", p, taken);
}

/* So many records, of any sort but for the n-th, which is flagged, and of which a flag is wrong, the first or the second. Gives where this
 * one begins. */
static size_t make_reel_with_wrong_flag(const size_t *sizes, size_t count, size_t n, int is_second)
{
    size_t begins = 0;
    reel.length = 0;
    for (size_t k = 0; k < count; k++) {
        struct header header = some_header(&chance, k == n ? FLAGGED_MARK : mark_of(chance_below(&chance, SORTS)), sizes[k]);
        if (k == n) {
            *(is_second ? &header.second : &header.first) = some_wrong_flag(&chance, sizes[k], SHORT_FLAGS);
            begins = reel.length;
        }
        add_record(&reel, &chance, header);
    }
    return begins;
}

/* A walk comes to a wrong flag, in every record in turn and in either place of it, and stays there. */
static void walk_to_a_wrong_flag(void)
{
    enum { COUNT = 6 };
    static const size_t sizes[COUNT] = {5, 11, 7, 5, 13, 7};
    for (size_t k = 0; k < 2 * COUNT; k++) {
        size_t begins = make_reel_with_wrong_flag(sizes, COUNT, k / 2, k % 2), ended = walk_both_ways(reel.bytes, reel.length);
        hold(ended == begins, "a wrong flag stands at %zu, and the walk ends at %zu", begins, ended);
    }
}

void cases_flags(void)
{
    chance = chance_from(13);
    known_flags();
    for (size_t p = size_above(0); p != 0; p = size_above(p))
        flags_at_their_edges(p);
    every_number_as_flag(5, FLAGGED_HEADER + tile_length(5), word_done());
    every_number_as_flag(LARGEST_SIZE, FLAGGED_HEADER, word_refused(CUT_SHORT));
    walk_to_a_wrong_flag();
}
