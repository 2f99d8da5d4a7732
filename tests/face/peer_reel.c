/* The peer's reel, from SPEC 7 and, for the bytes of a record, from FORMATS, "The reel": what stands at an offset, read byte by byte, and a
 * record, laid byte by byte. The three records have their numbers of SPEC 11.6: NEW, OLD and FLAGGED. */

#include <string.h>

#include "peer.h"
#include "peer_rules.h"

/* FORMATS: the mark of each record. */
static const uint64_t mark_of[SORTS] = {[NEW] = 0xD55D, [OLD] = 0x5DD5, [FLAGGED] = 0xD55E};

/* SPEC 7.2, row 2: fewer bytes are the header of no record. */
enum { SHORTEST_HEADER = 10 };

/* SPEC 7.1. */
static size_t header_length(size_t which)
{
    return which == FLAGGED ? 14 : 10;
}

/* SPEC 7.1: both new tiles' records, and the old one's. */
static size_t kind_of(size_t which)
{
    return which == OLD ? OLD : NEW;
}

/* SPEC 1.2, here and below. */
static uint64_t number_of(const uint8_t *bytes, size_t count)
{
    uint64_t value = 0;
    for (size_t k = 0; k < count; k++)
        value = value * 256 + bytes[k];
    return value;
}

static void lay_number(uint8_t *bytes, size_t count, uint64_t number)
{
    for (size_t k = count; k > 0; k--) {
        bytes[k - 1] = (uint8_t)(number % 256);
        number /= 256;
    }
}

/* Which record has the mark that stands here; SORTS where none has. */
static size_t which_stands(const uint8_t *record)
{
    size_t which = 0;
    while (which < SORTS && mark_of[which] != number_of(record, 2))
        which++;
    return which;
}

/* SPEC 7.1: where a record has no flags, both are none. */
static size_t flag_of(const uint8_t *record, size_t which, size_t offset)
{
    return which == FLAGGED ? number_of(&record[offset], 2) : NO_FLAG;
}

/* SPEC 7.5: none can be carried by every record, and a line of the tile by a flagged one. */
static int can_carry(size_t which, size_t p, size_t flag)
{
    return flag == NO_FLAG || (which == FLAGGED && has_line(p, flag));
}

/* SPEC 7.2, rows 2 to 7, of a record of which so many bytes are there. */
static enum refusal judge_record(const uint8_t *record, size_t there)
{
    if (there < SHORTEST_HEADER)
        return CUT_SHORT;
    size_t which = which_stands(record);
    if (which == SORTS)
        return BAD_MARK;
    if (there < header_length(which))
        return CUT_SHORT;
    size_t p = number_of(&record[2], 2), l = number_of(&record[4], 2);
    enum refusal refusal = judge_slope(kind_of(which), p, l);
    if (refusal != ACCEPTED)
        return refusal;
    if (!can_carry(which, p, flag_of(record, which, 10)) || !can_carry(which, p, flag_of(record, which, 12)))
        return BAD_PLACE;
    return there - header_length(which) < tile_length(p) ? CUT_SHORT : ACCEPTED;
}

/* SPEC 7.2: the end, a refusal with the offset that was asked for, or a tile. SPEC 11.2 for the seven numbers. */
uint64_t peer_next(const uint8_t *reel, size_t reel_len, size_t at, uint64_t *kind, uint64_t *number, uint64_t *p, uint64_t *l,
                   uint64_t *first, uint64_t *second, uint64_t *offset)
{
    *kind = *number = *p = *l = *offset = 0;
    *first = *second = NO_FLAG;
    if (at >= reel_len)
        return word_end();
    const uint8_t *record = &reel[at];
    enum refusal refusal = judge_record(record, reel_len - at);
    if (refusal != ACCEPTED) {
        *offset = at;
        return word_refused(refusal);
    }
    size_t which = which_stands(record);
    *kind = kind_of(which);
    *p = number_of(&record[2], 2);
    *l = number_of(&record[4], 2);
    *number = number_of(&record[6], 4);
    *first = flag_of(record, which, 10);
    *second = flag_of(record, which, 12);
    *offset = at + header_length(which);
    return word_done();
}

/* SPEC 7.7, what is refused, in the order of SPEC 9.2. */
static enum refusal judge_laying(size_t which, size_t p, size_t l, size_t first, size_t second, size_t tile_len, size_t room_len)
{
    enum refusal refusal = judge_tile(kind_of(which), p, l, tile_len);
    if (refusal != ACCEPTED)
        return refusal;
    if (!can_carry(which, p, first) || !can_carry(which, p, second))
        return BAD_PLACE;
    return header_length(which) + tile_len > room_len ? TOO_SMALL : ACCEPTED;
}

/* SPEC 7.7, and FORMATS for the bytes. SPEC 11.2: the length is 0 where this is refused. */
uint64_t peer_lay(size_t which, size_t p, size_t l, uint32_t number, size_t first, size_t second, const uint8_t *tile, size_t tile_len,
                  uint8_t *room, size_t room_len, uint64_t *length)
{
    size_t record = which == OLD || which == FLAGGED ? which : NEW; /* SPEC 11.6 */
    enum refusal refusal = judge_laying(record, p, l, first, second, tile_len, room_len);
    *length = 0;
    if (refusal != ACCEPTED)
        return word_refused(refusal);
    lay_number(&room[0], 2, mark_of[record]);
    lay_number(&room[2], 2, p);
    lay_number(&room[4], 2, l);
    lay_number(&room[6], 4, number);
    if (record == FLAGGED) {
        lay_number(&room[10], 2, first);
        lay_number(&room[12], 2, second);
    }
    memcpy(&room[header_length(record)], tile, tile_len);
    *length = header_length(record) + tile_len;
    return word_done();
}
