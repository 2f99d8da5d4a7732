/* Records and reels to be lent: see reels.h. */

#include "reels.h"

#include "made.h"

size_t mark_of(size_t which)
{
    static const size_t marks[SORTS] = {[NEW] = NEW_MARK, [OLD] = OLD_MARK, [FLAGGED] = FLAGGED_MARK};
    return marks[which];
}

size_t header_length(size_t mark)
{
    return mark == FLAGGED_MARK ? FLAGGED_HEADER : HEADER;
}

struct header without_flags(size_t mark, size_t p, size_t l, uint32_t number)
{
    struct header header = {mark, p, l, number, NO_FLAG, NO_FLAG};
    return header;
}

struct header some_header(struct chance *chance, size_t mark, size_t p)
{
    size_t l = mark == OLD_MARK ? 2 + chance_below(chance, p - 3) : some_slope(chance, p);
    struct header header = without_flags(mark, p, l, (uint32_t)chance_below(chance, (size_t)1 << 32));
    if (mark == FLAGGED_MARK) {
        header.first = some_flag(chance, p);
        header.second = some_flag(chance, p);
    }
    return header;
}

/* A number of some bytes, the high byte first. */
static void put_number(uint8_t *bytes, size_t count, size_t number)
{
    for (size_t k = 0; k < count; k++)
        bytes[k] = (uint8_t)(number >> 8 * (count - 1 - k));
}

void put_header(uint8_t *bytes, struct header header)
{
    put_number(&bytes[0], 2, header.mark);
    put_number(&bytes[2], 2, header.p);
    put_number(&bytes[4], 2, header.l);
    put_number(&bytes[6], 4, header.number);
    if (header.mark == FLAGGED_MARK) {
        put_number(&bytes[10], 2, header.first);
        put_number(&bytes[12], 2, header.second);
    }
}

/* As often none as a line. */
size_t some_flag(struct chance *chance, size_t p)
{
    return chance_below(chance, 2) == 0 ? NO_FLAG : some_line(chance, p);
}

size_t nth_edge_flag(size_t p, size_t n)
{
    const size_t high = (size_t)1 << 32, highest = (size_t)1 << 63;
    const size_t right[RIGHT_FLAGS] = {0, 1, p - 2, 0x8000, 0x8001, 0x8000 + p - 2, 0xFFFF};
    const size_t wrong[EDGE_FLAGS - RIGHT_FLAGS] = {
        p - 1,          p,           0x100,            0x4000,           0x7FFE,   0x7FFF, /* rows */
        0x8000 + p - 1, 0x8000 + p,  0x8100,           0xC000,           0xFFFD,   0xFFFE, /* columns */
        0x10000,        0x10001,     0x18000,          0x1FFFE,          0x1FFFF, /* and what is larger */
        high,           high + 1,    high + 0x8000,    high + 0xFFFF,
        highest,        highest + 1, highest + 0x8000, highest + 0xFFFF, SIZE_MAX, SIZE_MAX - 1, SIZE_MAX - 0x7FFF,
    };
    return n < RIGHT_FLAGS ? right[n] : wrong[n - RIGHT_FLAGS];
}

size_t some_wrong_flag(struct chance *chance, size_t p, size_t count)
{
    return nth_edge_flag(p, RIGHT_FLAGS + chance_below(chance, count - RIGHT_FLAGS));
}

void add_record(struct reel *reel, struct chance *chance, struct header header)
{
    size_t begins = reel->length + header_length(header.mark), length = tile_length(header.p);
    put_header(&reel->bytes[reel->length], header);
    chance_bytes(chance, &reel->bytes[begins], length);
    reel->length = begins + length;
}

void make_reel(struct reel *reel, struct chance *chance, const size_t *sizes, size_t count)
{
    reel->length = 0;
    for (size_t k = 0; k < count; k++)
        add_record(reel, chance, some_header(chance, mark_of(chance_below(chance, SORTS)), sizes[k]));
}
