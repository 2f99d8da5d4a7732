/* Reels that are asked: see walked.h. */

#include "walked.h"

#include <string.h>

#include "differences.h"
#include "made.h"

void ask_each_place(const uint8_t *reel, size_t length)
{
    struct found found;
    for (size_t at = 0; at <= length + 3; at++)
        ask_next(reel, length, at, &found);
}

/* With the header's length added, the largest are small again. */
void ask_far_places(const uint8_t *reel, size_t length)
{
    struct found found;
    for (size_t k = 0; k < FAR_NUMBERS; k++)
        ask_next(reel, length, far_numbers[k], &found);
    for (size_t below = 0; below <= 2 * FLAGGED_HEADER + 16; below++)
        ask_next(reel, length, SIZE_MAX - below, &found);
}

size_t walk(const uint8_t *reel, size_t length)
{
    struct found found;
    size_t at = 0;
    while (ask_next(reel, length, at, &found) == word_done())
        at = found.offset + tile_length(found.p);
    return at;
}

size_t walk_both_ways(const uint8_t *reel, size_t length)
{
    struct found found;
    size_t at = 0, ended = walk(reel, length);
    while (at <= length && ask_next(&reel[at], length - at, 0, &found) == word_done())
        at += found.offset + tile_length(found.p);
    hold(at == ended, "of %zu bytes a walk by the rest ends at %zu, and the other at %zu", length, at, ended);
    return ended;
}

void look_up(const uint8_t *reel, size_t length, size_t at, struct header header, enum refusal known, const char *what)
{
    struct found found, tile = {header.mark == OLD_MARK, header.number, header.p,    header.l,
                                NO_FLAG,                 NO_FLAG,       at + header_length(header.mark)};
    const struct found none = {0, 0, 0, 0, NO_FLAG, NO_FLAG, at};
    if (header.mark == FLAGGED_MARK) {
        tile.first = header.first;
        tile.second = header.second;
    }
    uint64_t said = ask_next(reel, length, at, &found);
    hold(said == (known == ACCEPTED ? word_done() : word_refused(known)) &&
             memcmp(&found, known == ACCEPTED ? &tile : &none, sizeof found) == 0,
         "mark %zx, p %zu, l %zu, flags %zx and %zx hex, at %zu of %zu bytes: %s, which is not answered by %d, word %llx", header.mark,
         header.p, header.l, header.first, header.second, at, length, what, (int)known, (unsigned long long)said);
}

uint64_t restore(const struct found *found, uint8_t *tile)
{
    size_t first = found->first == NO_FLAG ? found->second : found->first, second = found->second == NO_FLAG ? first : found->second;
    if (first == NO_FLAG)
        return ask_repair(found->kind, found->p, found->l, tile, tile_length(found->p));
    return ask_fill(found->kind, found->p, found->l, tile, tile_length(found->p), first, second);
}
