/* What a reader does with flags (SPEC 7.6), by the calls: along reels of all sizes, a tile that has lost the lines that its flags tell is
 * filled, and is the printed one again; a tile without flags is repaired. */

#include <stddef.h>
#include <stdint.h>
#include <string.h>

#include "cases.h"
#include "differences.h"
#include "made.h"
#include "recovered.h"
#include "walked.h"

static struct chance chance;

/* A reel as it was printed, and as it was scanned: the tiles on the first are good, and those on the other begin at the same places. */
static struct reel printed, scanned;

/* Prints a record at the end of both reels, and gives the place of its tile. */
static size_t print(struct header header)
{
    size_t begins = printed.length + header_length(header.mark);
    put_header(&printed.bytes[printed.length], header);
    make_tile(&chance, header.p, header.l, &printed.bytes[begins]);
    memcpy(&scanned.bytes[printed.length], &printed.bytes[printed.length], begins + tile_length(header.p) - printed.length);
    printed.length = scanned.length = begins + tile_length(header.p);
    return begins;
}

/* A scanned tile loses a line: any bytes stand there. */
static void lose(size_t begins, size_t p, size_t line)
{
    hurt_line(&chance, p, &scanned.bytes[begins], line, HURT_ANY);
}

/* Prints a flagged record, which loses the lines that its flags tell. */
static void print_and_lose(size_t p, size_t l, size_t first, size_t second)
{
    struct header header = {FLAGGED_MARK, p, l, 1, first, second};
    size_t begins = print(header);
    if (first != NO_FLAG)
        lose(begins, p, first);
    if (second != NO_FLAG)
        lose(begins, p, second);
}

/* What has to come of a tile that was found. With a flag it is filled, and it is the printed one again. Without, a single line was hurt, if
 * any, and what repair has to answer is known; only where it is doubtful, the tile stays. */
static void hold_restored(const struct found *found, size_t hurt)
{
    static uint8_t tile[LARGEST_TILE];
    const uint8_t *good = &printed.bytes[found->offset], *scan = &scanned.bytes[found->offset];
    int is_filled = found->first != NO_FLAG || found->second != NO_FLAG;
    uint64_t known = is_filled ? word_done() : known_of_line(found->p, found->l, hurt, good, scan);
    memcpy(tile, scan, tile_length(found->p));
    uint64_t said = restore(found, tile);
    hold(said == known && memcmp(tile, known == word_refused(DOUBTFUL) ? scan : good, tile_length(found->p)) == 0,
         "p %zu, l %zu, flags %zx and %zx hex: the tile is not restored, word %llx", (size_t)found->p, (size_t)found->l,
         (size_t)found->first, (size_t)found->second, (unsigned long long)said);
}

/* Walks along the scanned reel and restores each tile. Those without flags were hurt in this line alone, or not at all. */
static void restore_all(size_t hurt)
{
    struct found found;
    size_t at = 0;
    while (ask_next(scanned.bytes, scanned.length, at, &found) == word_done()) {
        hold_restored(&found, hurt);
        at = found.offset + tile_length(found.p);
    }
    hold(at == printed.length, "the walk ends at %zu of %zu bytes", at, printed.length);
}

/* The n-th of what a flag may be: a line, or after them all none. */
static size_t nth_flag(size_t p, size_t n)
{
    return n < 2 * (p - 1) ? nth_line(p, n) : NO_FLAG;
}

static size_t count_flags(size_t p)
{
    return 2 * (p - 1) + 1;
}

/* A reel of records with every two flags. */
static void every_two_flags(size_t kind, size_t p, size_t l)
{
    size_t count = count_flags(p);
    (void)kind;
    printed.length = scanned.length = 0;
    for (size_t k = 0; k < count * count; k++)
        print_and_lose(p, l, nth_flag(p, k / count), nth_flag(p, k % count));
    restore_all(row_name(0));
}

/* The same, but nothing is lost: a good tile stays what it is. */
static void every_two_flags_and_no_loss(size_t kind, size_t p, size_t l)
{
    size_t count = count_flags(p);
    (void)kind;
    printed.length = scanned.length = 0;
    for (size_t k = 0; k < count * count; k++)
        print((struct header){FLAGGED_MARK, p, l, 1, nth_flag(p, k / count), nth_flag(p, k % count)});
    restore_all(row_name(0));
}

/* Any two flags: two lines of a kind of pair, or after these a lone one, in either place. */
enum { KINDS_OF_FLAGS = PAIR_KINDS + 2 };

static struct pair some_flags(size_t p, size_t n)
{
    size_t line = some_line(&chance, p);
    const struct pair lone[] = {{line, NO_FLAG}, {NO_FLAG, line}};
    return n < PAIR_KINDS ? some_pair(&chance, p, n) : lone[n - PAIR_KINDS];
}

/* A tile without flags, in a record of each sort in turn, which is hurt in a line; and one behind it that has lost what its flags tell. */
static void flags_of_each_kind(size_t p)
{
    for (size_t n = 0; n < KINDS_OF_FLAGS; n++) {
        struct pair flags = some_flags(p, n);
        size_t hurt = some_line(&chance, p), l = some_slope(&chance, p);
        printed.length = scanned.length = 0;
        lose(print(without_flags(mark_of(n % SORTS), p, l, 7)), p, hurt);
        print_and_lose(p, l, flags.first, flags.second);
        restore_all(hurt);
    }
}

/* A new tile with flags between two old ones, whose slope it could not have. */
static void between_old_tiles(size_t kind, size_t p, size_t l)
{
    size_t hurt = some_line(&chance, p), row = some_row(&chance, p), column = some_column(&chance, p);
    (void)kind;
    printed.length = scanned.length = 0;
    lose(print(without_flags(OLD_MARK, p, l, 1)), p, hurt);
    print_and_lose(p, house_slope(p), row, column);
    lose(print(without_flags(OLD_MARK, p, l, 3)), p, hurt);
    restore_all(hurt);
}

/* A lone flag tells of a line, and a byte elsewhere is hurt too: no good tile agrees with this one outside the line, and it stays. */
static void more_than_is_told(size_t p, size_t l, size_t line, struct pair flags)
{
    static uint8_t tile[LARGEST_TILE];
    struct header header = {FLAGGED_MARK, p, l, 1, flags.first, flags.second};
    struct found found;
    size_t place;
    printed.length = scanned.length = 0;
    uint8_t *scan = &scanned.bytes[print(header)];
    hurt_line(&chance, p, scan, line, HURT_ANY);
    do
        place = chance_below(&chance, tile_length(p));
    while (is_on(p, line, place));
    scan[place] ^= chance_change(&chance);
    memcpy(tile, scan, tile_length(p));
    ask_next(scanned.bytes, scanned.length, 0, &found);
    uint64_t said = restore(&found, tile);
    hold(said == word_refused(DAMAGED) && memcmp(tile, scan, tile_length(p)) == 0,
         "p %zu, l %zu, line %zx hex: the peer fills it, though a byte elsewhere is hurt, word %llx", p, l, line, (unsigned long long)said);
}

/* Every line, told by the first flag and by the second. */
static void more_than_each_flag_tells(size_t kind, size_t p, size_t l)
{
    (void)kind;
    for (size_t n = 0; n < 2 * (p - 1); n++) {
        size_t line = nth_line(p, n);
        more_than_is_told(p, l, line, (struct pair){line, NO_FLAG});
        more_than_is_told(p, l, line, (struct pair){NO_FLAG, line});
    }
}

void cases_restore(void)
{
    chance = chance_from(14);
    for_small_sizes(7, every_two_flags);
    for_small_sizes(7, every_two_flags_and_no_loss);
    for (size_t p = size_above(0); p != 0; p = size_above(p))
        flags_of_each_kind(p);
    for_small_old_sizes(17, between_old_tiles);
    for_small_sizes(13, more_than_each_flag_tells);
}
