/* Inspect and recover (SPEC 5.6 and 5.7), by what they are told: sizes, slopes, kinds and lengths on both sides of their edges and at the
 * largest numbers, with scans of every state. Every set of the faults that a call can have shows the order of the refusals (SPEC 9.2). A
 * refused call has to leave the text. A length is always that of bytes that are really there. */

#include <stddef.h>
#include <stdint.h>
#include <string.h>

#include "cases.h"
#include "doubt.h"
#include "made.h"
#include "recovered.h"

static struct chance chance;

/* The tile that was printed, and the scan of it. */
static uint8_t good[LARGEST_TILE], scan[LONGEST];

/* What is wrong with the scan: nothing, a lone byte, a line, more than a line, so that it is refused with 5, or half a cross, so that it is
 * refused with 8. This last is for slopes that old tiles alone take. */
enum state { CLEAN, LONE_BYTE, HURT_LINE, MORE_THAN_A_LINE, HALF_A_CROSS, STATES };

static size_t states_of(size_t kind)
{
    return kind == OLD ? STATES : HALF_A_CROSS;
}

/* Two bytes of a diagonal are changed alike: see cases_recover.c. */
static void hurt_a_diagonal(size_t p)
{
    size_t place = chance_below(&chance, tile_length(p));
    uint8_t change = chance_change(&chance);
    scan[place] ^= change;
    scan[other_on_diagonal(&chance, p, 1, place)] ^= change;
}

static void hurt_by_half_a_cross(size_t p, size_t l)
{
    static uint8_t cross[LARGEST_TILE];
    size_t row = chance_below(&chance, p - 1), column = chance_below(&chance, p - 1);
    size_t line = chance_below(&chance, 2) == 0 ? row_name(row) : column_name(column);
    make_cross(&chance, p, l, row, column, cross);
    for (size_t n = 0; n < p - 1; n++)
        scan[place_on_line(p, line, n)] ^= cross[place_on_line(p, line, n)];
}

/* Makes a scan of the good tile, and gives what has to be answered where nothing that is told is wrong. */
static uint64_t make_state(size_t p, size_t l, enum state state)
{
    size_t line = some_line(&chance, p);
    memcpy(scan, good, tile_length(p));
    if (state == MORE_THAN_A_LINE) {
        hurt_a_diagonal(p);
        return word_refused(DAMAGED);
    }
    if (state == HALF_A_CROSS) {
        hurt_by_half_a_cross(p, l);
        return word_refused(DOUBTFUL);
    }
    if (state != CLEAN)
        hurt_line(&chance, p, scan, line, state == LONE_BYTE ? HURT_ONE : HURT_ANY);
    return known_of_line(p, l, line, good, scan);
}

/* Both calls have to refuse what they are told. */
static void refuse(struct asked asked, enum refusal refusal, const char *what)
{
    inspect(asked, scan, word_refused(refusal), what);
    recover(asked, scan, word_refused(refusal), good, what);
}

/* The n-th length that no scan of size p has, and no text: nothing, one byte, one row, the other one's length, one byte less and one more,
 * one row or one column more, and twice as much. */
enum { WRONG_LENGTHS = 8 };

static size_t wrong_scan_length(size_t p, size_t n)
{
    const size_t right = tile_length(p), lengths[WRONG_LENGTHS] = {0, 1, p - 1, text_length(p), right - 1, right + 1, p * p, 2 * right};
    return lengths[n];
}

static size_t wrong_text_length(size_t p, size_t n)
{
    const size_t right = text_length(p);
    const size_t lengths[WRONG_LENGTHS] = {0, 1, p - 3, tile_length(p), right - 1, right + 1, right + p - 1, 2 * right};
    return lengths[n];
}

/* Each length with each, from nothing to one byte too much: 3 unless both are right, whatever the scan is. Inspect looks at one alone. */
static void each_length_with_each(size_t kind, size_t p, size_t l)
{
    make_tile(&chance, p, l, good);
    for (size_t state = 0; state < states_of(kind); state++) {
        uint64_t known = make_state(p, l, (enum state)state);
        struct asked asked = asked_of(kind, p, l);
        for (asked.scan_len = 0; asked.scan_len <= tile_length(p) + 1; asked.scan_len++) {
            uint64_t of_scan = asked.scan_len == tile_length(p) ? known : word_refused(BAD_LENGTH);
            inspect(asked, scan, of_scan, "a length");
            for (asked.text_len = 0; asked.text_len <= text_length(p) + 1; asked.text_len++)
                recover(asked, scan, asked.text_len == text_length(p) ? of_scan : word_refused(BAD_LENGTH), good, "two lengths");
        }
    }
}

/* A wrong length of the scan, of the text, and of both; among these each has the length of the other. */
static void wrong_length_of_each(size_t kind, size_t p, size_t l, size_t n)
{
    struct asked of_scan = asked_of(kind, p, l), of_text = of_scan, of_both = of_scan;
    of_scan.scan_len = of_both.scan_len = wrong_scan_length(p, n);
    of_text.text_len = of_both.text_len = wrong_text_length(p, n);
    refuse(of_scan, BAD_LENGTH, "the scan has a wrong length");
    recover(of_text, scan, word_refused(BAD_LENGTH), good, "the text has a wrong length");
    recover(of_both, scan, word_refused(BAD_LENGTH), good, "the scan and the text have a wrong length");
}

/* With scans of every state: 3 before 5 and 8. */
static void wrong_lengths(size_t kind, size_t p, size_t l)
{
    make_tile(&chance, p, l, good);
    for (size_t state = 0; state < states_of(kind); state++) {
        make_state(p, l, (enum state)state);
        for (size_t n = 0; n < WRONG_LENGTHS; n++)
            wrong_length_of_each(kind, p, l, n);
    }
}

/* The same with one state for each length. */
static void some_wrong_lengths(size_t kind, size_t p, size_t l)
{
    make_tile(&chance, p, l, good);
    for (size_t n = 0; n < WRONG_LENGTHS; n++) {
        make_state(p, l, (enum state)(n % states_of(kind)));
        wrong_length_of_each(kind, p, l, n);
    }
}

/* Slopes of neither kind, with scans of tiles that are good at another one; and 2 before 3. */
static void wrong_slopes(size_t kind, size_t p, size_t l)
{
    make_tile(&chance, p, l, good);
    for (size_t n = 0; n < WRONG_SLOPES; n++) {
        struct asked asked = asked_of(kind, p, nth_wrong_slope(p, l, n));
        make_state(p, l, (enum state)(n % states_of(kind)));
        refuse(asked, BAD_SLOPE, "a wrong slope");
        asked.text_len = wrong_text_length(p, n % WRONG_LENGTHS);
        recover(asked, scan, word_refused(BAD_SLOPE), good, "a wrong slope, and a wrong length of the text");
        asked.scan_len = wrong_scan_length(p, n % WRONG_LENGTHS);
        refuse(asked, BAD_SLOPE, "a wrong slope and wrong lengths");
    }
}

/* Slopes that old tiles alone take, told as those of a new tile, or of a number that names no kind (SPEC 11.5): 2, in every state. */
static void old_slopes(size_t kind, size_t p, size_t l)
{
    const size_t kinds[] = {NEW, 2, ((size_t)1 << 32) + OLD};
    make_tile(&chance, p, l, good);
    for (size_t state = 0; state < states_of(kind); state++) {
        for (size_t k = 0; k < sizeof kinds / sizeof kinds[0]; k++) {
            struct asked asked = asked_of(kinds[k], p, l);
            make_state(p, l, (enum state)state);
            refuse(asked, BAD_SLOPE, "an old slope");
            asked.text_len = wrong_text_length(p, state);
            asked.scan_len = wrong_scan_length(p, k);
            refuse(asked, BAD_SLOPE, "an old slope and wrong lengths");
        }
    }
}

/* Numbers that are no size, with all else right for one; and 1 before 2 and 3. */
static void wrong_sizes(size_t kind, size_t p, size_t l)
{
    make_tile(&chance, p, l, good);
    for (size_t n = 0; n < WRONG_SIZES; n++) {
        struct asked asked = asked_of(kind, p, l);
        make_state(p, l, (enum state)(n % states_of(kind)));
        asked.p = nth_wrong_size(p, n);
        refuse(asked, BAD_SIZE, "a wrong size");
        asked.l = nth_wrong_slope(p, l, n % WRONG_SLOPES);
        refuse(asked, BAD_SIZE, "a wrong size and a wrong slope");
        asked.scan_len = wrong_scan_length(p, n % WRONG_LENGTHS);
        asked.text_len = wrong_text_length(p, n % WRONG_LENGTHS);
        refuse(asked, BAD_SIZE, "a wrong size, a wrong slope and wrong lengths");
    }
}

/* The faults that can be put in, one by one or together, beside those of the scan itself. */
enum fault { WRONG_SIZE = 1, WRONG_SLOPE = 2, WRONG_SCAN = 4, WRONG_TEXT = 8, ALL_FAULTS = 15 };

/* SPEC 9.2: which of them is told; or what is known of the scan, where there is none. */
static uint64_t told_first(unsigned faults, uint64_t known)
{
    if (faults & WRONG_SIZE)
        return word_refused(BAD_SIZE);
    if (faults & WRONG_SLOPE)
        return word_refused(BAD_SLOPE);
    return faults & (WRONG_SCAN | WRONG_TEXT) ? word_refused(BAD_LENGTH) : known;
}

/* The wrong size is last, since the others lie beside what is right for the size. */
static void put_faults(struct asked *asked, unsigned faults)
{
    if (faults & WRONG_SLOPE)
        asked->l = nth_wrong_slope(asked->p, asked->l, chance_below(&chance, WRONG_SLOPES));
    if (faults & WRONG_SCAN)
        asked->scan_len = wrong_scan_length(asked->p, chance_below(&chance, WRONG_LENGTHS));
    if (faults & WRONG_TEXT)
        asked->text_len = wrong_text_length(asked->p, chance_below(&chance, WRONG_LENGTHS));
    if (faults & WRONG_SIZE)
        asked->p = nth_wrong_size(asked->p, chance_below(&chance, WRONG_SIZES));
}

/* That the text has a wrong length is no fault to inspect. */
static void look_with_faults(size_t kind, size_t p, size_t l, unsigned faults, enum state state)
{
    uint64_t known = make_state(p, l, state);
    struct asked asked = asked_of(kind, p, l);
    put_faults(&asked, faults);
    inspect(asked, scan, told_first(faults & ~(unsigned)WRONG_TEXT, known), "a set of faults");
    recover(asked, scan, told_first(faults, known), good, "a set of faults");
}

static void every_set_of_faults(size_t kind, size_t p, size_t l)
{
    make_tile(&chance, p, l, good);
    for (unsigned faults = 0; faults <= ALL_FAULTS; faults++)
        for (size_t state = 0; state < states_of(kind); state++)
            look_with_faults(kind, p, l, faults, (enum state)state);
}

/* Every set with one state: where all of them would take too long. */
static void every_set_with_a_state(size_t kind, size_t p, size_t l)
{
    make_tile(&chance, p, l, good);
    for (unsigned faults = 0; faults <= ALL_FAULTS; faults++)
        look_with_faults(kind, p, l, faults, (enum state)(faults % states_of(kind)));
}

void cases_recover_faults(void)
{
    chance = chance_from(12);
    chance_bytes(&chance, scan, LONGEST);
    for_small_sizes(5, each_length_with_each);
    for_small_sizes(11, wrong_lengths);
    for_small_sizes(11, wrong_slopes);
    for_small_sizes(7, wrong_sizes);
    for_small_sizes(13, every_set_of_faults);
    for_small_old_sizes(11, wrong_lengths);
    for_small_old_sizes(7, wrong_slopes);
    for_small_old_sizes(17, old_slopes);
    for_small_old_sizes(7, wrong_sizes);
    for_small_old_sizes(13, every_set_of_faults);
    for (size_t p = size_above(0); p != 0; p = size_above(p))
        some_wrong_lengths(NEW, p, house_slope(p));
    every_set_with_a_state(NEW, LARGEST_SIZE, house_slope(LARGEST_SIZE));
    every_set_with_a_state(OLD, LARGEST_SIZE, some_old_slope(&chance, LARGEST_SIZE));
}
