/* Sizes, slopes, lengths, lines and answers, from SPEC 2, 3, 9 and 11: see peer_rules.h. */

#include "peer_rules.h"

#include "peer.h"

/* SPEC 2.1: between 5 and 257, and nothing divides it. */
int is_size(size_t p)
{
    if (p < 5 || p > LARGEST_SIZE)
        return 0;
    for (size_t divisor = 2; divisor < p; divisor++)
        if (p % divisor == 0)
            return 0;
    return 1;
}

/* SPEC 2.2, what every slope is, allowed or not. */
static int is_slope(size_t p, size_t l)
{
    return l >= 2 && l <= p - 2;
}

/* SPEC 2.2: the p-1 powers from l^0 on are marked by their remainders, and none from 1 to p-1 is missing. */
int allows(size_t p, size_t l)
{
    if (!is_slope(p, l))
        return 0;
    uint8_t reached[LARGEST_SIZE] = {0};
    size_t power = 1;
    for (size_t count = 0; count < p - 1; count++) {
        reached[power] = 1;
        power = power * l % p;
    }
    for (size_t remainder = 1; remainder < p; remainder++)
        if (!reached[remainder])
            return 0;
    return 1;
}

/* SPEC 3.1. */
size_t tile_length(size_t p)
{
    return (p - 1) * (p - 1);
}

/* SPEC 3.2. */
size_t text_length(size_t p)
{
    return (p - 1) * (p - 3);
}

/* SPEC 3.4 and 3.5: the rows are 0 to p-2, and so are the columns, which are named from 8000 hex on. */
int has_line(size_t p, size_t name)
{
    return (name < 0x8000 ? name : name - 0x8000) <= p - 2;
}

/* SPEC 2.4, with 2.5 for what each kind takes. */
enum refusal judge_slope(size_t kind, size_t p, size_t l)
{
    if (!is_size(p))
        return BAD_SIZE;
    if (kind == OLD ? !is_slope(p, l) : !allows(p, l))
        return BAD_SLOPE;
    return ACCEPTED;
}

/* SPEC 9.2, of a tile's length (SPEC 3.1). */
enum refusal judge_tile(size_t kind, size_t p, size_t l, size_t tile_len)
{
    enum refusal refusal = judge_slope(kind, p, l);
    if (refusal == ACCEPTED && tile_len != tile_length(p))
        return BAD_LENGTH;
    return refusal;
}

/* SPEC 11.1, here and down to the end's word. */
static uint64_t word(uint64_t kind, uint64_t first, uint64_t second)
{
    return (kind << 32) + (first << 16) + second;
}

uint64_t word_done(void)
{
    return word(0, 0, 0);
}

uint64_t word_slope(size_t slope)
{
    return word(0, slope, 0);
}

uint64_t word_column(size_t column)
{
    return word(1, column, 0);
}

uint64_t word_row(size_t row)
{
    return word(2, row, 0);
}

uint64_t word_cell(size_t row, size_t column)
{
    return word(3, row, column);
}

uint64_t word_refused(enum refusal refusal)
{
    return word(4, refusal, 0);
}

uint64_t word_end(void)
{
    return word(7, 0, 0);
}

/* SPEC 2.3 and 2.4: the least slope that is allowed, found by trying. Each size has one, as the table of SPEC 2.3 shows. */
uint64_t peer_house_slope(size_t p)
{
    if (!is_size(p))
        return word_refused(BAD_SIZE);
    size_t slope = 2;
    while (!allows(p, slope))
        slope++;
    return word_slope(slope);
}

/* SPEC 2.4. */
uint64_t peer_takes(size_t kind, size_t p, size_t l)
{
    enum refusal refusal = judge_slope(kind, p, l);
    return refusal == ACCEPTED ? word_done() : word_refused(refusal);
}
