/* What the tile calls are held beside: reading each byte of a tile once, copying it, and doing nothing. */

#include <string.h>

#include "counterfrost.h"
#include "job.h"
#include "material.h"

/* One XOR for each byte, in the plainest loop; the compiler is asked to make wide steps of it, as it does at -O3. */
__attribute__((optimize("O3"))) static uint64_t call_xor(const struct job *job, uint8_t *copy)
{
    uint8_t sum = 0;

    for (size_t i = 0; i < job->length; i++)
        sum ^= copy[i];
    return sum;
}

static uint64_t call_memcpy(const struct job *job, uint8_t *copy)
{
    memcpy(copy, job->given, job->length);
    return 0;
}

/* What the loop around a call costs is measured by this. */
static uint64_t call_nothing(const struct job *job, uint8_t *copy)
{
    (void)job;
    (void)copy;
    return 0;
}

/* The XOR of all bytes, taken column by column, so that it is not the measured loop that says what it must answer. */
static uint8_t sum_by_columns(const uint8_t *tile, size_t p)
{
    uint8_t sum = 0;

    for (size_t column = 0; column < p - 1; column++)
        for (size_t row = 0; row < p - 1; row++)
            sum ^= tile[row * (p - 1) + column];
    return sum;
}

bool prepare_plain(const char *name, size_t p, struct job *job)
{
    uint8_t *tile = new_tile(p, new_text(p));

    *job = (struct job){ .given = tile, .p = p, .length = cf_tile_len(p), .before = tile, .after = tile };
    if (strcmp(name, "xor") == 0) {
        job->call = call_xor;
        job->answer = sum_by_columns(tile, p);
    } else if (strcmp(name, "memcpy") == 0) {
        job->call = call_memcpy;
        job->before = new_waste(cf_tile_len(p));
    } else if (strcmp(name, "nothing") == 0) {
        job->call = call_nothing;
    } else {
        return false;
    }
    return true;
}
