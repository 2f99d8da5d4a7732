/* The jobs of ISA-L: two check columns written, and two lost columns filled, with the matrix inverted in the call or before it. */

#include <string.h>

#include <isa-l/erasure_code.h>

#include "job.h"
#include "material.h"
#include "stripe.h"

/* ISA-L makes a table of 32 bytes of each factor. */
enum { TABLE = 32 };

struct given {
    struct stripe *stripe;
    int all;                                /* columns, the checks among them */
    uint8_t *matrix;                        /* the factors of all columns */
    uint8_t *encode_tables;                 /* of the check columns */
    uint8_t *kept_column[MOST_COLUMNS];     /* the columns from which lost ones are filled */
    uint8_t *kept_matrix, *spare, *inverse; /* the factors of those, room to work in, and what undoes them */
    uint8_t *lost_factors;                  /* the rows of the inverse for the lost columns */
    uint8_t *decode_tables;                 /* of those rows */
};

static void encode(const struct given *given, uint8_t *tables, uint8_t **from, uint8_t *pair)
{
    uint8_t *to[CHECKS] = { pair, pair + given->stripe->stride };

    ec_encode_data(given->stripe->length, given->stripe->columns, CHECKS, tables, from, to);
}

static uint64_t call_encode(const struct job *job, uint8_t *copy)
{
    const struct given *given = job->given;

    encode(given, given->encode_tables, given->stripe->column, copy);
    return 0;
}

/* The inverting destroys what it inverts, so it is given a copy. */
static int make_decode_tables(const struct given *given)
{
    size_t k = (size_t)given->stripe->columns;
    int failed;

    memcpy(given->spare, given->kept_matrix, k * k);
    failed = gf_invert_matrix(given->spare, given->inverse, (int)k);
    for (int c = 0; c < CHECKS; c++)
        memcpy(given->lost_factors + (size_t)c * k, given->inverse + (size_t)given->stripe->lost[c] * k, k);
    ec_init_tables((int)k, CHECKS, given->lost_factors, given->decode_tables);
    return failed;
}

static uint64_t call_decode(const struct job *job, uint8_t *copy)
{
    const struct given *given = job->given;

    encode(given, given->decode_tables, (uint8_t **)given->kept_column, copy);
    return 0;
}

static uint64_t call_invert_and_decode(const struct job *job, uint8_t *copy)
{
    int failed = make_decode_tables(job->given);

    return call_decode(job, copy) | (uint64_t)failed;
}

static bool is_lost(const struct stripe *stripe, int column)
{
    return column == stripe->lost[0] || column == stripe->lost[1];
}

static void keep_columns(struct given *given)
{
    size_t k = (size_t)given->stripe->columns, kept = 0;

    for (int j = 0; j < given->all; j++)
        if (!is_lost(given->stripe, j)) {
            given->kept_column[kept] = given->stripe->column[j];
            memcpy(given->kept_matrix + kept * k, given->matrix + (size_t)j * k, k);
            kept++;
        }
}

static struct given *new_given(size_t p)
{
    struct given *given = new_memory(sizeof *given);
    size_t k = p - 3;

    given->all = (int)k + CHECKS;
    given->matrix = new_memory((k + CHECKS) * k);
    gf_gen_cauchy1_matrix(given->matrix, given->all, (int)k);
    given->stripe = new_stripe(p, given->matrix + k * k);
    given->encode_tables = new_memory(TABLE * CHECKS * k);
    ec_init_tables((int)k, CHECKS, given->matrix + k * k, given->encode_tables);
    given->kept_matrix = new_memory(k * k);
    given->spare = new_memory(k * k);
    given->inverse = new_memory(k * k);
    given->lost_factors = new_memory(CHECKS * k);
    given->decode_tables = new_memory(TABLE * CHECKS * k);
    keep_columns(given);
    return given;
}

bool prepare_isal(const char *name, size_t p, struct job *job)
{
    struct given *given = new_given(p);

    if (strcmp(name, "encode") == 0) {
        stripe_encode_job(job, p, given->stripe, given);
        job->call = call_encode;
    } else if (strcmp(name, "decode") == 0) {
        stripe_decode_job(job, p, given->stripe, given);
        job->call = call_decode;
        make_decode_tables(given);
    } else if (strcmp(name, "invert-and-decode") == 0) {
        stripe_decode_job(job, p, given->stripe, given);
        job->call = call_invert_and_decode;
    } else {
        return false;
    }
    return true;
}
