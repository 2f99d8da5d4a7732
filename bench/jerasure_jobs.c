/* The jobs of Jerasure: two check columns written, and two lost columns filled. */

#include <string.h>

#include <jerasure.h>
#include <jerasure/reed_sol.h>

#include "job.h"
#include "material.h"
#include "stripe.h"

/* A symbol is a byte: 256 columns, the most that a stripe has, are just what bytes can tell apart. The first check column is the plain XOR. */
enum { SYMBOL_BITS = 8, FIRST_CHECK_IS_XOR = 1 };

struct given {
    struct stripe *stripe;
    int length;     /* bytes of a column: a multiple of a long's, as Jerasure asks for */
    int *matrix;    /* the factors of the check columns */
    int *lost;      /* the lost columns, ended by -1 */
    char **columns; /* the text's, then the checks; a lost one is the copy's */
};

static uint64_t call_encode(const struct job *job, uint8_t *copy)
{
    const struct given *given = job->given;
    char *checks[CHECKS] = { (char *)copy, (char *)copy + given->stripe->stride };

    jerasure_matrix_encode(given->stripe->columns, CHECKS, SYMBOL_BITS, given->matrix, given->columns, checks, given->length);
    return 0;
}

/* Jerasure inverts its matrix in the call. */
static uint64_t call_decode(const struct job *job, uint8_t *copy)
{
    const struct given *given = job->given;
    int k = given->stripe->columns;

    for (int c = 0; c < CHECKS; c++)
        given->columns[given->lost[c]] = (char *)copy + (size_t)c * given->stripe->stride;
    return (uint64_t)jerasure_matrix_decode(k, CHECKS, SYMBOL_BITS, given->matrix, FIRST_CHECK_IS_XOR, given->lost,
                                            given->columns, given->columns + k, given->length);
}

static struct given *new_given(size_t p)
{
    struct given *given = new_memory(sizeof *given);
    size_t k = p - 3;
    uint8_t *factors = new_memory(CHECKS * k);

    given->matrix = reed_sol_vandermonde_coding_matrix((int)k, CHECKS, SYMBOL_BITS);
    for (size_t i = 0; i < CHECKS * k; i++)
        factors[i] = (uint8_t)given->matrix[i];
    given->stripe = new_stripe(p, factors);
    given->length = (int)((p - 1 + sizeof(long) - 1) / sizeof(long) * sizeof(long));
    given->columns = new_memory((k + CHECKS) * sizeof *given->columns);
    for (size_t j = 0; j < k + CHECKS; j++)
        given->columns[j] = (char *)given->stripe->column[j];
    given->lost = new_memory((CHECKS + 1) * sizeof *given->lost);
    memcpy(given->lost, given->stripe->lost, CHECKS * sizeof *given->lost);
    given->lost[CHECKS] = -1;
    return given;
}

bool prepare_jerasure(const char *name, size_t p, struct job *job)
{
    struct given *given = new_given(p);

    if (strcmp(name, "encode") == 0) {
        stripe_encode_job(job, p, given->stripe, given);
        job->call = call_encode;
    } else if (strcmp(name, "invert-and-decode") == 0) {
        stripe_decode_job(job, p, given->stripe, given);
        job->call = call_decode;
    } else {
        return false;
    }
    return true;
}
