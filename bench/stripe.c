/* Stripes for the peers that know columns only. */

#include "stripe.h"

#include "material.h"

/* The product of two bytes in the field that both libraries use by default: polynomials modulo x^8 + x^4 + x^3 + x^2 + 1. */
static uint8_t times(uint8_t a, uint8_t b)
{
    uint8_t product = 0;

    for (; b != 0; b >>= 1) {
        if (b & 1)
            product ^= a;
        a = (uint8_t)(a << 1 ^ (a & 0x80 ? 0x1d : 0));
    }
    return product;
}

static uint8_t *new_pair(const struct stripe *stripe) { return new_memory(CHECKS * stripe->stride); }

/* Each column stands in memory that begins at a multiple of 64, which is the best that can be done for a vector. */
static void put_text(struct stripe *stripe, size_t p)
{
    const uint8_t *text = new_text(p);

    for (int j = 0; j < stripe->columns; j++) {
        stripe->column[j] = new_memory(stripe->stride);
        for (int i = 0; i < stripe->length; i++)
            stripe->column[j][i] = text[i * stripe->columns + j];
    }
}

static void put_checks(struct stripe *stripe, const uint8_t *factors)
{
    stripe->checks = new_pair(stripe);
    for (int c = 0; c < CHECKS; c++) {
        uint8_t *check = stripe->checks + (size_t)c * stripe->stride;

        stripe->column[stripe->columns + c] = check;
        for (int j = 0; j < stripe->columns; j++)
            for (int i = 0; i < stripe->length; i++)
                check[i] ^= times(factors[c * stripe->columns + j], stripe->column[j][i]);
    }
}

static void lose_columns(struct stripe *stripe, size_t p)
{
    stripe->found = new_pair(stripe);
    for (int c = 0; c < CHECKS; c++) {
        stripe->lost[c] = (int)((size_t)(c + 1) * p / 3);
        for (int i = 0; i < stripe->length; i++)
            stripe->found[(size_t)c * stripe->stride + (size_t)i] = stripe->column[stripe->lost[c]][i];
    }
}

struct stripe *new_stripe(size_t p, const uint8_t *factors)
{
    struct stripe *stripe = new_memory(sizeof *stripe);

    stripe->columns = (int)p - 3;
    stripe->length = (int)p - 1;
    stripe->stride = rounded_up(p - 1);
    put_text(stripe, p);
    put_checks(stripe, factors);
    lose_columns(stripe, p);
    return stripe;
}

static void stripe_job(struct job *job, size_t p, const struct stripe *stripe, const void *given, const uint8_t *after)
{
    job->given = given;
    job->p = p;
    job->length = CHECKS * stripe->stride;
    job->before = new_pair(stripe);
    job->after = after;
    job->answer = 0;
}

void stripe_encode_job(struct job *job, size_t p, const struct stripe *stripe, const void *given)
{
    stripe_job(job, p, stripe, given, stripe->checks);
}

void stripe_decode_job(struct job *job, size_t p, const struct stripe *stripe, const void *given)
{
    stripe_job(job, p, stripe, given, stripe->found);
}
