/* The ring of copies, the calls, the checks and the clock. */

#define _POSIX_C_SOURCE 200112L

#include "measure.h"

#include <string.h>
#include <time.h>

#include "counterfrost.h"
#include "material.h"

/* How many bytes a ring of tiles has: few enough that the tiles come from a cache and not from memory. */
enum { RING_BYTES = 1 << 18 };

struct ring {
    size_t copies;
    size_t stride;
    uint8_t *bytes;
    uint64_t *answers;
};

static uint8_t *copy_at(const struct ring *ring, size_t i) { return ring->bytes + i * ring->stride; }

static struct ring new_ring(const struct job *job)
{
    size_t copies = RING_BYTES / cf_tile_len(job->p);
    struct ring ring = { .copies = copies < MOST_REPEATS ? MOST_REPEATS : copies, .stride = rounded_up(job->length) };

    ring.bytes = new_memory(ring.copies * ring.stride);
    ring.answers = new_memory(ring.copies * sizeof *ring.answers);
    return ring;
}

/* Puts each copy back to how it is before a call, and each answer to the right one, so that all answers can be checked. */
static void refresh(const struct ring *ring, const struct job *job)
{
    for (size_t i = 0; i < ring->copies; i++) {
        memcpy(copy_at(ring, i), job->before, job->length);
        ring->answers[i] = job->answer;
    }
}

static void make_calls(const struct ring *ring, const struct job *job, size_t repeats)
{
    for (size_t i = 0; i < repeats; i++)
        ring->answers[i] = job->call(job, copy_at(ring, i));
}

/* Compares byte by byte to the end, at the same cost whatever is found. */
static bool equal(const uint8_t *a, const uint8_t *b, size_t length)
{
    uint8_t difference = 0;

    for (size_t i = 0; i < length; i++)
        difference |= a[i] ^ b[i];
    return difference == 0;
}

/* The first `repeats` copies have to be as a right call leaves them, the others untouched. */
static bool all_right(const struct ring *ring, const struct job *job, size_t repeats)
{
    bool right = true;

    for (size_t i = 0; i < ring->copies; i++) {
        const uint8_t *wanted = i < repeats ? job->after : job->before;

        right &= ring->answers[i] == job->answer;
        right &= equal(copy_at(ring, i), wanted, job->length);
    }
    return right;
}

bool run_job(const struct job *job, size_t repeats)
{
    struct ring ring = new_ring(job);

    refresh(&ring, job);
    make_calls(&ring, job, repeats);
    return all_right(&ring, job, repeats);
}

static double now(void)
{
    struct timespec time;

    clock_gettime(CLOCK_MONOTONIC, &time);
    return (double)time.tv_sec * 1e9 + (double)time.tv_nsec;
}

/* One round: a call on each of `repeats` copies. The time of a call, or a negative number. */
static double time_round(const struct ring *ring, const struct job *job, size_t repeats)
{
    double start, end;

    refresh(ring, job);
    start = now();
    make_calls(ring, job, repeats);
    end = now();
    return all_right(ring, job, repeats) ? (end - start) / (double)repeats : -1;
}

double time_job(const struct job *job)
{
    const double slow = 5e7, enough = 4e7; /* a call so long is timed alone; rounds go on for so long */
    struct ring ring = new_ring(job);
    double start = now(), best = time_round(&ring, job, 1);
    size_t repeats = best > slow ? 1 : ring.copies;

    do {
        double time = time_round(&ring, job, repeats);

        if (time < 0 || best < 0)
            return -1;
        if (time < best)
            best = time;
    } while (now() - start < enough);
    return best;
}
