/* A job is one thing that is measured: a call, what it works on, and what a right call answers and leaves behind. Each
 * contender has a file that prepares its jobs, and the library has a second one, for its repairs at the far end of the search; bench.c
 * finds the job by its name and measure.c runs it. */

#ifndef BENCH_JOB_H
#define BENCH_JOB_H

#include <stdbool.h>
#include <stddef.h>
#include <stdint.h>

struct job {
    uint64_t (*call)(const struct job *job, uint8_t *copy); /* what is measured; it works on a copy of its own */
    const void *given;                                      /* what the call needs besides the copy */
    size_t p;
    size_t length;         /* bytes of a copy */
    const uint8_t *before; /* what a copy holds before the call */
    const uint8_t *after;  /* what it holds after a right call */
    uint64_t answer;       /* what a right call answers */
};

/* Each of these prepares the job of that name at size p, or says that it has none of that name. */
bool prepare_counterfrost(const char *name, size_t p, struct job *job);
bool prepare_hurt(const char *name, size_t p, struct job *job);
bool prepare_peer(const char *name, size_t p, struct job *job);
bool prepare_plain(const char *name, size_t p, struct job *job);
bool prepare_isal(const char *name, size_t p, struct job *job);
bool prepare_jerasure(const char *name, size_t p, struct job *job);

#endif
