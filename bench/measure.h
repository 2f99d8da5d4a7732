/* Runs a job: on a ring of copies, each call on the next one, with every answer and every byte checked afterwards. */

#ifndef BENCH_MEASURE_H
#define BENCH_MEASURE_H

#include <stdbool.h>
#include <stddef.h>

#include "job.h"

enum { MOST_REPEATS = 4 };

/* Makes the call `repeats` times, at most MOST_REPEATS, and says whether each answer and each byte is right. All else that is done does not
 * depend on `repeats`, so two runs differ by the calls alone. */
bool run_job(const struct job *job, size_t repeats);

/* The nanoseconds of a call, the best of many rounds, or a negative number if an answer or a byte is wrong. */
double time_job(const struct job *job);

#endif
