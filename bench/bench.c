/* The measured program.
 *
 *   bench CASE P REPEATS    prepares the case at size P, makes its call REPEATS times (0 to 4), checks, and ends
 *   bench time CASE P       prints the nanoseconds of a call, the best of many rounds
 *
 * A case is a contender and a job, as in cf-write or isal-encode. The exit status is 0 if every answer and every byte was right, 1
 * if one was wrong, and 2 if there is no such case in this program, or the words are wrong. */

#include <stdio.h>
#include <stdlib.h>
#include <string.h>

#include "job.h"
#include "measure.h"

enum { RIGHT = 0, WRONG = 1, NOT_UNDERSTOOD = 2 };

/* A contender is here once for each of the files with its jobs. */
static const struct {
    const char *name;
    bool (*prepare)(const char *name, size_t p, struct job *job);
} contenders[] = {
    { "cf-", prepare_counterfrost },
    { "cf-", prepare_hurt },
    { "peer-", prepare_peer },
    { "plain-", prepare_plain },
#ifdef WITH_ISAL
    { "isal-", prepare_isal },
#endif
#ifdef WITH_JERASURE
    { "jerasure-", prepare_jerasure },
#endif
};

static bool prepare(const char *name, size_t p, struct job *job)
{
    if (p != 17 && p != 127 && p != 257)
        return false;
    for (size_t i = 0; i < sizeof contenders / sizeof contenders[0]; i++) {
        size_t length = strlen(contenders[i].name);

        if (strncmp(name, contenders[i].name, length) == 0 && contenders[i].prepare(name + length, p, job))
            return true;
    }
    return false;
}

static int refuse(void)
{
    fputs("use: bench CASE P REPEATS, or bench time CASE P\n", stderr);
    return NOT_UNDERSTOOD;
}

static int run(const struct job *job, size_t repeats)
{
    if (repeats > MOST_REPEATS)
        return refuse();
    return run_job(job, repeats) ? RIGHT : WRONG;
}

static int print_time(const struct job *job)
{
    double time = time_job(job);

    if (time < 0)
        return WRONG;
    printf("%.1f\n", time);
    return RIGHT;
}

int main(int count, char **words)
{
    bool timed = count == 4 && strcmp(words[1], "time") == 0;
    struct job job;

    if (count != 4 || !prepare(words[timed ? 2 : 1], strtoul(words[timed ? 3 : 2], NULL, 10), &job))
        return refuse();
    return timed ? print_time(&job) : run(&job, strtoul(words[3], NULL, 10));
}
