/* See measure.h. */
#define _POSIX_C_SOURCE 200809L
#include "measure.h"

#include <stdio.h>
#include <stdlib.h>
#include <time.h>

/* How often each job has its turn in a round, and how long a turn is. */
enum { TURNS = 24 };

static const double TURN_NS = 20000;

static double now(void)
{
    struct timespec t;
    clock_gettime(CLOCK_MONOTONIC, &t);
    return (double)t.tv_sec * 1e9 + (double)t.tv_nsec;
}

static double turn(struct job *job, size_t times)
{
    double start = now();
    job->run(job->context, times);
    return (now() - start) / (double)times;
}

/* How many times fill a turn. */
static size_t times_for(struct job *job)
{
    double best = turn(job, 16);
    for (size_t i = 0; i < 8; i++) {
        double ns = turn(job, 16);
        if (ns < best)
            best = ns;
    }
    return 1 + (size_t)(TURN_NS / best);
}

void measure(struct job **jobs, size_t count)
{
    size_t times[8];
    for (size_t j = 0; j < count; j++) {
        times[j] = times_for(jobs[j]);
        jobs[j]->least = 1e18;
    }
    for (size_t round = 0; round < ROUNDS; round++) {
        for (size_t j = 0; j < count; j++)
            jobs[j]->ns[round] = 1e18;
        for (size_t t = 0; t < TURNS; t++)
            for (size_t j = 0; j < count; j++) {
                double ns = turn(jobs[j], times[j]);
                if (ns < jobs[j]->ns[round])
                    jobs[j]->ns[round] = ns;
                if (ns < jobs[j]->least)
                    jobs[j]->least = ns;
            }
    }
}

static int by_size(const void *a, const void *b)
{
    double x = *(const double *)a, y = *(const double *)b;
    return (x > y) - (x < y);
}

static struct spread spread_of(const double *values)
{
    double sorted[ROUNDS];
    for (size_t i = 0; i < ROUNDS; i++)
        sorted[i] = values[i];
    qsort(sorted, ROUNDS, sizeof sorted[0], by_size);
    return (struct spread){sorted[0], sorted[ROUNDS / 2], sorted[ROUNDS - 1]};
}

struct spread ratio(const struct job *above, const struct job *below)
{
    double ratios[ROUNDS];
    for (size_t i = 0; i < ROUNDS; i++)
        ratios[i] = above->ns[i] / below->ns[i];
    return spread_of(ratios);
}

struct job difference(const struct job *above, const struct job *below, size_t things)
{
    struct job d = {0};
    d.least = (above->least - below->least) / (double)things;
    for (size_t i = 0; i < ROUNDS; i++)
        d.ns[i] = (above->ns[i] - below->ns[i]) / (double)things;
    return d;
}

void print_ratio(const struct job *above, const struct job *below)
{
    struct spread r = ratio(above, below);
    printf(" %.2f; %.2f (%.2f to %.2f) |", above->least / below->least, r.median, r.min, r.max);
}
