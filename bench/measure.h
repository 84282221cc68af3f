/* Times several ways of doing the same work, in turns, and compares them. */
#ifndef MEASURE_H
#define MEASURE_H

#include <stddef.h>

enum { ROUNDS = 15 };

/* One way: `run` does the work so many times. The nanoseconds that one time takes, by round, and the least of them. */
struct job {
    void (*run)(void *context, size_t times);
    void *context;
    double ns[ROUNDS];
    double least;
};

struct spread {
    double min, median, max;
};

/* In each round the jobs run in short turns, one after the other, again and again; what counts of a round is each job's
   fastest turn, since whatever else the machine does can only make a turn slower. */
void measure(struct job **jobs, size_t count);

/* The ratio of two jobs by rounds. */
struct spread ratio(const struct job *above, const struct job *below);

/* What one job takes longer than another, round by round and by the least times, for each of so many things that it does more. */
struct job difference(const struct job *above, const struct job *below, size_t things);

/* A ratio as a cell of a table: that of the least times, then by rounds the median, the least and the most. */
void print_ratio(const struct job *above, const struct job *below);

#endif
