/*
 * The planner beside native C: the same queries, one process, runs that alternate, medians of the ratios of neighbouring runs.
 * Before anything is timed the memos are compared: sets in order, estimates, costs, outer sets, methods, skip cells, pairs.
 *
 *     bench          the whole table
 *     bench ROW      only rows whose name begins so, as "clique 12"
 *     bench -1 ROW   no table: each such query planned once by either, with four methods and one worker, for a counter of instructions
 */
#include <inttypes.h>
#include <stdio.h>
#include <stdlib.h>
#include <string.h>
#include <time.h>

#include "harness.h"
#include "native.h"

#define NUMBERS 14
#define MOST_RUNS 301
#define ENOUGH_NS 150000000.0
/* Generating and testing every pair of a dense graph takes too long beyond this many candidates. */
#define MOST_CANDIDATES 100000000.0

static memo native;

static uint64_t sets[MAX_SETS], estimates[MAX_SETS], costs[MAX_SETS], outers[MAX_SETS], methods[MAX_SETS], skips[MAX_CELLS];
static uint64_t answer[NUMBERS];

static uint64_t seed;

static uint64_t next(uint64_t limit)
{
    seed = seed * 6364136223846793005u + 1442695040888963407u;
    return (seed >> 33) % limit;
}

/* ---- queries */
static void edge(query *q, int a, int b)
{
    q->left[q->edges] = (uint64_t)a;
    q->right[q->edges] = (uint64_t)b;
    q->divisors[q->edges++] = 1 + next(1000);
}

static void chain(query *q, int n)
{
    for (int t = 1; t < n; t++)
        edge(q, t, t + 1);
}

static void cycle(query *q, int n)
{
    chain(q, n);
    edge(q, 1, n);
}

static void star(query *q, int n)
{
    for (int t = 2; t <= n; t++)
        edge(q, 1, t);
}

static void star_last(query *q, int n)
{
    for (int t = 1; t < n; t++)
        edge(q, t, n);
}

static void clique(query *q, int n)
{
    for (int a = 1; a <= n; a++)
        for (int b = a + 1; b <= n; b++)
            edge(q, a, b);
}

/* four tables to a line */
static void grid(query *q, int n)
{
    for (int t = 1; t <= n; t++) {
        if (t % 4 != 0 && t < n)
            edge(q, t, t + 1);
        if (t + 4 <= n)
            edge(q, t, t + 4);
    }
}

static const struct {
    const char *name;
    void (*edges)(query *, int);
} graphs[] = {{"chain", chain}, {"cycle", cycle}, {"star", star}, {"star-last", star_last}, {"clique", clique}, {"grid", grid}};

static void make(query *q, void (*edges)(query *, int), int n, int m)
{
    memset(q, 0, sizeof *q);
    seed = (uint64_t)n * 100 + (uint64_t)m;
    q->tables = n;
    q->methods = m;
    for (int t = 0; t < n; t++) {
        q->rows[t] = 1 + next(100000);
        q->scans[t] = q->rows[t];
    }
    for (int k = 0; k < m; k++) {
        q->fixed[k] = next(10000);
        q->per_outer[k] = 1 + next(20);
        q->per_inner[k] = 1 + next(20);
        q->per_result[k] = 1 + next(5);
    }
    edges(q, n);
}

/* ---- runs */
static double now_ns(void)
{
    struct timespec t;

    clock_gettime(CLOCK_MONOTONIC, &t);
    return (double)t.tv_sec * 1e9 + (double)t.tv_nsec;
}

typedef struct {
    const query *q;
    uint64_t workers;
} job;

static void plan_here(const job *j)
{
    const query *q = j->q;
    size_t n = (size_t)q->tables, e = (size_t)q->edges, m = (size_t)q->methods;

    plan_columns(q->rows, n, q->scans, n, q->left, e, q->right, e, q->divisors, e, q->fixed, m, q->per_outer, m, q->per_inner, m,
                 q->per_result, m, j->workers, 4, answer, 0, sets, MAX_SETS, estimates, MAX_SETS, costs, MAX_SETS, outers, MAX_SETS,
                 methods, MAX_SETS, skips, MAX_CELLS, skips, 0, skips, 0, skips, 0, skips, 0, answer, NUMBERS);
}

static void lay_here(const job *j)
{
    const query *q = j->q;
    size_t n = (size_t)q->tables, e = (size_t)q->edges;

    lay_columns(q->rows, n, q->left, e, q->right, e, q->divisors, e, sets, MAX_SETS, estimates, MAX_SETS, costs, MAX_SETS, outers,
                MAX_SETS, methods, MAX_SETS, skips, MAX_CELLS);
}

static void lay_native(const job *j)
{
    lay_out(j->q, &native);
}

__attribute__((noinline)) static void with_skips(const job *j)
{
    lay_out(j->q, &native);
    skip_pairs(j->q, &native);
}

static void with_filter(const job *j)
{
    lay_out(j->q, &native);
    filter_pairs(j->q, &native);
}

static void with_ccp(const job *j)
{
    lay_out(j->q, &native);
    ccp_pairs(j->q, &native);
}

static double time_of(void (*run)(const job *), const job *j)
{
    double start = now_ns();

    run(j);
    return now_ns() - start;
}

static int rising(const void *a, const void *b)
{
    double x = *(const double *)a, y = *(const double *)b;

    return x < y ? -1 : x > y;
}

static double median(double *values, int count)
{
    qsort(values, (size_t)count, sizeof values[0], rising);
    return values[count / 2];
}

/* the median ratio of two runs' times; and the median time of the second in `base` */
static double ratio(void (*run)(const job *), void (*beside)(const job *), const job *j, double *base)
{
    double ratios[MOST_RUNS], times[MOST_RUNS];
    double once = time_of(run, j) + time_of(beside, j);
    int runs = once * MOST_RUNS < ENOUGH_NS ? MOST_RUNS : (int)(ENOUGH_NS / once);

    if (runs < 5)
        runs = 5;
    for (int i = 0; i < runs; i++) {
        times[i] = time_of(beside, j);
        ratios[i] = time_of(run, j) / times[i];
    }
    *base = median(times, runs);
    return median(ratios, runs);
}

/* ---- the memos are equal */
static void must(int holds, const char *what, const char *name)
{
    if (!holds) {
        printf("%s: %s differ\n", name, what);
        exit(1);
    }
}

static void compare(const query *q, const char *name, uint64_t pairs)
{
    uint32_t cell = 0;

    must(answer[0] == 0 && answer[3] == native.count, "rows", name);
    must(answer[5] == pairs, "pairs", name);
    for (uint32_t r = 0; r < native.count; r++) {
        uint32_t size = (uint32_t)__builtin_popcount(native.sets[r]), first = native.first[size];

        must(sets[r] == native.sets[r] && estimates[r] == native.estimates[r], "sets or estimates", name);
        must(costs[r] == native.costs[r] && outers[r] == native.outers[r] && methods[r] == native.methods[r], "results", name);
        for (uint32_t k = 0; k < size; k++, cell++)
            must(skips[cell] == native.skips[cell] - first + 1, "skip cells", name);
    }
    must(answer[4] == cell && answer[2] == costs[native.count - 1] && q->tables > 0, "cells or best cost", name);
}

static void check(const job *j, const char *name, int filtered)
{
    uint64_t pairs;

    plan_here(j);
    lay_out(j->q, &native);
    pairs = skip_pairs(j->q, &native);
    compare(j->q, name, pairs);
    lay_out(j->q, &native);
    compare(j->q, name, ccp_pairs(j->q, &native));
    if (!filtered)
        return;
    lay_out(j->q, &native);
    compare(j->q, name, filter_pairs(j->q, &native));
}

static double candidates(void)
{
    double all = 0;

    for (int a = 1; a <= MAX_TABLES; a++)
        for (int b = a; b <= MAX_TABLES - a && native.first[b] < native.count; b++)
            all += (double)(native.first[a + 1] - native.first[a]) * (double)(native.first[b + 1] - native.first[b]);
    return all;
}

static void show_ratio(double value)
{
    printf(" %9.2f |", value);
}

static void row(const char *name, const query *q, uint64_t workers)
{
    job j = {q, workers};
    double base, unused;
    int filtered;

    lay_out(q, &native);
    filtered = candidates() < MOST_CANDIDATES;
    check(&j, name, filtered);
    printf("| %-12s | %d | %" PRIu64 " | %8" PRIu64 " |", name, q->methods, workers, answer[5]);
    show_ratio(ratio(plan_here, with_skips, &j, &base));
    if (filtered)
        show_ratio(ratio(plan_here, with_filter, &j, &unused));
    else
        printf("         – |");
    show_ratio(ratio(plan_here, with_ccp, &j, &unused));
    printf(" %9.1f | %7.1f |\n", base / 1e3, base / (double)answer[5]);
    fflush(stdout);
}

static void lay_row(const char *name, const query *q)
{
    job j = {q, 1};
    double base, laid = ratio(lay_here, lay_native, &j, &base);

    printf("| %-12s | %6" PRIu32 " | %9.2f | %9.1f |\n", name, native.count, laid, base / 1e3);
    fflush(stdout);
}

/* each query of the benchmark whose name begins so */
static void each(const char *only, int first_method, int last_method, void (*show)(const char *, const query *))
{
    for (size_t g = 0; g < sizeof graphs / sizeof graphs[0]; g++)
        for (int n = 8; n <= MAX_TABLES; n += 2)
            for (int m = first_method; m <= last_method; m += 3) {
                char name[32];
                query q;

                snprintf(name, sizeof name, "%s %d", graphs[g].name, n);
                if (strncmp(name, only, strlen(only)) != 0)
                    continue;
                make(&q, graphs[g].edges, n, m);
                show(name, &q);
            }
}

static void plan_rows(const char *name, const query *q)
{
    row(name, q, 1);
    row(name, q, 8);
}

static void once(const char *name, const query *q)
{
    job j = {q, 1};

    plan_here(&j);
    with_skips(&j);
    printf("%s: %" PRIu64 " pairs\n", name, answer[5]);
}

int main(int argc, char **argv)
{
    const char *only = argc > 1 ? argv[1] : "";

    if (argc > 2 && strcmp(only, "-1") == 0) {
        each(argv[2], MAX_METHODS, MAX_METHODS, once);
        return 0;
    }
    printf("Whole planning\n\n");
    printf("| query | methods | workers | pairs | to skip vectors | to generate and test | to csg-cmp | C with skips, µs | its ns a pair |\n");
    printf("|---|---|---|---|---|---|---|---|---|\n");
    each(only, 1, MAX_METHODS, plan_rows);
    printf("\nLaying out alone\n\n");
    printf("| query | rows | to C | C, µs |\n");
    printf("|---|---|---|---|\n");
    each(only, 1, 1, lay_row);
    return 0;
}
