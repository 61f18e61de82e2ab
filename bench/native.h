/* Native planners for document 01's rules: one worker, no turns, no log. What a good engineer would write in C. */
#ifndef NATIVE_H
#define NATIVE_H

#include <stdint.h>

#define MAX_TABLES 16
#define MAX_EDGES 120
#define MAX_METHODS 4
#define MAX_SETS 65536
#define MAX_CELLS (MAX_TABLES * (MAX_SETS / 2))

typedef struct {
    int tables, edges, methods;
    uint64_t rows[MAX_TABLES], scans[MAX_TABLES];
    uint64_t left[MAX_EDGES], right[MAX_EDGES], divisors[MAX_EDGES];
    uint64_t fixed[MAX_METHODS], per_outer[MAX_METHODS], per_inner[MAX_METHODS], per_result[MAX_METHODS];
} query;

/* The memo, its columns by row; and where a set's row is, by set. */
typedef struct {
    uint32_t count, first[MAX_TABLES + 2];
    uint32_t sets[MAX_SETS], row_of[MAX_SETS], cell[MAX_SETS];
    uint64_t estimates[MAX_SETS], costs[MAX_SETS];
    uint32_t outers[MAX_SETS], near[MAX_SETS];
    uint32_t methods[MAX_SETS];
    uint32_t skips[MAX_CELLS];
} memo;

/* Rows in memo order, estimates, skip vectors; scan costs in the rows of one table. */
void lay_out(const query *q, memo *m);

/* Each returns the number of joinable pairs; the first three after laying out. */
uint64_t filter_pairs(const query *q, memo *m); /* size-driven, every pair generated and tested */
uint64_t skip_pairs(const query *q, memo *m);   /* size-driven with skip vectors (000, section 5) */
uint64_t ccp_pairs(const query *q, memo *m);    /* connected subgraphs and their complements */

#endif
