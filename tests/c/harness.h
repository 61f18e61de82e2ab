/* The library's entry over columns, for tests and benchmarks only (crate harness): the columns of `plan`, then the answer's cells. */
#ifndef HARNESS_H
#define HARNESS_H

#include <stddef.h>
#include <stdint.h>

/*
 * Plans as planner::plan does. The answer's fourteen numbers (refusal, place, best cost, rows, cells, pairs, eight counts) go to the
 * first cells of `answer`, and 14 is returned; where `answer` has fewer cells, nothing is done and 0 is returned.
 */
size_t plan_columns(const uint64_t *rows, size_t rows_len, const uint64_t *scans, size_t scans_len,                         /* tables */
                    const uint64_t *left, size_t left_len, const uint64_t *right, size_t right_len,                         /* edges */
                    const uint64_t *divisors, size_t divisors_len,                                                          /* edges */
                    const uint64_t *fixed, size_t fixed_len, const uint64_t *per_outer, size_t per_outer_len,               /* methods */
                    const uint64_t *per_inner, size_t per_inner_len, const uint64_t *per_result, size_t per_result_len,     /* methods */
                    uint64_t workers, uint64_t scheme, const uint64_t *turns, size_t turns_len,                             /* crew */
                    uint64_t *sets, size_t sets_len, uint64_t *estimates, size_t estimates_len,                             /* memo */
                    uint64_t *costs, size_t costs_len, uint64_t *outers, size_t outers_len,                                 /* memo */
                    uint64_t *methods, size_t methods_len, uint64_t *skips, size_t skips_len,                               /* memo */
                    uint64_t *log_workers, size_t log_workers_len, uint64_t *log_driving, size_t log_driving_len,           /* log */
                    uint64_t *log_inner, size_t log_inner_len, uint64_t *log_costs, size_t log_costs_len,                   /* log */
                    uint64_t *answer, size_t answer_len);

/* Lays out alone, for these tables and edges: the number of the refusal, or 0 with sets, estimates and skip cells as `plan` lays them. */
uint64_t lay_columns(const uint64_t *rows, size_t rows_len, const uint64_t *left, size_t left_len,                              /* graph */
                     const uint64_t *right, size_t right_len, const uint64_t *divisors, size_t divisors_len,                    /* graph */
                     uint64_t *sets, size_t sets_len, uint64_t *estimates, size_t estimates_len,                                /* memo */
                     uint64_t *costs, size_t costs_len, uint64_t *outers, size_t outers_len,                                    /* memo */
                     uint64_t *methods, size_t methods_len, uint64_t *skips, size_t skips_len);                                 /* memo */

#endif
