/*
 * Document 01 in plain C, written from its sentences alone: a reader, a planner and a writer that share nothing with the proved
 * ones. Clear and slow. The tests hold the library to it.
 */
#ifndef REFERENCE_H
#define REFERENCE_H

#include <stdbool.h>
#include <stddef.h>
#include <stdint.h>

struct list {
    uint64_t *cells;
    size_t count;
};

/* the lists that a library call is given, and those that it is lent */
enum given { ROWS, SCANS, LEFT, RIGHT, DIVISORS, FIXED, PER_OUTER, PER_INNER, PER_RESULT, TURNS, GIVEN };
enum lent { SETS, ESTIMATES, COSTS, OUTERS, METHODS, SKIPS, LOG_WORKERS, LOG_DRIVING, LOG_INNER, LOG_COSTS, LENT };

struct call {
    struct list given[GIVEN];
    uint64_t workers, scheme;
    struct list lent[LENT];
};

/* an answer's numbers: refusal, place, best cost, rows, cells, pairs, and a count for each of eight workers */
enum number { REFUSAL, PLACE, BEST, ROW_COUNT, CELL_COUNT, PAIRS, COUNTS, NUMBERS = COUNTS + 8 };

/* Plans a call in its lent lists, or refuses it. */
void reference_plan(const struct call *call, uint64_t answer[NUMBERS]);

/* Rows and cells that a call needs; false where it is refused before they count. */
bool reference_sizes(const struct call *call, size_t *rows, size_t *cells);

/* "a 4,096-byte buffer, which every answer fits" */
#define REFERENCE_ANSWER 4096

/* The answer to a text, and its length. */
size_t reference_text(const uint8_t *query, size_t length, uint8_t answer[REFERENCE_ANSWER]);

/* The refusal in the last text's answer, 0 for a plan. */
extern uint64_t reference_refusal;

#endif
