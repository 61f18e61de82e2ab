/* Document 01 in plain C. Each comment in quotes is the sentence that the code below it follows. */
#include "reference.h"

#include <stdio.h>
#include <stdlib.h>
#include <string.h>

/* "N tables, 1 to 16", "Methods, 1 to 4", "Workers 1 to 8", "Scheme 1 to 4" */
#define TABLES 16
#define METHOD_COUNT 4
#define WORKERS 8
#define SCHEMES 4
#define ALL_SETS (1u << TABLES)

/* "rows (0 to 1,000,000) and a scan cost (0 to 1,000,000,000)", "a divisor, 1 to 1,000,000", "a fixed cost (0 to 1,000,000,000) and
   three coefficients (0 to 1,000)" */
#define MOST_ROWS 1000000u
#define MOST_SCAN 1000000000u
#define MOST_DIVISOR 1000000u
#define MOST_FIXED 1000000000u
#define MOST_COEFFICIENT 1000u

/* "Then cut to 1,000,000,000,000 if larger." */
#define MOST_ESTIMATE 1000000000000u

/* a set of tables by its number: "the sum of 2^(t-1) over its tables t" */
typedef uint32_t set;

struct method {
    uint64_t fixed, outer, inner, result;
};

/* a query that passed the checks; tables and methods from 1 */
struct query {
    unsigned tables, methods;
    uint64_t rows[TABLES + 1], scans[TABLES + 1];
    uint64_t divisor[TABLES + 1][TABLES + 1]; /* 0: no edge */
    set near[TABLES + 1];                     /* the tables that have an edge to this one */
    struct method method[METHOD_COUNT + 1];
};

/* everything that planning finds out, by set number */
struct plan {
    bool connected[ALL_SETS];
    uint64_t estimate[ALL_SETS], cost[ALL_SETS], standing[ALL_SETS];
    set outer[ALL_SETS];
    unsigned method[ALL_SETS];
    set memo[ALL_SETS];
    size_t rows, cells;
    size_t first[TABLES + 2], count[TABLES + 2]; /* rows of one size */
};

static void *room_for(size_t count, size_t each)
{
    void *p = calloc(count == 0 ? 1 : count, each);

    if (p == NULL) {
        perror("reference");
        exit(2);
    }
    return p;
}

/* ---- sets */

static bool holds(set s, unsigned t)
{
    return (s >> (t - 1)) & 1;
}

static unsigned size_of(set s)
{
    unsigned n = 0;

    for (unsigned t = 1; t <= TABLES; t++)
        n += holds(s, t);
    return n;
}

static set full(unsigned n)
{
    return (set)((1u << n) - 1);
}

/* the tables of a set in ascending order */
static unsigned list_tables(set s, unsigned tables[TABLES])
{
    unsigned n = 0;

    for (unsigned t = 1; t <= TABLES; t++)
        if (holds(s, t))
            tables[n++] = t;
    return n;
}

/* ---- the query's graph */

/* "A pair of tables has at most one edge, whichever way round it is written." */
static bool linked(const struct query *q, unsigned a, unsigned b)
{
    return q->divisor[a][b] != 0;
}

static bool edge_between(const struct query *q, set x, set y)
{
    for (unsigned a = 1; a <= q->tables; a++)
        if (holds(x, a) && (q->near[a] & y) != 0)
            return true;
    return false;
}

/* flood fill from one table of a set that is not empty */
static bool is_connected(const struct query *q, set s)
{
    set seen = s & (0 - s), before = 0;

    while (seen != before) {
        before = seen;
        for (unsigned a = 1; a <= q->tables; a++)
            if (holds(before, a))
                seen |= q->near[a] & s;
    }
    return seen == s;
}

/* "Take its tables in ascending number. Start at 1. For each table multiply by its rows (0 counts as 1). Then, for each lower table of
   the set that has an edge to it, ascending, divide by the divisor, rounding down, and raise to 1 if 0. Then cut to
   1,000,000,000,000 if larger." */
static uint64_t estimate_of(const struct query *q, set s)
{
    unsigned tables[TABLES], n = list_tables(s, tables);
    uint64_t e = 1;

    for (unsigned i = 0; i < n; i++) {
        uint64_t rows = q->rows[tables[i]];

        e *= rows == 0 ? 1 : rows;
        for (unsigned j = 0; j < i; j++)
            if (linked(q, tables[j], tables[i])) {
                e /= q->divisor[tables[j]][tables[i]];
                if (e == 0)
                    e = 1;
            }
        if (e > MOST_ESTIMATE)
            e = MOST_ESTIMATE;
    }
    return e;
}

/* ---- memo and skip tables */

/* "ordered by size and then by the ascending sequence of table numbers, compared as numbers" */
static int memo_order(const void *p, const void *r)
{
    unsigned a[TABLES], b[TABLES];
    unsigned n = list_tables(*(const set *)p, a), m = list_tables(*(const set *)r, b);

    if (n != m)
        return n < m ? -1 : 1;
    for (unsigned i = 0; i < n; i++)
        if (a[i] != b[i])
            return a[i] < b[i] ? -1 : 1;
    return 0;
}

/* "One memo row for each nonempty connected set" */
static void find_rows(const struct query *q, struct plan *p)
{
    p->rows = p->cells = 0;
    for (set s = 1; s <= full(q->tables); s++) {
        p->connected[s] = is_connected(q, s);
        if (p->connected[s]) {
            p->memo[p->rows++] = s;
            p->cells += size_of(s);
        }
    }
}

static void order_rows(struct plan *p)
{
    qsort(p->memo, p->rows, sizeof p->memo[0], memo_order);
    memset(p->first, 0, sizeof p->first);
    memset(p->count, 0, sizeof p->count);
    for (size_t i = 0; i < p->rows; i++) {
        unsigned n = size_of(p->memo[i]);

        if (p->count[n]++ == 0)
            p->first[n] = i;
    }
}

/* "rows of one size are numbered from 1. For row i and the j-th table of its set, the value is the least k > i whose row lacks that
   table, or the row count plus 1. Vectors for all sizes, N included, stand one after another in memo order" */
static void write_skips(const struct query *q, const struct plan *p, uint64_t *cells)
{
    for (unsigned n = 1; n <= q->tables; n++)
        for (size_t i = 1; i <= p->count[n]; i++) {
            unsigned tables[TABLES], m = list_tables(p->memo[p->first[n] + i - 1], tables);

            for (unsigned j = 0; j < m; j++) {
                size_t k = i + 1;

                while (k <= p->count[n] && holds(p->memo[p->first[n] + k - 1], tables[j]))
                    k++;
                *cells++ = k;
            }
        }
}

/* ---- costs */

/* "A join of outer X and inner Y costs cost(X) + cost(Y) + fixed + a·est(X) + b·est(Y) + c·est(X and Y together)." */
static uint64_t join_cost(const struct plan *p, const struct method *m, set x, set y)
{
    return p->cost[x] + p->cost[y] + m->fixed + m->outer * p->estimate[x] + m->inner * p->estimate[y] + m->result * p->estimate[x | y];
}

/* "Among joins that reach the best cost, with best parts, the least outer set number wins, then the least method." */
static bool better(uint64_t cost, set outer, unsigned method, uint64_t than_cost, set than_outer, unsigned than_method)
{
    if (cost != than_cost)
        return cost < than_cost;
    if (outer != than_outer)
        return outer < than_outer;
    return method < than_method;
}

/* "Both parts of a join are disjoint, connected, and have an edge between them. Either part may be the outer one. The best cost of a
   set is the least over all its trees." All splits of a set are tried; its parts are smaller numbers, so they are done. */
static void find_best(const struct query *q, struct plan *p, set s)
{
    bool found = false;

    /* the part of s after x, in ascending number, is (x - s) & s */
    for (set x = (0 - s) & s; x != s; x = (x - s) & s) {
        set y = s & ~x;

        if (!p->connected[x] || !p->connected[y] || !edge_between(q, x, y))
            continue;
        for (unsigned m = 1; m <= q->methods; m++) {
            uint64_t cost = join_cost(p, &q->method[m], x, y);

            if (!found || better(cost, x, m, p->cost[s], p->outer[s], p->method[s])) {
                found = true;
                p->cost[s] = cost;
                p->outer[s] = x;
                p->method[s] = m;
            }
        }
    }
}

/* "Cost of one table is its scan cost."; "A row holds set, estimate, cost, outer set, method; the last two are 0 for one table." */
static void find_all(const struct query *q, struct plan *p)
{
    for (set s = 1; s <= full(q->tables); s++) {
        if (!p->connected[s])
            continue;
        p->estimate[s] = estimate_of(q, s);
        p->standing[s] = UINT64_MAX;
        if (size_of(s) == 1) {
            unsigned tables[TABLES];

            list_tables(s, tables);
            p->cost[s] = q->scans[tables[0]];
            p->outer[s] = 0;
            p->method[s] = 0;
        } else {
            find_best(q, p, s);
        }
    }
}

/* ---- shares and turns */

struct pair {
    set driving, inner;
};

struct queue {
    struct pair *pairs;
    size_t count, room, next;
};

static void enqueue(struct queue *u, set driving, set inner)
{
    if (u->count == u->room) {
        size_t room = u->room == 0 ? 16 : 2 * u->room;
        struct pair *pairs = room_for(room, sizeof *pairs);

        if (u->count > 0)
            memcpy(pairs, u->pairs, u->count * sizeof *pairs);
        free(u->pairs);
        u->pairs = pairs;
        u->room = room;
    }
    u->pairs[u->count++] = (struct pair){driving, inner};
}

/* "worker w has those from wT/m up to, not including, (w+1)T/m, rounded down" */
static size_t cut(size_t index, size_t all, size_t workers)
{
    for (size_t w = 0; w < workers; w++)
        if (w * all / workers <= index && index < (w + 1) * all / workers)
            return w;
    abort();
}

/* "Shares among m workers, over candidates before any test" */
static size_t worker_of(const struct call *c, size_t index, size_t all, size_t row, size_t rows, size_t inner)
{
    switch (c->scheme) {
    case 1: /* "All T candidates of size S numbered from 0" */
        return cut(index, all, c->workers);
    case 2: /* "The same cut over all D rows of each driving size, counted from 0." */
        return cut(row, rows, c->workers);
    case 3: /* "Driving row i, counted from 0 within its size, goes to worker i mod m." */
        return row % c->workers;
    default: /* "For each driving row, its inner candidates counted from 0 go to worker (count mod m)." */
        return inner % c->workers;
    }
}

/* The candidates of a result size: "the driving size runs from 1 to S/2 rounded down, the inner size is S less that. Where the two are
   equal the inner row comes after the driving row. Candidates are met smaller size first, then driving row, then inner row."
   Their number is returned. Where there are queues, the joinable ones go to them; `all` is that number then. */
static size_t list_candidates(const struct call *c, const struct query *q, const struct plan *p, unsigned s, size_t all, struct queue *queues)
{
    size_t index = 0;

    for (unsigned d = 1; d <= s / 2; d++) {
        unsigned e = s - d;

        for (size_t i = 0; i < p->count[d]; i++) {
            size_t start = d == e ? i + 1 : 0;

            for (size_t j = start; j < p->count[e]; j++, index++) {
                set x = p->memo[p->first[d] + i], y = p->memo[p->first[e] + j];

                /* "A candidate is joinable if the sets are disjoint and an edge runs between them." */
                if (queues != NULL && (x & y) == 0 && edge_between(q, x, y))
                    enqueue(&queues[worker_of(c, index, all, i, p->count[d], j - start)], x, y);
            }
        }
    }
    return index;
}

static bool has_pair(const struct queue *u)
{
    return u->next < u->count;
}

/* the lowest-numbered worker with a pair left, or the number of workers */
static size_t lowest(const struct queue *queues, size_t workers)
{
    size_t w = 0;

    while (w < workers && !has_pair(&queues[w]))
        w++;
    return w;
}

/* "Both outer choices and all methods of a joinable pair are priced in one turn."; "the cost in the result's row after that turn, which
   is the least over the logged pairs of that set so far" */
static uint64_t stand(const struct query *q, struct plan *p, set x, set y)
{
    uint64_t *least = &p->standing[x | y];

    for (unsigned m = 1; m <= q->methods; m++) {
        uint64_t one = join_cost(p, &q->method[m], x, y), other = join_cost(p, &q->method[m], y, x);

        if (one < *least)
            *least = one;
        if (other < *least)
            *least = other;
    }
    return *least;
}

/* the turns of all sizes; pairs and counts go to the answer, the log to its lists */
static void take_turns(const struct call *c, const struct query *q, struct plan *p, uint64_t answer[NUMBERS])
{
    size_t entry = 0;

    for (unsigned s = 2; s <= q->tables; s++) {
        struct queue queues[WORKERS] = {{0}};

        list_candidates(c, q, p, s, list_candidates(c, q, p, s, 0, NULL), queues);
        /* "A size closes as soon as no worker has a joinable pair left, tested at its start and after each turn" */
        while (lowest(queues, c->workers) < c->workers) {
            /* "Each entry of the list is one turn. When the list is used up, the lowest-numbered worker with a pair left has the turn." */
            size_t w = entry < c->given[TURNS].count ? (size_t)c->given[TURNS].cells[entry++] : lowest(queues, c->workers);

            /* "A turn hands its worker that worker's next joinable pair; with none left it changes nothing." */
            if (!has_pair(&queues[w]))
                continue;

            struct pair h = queues[w].pairs[queues[w].next++];
            uint64_t cost = stand(q, p, h.driving, h.inner);
            size_t at = answer[PAIRS]++;

            answer[COUNTS + w]++;
            /* "It holds the first pairs that fit; spare entries are unchanged." */
            if (at < c->lent[LOG_WORKERS].count) {
                c->lent[LOG_WORKERS].cells[at] = w;
                c->lent[LOG_DRIVING].cells[at] = h.driving;
                c->lent[LOG_INNER].cells[at] = h.inner;
                c->lent[LOG_COSTS].cells[at] = cost;
            }
        }
        for (size_t w = 0; w < WORKERS; w++)
            free(queues[w].pairs);
    }
    /* the turns have met every split of every set: what stands is the least over all trees */
    for (size_t i = 0; i < p->rows; i++)
        if (size_of(p->memo[i]) > 1 && p->standing[p->memo[i]] != p->cost[p->memo[i]])
            abort();
}

/* ---- refusals */

/* "All return the number, the place and zeros" */
static bool refuse(uint64_t answer[NUMBERS], uint64_t number, uint64_t place)
{
    memset(answer, 0, NUMBERS * sizeof answer[0]);
    answer[REFUSAL] = number;
    answer[PLACE] = place;
    return true;
}

static bool lengths_differ(const struct list *lists, unsigned from, unsigned to)
{
    for (unsigned i = from; i <= to; i++)
        if (lists[i].count != lists[from].count)
            return true;
    return false;
}

static bool same_pair(uint64_t a, uint64_t b, uint64_t c, uint64_t d)
{
    return (a == c && b == d) || (a == d && b == c);
}

/* "Rows 6 to 9 are tried edge by edge." */
static bool refuse_edges(const struct call *c, uint64_t answer[NUMBERS])
{
    const uint64_t *a = c->given[LEFT].cells, *b = c->given[RIGHT].cells, *divisor = c->given[DIVISORS].cells;
    size_t n = c->given[ROWS].count;

    for (size_t i = 0; i < c->given[LEFT].count; i++) {
        /* 6 "edge names a table outside 1 to N" */
        if (a[i] < 1 || a[i] > n || b[i] < 1 || b[i] > n)
            return refuse(answer, 6, i);
        /* 7 "edge joins a table to itself" */
        if (a[i] == b[i])
            return refuse(answer, 7, i);
        /* 8 "divisor 0 or over its limit" */
        if (divisor[i] == 0 || divisor[i] > MOST_DIVISOR)
            return refuse(answer, 8, i);
        /* 9 "edge repeats an earlier pair" */
        for (size_t j = 0; j < i; j++)
            if (same_pair(a[i], b[i], a[j], b[j]))
                return refuse(answer, 9, i);
    }
    return false;
}

/* checks 1 to 9; "Place: the first such record or turn, counted from 0, else 0." */
static bool refuse_lists(const struct call *c, uint64_t answer[NUMBERS])
{
    const struct list *g = c->given;

    /* 1 "lent lists holding fields of the same records differ in length" */
    if (lengths_differ(g, ROWS, SCANS) || lengths_differ(g, LEFT, DIVISORS) || lengths_differ(g, FIXED, PER_RESULT)
        || lengths_differ(c->lent, SETS, METHODS) || lengths_differ(c->lent, LOG_WORKERS, LOG_COSTS))
        return refuse(answer, 1, 0);
    /* 2 "table count not 1 to 16" */
    if (g[ROWS].count < 1 || g[ROWS].count > TABLES)
        return refuse(answer, 2, 0);
    /* 3 "rows or scan cost of a table over its limit" */
    for (size_t i = 0; i < g[ROWS].count; i++)
        if (g[ROWS].cells[i] > MOST_ROWS || g[SCANS].cells[i] > MOST_SCAN)
            return refuse(answer, 3, i);
    /* 4 "method count not 1 to 4" */
    if (g[FIXED].count < 1 || g[FIXED].count > METHOD_COUNT)
        return refuse(answer, 4, 0);
    /* 5 "fixed cost or coefficient over its limit" */
    for (size_t i = 0; i < g[FIXED].count; i++)
        if (g[FIXED].cells[i] > MOST_FIXED || g[PER_OUTER].cells[i] > MOST_COEFFICIENT || g[PER_INNER].cells[i] > MOST_COEFFICIENT
            || g[PER_RESULT].cells[i] > MOST_COEFFICIENT)
            return refuse(answer, 5, i);
    return refuse_edges(c, answer);
}

/* the query of lists that passed checks 1 to 9 */
static void take_query(const struct call *c, struct query *q)
{
    const struct list *g = c->given;

    memset(q, 0, sizeof *q);
    q->tables = (unsigned)g[ROWS].count;
    q->methods = (unsigned)g[FIXED].count;
    for (unsigned t = 1; t <= q->tables; t++) {
        q->rows[t] = g[ROWS].cells[t - 1];
        q->scans[t] = g[SCANS].cells[t - 1];
    }
    for (size_t i = 0; i < g[LEFT].count; i++) {
        uint64_t a = g[LEFT].cells[i], b = g[RIGHT].cells[i];

        q->divisor[a][b] = q->divisor[b][a] = g[DIVISORS].cells[i];
        q->near[a] |= 1u << (b - 1);
        q->near[b] |= 1u << (a - 1);
    }
    for (unsigned m = 1; m <= q->methods; m++)
        q->method[m] = (struct method){g[FIXED].cells[m - 1], g[PER_OUTER].cells[m - 1], g[PER_INNER].cells[m - 1], g[PER_RESULT].cells[m - 1]};
}

/* checks 10 to 14 */
static bool refuse_query(const struct call *c, const struct query *q, struct plan *p, uint64_t answer[NUMBERS])
{
    /* 10 "the graph is not connected" */
    if (!is_connected(q, full(q->tables)))
        return refuse(answer, 10, 0);
    /* 11 "workers or scheme out of range" */
    if (c->workers < 1 || c->workers > WORKERS || c->scheme < 1 || c->scheme > SCHEMES)
        return refuse(answer, 11, 0);
    /* 12 "a turn names a worker not below the count"; "Entries left at the end are ignored, though their range is checked." */
    for (size_t i = 0; i < c->given[TURNS].count; i++)
        if (c->given[TURNS].cells[i] >= c->workers)
            return refuse(answer, 12, i);
    find_rows(q, p);
    /* 13 "memo rows fewer than connected sets" */
    if (c->lent[SETS].count < p->rows)
        return refuse(answer, 13, 0);
    /* 14 "skip cells fewer than the sum of those sets' sizes" */
    if (c->lent[SKIPS].count < p->cells)
        return refuse(answer, 14, 0);
    return false;
}

static struct plan *plan_room(void)
{
    static struct plan *p;

    if (p == NULL)
        p = room_for(1, sizeof *p);
    return p;
}

void reference_plan(const struct call *c, uint64_t answer[NUMBERS])
{
    struct query q;
    struct plan *p = plan_room();

    memset(answer, 0, NUMBERS * sizeof answer[0]);
    if (refuse_lists(c, answer))
        return;
    take_query(c, &q);
    if (refuse_query(c, &q, p, answer))
        return;
    order_rows(p);
    find_all(&q, p);
    /* "Spare rows are unchanged.", "spare cells are unchanged" */
    for (size_t i = 0; i < p->rows; i++) {
        set s = p->memo[i];

        c->lent[SETS].cells[i] = s;
        c->lent[ESTIMATES].cells[i] = p->estimate[s];
        c->lent[COSTS].cells[i] = p->cost[s];
        c->lent[OUTERS].cells[i] = p->outer[s];
        c->lent[METHODS].cells[i] = p->method[s];
    }
    write_skips(&q, p, c->lent[SKIPS].cells);
    take_turns(c, &q, p, answer);
    /* "The answer gives best cost, number of memo rows, of skip cells, of joinable pairs, and eight per-worker pair counts" */
    answer[BEST] = p->cost[full(q.tables)];
    answer[ROW_COUNT] = p->rows;
    answer[CELL_COUNT] = p->cells;
}

bool reference_sizes(const struct call *c, size_t *rows, size_t *cells)
{
    struct query q;
    struct plan *p = plan_room();
    uint64_t answer[NUMBERS] = {0};

    if (refuse_lists(c, answer))
        return false;
    take_query(c, &q);
    if (refuse_query(c, &q, p, answer) && answer[REFUSAL] < 13)
        return false;
    *rows = p->rows;
    *cells = p->cells;
    return true;
}

/* ---- the text's reader */

#define MOST_BYTES 16384
#define MOST_EDGES 120
#define TEXT_ROWS 1023
#define TEXT_CELLS 5120
#define MOST_FIELDS 6

uint64_t reference_refusal;

struct field {
    const uint8_t *at;
    size_t length;
};

struct text {
    uint64_t given[GIVEN][MOST_EDGES];
    size_t tables, methods, edges, crews;
    uint64_t workers, scheme;
};

/* "fields parted by one tab"; at most MOST_FIELDS are kept, which is more than any line may have */
static size_t split(const uint8_t *line, size_t length, struct field fields[MOST_FIELDS])
{
    size_t count = 0, start = 0;

    for (size_t i = 0; i <= length; i++)
        if (i == length || line[i] == '\t') {
            if (count < MOST_FIELDS)
                fields[count] = (struct field){line + start, i - start};
            count++;
            start = i + 1;
        }
    return count;
}

/* "A number is 1 to 10 digits, no leading zero unless it is 0, at most 1,000,000,000." */
static bool read_number(struct field f, uint64_t *value)
{
    if (f.length < 1 || f.length > 10)
        return false;
    if (f.at[0] == '0' && f.length > 1)
        return false;
    *value = 0;
    for (size_t i = 0; i < f.length; i++) {
        if (f.at[i] < '0' || f.at[i] > '9')
            return false;
        *value = *value * 10 + (uint64_t)(f.at[i] - '0');
    }
    return *value <= 1000000000u;
}

/* "`T` number rows scan; `M` fixed outer inner result; `E` table table divisor; `W` workers scheme" */
static size_t fields_of(struct field letter)
{
    if (letter.length != 1)
        return 0;
    switch (letter.at[0]) {
    case 'T':
    case 'E':
        return 4;
    case 'M':
        return 5;
    case 'W':
        return 3;
    default:
        return 0;
    }
}

static bool later_kind_met(const struct text *t, uint8_t letter)
{
    switch (letter) {
    case 'T':
        return t->methods + t->edges + t->crews > 0;
    case 'M':
        return t->edges + t->crews > 0;
    case 'E':
        return t->crews > 0;
    default:
        return false;
    }
}

/* takes a line in; its refusal, or 0: "the first that applies in this order" */
static uint64_t read_line(struct text *t, const uint8_t *line, size_t length)
{
    struct field fields[MOST_FIELDS];
    size_t count = split(line, length, fields);
    uint64_t v[MOST_FIELDS] = {0};
    uint8_t letter;

    /* "21 unknown letter or wrong field count" */
    if (fields_of(fields[0]) == 0 || fields_of(fields[0]) != count)
        return 21;
    letter = fields[0].at[0];
    /* "22 bad number" */
    for (size_t i = 1; i < count; i++)
        if (!read_number(fields[i], &v[i]))
            return 22;
    /* "23 T number not the next, a kind after a later kind, or a second W" */
    if (later_kind_met(t, letter) || (letter == 'T' && v[1] != t->tables + 1) || (letter == 'W' && t->crews > 0))
        return 23;
    /* "25 a 17th T, fifth M or 121st E" */
    if ((letter == 'T' && t->tables == TABLES) || (letter == 'M' && t->methods == METHOD_COUNT) || (letter == 'E' && t->edges == MOST_EDGES))
        return 25;
    if (letter == 'T') {
        t->given[ROWS][t->tables] = v[2];
        t->given[SCANS][t->tables++] = v[3];
    } else if (letter == 'M') {
        for (unsigned i = 0; i < 4; i++)
            t->given[FIXED + i][t->methods] = v[i + 1];
        t->methods++;
    } else if (letter == 'E') {
        for (unsigned i = 0; i < 3; i++)
            t->given[LEFT + i][t->edges] = v[i + 1];
        t->edges++;
    } else {
        t->workers = v[1];
        t->scheme = v[2];
        t->crews++;
    }
    return 0;
}

/* reads a text; true if it is refused */
static bool refuse_text(struct text *t, const uint8_t *query, size_t length, uint64_t answer[NUMBERS])
{
    size_t line = 0, start = 0;

    /* "24 too long, or last byte not LF (place 0; empty text passes this)" */
    if (length > MOST_BYTES || (length > 0 && query[length - 1] != '\n'))
        return refuse(answer, 24, 0);
    for (size_t i = 0; i < length; i++)
        if (query[i] == '\n') {
            uint64_t number = read_line(t, query + start, i - start);

            line++;
            if (number != 0)
                return refuse(answer, number, line);
            start = i + 1;
        }
    /* "A missing W is 23 at the line after the last." */
    if (t->crews == 0)
        return refuse(answer, 23, line + 1);
    return false;
}

/* ---- the text's writer */

struct out {
    uint8_t *bytes;
    size_t length;
};

static void put(struct out *o, const char *s)
{
    size_t n = strlen(s);

    if (o->length + n > REFERENCE_ANSWER)
        abort();
    memcpy(o->bytes + o->length, s, n);
    o->length += n;
}

static void put_number(struct out *o, uint64_t v)
{
    char s[24];

    snprintf(s, sizeof s, "%llu", (unsigned long long)v);
    put(o, s);
}

/* "sets as ascending numbers with commas" */
static void put_set(struct out *o, set s)
{
    unsigned tables[TABLES], n = list_tables(s, tables);

    for (unsigned i = 0; i < n; i++) {
        if (i > 0)
            put(o, ",");
        put_number(o, tables[i]);
    }
}

/* "J: outer tables, inner tables, method, estimate, cost"; "For each join its outer part's joins, then its inner part's, then its own." */
static void put_joins(struct out *o, const struct call *c, set s)
{
    size_t row = 0;

    if (size_of(s) == 1)
        return;
    while (c->lent[SETS].cells[row] != s)
        row++;

    set x = (set)c->lent[OUTERS].cells[row];

    put_joins(o, c, x);
    put_joins(o, c, s & ~x);
    put(o, "J ");
    put_set(o, x);
    put(o, " ");
    put_set(o, s & ~x);
    put(o, " ");
    put_number(o, c->lent[METHODS].cells[row]);
    put(o, " ");
    put_number(o, c->lent[ESTIMATES].cells[row]);
    put(o, " ");
    put_number(o, c->lent[COSTS].cells[row]);
    put(o, "\n");
}

/* "The text entry plans in 1,023 rows and 5,120 cells of its own"; "The list of turns is empty." */
static void lend(struct call *c, struct text *t)
{
    static uint64_t rows[5][TEXT_ROWS], cells[TEXT_CELLS];

    memset(c, 0, sizeof *c);
    for (unsigned i = 0; i < GIVEN; i++)
        c->given[i].cells = t->given[i];
    c->given[ROWS].count = c->given[SCANS].count = t->tables;
    for (unsigned i = LEFT; i <= DIVISORS; i++)
        c->given[i].count = t->edges;
    for (unsigned i = FIXED; i <= PER_RESULT; i++)
        c->given[i].count = t->methods;
    c->workers = t->workers;
    c->scheme = t->scheme;
    for (unsigned i = SETS; i <= METHODS; i++)
        c->lent[i] = (struct list){rows[i], TEXT_ROWS};
    c->lent[SKIPS] = (struct list){cells, TEXT_CELLS};
}

size_t reference_text(const uint8_t *query, size_t length, uint8_t answer[REFERENCE_ANSWER])
{
    struct text t = {0};
    struct call c;
    struct out o = {answer, 0};
    uint64_t numbers[NUMBERS] = {0};

    if (!refuse_text(&t, query, length, numbers)) {
        lend(&c, &t);
        reference_plan(&c, numbers);
    }
    reference_refusal = numbers[REFUSAL];
    if (numbers[REFUSAL] != 0) {
        /* "A refusal is one line: `X`, number, place, with single blanks." */
        put(&o, "X ");
        put_number(&o, numbers[REFUSAL]);
        put(&o, " ");
        put_number(&o, numbers[PLACE]);
        put(&o, "\n");
    } else {
        /* "P: best cost, pairs." */
        put(&o, "P ");
        put_number(&o, numbers[BEST]);
        put(&o, " ");
        put_number(&o, numbers[PAIRS]);
        put(&o, "\n");
        put_joins(&o, &c, full((unsigned)t.tables));
    }
    return o.length;
}
