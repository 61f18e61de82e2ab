#include "native.h"

#include <stdlib.h>
#include <string.h>

#define CAP 1000000000000u

/* What the graph gives to every set: neighbours, and the divisor between two tables, 0 for none. */
static uint32_t neighbours[MAX_TABLES];
static uint64_t divisor[MAX_TABLES][MAX_TABLES];

static uint32_t lowest(uint32_t set)
{
    return (uint32_t)__builtin_ctz(set);
}

static uint32_t near_to(uint32_t set)
{
    uint32_t near = 0;

    for (uint32_t rest = set; rest != 0; rest &= rest - 1)
        near |= neighbours[lowest(rest)];
    return near & ~set;
}

static void read_graph(const query *q)
{
    memset(neighbours, 0, sizeof neighbours);
    memset(divisor, 0, sizeof divisor);
    for (int e = 0; e < q->edges; e++) {
        uint32_t a = (uint32_t)q->left[e] - 1, b = (uint32_t)q->right[e] - 1;

        neighbours[a] |= 1u << b;
        neighbours[b] |= 1u << a;
        divisor[a][b] = divisor[b][a] = q->divisors[e];
    }
}

/* ---- connected sets, by growing along neighbours (each once) */
static uint32_t found[MAX_SETS], found_count;

static void grow(uint32_t set, uint32_t near, uint32_t barred)
{
    uint32_t fringe = near & ~barred;

    for (uint32_t part = (0u - fringe) & fringe; part != 0; part = (part - fringe) & fringe)
        found[found_count++] = set | part;
    for (uint32_t part = (0u - fringe) & fringe; part != 0; part = (part - fringe) & fringe)
        grow(set | part, near_to(set | part), barred | fringe);
}

static void find_sets(int tables)
{
    found_count = 0;
    for (int t = tables - 1; t >= 0; t--) {
        uint32_t barred = (2u << t) - 1;

        found[found_count++] = 1u << t;
        grow(1u << t, neighbours[t], barred);
    }
}

/* ---- estimates: a fold over ascending tables, so that a set's is one step from that of the set without its highest table */
static uint64_t known[MAX_SETS];
static uint32_t stamp[MAX_SETS], run;

static uint64_t estimate(const query *q, uint32_t set)
{
    uint32_t t, lower;
    uint64_t value;

    if (set == 0)
        return 1;
    if (stamp[set] == run)
        return known[set];
    t = 31 - (uint32_t)__builtin_clz(set);
    lower = set & ~(1u << t);
    value = estimate(q, lower) * (q->rows[t] == 0 ? 1 : q->rows[t]);
    for (uint32_t rest = lower & neighbours[t]; rest != 0; rest &= rest - 1) {
        value /= divisor[t][lowest(rest)];
        if (value == 0)
            value = 1;
    }
    if (value > CAP)
        value = CAP;
    stamp[set] = run;
    return known[set] = value;
}

/* ---- memo order: by size, then by the ascending sequence of tables, which is falling order of the bits read backwards */
static uint32_t backwards(uint32_t set)
{
    set = ((set & 0x5555) << 1) | ((set >> 1) & 0x5555);
    set = ((set & 0x3333) << 2) | ((set >> 2) & 0x3333);
    set = ((set & 0x0F0F) << 4) | ((set >> 4) & 0x0F0F);
    return ((set & 0x00FF) << 8) | (set >> 8);
}

static int falling(const void *a, const void *b)
{
    uint32_t x = *(const uint32_t *)a, y = *(const uint32_t *)b;

    return x < y ? 1 : x > y ? -1 : 0;
}

static uint32_t keys[MAX_SETS];
static uint8_t is_found[MAX_SETS];

/* few sets are sorted, many are met by going through all of them */
static void in_order(int tables)
{
    uint32_t all = 1u << tables, n = 0;

    if (found_count * 8 < all) {
        for (uint32_t i = 0; i < found_count; i++)
            keys[i] = backwards(found[i]);
        qsort(keys, found_count, sizeof keys[0], falling);
        return;
    }
    memset(is_found, 0, all);
    for (uint32_t i = 0; i < found_count; i++)
        is_found[found[i]] = 1;
    for (uint32_t k = all; k-- > 0;) {
        uint32_t key = k << (16 - tables);

        if (is_found[backwards(key)])
            keys[n++] = key;
    }
}

static void lay_skips(memo *m, int tables)
{
    uint32_t cells = 0;

    for (uint32_t r = 0; r < m->count; r++) {
        m->cell[r] = cells;
        cells += (uint32_t)__builtin_popcount(m->sets[r]);
    }
    for (int size = 1; size <= tables; size++) {
        uint32_t lacks[MAX_TABLES];

        for (int t = 0; t < tables; t++)
            lacks[t] = m->first[size + 1];
        for (uint32_t r = m->first[size + 1]; r-- > m->first[size];) {
            uint32_t *cell = m->skips + m->cell[r];

            for (uint32_t rest = m->sets[r]; rest != 0; rest &= rest - 1)
                *cell++ = lacks[lowest(rest)];
            for (uint32_t rest = ~m->sets[r] & ((1u << tables) - 1); rest != 0; rest &= rest - 1)
                lacks[lowest(rest)] = r;
        }
    }
}

void lay_out(const query *q, memo *m)
{
    uint32_t at[MAX_TABLES + 2] = {0};

    run++;
    read_graph(q);
    find_sets(q->tables);
    in_order(q->tables);
    for (uint32_t i = 0; i < found_count; i++)
        at[__builtin_popcount(keys[i]) + 1]++;
    for (int size = 1; size <= q->tables + 1; size++)
        m->first[size] = at[size] += at[size - 1];
    m->count = found_count;
    for (uint32_t i = 0; i < found_count; i++) {
        uint32_t set = backwards(keys[i]), r = at[__builtin_popcount(set)]++;

        m->sets[r] = set;
        m->row_of[set] = r;
        m->estimates[r] = estimate(q, set);
        m->near[r] = near_to(set);
        m->costs[r] = set & (set - 1) ? UINT64_MAX : q->scans[lowest(set)];
        m->outers[r] = m->methods[r] = 0;
    }
    lay_skips(m, q->tables);
}

/* ---- a pair's result: both outer choices, all methods; ties by outer set, then by method */
static void offer(const query *q, memo *m, uint32_t outer, uint32_t inner, uint32_t r)
{
    uint64_t base = m->costs[outer] + m->costs[inner];

    for (int k = 0; k < q->methods; k++) {
        uint64_t cost = base + q->fixed[k] + q->per_outer[k] * m->estimates[outer] + q->per_inner[k] * m->estimates[inner]
                        + q->per_result[k] * m->estimates[r];

        if (cost < m->costs[r] || (cost == m->costs[r] && m->sets[outer] < m->outers[r])) {
            m->costs[r] = cost;
            m->outers[r] = m->sets[outer];
            m->methods[r] = (uint32_t)k + 1;
        }
    }
}

static void price(const query *q, memo *m, uint32_t i, uint32_t j)
{
    uint32_t r = m->row_of[m->sets[i] | m->sets[j]];

    offer(q, m, i, j, r);
    offer(q, m, j, i, r);
}

/* ---- size-driven, every pair tested */
static uint64_t filter_sizes(const query *q, memo *m, int a, int b)
{
    uint64_t pairs = 0;

    for (uint32_t i = m->first[a]; i < m->first[a + 1]; i++)
        for (uint32_t j = a == b ? i + 1 : m->first[b]; j < m->first[b + 1]; j++)
            if ((m->sets[i] & m->sets[j]) == 0 && (m->near[i] & m->sets[j]) != 0) {
                pairs++;
                price(q, m, i, j);
            }
    return pairs;
}

uint64_t filter_pairs(const query *q, memo *m)
{
    uint64_t pairs = 0;

    for (int size = 2; size <= q->tables; size++)
        for (int a = 1; a <= size / 2; a++)
            pairs += filter_sizes(q, m, a, size - a);
    return pairs;
}

/* ---- with skip vectors: an overlap is left by the skip value of the lowest shared table */
static uint64_t skip_sizes(const query *q, memo *m, int a, int b)
{
    uint64_t pairs = 0;

    for (uint32_t i = m->first[a]; i < m->first[a + 1]; i++) {
        uint32_t set = m->sets[i], near = m->near[i], j = a == b ? i + 1 : m->first[b];

        while (j < m->first[b + 1]) {
            uint32_t shared = set & m->sets[j];

            if (shared != 0) {
                uint32_t below = (shared & (0u - shared)) - 1;

                j = m->skips[m->cell[j] + (uint32_t)__builtin_popcount(m->sets[j] & below)];
                continue;
            }
            if ((near & m->sets[j]) != 0) {
                pairs++;
                price(q, m, i, j);
            }
            j++;
        }
    }
    return pairs;
}

uint64_t skip_pairs(const query *q, memo *m)
{
    uint64_t pairs = 0;

    for (int size = 2; size <= q->tables; size++)
        for (int a = 1; a <= size / 2; a++)
            pairs += skip_sizes(q, m, a, size - a);
    return pairs;
}

/* ---- connected subgraphs and connected complements (Moerkotte and Neumann) */
static uint64_t ccp_count;

static void complements_of(const query *q, memo *m, uint32_t i, uint32_t set, uint32_t near, uint32_t barred)
{
    uint32_t fringe = near & ~barred;

    for (uint32_t part = (0u - fringe) & fringe; part != 0; part = (part - fringe) & fringe) {
        ccp_count++;
        price(q, m, i, m->row_of[set | part]);
    }
    for (uint32_t part = (0u - fringe) & fringe; part != 0; part = (part - fringe) & fringe)
        complements_of(q, m, i, set | part, near_to(set | part), barred | fringe);
}

static void with_complements(const query *q, memo *m, uint32_t set)
{
    uint32_t i = m->row_of[set], barred = set | ((set & (0u - set)) - 1), fringe = m->near[i] & ~barred;

    for (uint32_t rest = fringe; rest != 0;) {
        uint32_t t = 31 - (uint32_t)__builtin_clz(rest), bit = 1u << t;

        ccp_count++;
        price(q, m, i, m->row_of[bit]);
        complements_of(q, m, i, bit, neighbours[t], barred | (((bit << 1) - 1) & fringe) | bit);
        rest &= ~bit;
    }
}

static void csg_of(const query *q, memo *m, uint32_t set, uint32_t near, uint32_t barred)
{
    uint32_t fringe = near & ~barred;

    for (uint32_t part = (0u - fringe) & fringe; part != 0; part = (part - fringe) & fringe)
        with_complements(q, m, set | part);
    for (uint32_t part = (0u - fringe) & fringe; part != 0; part = (part - fringe) & fringe)
        csg_of(q, m, set | part, near_to(set | part), barred | fringe);
}

uint64_t ccp_pairs(const query *q, memo *m)
{
    ccp_count = 0;
    for (int t = q->tables - 1; t >= 0; t--) {
        uint32_t barred = (2u << t) - 1;

        with_complements(q, m, 1u << t);
        csg_of(q, m, 1u << t, neighbours[t], barred);
    }
    return ccp_count;
}
