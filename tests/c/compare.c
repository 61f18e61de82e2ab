/*
 * The library held to the reference: generated texts, good and damaged, and generated library calls, good and refused.
 *
 *     compare [-t TEXTS] [-c CALLS] [-s SEED]
 *
 * Prints how often each refusal was met, and fails at the first difference, or if one of the refusals was never met.
 */
#include <inttypes.h>
#include <stdio.h>
#include <stdlib.h>
#include <string.h>
#include <time.h>

#include "check.h"

#define MOST_TABLES 16
#define MOST_BYTES 16384
/* the longest list that is made, and the longest text */
#define LIST 320
#define TEXT (2 * MOST_BYTES)
#define NEWEST_REFUSAL 25
#define SHORT_BUFFER 15

/* ---- chance */

static uint64_t state;

static uint64_t next(void)
{
    uint64_t z = state += UINT64_C(0x9E3779B97F4A7C15);

    z = (z ^ (z >> 30)) * UINT64_C(0xBF58476D1CE4E5B9);
    z = (z ^ (z >> 27)) * UINT64_C(0x94D049BB133111EB);
    return z ^ (z >> 31);
}

/* 0 to n - 1 */
static uint64_t below(uint64_t n)
{
    return next() % n;
}

static uint64_t between(uint64_t a, uint64_t b)
{
    return a + below(b - a + 1);
}

static bool chance(unsigned percent)
{
    return below(100) < percent;
}

/* one of some values; they draw no numbers themselves, so that a seed gives the same texts by every compiler */
#define ONE_OF(...) ((const uint64_t[]){__VA_ARGS__}[below(sizeof((const uint64_t[]){__VA_ARGS__}) / sizeof(uint64_t))])

/* ---- queries */

struct lists {
    uint64_t cells[GIVEN][LIST];
    size_t count[GIVEN];
    uint64_t workers, scheme;
};

enum style { TINY, EQUAL, ZEROS, LIMITS, MEDIUM, WIDE, CUT, STYLES };

/* a number up to `most`, as the style has it */
static uint64_t value(enum style style, uint64_t least, uint64_t most)
{
    switch (style) {
    case TINY:
        return between(least, least + 3 < most ? least + 3 : most);
    case EQUAL:
        return most < 10 ? most : 10;
    case ZEROS:
        return chance(80) ? least : between(least, least + 1);
    case LIMITS:
        return ONE_OF(least, least + 1, most - 1, most);
    case MEDIUM:
        return between(least, most < 1000 ? most : 1000);
    case CUT:
        return chance(80) ? most - below(3) : between(least, most);
    default: {
        unsigned by = chance(50) ? 0 : (unsigned)below(30);

        return least + (between(0, most - least) >> by);
    }
    }
}

static void add_edge(struct lists *q, uint64_t a, uint64_t b, uint64_t divisor)
{
    size_t i = q->count[LEFT];

    if (i == LIST)
        return;
    q->cells[LEFT][i] = a;
    q->cells[RIGHT][i] = b;
    q->cells[DIVISORS][i] = divisor;
    q->count[LEFT] = q->count[RIGHT] = q->count[DIVISORS] = i + 1;
}

static bool has_edge(const struct lists *q, uint64_t a, uint64_t b)
{
    for (size_t i = 0; i < q->count[LEFT]; i++)
        if ((q->cells[LEFT][i] == a && q->cells[RIGHT][i] == b) || (q->cells[LEFT][i] == b && q->cells[RIGHT][i] == a))
            return true;
    return false;
}

static void swap(uint64_t *a, uint64_t *b)
{
    uint64_t c = *a;

    *a = *b;
    *b = c;
}

/* chain, cycle, star, clique, tree, tree with some more edges, any graph over a chain */
static void add_edges(struct lists *q, unsigned n, enum style style, unsigned shape)
{
    enum style divisors = style == CUT ? (chance(70) ? ZEROS : WIDE) : style;
    unsigned more = shape == 5 ? (unsigned)between(1, 4) : shape == 6 ? (unsigned)between(0, n * n / 2) : 0;

    for (unsigned t = 2; t <= n; t++) {
        unsigned to = shape == 2 ? 1 : shape == 4 || shape == 5 ? (unsigned)between(1, t - 1) : t - 1;

        add_edge(q, to, t, value(divisors, 1, 1000000));
        if (shape == 3)
            for (unsigned u = 1; u < t - 1; u++)
                add_edge(q, u, t, value(divisors, 1, 1000000));
    }
    if (shape == 1 && n > 2)
        add_edge(q, n, 1, value(divisors, 1, 1000000));
    for (; n > 2 && more > 0; more--) {
        uint64_t a = between(1, n), b = between(1, n);

        if (a != b && !has_edge(q, a, b))
            add_edge(q, a, b, value(divisors, 1, 1000000));
    }
}

/* other numbers for the tables, other ways round, another order of the edges */
static void stir(struct lists *q, unsigned n)
{
    uint64_t name[MOST_TABLES + 1];
    size_t edges = q->count[LEFT];

    for (unsigned t = 1; t <= n; t++)
        name[t] = t;
    for (unsigned t = n; t > 1; t--)
        swap(&name[t], &name[between(1, t)]);
    for (size_t i = 0; i < edges; i++) {
        q->cells[LEFT][i] = name[q->cells[LEFT][i]];
        q->cells[RIGHT][i] = name[q->cells[RIGHT][i]];
        if (chance(50))
            swap(&q->cells[LEFT][i], &q->cells[RIGHT][i]);
    }
    for (size_t i = edges; i > 1; i--) {
        size_t j = below(i);

        for (unsigned k = LEFT; k <= DIVISORS; k++)
            swap(&q->cells[k][i - 1], &q->cells[k][j]);
    }
}

static void add_table(struct lists *q, enum style style)
{
    size_t i = q->count[ROWS]++;

    q->count[SCANS] = i + 1;
    q->cells[ROWS][i] = value(style, 0, 1000000);
    q->cells[SCANS][i] = value(style == CUT ? WIDE : style, 0, 1000000000);
}

static void add_method(struct lists *q, enum style style)
{
    size_t i = q->count[FIXED]++;

    q->count[PER_OUTER] = q->count[PER_INNER] = q->count[PER_RESULT] = i + 1;
    q->cells[FIXED][i] = value(style, 0, 1000000000);
    for (unsigned k = PER_OUTER; k <= PER_RESULT; k++)
        q->cells[k][i] = value(style, 0, chance(50) ? 5 : 1000);
}

/* a query that no check refuses, but for its size */
static void make_query(struct lists *q)
{
    enum style style = (enum style)below(STYLES);
    unsigned much = (unsigned)below(1000), shape = (unsigned)below(7);
    unsigned n = (unsigned)(much < 600 ? between(1, 5) : much < 930 ? between(5, 7) : much < 996 ? between(8, 9) : between(10, MOST_TABLES));

    memset(q->count, 0, sizeof q->count);
    if (n > 12 && chance(60))
        shape = (unsigned)below(2);
    for (unsigned t = 1; t <= n; t++)
        add_table(q, style);
    for (uint64_t m = between(1, 4); m > 0; m--)
        add_method(q, chance(20) ? TINY : style);
    add_edges(q, n, style, shape);
    if (chance(70))
        stir(q, n);
    q->workers = between(1, 8);
    q->scheme = between(1, 4);
}

/* puts a number over its limit somewhere, or one that no other fits; `wild`: such as no text can hold */
static void spoil(struct lists *q, bool wild)
{
    uint64_t far = wild ? ONE_OF(UINT64_MAX, UINT64_MAX - 1, UINT64_C(1) << 63, UINT64_C(1) << 32) : 1000000000;
    size_t n = q->count[ROWS], edges = q->count[LEFT], methods = q->count[FIXED];
    unsigned end = (unsigned)between(LEFT, RIGHT), coefficient = (unsigned)between(PER_OUTER, PER_RESULT);
    size_t t = n > 0 ? below(n) : 0, e = edges > 0 ? below(edges) : 0, m = methods > 0 ? below(methods) : 0;

    switch (below(16)) {
    case 0:
        q->cells[ROWS][t] = ONE_OF(1000001, far, 1000000);
        break;
    case 1:
        q->cells[SCANS][t] = wild ? ONE_OF(1000000001, far) : ONE_OF(1000000000, 1000000001);
        break;
    case 2:
        q->cells[FIXED][m] = wild ? ONE_OF(1000000001, far) : ONE_OF(1000000000, 1000000001);
        break;
    case 3:
        q->cells[coefficient][m] = ONE_OF(1001, far, 1000);
        break;
    case 4:
        q->cells[end][e] = ONE_OF(0, n + 1, 17, far);
        break;
    case 5:
        q->cells[LEFT][e] = q->cells[RIGHT][e];
        break;
    case 6:
        q->cells[DIVISORS][e] = ONE_OF(0, 1000001, far, 1000000);
        break;
    case 7: /* a pair once more, somewhere */
        if (edges > 0) {
            size_t to = below(edges);

            add_edge(q, q->cells[end][e], 0, 1);
            q->cells[RIGHT][edges] = q->cells[LEFT][e] + q->cells[RIGHT][e] - q->cells[LEFT][edges];
            if (q->count[LEFT] > edges)
                for (unsigned k = LEFT; k <= DIVISORS; k++)
                    swap(&q->cells[k][edges], &q->cells[k][to]);
        }
        break;
    case 8:
    case 9: /* edges taken away */
        for (uint64_t less = between(1, 3); less > 0 && q->count[LEFT] > 0; less--) {
            size_t last = q->count[LEFT] - 1, at = below(last + 1);

            for (unsigned k = LEFT; k <= DIVISORS; k++) {
                q->cells[k][at] = q->cells[k][last];
                q->count[k] = last;
            }
        }
        break;
    case 10:
        q->workers = ONE_OF(0, 9, far);
        break;
    case 11:
        q->scheme = ONE_OF(0, 5, far);
        break;
    case 12:
        for (unsigned k = ROWS; k <= SCANS; k++)
            q->count[k] = 0;
        break;
    case 13:
        for (uint64_t more = chance(70) ? MOST_TABLES + 1 : 40; q->count[ROWS] < more;)
            add_table(q, TINY);
        break;
    case 14:
        for (unsigned k = FIXED; k <= PER_RESULT; k++)
            q->count[k] = 0;
        break;
    default:
        for (uint64_t more = chance(70) ? 5 : 30; q->count[FIXED] < more;)
            add_method(q, TINY);
    }
}

/* ---- texts */

struct text {
    uint8_t bytes[TEXT];
    size_t length;
};

static void put_line(struct text *t, char letter, const uint64_t *values, unsigned count)
{
    char line[128];
    int n = snprintf(line, sizeof line, "%c", letter);

    for (unsigned i = 0; i < count; i++)
        n += snprintf(line + n, sizeof line - (size_t)n, "\t%" PRIu64, values[i]);
    line[n++] = '\n';
    if (t->length + (size_t)n <= TEXT) {
        memcpy(t->bytes + t->length, line, (size_t)n);
        t->length += (size_t)n;
    }
}

static void write_text(struct text *t, const struct lists *q)
{
    t->length = 0;
    for (size_t i = 0; i < q->count[ROWS]; i++)
        put_line(t, 'T', (const uint64_t[]){i + 1, q->cells[ROWS][i], q->cells[SCANS][i]}, 3);
    for (size_t i = 0; i < q->count[FIXED]; i++)
        put_line(t, 'M', (const uint64_t[]){q->cells[FIXED][i], q->cells[PER_OUTER][i], q->cells[PER_INNER][i], q->cells[PER_RESULT][i]}, 4);
    for (size_t i = 0; i < q->count[LEFT]; i++)
        put_line(t, 'E', (const uint64_t[]){q->cells[LEFT][i], q->cells[RIGHT][i], q->cells[DIVISORS][i]}, 3);
    put_line(t, 'W', (const uint64_t[]){q->workers, q->scheme}, 2);
}

/* bytes [at, at + gone) give way to others */
static void splice(struct text *t, size_t at, size_t gone, const void *come, size_t length)
{
    static uint8_t bytes[TEXT];

    if (t->length - gone + length > TEXT)
        return;
    if (length > 0)
        memcpy(bytes, come, length);
    memmove(t->bytes + at + length, t->bytes + at + gone, t->length - at - gone);
    if (length > 0)
        memcpy(t->bytes + at, bytes, length);
    t->length = t->length - gone + length;
}

static void insert(struct text *t, size_t at, const char *s)
{
    splice(t, at, 0, s, strlen(s));
}

/* the line that holds byte `at`: its start, and its length with the LF */
static size_t line_start(const struct text *t, size_t at)
{
    while (at > 0 && t->bytes[at - 1] != '\n')
        at--;
    return at;
}

static size_t line_length(const struct text *t, size_t start)
{
    size_t i = start;

    while (i < t->length && t->bytes[i] != '\n')
        i++;
    return i < t->length ? i + 1 - start : i - start;
}

/* somewhere, mostly at a byte of this kind */
static size_t somewhere(const struct text *t, const char *kind)
{
    size_t at = below(t->length + 1);

    for (size_t i = 0; i < t->length; i++)
        if (at + i < t->length && strchr(kind, t->bytes[at + i]) != NULL && t->bytes[at + i] != 0)
            return at + i;
    return at;
}

/* until the text has `length` bytes: empty lines, one long number, or any bytes and an LF */
static void pad(struct text *t, size_t length)
{
    unsigned kind = (unsigned)below(3);

    while (t->length < length)
        t->bytes[t->length++] = kind == 0 ? '\n' : kind == 1 ? '7' : (uint8_t)below(256);
    if (t->length > 0 && chance(90))
        t->bytes[t->length - 1] = '\n';
}

static void damage(struct text *t)
{
    static const char often[] = "\t\n\r 0123456789TMEWXQ,-+.";
    size_t at = below(t->length + 1), line = line_start(t, at), length = line_length(t, line);
    size_t other = line_start(t, below(t->length + 1));
    uint8_t byte;

    switch (below(22)) {
    case 0: /* another byte */
        if (at < t->length)
            t->bytes[at] = (uint8_t)below(256);
        break;
    case 1:
    case 2: /* another byte of those that texts have */
        if (at < t->length)
            t->bytes[at] = (uint8_t)often[below(sizeof often - 1)];
        break;
    case 3: /* one bit */
        if (at < t->length)
            t->bytes[at] ^= (uint8_t)(1u << below(8));
        break;
    case 4: /* a byte more */
        byte = (uint8_t)often[below(sizeof often - 1)];
        splice(t, at, 0, &byte, 1);
        break;
    case 5: /* a byte less */
        if (at < t->length)
            splice(t, at, 1, NULL, 0);
        break;
    case 6: /* a line twice, elsewhere too */
        splice(t, chance(50) ? line : other, 0, t->bytes + line, length);
        break;
    case 7: /* a line less */
        splice(t, line, length, NULL, 0);
        break;
    case 8: /* a line to another place */
        if (other + line_length(t, other) <= line && t->length + length <= TEXT) {
            splice(t, other, 0, t->bytes + line, length);
            splice(t, line + length, length, NULL, 0);
        }
        break;
    case 9: /* two tabs for one, or one too many */
        insert(t, chance(70) ? somewhere(t, "\t") : at, "\t");
        break;
    case 10: /* a blank for a tab */
        at = somewhere(t, "\t");
        if (at < t->length)
            t->bytes[at] = ' ';
        break;
    case 11:
        insert(t, somewhere(t, "\n"), "\r");
        break;
    case 12: /* a zero byte */
        byte = 0;
        splice(t, chance(50) ? somewhere(t, "\t\n") : at, 0, &byte, 1);
        break;
    case 13: /* leading zeros, long numbers */
        at = somewhere(t, "\t");
        if (at < t->length)
            insert(t, at + 1, (const char *[]){"0", "00", "1000000000", "9999999999", "10000000000", "1", "+", "-"}[below(8)]);
        break;
    case 14: /* a number for a number */
        at = somewhere(t, "\t");
        if (at < t->length) {
            size_t end = at + 1;

            while (end < t->length && t->bytes[end] != '\t' && t->bytes[end] != '\n')
                end++;
            splice(t, at + 1, end - at - 1, NULL, 0);
            insert(t, at + 1, (const char *[]){"0", "1", "2", "17", "1000000000", "1000000001", "9999999999", "00000000001", "0000000000", "", "a", "1a"}[below(12)]);
        }
        break;
    case 15: /* another letter */
        if (line < t->length)
            t->bytes[line] = (uint8_t)"TMEWtmewXPJQ"[below(12)];
        break;
    case 16: /* lines more, before or behind */
        if (chance(50))
            line = t->length;
        insert(t, line, (const char *[]){"W\t1\t1\n", "T\t1\t1\t1\n", "M\t1\t1\t1\t1\n", "E\t1\t2\t1\n", "\n", "T\n", "W\t1\t1\t1\n", "X\n"}[below(8)]);
        break;
    case 17: /* no last LF, or bytes behind it */
        if (chance(50) && t->length > 0)
            t->length--;
        else
            insert(t, t->length, "W");
        break;
    case 18: /* cut off */
        t->length = chance(50) ? line : at;
        break;
    case 19: /* a piece from elsewhere */
        splice(t, at, 0, t->bytes + other, below(t->length - other + 1) % 20);
        break;
    case 20: /* two lines in one */
        at = somewhere(t, "\n");
        if (at < t->length)
            t->bytes[at] = '\t';
        break;
    default: /* as long as a text may be, and longer */
        if (chance(15))
            pad(t, between(MOST_BYTES - 2, MOST_BYTES + 2));
        break;
    }
}

/* so many lines of a kind that the next is one too many, or the last that may be */
static void crowd(struct text *t, struct lists *q)
{
    struct lists *p = q;
    unsigned kind = (unsigned)below(3);

    if (kind == 0) {
        while (p->count[ROWS] < MOST_TABLES + below(2))
            add_table(p, TINY);
    } else if (kind == 1) {
        for (uint64_t to = between(4, 5); p->count[FIXED] < to;)
            add_method(p, TINY);
    } else {
        uint64_t to = between(119, 122);

        while (p->count[ROWS] < MOST_TABLES)
            add_table(p, TINY);
        for (unsigned a = 1; a <= MOST_TABLES; a++)
            for (unsigned b = 1; b < a; b++)
                if (!has_edge(p, a, b) && p->count[LEFT] < to)
                    add_edge(p, a, b, between(1, 5));
        while (p->count[LEFT] < to)
            add_edge(p, 1, between(1, 16), 1);
    }
    write_text(t, p);
}

/* a query that nearly fills the text entry's rows or cells, or is just too large for them */
static void fill(struct lists *q)
{
    bool clique = chance(20); /* of ten: 1,023 rows and 5,120 cells */

    for (unsigned tries = 0; tries < 10; tries++) {
        struct call c = {.workers = 1, .scheme = 1};
        unsigned n = clique ? 10 : (unsigned)between(10, 13), shape = clique ? 3 : (unsigned)between(4, 5);
        size_t rows, cells;

        memset(q->count, 0, sizeof q->count);
        for (unsigned t = 1; t <= n; t++)
            add_table(q, TINY);
        add_method(q, MEDIUM);
        add_edges(q, n, MEDIUM, shape);
        stir(q, n);
        for (unsigned k = 0; k < GIVEN; k++)
            c.given[k] = (struct list){q->cells[k], q->count[k]};
        if (reference_sizes(&c, &rows, &cells) && rows > 700 && rows < 1150 && cells > 4700)
            return;
    }
}

static void make_text(struct text *t)
{
    static struct lists q;
    unsigned kind = (unsigned)below(1000);

    make_query(&q);
    if (kind < 200) /* spoiled in its numbers */
        for (uint64_t times = between(1, 2); times > 0; times--)
            spoil(&q, false);
    if (kind == 564)
        fill(&q);
    write_text(t, &q);
    if (kind >= 180 && kind < 560) /* damaged in its bytes */
        for (uint64_t times = chance(60) ? 1 : between(2, 5); times > 0; times--)
            damage(t);
    if (kind >= 560 && kind < 562)
        crowd(t, &q);
    if (kind == 562) {
        t->length = 0;
        pad(t, below(200));
    }
    if (kind == 563)
        pad(t, between(MOST_BYTES - 2, MOST_BYTES + 2));
}

/* ---- what was met */

static uint64_t text_counts[NEWEST_REFUSAL + 1], call_counts[NEWEST_REFUSAL + 1];
static uint64_t pairs_met;

/* two buffers for each text: one that its answer fits, and one that is likely too short */
static bool try_text(const struct text *t)
{
    uint8_t answer[REFERENCE_ANSWER];
    size_t length = reference_text(t->bytes, t->length, answer);
    size_t wide = length + ONE_OF(0, 0, 1, 2, 8, 100, REFERENCE_ANSWER - length), any = below(length);
    size_t narrow = ONE_OF(0, 1, length / 2, length - 1, length - 1, any);

    text_counts[reference_refusal]++;
    text_counts[SHORT_BUFFER]++;
    return check_text(t->bytes, t->length, answer, length, wide) && check_text(t->bytes, t->length, answer, length, narrow);
}

/* ---- library calls */

/* `count` cells of one lent list, each with a mark of its own */
static void lend(struct call *c, unsigned list, size_t count)
{
    static uint64_t *rooms[LENT];
    static size_t room[LENT];

    if (room[list] < count + 1) {
        free(rooms[list]);
        room[list] = 2 * count + 1;
        rooms[list] = malloc(room[list] * sizeof(uint64_t));
        if (rooms[list] == NULL)
            exit(2);
    }
    for (size_t i = 0; i < count; i++)
        rooms[list][i] = next();
    c->lent[list] = (struct list){rooms[list], count};
}

static void lend_log(struct call *c, size_t count)
{
    for (unsigned k = LOG_WORKERS; k <= LOG_COSTS; k++)
        lend(c, k, count);
}

/* a list of turns: none, any, one worker alone, or each in turn; short, or longer than there are pairs */
static void make_turns(struct call *c, size_t pairs)
{
    static uint64_t turns[1 << 16];
    uint64_t m = c->workers >= 1 && c->workers <= 8 ? c->workers : 8, one = below(m);
    unsigned kind = (unsigned)below(4);
    size_t count = chance(20) ? 0 : chance(50) ? below(12) : below(2 * pairs + 20);

    if (count > sizeof turns / sizeof turns[0])
        count = sizeof turns / sizeof turns[0];
    for (size_t i = 0; i < count; i++)
        turns[i] = kind == 0 ? one : kind == 1 ? i % m : kind == 2 ? below(one + 1) : below(m);
    if (count > 0 && chance(8)) {
        size_t at = below(count);

        turns[at] = ONE_OF(m, m + 1, 8, UINT64_MAX);
    }
    c->given[TURNS] = (struct list){turns, count};
}

static size_t around(size_t needed)
{
    size_t more = (size_t)ONE_OF(0, 0, 0, 1, 2, 50), any = below(needed + 1);

    return chance(8) && needed > 0 ? needed - (size_t)ONE_OF(1, 1, needed, any) : needed + more;
}

/* one list a cell shorter or longer than those beside it */
static void tilt(struct call *c)
{
    unsigned list = (unsigned)below(GIVEN - 1 + LENT);
    struct list *l = list < GIVEN - 1 ? &c->given[list] : &c->lent[list - (GIVEN - 1)];

    if (list < GIVEN - 1) {
        if (l->count > 0 && chance(60))
            l->count--;
        else if (l->count < LIST)
            l->count++;
    } else {
        lend(c, list - (GIVEN - 1), l->count > 0 && chance(60) ? l->count - 1 : l->count + 1);
    }
}

static bool try_call(const struct call *c)
{
    size_t cells = chance(95) ? NUMBERS : ONE_OF(0, 1, NUMBERS - 1, NUMBERS + 1, NUMBERS + 6);
    bool good = check_call(c, cells);

    if (cells >= NUMBERS)
        call_counts[call_answer[REFUSAL]]++;
    else
        call_counts[SHORT_BUFFER]++;
    if (cells >= NUMBERS && call_answer[REFUSAL] == 0)
        pairs_met += call_answer[PAIRS];
    return good;
}

/* some calls over one query: other crews, turns and rooms; how many calls were made */
static bool try_query(uint64_t *calls, uint64_t most)
{
    static struct lists q;
    struct call c = {0};
    size_t rows = 0, cells = 0, pairs = 40;
    unsigned kind = (unsigned)below(100);

    make_query(&q);
    if (kind < 15)
        for (uint64_t times = between(1, 2); times > 0; times--)
            spoil(&q, chance(50));
    for (unsigned k = 0; k < GIVEN; k++)
        c.given[k] = (struct list){q.cells[k], q.count[k]};
    c.workers = q.workers >= 1 && q.workers <= 8 ? q.workers : 1;
    c.scheme = q.scheme >= 1 && q.scheme <= 4 ? q.scheme : 1;
    for (unsigned k = 0; k < LENT; k++)
        lend(&c, k, 0);
    if (!reference_sizes(&c, &rows, &cells) || rows > 1500) {
        rows = below(20);
        cells = below(20);
    }
    c.workers = q.workers;
    c.scheme = q.scheme;
    for (unsigned times = 0; times < 4 && *calls < most; times++, ++*calls) {
        size_t count = around(rows);

        for (unsigned k = SETS; k <= METHODS; k++)
            lend(&c, k, count);
        lend(&c, SKIPS, around(cells));
        lend_log(&c, chance(25) ? 0 : chance(60) ? (size_t)ONE_OF(pairs, pairs + 1, pairs + 30, pairs > 0 ? pairs - 1 : 0) : below(2 * pairs + 3));
        make_turns(&c, pairs);
        if (chance(3)) {
            struct call tilted = c;

            tilt(&tilted);
            if (!try_call(&tilted))
                return false;
            continue;
        }
        if (!try_call(&c))
            return false;
        if (call_answer[REFUSAL] == 0 && call_answer[ROW_COUNT] > 0)
            pairs = call_answer[PAIRS];
        if (kind >= 15) {
            c.workers = between(1, 8);
            c.scheme = between(1, 4);
        }
    }
    return true;
}

/* ---- the run */

static void print_counts(const char *what, uint64_t all, const uint64_t *counts)
{
    printf("%" PRIu64 " %s: %" PRIu64 " planned; refused", all, what, counts[0]);
    for (unsigned i = 1; i <= NEWEST_REFUSAL; i++)
        if (counts[i] > 0)
            printf(" %u:%" PRIu64, i, counts[i]);
    printf("\n");
}

static bool all_met(void)
{
    bool met = true;

    for (unsigned i = 1; i <= NEWEST_REFUSAL; i++)
        if ((i <= SHORT_BUFFER || i > 20) && text_counts[i] + call_counts[i] == 0) {
            printf("refusal %u was never met\n", i);
            met = false;
        }
    return met;
}

int main(int argc, char **argv)
{
    static struct text text;
    uint64_t texts = 1000, calls = 1000, seed = 1, done = 0;
    clock_t start = clock();

    for (int i = 1; i + 1 < argc; i += 2) {
        uint64_t n = strtoull(argv[i + 1], NULL, 10);

        if (strcmp(argv[i], "-t") == 0)
            texts = n;
        else if (strcmp(argv[i], "-c") == 0)
            calls = n;
        else if (strcmp(argv[i], "-s") == 0)
            seed = n;
    }
    state = seed;
    for (uint64_t i = 0; i < texts; i++) {
        make_text(&text);
        if (!try_text(&text)) {
            printf("text %" PRIu64 " of seed %" PRIu64 "\n", i, seed);
            return 1;
        }
    }
    print_counts("texts", texts, text_counts);
    printf("in %.0f s, seed %" PRIu64 "; 15 counts buffers too short, one for each text\n", (double)(clock() - start) / CLOCKS_PER_SEC, seed);
    while (done < calls)
        if (!try_query(&done, calls)) {
            printf("call %" PRIu64 " of seed %" PRIu64 "\n", done, seed);
            return 1;
        }
    print_counts("library calls", calls, call_counts);
    printf("%" PRIu64 " pairs handed; 15 counts answers too short; in all %.0f s\n", pairs_met, (double)(clock() - start) / CLOCKS_PER_SEC);
    if (!all_met())
        return 1;
    printf("0 differences\n");
    return 0;
}
