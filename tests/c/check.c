/*
 * One call of the library held to the reference.
 *
 * What the library is lent lies in a fence: some pages between two that nobody may touch, so that also code that no sanitizer has
 * seen is stopped by the machine when it leaves its buffer. A buffer lies at the fence's end or at its start, in turns; the rest
 * of the fence is marked, and must be as it was. The reference works in exact allocations of its own, under AddressSanitizer.
 */
#define _DEFAULT_SOURCE
#include "check.h"

#include <stdio.h>
#include <stdlib.h>
#include <string.h>
#include <sys/mman.h>

#include "butirampol.h"
#include "harness.h"

#define MARK 0xA5
#define PAGE 4096
/* how much of a fence beside the buffer is looked at */
#define BESIDE 256
#define CELL_MARK UINT64_C(0xA5A5A5A5A5A5A5A5)

uint64_t call_answer[NUMBERS];

struct fence {
    uint8_t *start, *end;  /* what may be touched */
    uint8_t *buffer;
    size_t length;
    bool at_end;
};

/* a fence for at least `bytes` bytes, made anew where the old one is too small */
static void fence_for(struct fence *f, size_t bytes)
{
    size_t pages = (bytes + 2 * BESIDE + PAGE - 1) / PAGE;
    uint8_t *all;

    if (f->start != NULL && (size_t)(f->end - f->start) >= bytes + BESIDE)
        return;
    if (f->start != NULL)
        munmap(f->start - PAGE, (size_t)(f->end - f->start) + 2 * PAGE);
    all = mmap(NULL, (pages + 2) * PAGE, PROT_NONE, MAP_PRIVATE | MAP_ANONYMOUS, -1, 0);
    if (all == MAP_FAILED || mprotect(all + PAGE, pages * PAGE, PROT_READ | PROT_WRITE) != 0) {
        perror("fence");
        exit(2);
    }
    f->start = all + PAGE;
    f->end = f->start + pages * PAGE;
}

/* a buffer of `length` bytes, beside it marks */
static void *lay(struct fence *f, size_t length)
{
    fence_for(f, length);
    f->at_end = !f->at_end;
    f->length = length;
    if (f->at_end) {
        f->buffer = f->end - length;
        memset(f->buffer - BESIDE, MARK, BESIDE);
    } else {
        f->buffer = f->start;
        memset(f->buffer + length, MARK, BESIDE);
    }
    return f->buffer;
}

static bool all_marks(const uint8_t *bytes, size_t length)
{
    for (size_t i = 0; i < length; i++)
        if (bytes[i] != MARK)
            return false;
    return true;
}

static bool beside_kept(const struct fence *f)
{
    return all_marks(f->at_end ? f->buffer - BESIDE : f->buffer + f->length, BESIDE);
}

static void *copy_of(const void *from, size_t length)
{
    void *p = malloc(length);

    if (p == NULL && length > 0) {
        perror("copy");
        exit(2);
    }
    if (length > 0)
        memcpy(p, from, length);
    return p;
}

void show_bytes(const uint8_t *bytes, size_t length)
{
    for (size_t i = 0; i < length; i++)
        if (bytes[i] == '\t')
            printf("\\t");
        else if (bytes[i] == '\n')
            printf("\\n\n");
        else if (bytes[i] < ' ' || bytes[i] > '~' || bytes[i] == '\\')
            printf("\\x%02x", bytes[i]);
        else
            putchar(bytes[i]);
    putchar('\n');
}

/* ---- texts */

bool check_text(const uint8_t *query, size_t length, const uint8_t *answer, size_t answer_length, size_t room)
{
    static struct fence text, buffer;
    uint8_t *lent_text = lay(&text, length), *lent = lay(&buffer, room), *expected;
    size_t wanted = 0, r;
    bool good;

    if (length > 0)
        memcpy(lent_text, query, length);
    memset(lent, MARK, room);
    expected = copy_of(lent, room);
    /* 15 "text entry: the answer is longer than its buffer; nothing is written"; else "writes the lines below from the buffer's start,
       returns only their length (0 exactly with 15), and leaves the bytes after them unchanged" */
    if (answer_length <= room) {
        memcpy(expected, answer, answer_length);
        wanted = answer_length;
    }

    r = plan_text(lent_text, length, lent, room);
    good = r == wanted && (room == 0 || memcmp(lent, expected, room) == 0);
    if (!good) {
        printf("DIFFERENCE in a buffer of %zu bytes: library %zu, reference %zu\ntext of %zu bytes:\n", room, r, wanted, length);
        show_bytes(query, length);
        printf("library's buffer:\n");
        show_bytes(lent, room);
        printf("reference's buffer:\n");
        show_bytes(expected, room);
    }
    if ((length > 0 && memcmp(lent_text, query, length) != 0) || !beside_kept(&text)) {
        printf("DIFFERENCE: the text was written\n");
        show_bytes(query, length);
        good = false;
    }
    if (!beside_kept(&buffer)) {
        printf("DIFFERENCE: bytes beside the buffer of %zu bytes were written\n", room);
        show_bytes(query, length);
        good = false;
    }
    free(expected);
    return good;
}

/* ---- library calls */

static const char *const given_names[GIVEN] = {"rows", "scans", "left", "right", "divisors", "fixed", "per outer", "per inner", "per result", "turns"};
static const char *const lent_names[LENT] = {"sets",  "estimates",   "costs",       "outers",    "methods",
                                             "skips", "log workers", "log driving", "log inner", "log costs"};

static void show_call(const struct call *c, size_t cells)
{
    printf("workers %llu, scheme %llu, %zu cells for the answer\n", (unsigned long long)c->workers, (unsigned long long)c->scheme, cells);
    for (unsigned i = 0; i < GIVEN; i++) {
        printf("%s:", given_names[i]);
        for (size_t j = 0; j < c->given[i].count; j++)
            printf(" %llu", (unsigned long long)c->given[i].cells[j]);
        printf("\n");
    }
    for (unsigned i = 0; i < LENT; i++)
        printf("%s: %zu cells\n", lent_names[i], c->lent[i].count);
}

/* true if two lists are equal; says the first cell that is not */
static bool same(const char *name, const uint64_t *a, const uint64_t *b, size_t count)
{
    if (count == 0 || memcmp(a, b, count * sizeof a[0]) == 0)
        return true;
    for (size_t j = 0; j < count; j++)
        if (a[j] != b[j]) {
            printf("DIFFERENCE in %s, cell %zu: library %llu, reference %llu\n", name, j, (unsigned long long)a[j], (unsigned long long)b[j]);
            break;
        }
    return false;
}

bool check_call(const struct call *c, size_t cells)
{
    static struct fence given[GIVEN], lent[LENT], answers;
    uint64_t *g[GIVEN], *l[LENT], *answer = lay(&answers, cells * sizeof *answer);
    uint64_t *expected_answer;
    struct call expected = *c;
    size_t r, r_wanted = cells < NUMBERS ? 0 : NUMBERS;
    bool good = true;

    for (unsigned i = 0; i < GIVEN; i++) {
        g[i] = lay(&given[i], c->given[i].count * sizeof *g[i]);
        if (c->given[i].count > 0)
            memcpy(g[i], c->given[i].cells, c->given[i].count * sizeof *g[i]);
    }
    for (unsigned i = 0; i < LENT; i++) {
        l[i] = lay(&lent[i], c->lent[i].count * sizeof *l[i]);
        if (c->lent[i].count > 0)
            memcpy(l[i], c->lent[i].cells, c->lent[i].count * sizeof *l[i]);
        expected.lent[i].cells = copy_of(c->lent[i].cells, c->lent[i].count * sizeof *l[i]);
    }
    for (size_t j = 0; j < cells; j++)
        answer[j] = CELL_MARK + j;
    expected_answer = copy_of(answer, cells * sizeof *answer);

    memset(call_answer, 0, sizeof call_answer);
    if (r_wanted != 0) {
        reference_plan(&expected, call_answer);
        memcpy(expected_answer, call_answer, sizeof call_answer);
    }
    r = plan_columns(g[ROWS], c->given[ROWS].count, g[SCANS], c->given[SCANS].count, g[LEFT], c->given[LEFT].count, g[RIGHT], c->given[RIGHT].count,
                     g[DIVISORS], c->given[DIVISORS].count, g[FIXED], c->given[FIXED].count, g[PER_OUTER], c->given[PER_OUTER].count, g[PER_INNER],
                     c->given[PER_INNER].count, g[PER_RESULT], c->given[PER_RESULT].count, c->workers, c->scheme, g[TURNS], c->given[TURNS].count,
                     l[SETS], c->lent[SETS].count, l[ESTIMATES], c->lent[ESTIMATES].count, l[COSTS], c->lent[COSTS].count, l[OUTERS],
                     c->lent[OUTERS].count, l[METHODS], c->lent[METHODS].count, l[SKIPS], c->lent[SKIPS].count, l[LOG_WORKERS],
                     c->lent[LOG_WORKERS].count, l[LOG_DRIVING], c->lent[LOG_DRIVING].count, l[LOG_INNER], c->lent[LOG_INNER].count, l[LOG_COSTS],
                     c->lent[LOG_COSTS].count, answer, cells);

    if (r != r_wanted) {
        printf("DIFFERENCE: library returns %zu, not %zu\n", r, r_wanted);
        good = false;
    }
    good &= same("the answer", answer, expected_answer, cells) && beside_kept(&answers);
    for (unsigned i = 0; i < LENT; i++)
        good &= same(lent_names[i], l[i], expected.lent[i].cells, c->lent[i].count) && beside_kept(&lent[i]);
    for (unsigned i = 0; i < GIVEN; i++)
        good &= same(given_names[i], g[i], c->given[i].cells, c->given[i].count) && beside_kept(&given[i]);
    if (!good) {
        printf("DIFFERENCE in a call:\n");
        show_call(c, cells);
    }
    for (unsigned i = 0; i < LENT; i++)
        free(expected.lent[i].cells);
    free(expected_answer);
    return good;
}
