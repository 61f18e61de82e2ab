/* Butirampol: join orders for queries of up to sixteen tables, proved. */
#ifndef BUTIRAMPOL_H
#define BUTIRAMPOL_H

#include <stddef.h>
#include <stdint.h>

#ifdef __cplusplus
extern "C" {
#endif

/* No answer is longer than this, so a buffer of this many bytes always suffices. */
#define BUTIRAMPOL_ANSWER_MAX 4096

/* No longer text is planned: it is answered by refusal 24. */
#define BUTIRAMPOL_QUERY_MAX 16384

/* A call needs at most this many bytes of stack: 95,800 were measured on x86-64 over all examples (tests/c/stack.c). */
#define BUTIRAMPOL_STACK 131072

/*
 * Plans the query that a text holds.
 *
 * query, query_len    the text; any bytes, any length, 0 too. It is only read.
 * answer, answer_len  a buffer for the answer; any length, 0 too.
 *
 * Returns the length of the answer, which then stands from the buffer's start: a P line and J lines, or one X line with
 * the number and the place of a refusal (docs/REFUSALS.md). The bytes after it are unchanged, and no 0 byte is put behind it.
 * Returns 0 exactly where the answer is longer than the buffer; then nothing is written.
 *
 * Every text has an answer: nothing is to be tested first, and nothing in a text can make the call fail.
 * The caller sees to it that both pointers are good for their lengths (also where a length is 0: not NULL), and that the two
 * buffers do not overlap.
 *
 * Nothing is kept between calls and nothing is allocated, so threads may call at once, each with a buffer of its own, and with
 * BUTIRAMPOL_STACK bytes of stack left.
 */
size_t plan_text(const uint8_t *query, size_t query_len, uint8_t *answer, size_t answer_len);

#ifdef __cplusplus
}
#endif

#endif
