/* One call of the library held to the reference. */
#ifndef CHECK_H
#define CHECK_H

#include <stdbool.h>

#include "reference.h"

/*
 * Plans a text in a buffer of `room` bytes, given the reference's answer to it; true if length and bytes are those, the bytes after
 * the answer and around the buffer are as they were, and so is the text. Prints what differs.
 */
bool check_text(const uint8_t *query, size_t length, const uint8_t *answer, size_t answer_length, size_t room);

/*
 * Plans a call with `cells` cells for the answer's numbers; true if those, every lent cell and every given one are what the reference
 * leaves, and the cells around them are as they were. Prints what differs. The call's own lists are only read.
 */
bool check_call(const struct call *call, size_t cells);

/* The reference's answer to the last call; zeros where the answer had no room. */
extern uint64_t call_answer[NUMBERS];

/* bytes in a form that a terminal shows */
void show_bytes(const uint8_t *bytes, size_t length);

#endif
