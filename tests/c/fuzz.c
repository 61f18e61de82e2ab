/*
 * libFuzzer over the comparison: the first byte chooses the buffer's length, the rest is the text. A difference from the reference
 * ends the run and leaves the input in a file, which the same program then takes as an argument.
 */
#include <stdlib.h>

#include "check.h"

int LLVMFuzzerTestOneInput(const uint8_t *data, size_t size);

/* from 128 bytes too few to 127 too many; each fourth choice is the exact length */
static size_t room_of(uint8_t choice, size_t length)
{
    size_t room = length + choice;

    if (choice % 4 == 0)
        return length;
    return room < 128 ? 0 : room - 128;
}

int LLVMFuzzerTestOneInput(const uint8_t *data, size_t size)
{
    uint8_t answer[REFERENCE_ANSWER];
    size_t length;

    if (size == 0)
        return 0;
    length = reference_text(data + 1, size - 1, answer);
    if (!check_text(data + 1, size - 1, answer, length, room_of(data[0], length)))
        abort();
    return 0;
}
