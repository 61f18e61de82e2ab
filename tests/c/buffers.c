/*
 * The text entry's buffer: for each FILE and buffers of 0 bytes, one too few, just enough and more for its answer (FILE with
 * .out for .txt), the answer stands from the start and the bytes after it are as they were, or 0 is returned and nothing is
 * written. The text's own bytes are never written.
 */
#include <stdio.h>
#include <stdlib.h>
#include <string.h>

#include "butirampol.h"

#define MARK 0xA5
#define SPARE 8

static uint8_t query[BUTIRAMPOL_QUERY_MAX + 1], before[BUTIRAMPOL_QUERY_MAX + 1];
static uint8_t expected[BUTIRAMPOL_ANSWER_MAX], answer[BUTIRAMPOL_ANSWER_MAX + SPARE];

static size_t load(const char *name, uint8_t *bytes, size_t room)
{
    FILE *file = fopen(name, "rb");
    size_t length;

    if (file == NULL) {
        perror(name);
        exit(2);
    }
    length = fread(bytes, 1, room, file);
    fclose(file);
    return length;
}

static int all_marks(const uint8_t *bytes, size_t length)
{
    for (size_t i = 0; i < length; i++)
        if (bytes[i] != MARK)
            return 0;
    return 1;
}

/* 1 if planning into a buffer of `room` bytes does what the header says */
static int holds(size_t length, size_t wanted, size_t room)
{
    size_t r;

    memset(answer, MARK, sizeof answer);
    r = plan_text(query, length, answer, room);
    if (memcmp(query, before, sizeof query) != 0)
        return 0;
    if (room < wanted)
        return r == 0 && all_marks(answer, sizeof answer);
    return r == wanted && memcmp(answer, expected, wanted) == 0 && all_marks(answer + wanted, sizeof answer - wanted);
}

int main(int argc, char **argv)
{
    size_t calls = 0, differences = 0;

    for (int i = 1; i < argc; i++) {
        char name[512];
        size_t length, wanted;

        length = load(argv[i], query, sizeof query);
        memcpy(before, query, sizeof query);
        snprintf(name, sizeof name, "%.*s.out", (int)(strlen(argv[i]) - strlen(".txt")), argv[i]);
        wanted = load(name, expected, sizeof expected);
        const size_t rooms[] = {0, 1, wanted - 1, wanted, wanted + 1, wanted + SPARE};

        for (size_t k = 0; k < sizeof rooms / sizeof rooms[0]; k++) {
            calls++;
            if (!holds(length, wanted, rooms[k])) {
                differences++;
                printf("%s: differs with a buffer of %zu bytes\n", argv[i], rooms[k]);
            }
        }
    }
    printf("%d texts, %zu calls, %zu differences\n", argc - 1, calls, differences);
    return differences != 0;
}
