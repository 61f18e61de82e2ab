/*
 * A small engine: reads query texts, has them planned, and says the plan in words, as an engine would carry it out.
 *
 *     engine FILE...      the plans in words
 *     engine -a FILE...   the answers as they are
 */
#include <stdio.h>
#include <string.h>

#include "butirampol.h"

/* One byte more than a text may have is enough to know that it is too long. */
static uint8_t query[BUTIRAMPOL_QUERY_MAX + 1];

/* One byte more for the 0 that sscanf wants. */
static uint8_t answer[BUTIRAMPOL_ANSWER_MAX + 1];

static void say_line(const char *line)
{
    char outer[64], inner[64];
    unsigned long long a, b, c;

    if (sscanf(line, "P %llu %llu", &a, &b) == 2)
        printf("a plan of cost %llu, from %llu pairs\n", a, b);
    else if (sscanf(line, "J %63s %63s %llu %llu %llu", outer, inner, &a, &b, &c) == 5)
        printf("  join {%s} with {%s} by method %llu: %llu rows, cost %llu\n", outer, inner, a, b, c);
    else if (sscanf(line, "X %llu %llu", &a, &b) == 2)
        printf("refused: number %llu, place %llu\n", a, b);
}

static void say(char *lines)
{
    for (char *line = strtok(lines, "\n"); line != NULL; line = strtok(NULL, "\n"))
        say_line(line);
}

static int plan_file(const char *name, int as_it_is)
{
    FILE *file = fopen(name, "rb");
    size_t length;

    if (file == NULL) {
        perror(name);
        return 1;
    }
    length = fread(query, 1, sizeof query, file);
    fclose(file);
    length = plan_text(query, length, answer, BUTIRAMPOL_ANSWER_MAX);
    if (as_it_is) {
        fwrite(answer, 1, length, stdout);
    } else {
        answer[length] = 0;
        printf("%s: ", name);
        say((char *)answer);
    }
    return 0;
}

int main(int argc, char **argv)
{
    int as_it_is = argc > 1 && strcmp(argv[1], "-a") == 0;
    int failed = 0;

    for (int i = 1 + as_it_is; i < argc; i++)
        failed |= plan_file(argv[i], as_it_is);
    return failed;
}
