/*
 * The stack that planning needs: each FILE is planned on a painted stack of its own, and the paint that is gone is counted.
 * What the header says must be enough for all of them.
 */
#define _POSIX_C_SOURCE 200809L
#include <pthread.h>
#include <stdio.h>
#include <stdlib.h>
#include <string.h>

#include "butirampol.h"

#define PAINT 0x5A
#define STACK (1024 * 1024)

static uint8_t query[BUTIRAMPOL_QUERY_MAX + 1], answer[BUTIRAMPOL_ANSWER_MAX];
static size_t length;
static _Alignas(4096) uint8_t stack[STACK];

static void *nothing(void *unused)
{
    return unused;
}

static void *planning(void *unused)
{
    plan_text(query, length, answer, sizeof answer);
    return unused;
}

/* how many bytes of a painted stack a thread has written over */
static size_t used_by(void *(*work)(void *))
{
    pthread_attr_t attributes;
    pthread_t thread;
    size_t clean = 0;

    memset(stack, PAINT, sizeof stack);
    if (pthread_attr_init(&attributes) != 0 || pthread_attr_setstack(&attributes, stack, sizeof stack) != 0
        || pthread_create(&thread, &attributes, work, NULL) != 0 || pthread_join(thread, NULL) != 0)
        exit(2);
    while (clean < sizeof stack && stack[clean] == PAINT)
        clean++;
    return sizeof stack - clean;
}

int main(int argc, char **argv)
{
    size_t most = 0;

    for (int i = 1; i < argc; i++) {
        FILE *file = fopen(argv[i], "rb");
        size_t used;

        if (file == NULL) {
            perror(argv[i]);
            return 2;
        }
        length = fread(query, 1, sizeof query, file);
        fclose(file);
        used = used_by(planning) - used_by(nothing);
        if (used > most)
            most = used;
    }
    printf("stack: at most %zu bytes over %d texts; the header says %d\n", most, argc - 1, BUTIRAMPOL_STACK);
    return most > BUTIRAMPOL_STACK;
}
