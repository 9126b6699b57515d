/* Eight threads make the calls of a file at once, each all of them, and each has to get what one thread gets alone. */
#include "calls.h"

#include <pthread.h>
#include <stdio.h>
#include <stdlib.h>

#define THREADS 8

static struct call *calls;
static struct result *wanted;
static size_t count;

/* A thread begins at a place of its own. */
static void *work(void *first)
{
    size_t different = 0, start = *(size_t *)first;
    for (size_t i = 0; i < count; i++) {
        struct result result;
        size_t place = (start + i) % count;
        call_make(calls + place, &result);
        different += !results_equal(calls + place, wanted + place, &result);
        result_drop(&result);
    }
    *(size_t *)first = different;
    return NULL;
}

int main(int words, char **word)
{
    pthread_t threads[THREADS];
    size_t places[THREADS], different = 0;
    if (words < 2)
        return 2;
    calls = calls_read(word[1], &count);
    wanted = malloc((count + 1) * sizeof *wanted);
    if (!wanted)
        return 2;
    for (size_t i = 0; i < count; i++)
        call_make(calls + i, wanted + i);
    for (size_t i = 0; i < THREADS; i++) {
        places[i] = i * count / THREADS;
        if (pthread_create(threads + i, NULL, work, places + i))
            return 2;
    }
    for (size_t i = 0; i < THREADS; i++) {
        pthread_join(threads[i], NULL);
        different += places[i];
    }
    printf("%d threads, %zu calls each, %zu otherwise\n", THREADS, count, different);
    return different > 0;
}
