/* Refuses each allocation of each call of a file in turn: the call has to give F1 and to write nothing, and whatever it took has to be given
 * back. It is linked with --wrap=malloc, --wrap=realloc and --wrap=free. It prints how many allocations were refused, and of how many calls. */
#include "calls.h"

#include <stdio.h>
#include <string.h>

void *__real_malloc(size_t size);
void *__real_realloc(void *old, size_t size);
void __real_free(void *old);
void *__wrap_malloc(size_t size);
void *__wrap_realloc(void *old, size_t size);
void __wrap_free(void *old);

/* whether the library is at work, how many allocations it may make yet, how many it tried, and how many it holds */
static int at_work;
static long left, tried, held;

static int is_refused(void)
{
    if (!at_work)
        return 0;
    tried++;
    return left-- == 0;
}

void *__wrap_malloc(size_t size)
{
    if (is_refused())
        return NULL;
    held += at_work;
    return __real_malloc(size);
}

void *__wrap_realloc(void *old, size_t size)
{
    return is_refused() ? NULL : __real_realloc(old, size);
}

void __wrap_free(void *old)
{
    if (old)
        held -= at_work;
    __real_free(old);
}

/* The harness allocates a call's lists within call_make, so the first of them aren't counted. */
static int made_with(const struct call *call, struct result *result, long allowed, size_t lists)
{
    held = tried = 0;
    left = allowed + (long)lists;
    at_work = 1;
    call_make(call, result);
    at_work = 0;
    return held == (long)lists;
}

/* How many lists the harness makes for a call. */
static size_t lists_of(const struct call *call)
{
    struct result result;
    size_t lists;
    call_make(call, &result);
    lists = result.outs;
    result_drop(&result);
    return lists;
}

/* How many allocations of a call were refused; -1 where something went wrong. */
static long refused(const struct call *call)
{
    struct result wanted, result;
    size_t lists = lists_of(call);
    long refusals = 0;
    const char *fault = NULL;
    call_make(call, &wanted);
    for (int is_over = 0; !is_over && !fault; refusals += !is_over) {
        if (!made_with(call, &result, refusals, lists))
            fault = "something wasn't given back";
        else if (tried <= refusals + (long)lists) {
            is_over = 1;
            if (!results_equal(call, &wanted, &result))
                fault = "another answer with ample memory";
        } else if (result.status != CBRELAY_MEMORY)
            fault = "no F1 after a refused allocation";
        else
            fault = result_fault(call, &result);
        result_drop(&result);
    }
    result_drop(&wanted);
    if (fault)
        fprintf(stderr, "function %u, allocation %ld: %s\n", (unsigned)call->function, refusals, fault);
    return fault ? -1 : refusals;
}

int main(int words, char **word)
{
    size_t count, paid = 0;
    long total = 0;
    int failed = 0;
    if (words < 2)
        return 2;
    struct call *calls = calls_read(word[1], &count);
    for (size_t i = 0; i < count; i++) {
        long refusals = refused(calls + i);
        failed |= refusals < 0;
        total += refusals > 0 ? refusals : 0;
        paid += refusals > 0;
        printf("%u %ld\n", (unsigned)calls[i].function, refusals);
    }
    printf("refused %ld allocations of %zu calls\n", total, paid);
    return failed;
}
