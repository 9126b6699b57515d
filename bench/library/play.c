/* Plays the calls of a file, and writes what each gave to standard output: its status, the bytes of its values, and of the items of its
 * lists. With a number behind the file it changes the calls' bytes so many times in place of that, and prints a hash of all that came. */
#include "calls.h"

#include <stdio.h>
#include <stdlib.h>
#include <string.h>

static int failed;

static void check(const struct call *call, const struct result *result, size_t number)
{
    const char *fault = result_fault(call, result);
    if (fault) {
        fprintf(stderr, "call %zu of function %u: %s\n", number, (unsigned)call->function, fault);
        failed = 1;
    }
}

/* Makes a call again with one item less room in each list, and with exactly as much as it needs. */
static void check_rooms(const struct call *call, const struct result *result, size_t number)
{
    for (size_t k = 0; k < result->outs; k++) {
        struct call other = *call;
        struct result again;
        other.room[k] = result->used[k];
        call_make(&other, &again);
        check(&other, &again, number);
        failed |= again.status != CBRELAY_OK;
        result_drop(&again);
        if (!result->used[k])
            continue;
        other.room[k]--;
        call_make(&other, &again);
        check(&other, &again, number);
        failed |= again.status != CBRELAY_TOO_SMALL || again.used[k] != result->used[k];
        result_drop(&again);
    }
}

static void put(const void *bytes, size_t size)
{
    if (size && fwrite(bytes, 1, size, stdout) != size)
        exit(2);
}

static void play(const struct call *calls, size_t count)
{
    for (size_t i = 0; i < count; i++) {
        struct result result;
        call_make(calls + i, &result);
        check(calls + i, &result, i);
        put(&result.status, sizeof result.status);
        for (size_t k = 0; k < result.tolds; k++)
            put(result.told[k].bytes, result.told_size[k]);
        for (size_t k = 0; result.status == CBRELAY_OK && k < result.outs; k++)
            put(result.out[k], result.used[k] * result.unit[k]);
        if (result.status == CBRELAY_OK)
            check_rooms(calls + i, &result, i);
        result_drop(&result);
    }
}

static uint64_t state = 88172645463325252u;

/* The next number of a generator (Marsaglia, xorshift64). */
static uint64_t drawn(uint64_t below)
{
    state ^= state << 13;
    state ^= state >> 7;
    state ^= state << 17;
    return state % below;
}

static const uint8_t marks[] = {0, 1, 2, 0x7f, 0x80, 252, 253, 254, 255};

/* A string with some bytes changed, gone or more, as a new allocation of its size. */
static uint8_t *changed(const uint8_t *bytes, size_t *len)
{
    size_t size = *len, more = drawn(8) == 0 ? 1 + (size_t)drawn(9) : 0;
    uint8_t *made = malloc(size + more + 1), *exact;
    if (!made)
        exit(2);
    memcpy(made, bytes, size);
    for (uint64_t times = 1 + drawn(3); size && times; times--) {
        /* the beginning has the counts, so it is changed more often */
        size_t place = (size_t)drawn(drawn(2) ? size : size < 100 ? size : 100);
        made[place] = drawn(2) ? marks[drawn(sizeof marks)] : (uint8_t)(made[place] ^ 1u << drawn(8));
    }
    if (size && drawn(4) == 0)
        size = (size_t)drawn(size + 1);
    for (; more; more--)
        made[size++] = (uint8_t)drawn(256);
    exact = malloc(size ? size : 1);
    if (!exact)
        exit(2);
    memcpy(exact, made, size);
    free(made);
    *len = size;
    return exact;
}

/* Whether a call's string is a struct, whose size can't change. */
static int is_struct(const struct call *call, size_t place)
{
    return (call->function == SIP24 && place == 0) || call->function == SHORT_ID || call->function == HEADER_WRITE;
}

static uint64_t play_changed(const struct call *calls, size_t count, long times)
{
    uint64_t hash = 14695981039346656037u;
    for (long i = 0; i < times; i++) {
        struct call call = calls[drawn(count)];
        struct result result;
        size_t place = call.ins ? (size_t)drawn(call.ins) : 0;
        uint8_t *own = NULL;
        if (call.ins && !is_struct(&call, place))
            call.in[place] = own = changed(call.in[place], &call.len[place]);
        if (drawn(8) == 0)
            call.room[0] = (size_t)drawn(call.room[0] + 1);
        call_make(&call, &result);
        check(&call, &result, (size_t)i);
        hash = result_hash(&call, &result, hash);
        result_drop(&result);
        free(own);
    }
    return hash;
}

int main(int words, char **word)
{
    size_t count;
    if (words < 2)
        return 2;
    struct call *calls = calls_read(word[1], &count);
    if (words > 2)
        printf("%016llx\n", (unsigned long long)play_changed(calls, count, atol(word[2])));
    else
        play(calls, count);
    for (size_t i = 0; i < count; i++)
        for (size_t k = 0; k < calls[i].ins; k++)
            free(calls[i].in[k]);
    free(calls);
    return failed;
}
