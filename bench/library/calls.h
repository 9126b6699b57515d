/* Calls of the library as records of a file, and what holds of each: bench/looks/c_library.py writes such files. */
#ifndef CALLS_H
#define CALLS_H

#include "cbrelay.h"

/* The functions, in the header's order. */
enum function {
    VERSION, FAULT_TEXT, SHA256D, TXID, BLOCK_HASH, MERKLE_ROOT, SIP24, SHORT_ID_KEY, SHORT_ID, HEADER_READ, HEADER_WRITE, HEADER_CHECK,
    TX_READ, TX_CHECK, BLOCK_SOUND, BLOCK_CHECK, BLOCK_TRANSACTIONS_AT, COMPACT_BLOCK, REBUILD_BLOCK, REBUILD_BLOCK_KNOWN,
    BLOCK_TRANSACTIONS_REQUEST, BLOCK_TRANSACTIONS, COMPLETE_BLOCK, ENVELOPE_AT, MESSAGE_CHECK, MESSAGE_WRITE, VERSION_READ, NONCE_READ,
    SENDCMPCT_READ, INVENTORY_READ, GETHEADERS_READ, HEADERS_READ, CMPCTBLOCK_READ, GETBLOCKTXN_READ, BLOCKTXN_READ, FUNCTIONS
};

/* The most byte strings that a call takes, lists that it gives, and other values that it tells. */
#define MOST_IN 4
#define MOST_OUT 2
#define MOST_TOLD 3

/* A call: its function's place in the header, and what it is given. */
struct call {
    uint64_t function;
    uint64_t number;
    size_t room[MOST_OUT]; /* capacities, in items */
    size_t ins;
    size_t len[MOST_IN]; /* in bytes */
    uint8_t *in[MOST_IN];
};

/* What a call gave. Lists and values begin as bytes of FILLER. */
struct result {
    uint64_t status;
    size_t outs, tolds;
    size_t unit[MOST_OUT]; /* the size of an item */
    size_t used[MOST_OUT]; /* how many items the call tells */
    uint8_t *out[MOST_OUT];
    size_t told_size[MOST_TOLD];
    union {
        uint64_t aligned;
        uint8_t bytes[256];
    } told[MOST_TOLD];
};

#define FILLER 0xa5

/* Reads the calls of a file. Ends the program where it can't. */
struct call *calls_read(const char *path, size_t *count);

/* Makes a call. Its lists are allocated with exactly the size that it is told. */
void call_make(const struct call *call, struct result *result);

/* Lets a result's lists go. */
void result_drop(struct result *result);

/* What is wrong with a result, or NULL: after a fault nothing was written; lists that are too small are unchanged; what lies behind a
 * list's items is unchanged. */
const char *result_fault(const struct call *call, const struct result *result);

/* Whether two results are the same. */
int results_equal(const struct call *call, const struct result *one, const struct result *other);

/* A hash of a result (FNV-1a), for comparing runs. */
uint64_t result_hash(const struct call *call, const struct result *result, uint64_t before);

#endif
