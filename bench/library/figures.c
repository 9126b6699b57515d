/* Times of the library beside plain C over libcrypto's low-level calls: figures BLOCK. Each line is a name, the median time of a call in
 * nanoseconds by the library and by plain C (0 where there is none), in turns within one run. */
#include "cbrelay.h"

#include <openssl/sha.h>
#include <stdio.h>
#include <stdlib.h>
#include <string.h>
#include <time.h>

#define RUNS 21
#define OFTEN 20000

static double now(void)
{
    struct timespec told;
    clock_gettime(CLOCK_THREAD_CPUTIME_ID, &told);
    return 1e9 * (double)told.tv_sec + (double)told.tv_nsec;
}

static void stop(const char *why)
{
    fprintf(stderr, "figures: %s\n", why);
    exit(1);
}

/* ---- plain C ---- */

static void sha(const uint8_t *bytes, size_t len, uint8_t *hash)
{
    SHA256_CTX context;
    SHA256_Init(&context);
    SHA256_Update(&context, bytes, len);
    SHA256_Final(hash, &context);
}

static void sha_twice(const uint8_t *bytes, size_t len, uint8_t *hash)
{
    uint8_t once[32];
    sha(bytes, len, once);
    sha(once, 32, hash);
}

/* A CompactSize below 2^32. Bytes aren't looked for behind the end: the input is well-formed. */
static size_t count_at(const uint8_t *bytes, size_t *place)
{
    size_t first = bytes[(*place)++], read = 0, size = first < 253 ? 0 : first == 253 ? 2 : 4;
    for (size_t i = 0; i < size; i++)
        read |= (size_t)bytes[*place + i] << (8 * i);
    *place += size;
    return size ? read : first;
}

static size_t behind_tx(const uint8_t *bytes, size_t place)
{
    size_t inputs, outputs;
    place += 4;
    for (inputs = count_at(bytes, &place); inputs; inputs--) {
        size_t script;
        place += 36;
        script = count_at(bytes, &place);
        place += script + 4;
    }
    for (outputs = count_at(bytes, &place); outputs; outputs--) {
        size_t script;
        place += 8;
        script = count_at(bytes, &place);
        place += script;
    }
    return place + 4;
}

/* Folds hashes to a root. Whether two that meet are equal comes back. */
static int fold(uint8_t (*hashes)[32], size_t count)
{
    int mutated = 0;
    while (count > 1) {
        if (count & 1)
            memcpy(hashes[count], hashes[count - 1], 32);
        for (size_t i = 0; i + 1 < count; i += 2)
            mutated |= !memcmp(hashes[i], hashes[i + 1], 32);
        count = (count + 1) / 2;
        for (size_t i = 0; i < count; i++) {
            uint8_t both[64];
            memcpy(both, hashes[2 * i], 64);
            sha_twice(both, 64, hashes[i]);
        }
    }
    return mutated;
}

static uint8_t hashes[20000][32];

/* Cuts a block's transactions, hashes each and folds the hashes. It checks nothing else. */
static int plain_check(const uint8_t *block, size_t len)
{
    size_t place = 80, count = count_at(block, &place);
    for (size_t i = 0; i < count; i++) {
        size_t end = behind_tx(block, place);
        sha_twice(block + place, end - place, hashes[i]);
        place = end;
    }
    return place == len && !fold(hashes, count) && !memcmp(hashes[0], block + 36, 32);
}

#define ROTATED(word, bits) ((word) << (bits) | (word) >> (64 - (bits)))

static void sip_round(uint64_t *v)
{
    v[0] += v[1];
    v[1] = ROTATED(v[1], 13) ^ v[0];
    v[0] = ROTATED(v[0], 32);
    v[2] += v[3];
    v[3] = ROTATED(v[3], 16) ^ v[2];
    v[0] += v[3];
    v[3] = ROTATED(v[3], 21) ^ v[0];
    v[2] += v[1];
    v[1] = ROTATED(v[1], 17) ^ v[2];
    v[2] = ROTATED(v[2], 32);
}

static uint64_t plain_short_id(const cbrelay_key *key, const uint8_t *txid)
{
    uint64_t v[4] = {key->k0 ^ 0x736f6d6570736575u, key->k1 ^ 0x646f72616e646f6du, key->k0 ^ 0x6c7967656e657261u, key->k1 ^ 0x7465646279746573u};
    for (int i = 0; i < 5; i++) {
        uint64_t word = (uint64_t)32 << 56;
        if (i < 4)
            memcpy(&word, txid + 8 * i, 8);
        v[3] ^= word;
        sip_round(v);
        sip_round(v);
        v[0] ^= word;
    }
    v[2] ^= 0xff;
    for (int i = 0; i < 4; i++)
        sip_round(v);
    return (v[0] ^ v[1] ^ v[2] ^ v[3]) & 0xffffffffffffu;
}

/* A table from short ids to places, twice as large as it has to be. */
#define SLOTS 65536
static struct {
    uint64_t id;
    size_t place;
} slots[SLOTS];

/* Rebuilds a block from known transactions: short ids by their txids, a table, and then the hashes of those that are taken, and the root. */
static int plain_rebuild(const uint8_t *message, const uint8_t *txs, const cbrelay_hash *txids, uint8_t *out, size_t *len)
{
    static size_t places[20001];
    uint8_t digest[32], seed[88];
    cbrelay_key key;
    size_t place = 0, known = count_at(txs, &place), ids, first, at = 88;
    memcpy(seed, message, 88);
    sha(seed, 88, digest);
    memcpy(&key, digest, 16);
    memset(slots, 0, sizeof slots);
    for (size_t i = 0; i < known; i++) {
        uint64_t id = plain_short_id(&key, txids[i].bytes);
        size_t slot = id % SLOTS;
        places[i] = place;
        place = behind_tx(txs, place);
        while (slots[slot].id)
            slot = (slot + 1) % SLOTS;
        slots[slot].id = id + 1;
        slots[slot].place = i;
    }
    places[known] = place;
    ids = count_at(message, &at);
    first = at + 6 * ids + 2;
    memcpy(out, message, 80);
    *len = 80;
    out[(*len)++] = 253;
    out[(*len)++] = (uint8_t)(ids + 1);
    out[(*len)++] = (uint8_t)((ids + 1) >> 8);
    memcpy(out + *len, message + first, behind_tx(message, first) - first);
    sha_twice(message + first, behind_tx(message, first) - first, hashes[0]);
    *len += behind_tx(message, first) - first;
    for (size_t i = 0; i < ids; i++) {
        uint64_t id = 0;
        size_t slot, from, size;
        memcpy(&id, message + at + 6 * i, 6);
        for (slot = id % SLOTS; slots[slot].id != id + 1; slot = (slot + 1) % SLOTS)
            if (!slots[slot].id)
                return 0;
        from = places[slots[slot].place];
        size = places[slots[slot].place + 1] - from;
        sha_twice(txs + from, size, hashes[i + 1]);
        memcpy(out + *len, txs + from, size);
        *len += size;
    }
    return !fold(hashes, ids + 1) && !memcmp(hashes[0], message + 36, 32);
}

/* ---- the figures ---- */

static int by_size(const void *one, const void *other)
{
    double a = *(const double *)one, b = *(const double *)other;
    return (a > b) - (a < b);
}

static void tell(const char *name, double *own, double *plain)
{
    qsort(own, RUNS, sizeof *own, by_size);
    if (plain)
        qsort(plain, RUNS, sizeof *plain, by_size);
    printf("%s %.1f %.1f\n", name, own[RUNS / 2], plain ? plain[RUNS / 2] : 0.0);
}

static uint8_t block[1 << 20], message[1 << 20], known[1 << 20], out[1 << 20], back[1 << 20];
static cbrelay_hash txids[20000];
static cbrelay_span spans[20000];
static double own[RUNS], plain[RUNS];
/* what small calls give, so that they are made */
static volatile uint64_t kept;

static void blocks(size_t len)
{
    for (int i = 0; i < RUNS; i++) {
        double began = now(), then;
        if (cbrelay_block_check(block, len))
            stop("block_check");
        then = now();
        if (!plain_check(block, len))
            stop("plain block");
        own[i] = then - began;
        plain[i] = now() - then;
    }
    tell("block_check", own, plain);
    for (int i = 0; i < RUNS; i++) {
        double began = now();
        if (cbrelay_block_sound(block, len))
            stop("block_sound");
        own[i] = now() - began;
    }
    tell("block_sound", own, NULL);
}

/* The block's transactions but the first, in reverse order, with their txids. */
static size_t knowing(size_t count)
{
    size_t len = 3;
    known[0] = 253;
    known[1] = (uint8_t)(count - 1);
    known[2] = (uint8_t)((count - 1) >> 8);
    for (size_t i = count - 1, k = 0; i; i--, k++) {
        memcpy(known + len, block + spans[i].offset, spans[i].len);
        sha_twice(known + len, spans[i].len, txids[k].bytes);
        len += spans[i].len;
    }
    return len;
}

static void rebuilding(size_t len, size_t count)
{
    size_t size, needed, known_len = knowing(count);
    uint32_t kind;
    double hashed[RUNS];
    for (int i = 0; i < RUNS; i++) {
        double began = now();
        if (cbrelay_compact_block(block, len, 7, message, sizeof message, &size))
            stop("compact_block");
        own[i] = now() - began;
    }
    tell("compact_block", own, NULL);
    for (int i = 0; i < RUNS; i++) {
        double began = now(), then;
        if (cbrelay_rebuild_block_known(message, size, known, known_len, txids, count - 1, out, sizeof out, &needed, &kind) || kind != CBRELAY_BLOCK)
            stop("rebuild_block_known");
        then = now();
        own[i] = then - began;
        if (needed != len || memcmp(out, block, len) || !plain_rebuild(message, known, txids, back, &needed))
            stop("a block that was rebuilt");
        plain[i] = now() - then;
        if (needed != len || memcmp(back, block, len))
            stop("a plain block");
        then = now();
        if (cbrelay_rebuild_block(message, size, known, known_len, out, sizeof out, &needed, &kind) || kind != CBRELAY_BLOCK)
            stop("rebuild_block");
        hashed[i] = now() - then;
    }
    tell("rebuild_block_known", own, plain);
    tell("rebuild_block", hashed, NULL);
}

/* A call and its plain form, both of which set `id`. */
#define TIMED(name, call, other)                                                                                                         \
    do {                                                                                                                                 \
        for (int run = 0; run < RUNS; run++) {                                                                                           \
            double began = now(), then;                                                                                                  \
            for (int i = 0; i < OFTEN; i++) {                                                                                            \
                id.bytes[0] = (uint8_t)i;                                                                                                \
                kept += (call);                                                                                                          \
            }                                                                                                                            \
            then = now();                                                                                                                \
            for (int i = 0; i < OFTEN; i++) {                                                                                            \
                id.bytes[0] = (uint8_t)i;                                                                                                \
                kept += (other);                                                                                                         \
            }                                                                                                                            \
            own[run] = (then - began) / OFTEN;                                                                                           \
            plain[run] = (now() - then) / OFTEN;                                                                                         \
        }                                                                                                                                \
        tell(name, own, plain);                                                                                                          \
    } while (0)

static uint64_t plain_txid(const uint8_t *tx, size_t len, cbrelay_hash *id)
{
    if (behind_tx(tx, 0) != len)
        return 2;
    sha_twice(tx, len, id->bytes);
    return 0;
}

static uint64_t hash_of(const uint8_t *bytes, size_t len, cbrelay_hash *id, int is_plain)
{
    if (is_plain)
        sha_twice(bytes, len, id->bytes);
    else
        cbrelay_sha256d(bytes, len, id);
    return id->bytes[0];
}

static void small_calls(void)
{
    cbrelay_key key = {1, 2};
    cbrelay_hash id = {{3}};
    const uint8_t *tx = block + spans[1].offset;
    size_t size = spans[1].len;
    TIMED("short_id", cbrelay_short_id(&key, &id), plain_short_id(&key, id.bytes));
    TIMED("txid", cbrelay_txid(tx, size, &id), plain_txid(tx, size, &id));
    TIMED("sha256d_32", hash_of(id.bytes, 32, &id, 0), hash_of(id.bytes, 32, &id, 1));
    for (int run = 0; run < RUNS; run++) {
        double began = now();
        for (int i = 0; i < OFTEN; i++)
            kept += cbrelay_txid(tx, 0, &id);
        own[run] = (now() - began) / OFTEN;
    }
    tell("a_call", own, NULL);
}

int main(int words, char **word)
{
    FILE *file = words == 2 ? fopen(word[1], "rb") : NULL;
    size_t count = 0, len = file ? fread(block, 1, sizeof block, file) : 0;
    if (!len || cbrelay_block_transactions_at(block, len, spans, sizeof spans / sizeof *spans, &count))
        stop("no block");
    blocks(len);
    rebuilding(len, count);
    small_calls();
    return 0;
}
