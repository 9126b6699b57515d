/* Calls of the library as records of a file, and what holds of each. */
#include "calls.h"

#include <stdio.h>
#include <stdlib.h>
#include <string.h>

static void stop(const char *why)
{
    fprintf(stderr, "calls: %s\n", why);
    exit(2);
}

static void *room_for(size_t size)
{
    void *made = malloc(size ? size : 1);
    if (!made)
        stop("no memory");
    return made;
}

static void fill(FILE *file, void *to, size_t size)
{
    if (size && fread(to, 1, size, file) != size)
        stop("a record is cut short");
}

static uint64_t word(FILE *file)
{
    uint64_t read = 0;
    fill(file, &read, sizeof read);
    return read;
}

struct call *calls_read(const char *path, size_t *count)
{
    FILE *file = fopen(path, "rb");
    if (!file)
        stop("no such file");
    *count = (size_t)word(file);
    struct call *calls = room_for(*count * sizeof *calls);
    for (size_t i = 0; i < *count; i++) {
        struct call *call = calls + i;
        memset(call, 0, sizeof *call);
        call->function = word(file);
        call->number = word(file);
        for (size_t k = 0; k < MOST_OUT; k++)
            call->room[k] = (size_t)word(file);
        call->ins = (size_t)word(file);
        if (call->function >= FUNCTIONS || call->ins > MOST_IN)
            stop("a record of another form");
        for (size_t k = 0; k < call->ins; k++) {
            call->len[k] = (size_t)word(file);
            call->in[k] = room_for(call->len[k]);
            fill(file, call->in[k], call->len[k]);
        }
    }
    fclose(file);
    return calls;
}

/* Makes the list that a call writes. */
static void *list_of(struct result *result, const struct call *call, size_t unit)
{
    size_t place = result->outs++;
    result->unit[place] = unit;
    result->out[place] = room_for(call->room[place] * unit);
    memset(result->out[place], FILLER, call->room[place] * unit);
    return result->out[place];
}

/* Makes the place of a value that a call tells. */
static void *value_of(struct result *result, size_t size)
{
    size_t place = result->tolds++;
    result->told_size[place] = size;
    return result->told[place].bytes;
}

/* A struct that a call is given, as bytes. */
static void *given(const struct call *call, size_t place, size_t size)
{
    if (call->len[place] != size)
        stop("a struct of another size");
    return call->in[place];
}

#define IN(place) call->in[place], call->len[place]
#define HASHES(place) (const cbrelay_hash *)(void *)call->in[place], call->len[place] / sizeof(cbrelay_hash)
#define LIST(place, type) (type *)list_of(result, call, sizeof(type)), call->room[place]
#define TEXT LIST(0, uint8_t)
#define TOLD(type) (type *)value_of(result, sizeof(type))
#define GIVEN(place, type) (const type *)given(call, place, sizeof(type))

/* In C the arguments of a call are made in any order, so values are made before. */
static uint64_t make_first(const struct call *call, struct result *result)
{
    cbrelay_hash *hash;
    switch (call->function) {
    case VERSION: return cbrelay_version();
    case SHA256D:
        hash = TOLD(cbrelay_hash);
        cbrelay_sha256d(IN(0), hash);
        return 0;
    case TXID: return cbrelay_txid(IN(0), TOLD(cbrelay_hash));
    case BLOCK_HASH: return cbrelay_block_hash(IN(0), TOLD(cbrelay_hash));
    case MERKLE_ROOT:
        hash = TOLD(cbrelay_hash);
        return cbrelay_merkle_root(HASHES(0), hash, TOLD(uint32_t));
    case SIP24: return cbrelay_sip24(GIVEN(0, cbrelay_key), IN(1));
    case SHORT_ID_KEY: return cbrelay_short_id_key(IN(0), call->number, TOLD(cbrelay_key));
    case SHORT_ID: return cbrelay_short_id(GIVEN(0, cbrelay_key), GIVEN(1, cbrelay_hash));
    case HEADER_READ: return cbrelay_header_read(IN(0), TOLD(cbrelay_header));
    case HEADER_CHECK: return cbrelay_header_check(IN(0));
    case TX_CHECK: return cbrelay_tx_check(IN(0));
    case BLOCK_SOUND: return cbrelay_block_sound(IN(0));
    case BLOCK_CHECK: return cbrelay_block_check(IN(0));
    case ENVELOPE_AT: {
        size_t *len = TOLD(size_t);
        return cbrelay_envelope_at(IN(0), len, TOLD(cbrelay_status));
    }
    case MESSAGE_CHECK: return cbrelay_message_check(IN(0), IN(1));
    case NONCE_READ: return cbrelay_nonce_read(IN(0), TOLD(uint64_t));
    case SENDCMPCT_READ: {
        uint32_t *high = TOLD(uint32_t);
        return cbrelay_sendcmpct_read(IN(0), high, TOLD(uint64_t));
    }
    default: stop("no such function");
    }
    return 0;
}

/* The calls that write texts. The first value that they tell is the length. */
static uint64_t make_text(const struct call *call, struct result *result)
{
    size_t *len = TOLD(size_t);
    switch (call->function) {
    case FAULT_TEXT: return cbrelay_fault_text((uint32_t)call->number, TEXT, len);
    case HEADER_WRITE: return cbrelay_header_write(GIVEN(0, cbrelay_header), TEXT, len);
    case COMPACT_BLOCK: return cbrelay_compact_block(IN(0), call->number, TEXT, len);
    case REBUILD_BLOCK: return cbrelay_rebuild_block(IN(0), IN(1), TEXT, len, TOLD(uint32_t));
    case REBUILD_BLOCK_KNOWN: return cbrelay_rebuild_block_known(IN(0), IN(1), HASHES(2), TEXT, len, TOLD(uint32_t));
    case BLOCK_TRANSACTIONS_REQUEST: return cbrelay_block_transactions_request(IN(0), IN(1), TEXT, len);
    case BLOCK_TRANSACTIONS: return cbrelay_block_transactions(IN(0), IN(1), TEXT, len);
    case COMPLETE_BLOCK: return cbrelay_complete_block(IN(0), IN(1), IN(2), TEXT, len, TOLD(uint32_t));
    case MESSAGE_WRITE: return cbrelay_message_write(IN(0), IN(1), TEXT, len);
    default: stop("no such function");
    }
    return 0;
}

/* The calls that write one list. The first value that they tell is its count. */
static uint64_t make_list(const struct call *call, struct result *result)
{
    size_t *count = TOLD(size_t);
    switch (call->function) {
    case BLOCK_TRANSACTIONS_AT: return cbrelay_block_transactions_at(IN(0), LIST(0, cbrelay_span), count);
    case INVENTORY_READ: return cbrelay_inventory_read(IN(0), LIST(0, cbrelay_entry), count);
    case GETHEADERS_READ: {
        uint32_t *version = TOLD(uint32_t);
        return cbrelay_getheaders_read(IN(0), LIST(0, cbrelay_hash), count, version, TOLD(cbrelay_hash));
    }
    case HEADERS_READ: return cbrelay_headers_read(IN(0), LIST(0, cbrelay_header), count);
    case GETBLOCKTXN_READ: return cbrelay_getblocktxn_read(IN(0), LIST(0, uint64_t), count, TOLD(cbrelay_hash));
    case BLOCKTXN_READ: return cbrelay_blocktxn_read(IN(0), LIST(0, cbrelay_span), count, TOLD(cbrelay_hash));
    default: stop("no such function");
    }
    return 0;
}

/* Reads a version. What lies between its fields, which may be anything, is made zeros. */
static uint64_t make_version(const struct call *call, struct result *result)
{
    cbrelay_version_fields *fields = TOLD(cbrelay_version_fields);
    uint64_t status = cbrelay_version_read(IN(0), fields);
    if (status == CBRELAY_OK) {
        cbrelay_version_fields read = *fields;
        memset(fields, 0, sizeof *fields);
        fields->version = read.version;
        fields->relay = read.relay;
        fields->services = read.services;
        fields->time = read.time;
        fields->receiver.services = read.receiver.services;
        memcpy(fields->receiver.ip, read.receiver.ip, sizeof read.receiver.ip);
        fields->receiver.port = read.receiver.port;
        fields->sender.services = read.sender.services;
        memcpy(fields->sender.ip, read.sender.ip, sizeof read.sender.ip);
        fields->sender.port = read.sender.port;
        fields->nonce = read.nonce;
        fields->agent = read.agent;
        fields->height = read.height;
    }
    return status;
}

void call_make(const struct call *call, struct result *result)
{
    memset(result, 0, sizeof *result);
    memset(result->told, FILLER, sizeof result->told);
    switch (call->function) {
    case VERSION_READ:
        result->status = make_version(call, result);
        return;
    case TX_READ: {
        cbrelay_input *inputs = list_of(result, call, sizeof *inputs);
        cbrelay_output *outputs = list_of(result, call, sizeof *outputs);
        cbrelay_tx *tx = TOLD(cbrelay_tx);
        result->status = cbrelay_tx_read(IN(0), inputs, call->room[0], outputs, call->room[1], tx);
        result->used[0] = tx->inputs;
        result->used[1] = tx->outputs;
        return;
    }
    case CMPCTBLOCK_READ: {
        uint64_t *ids = list_of(result, call, sizeof *ids);
        cbrelay_prefilled *prefilled = list_of(result, call, sizeof *prefilled);
        cbrelay_compact *compact = TOLD(cbrelay_compact);
        result->status = cbrelay_cmpctblock_read(IN(0), ids, call->room[0], prefilled, call->room[1], compact);
        result->used[0] = compact->ids;
        result->used[1] = compact->prefilled;
        return;
    }
    case FAULT_TEXT: case HEADER_WRITE: case COMPACT_BLOCK: case REBUILD_BLOCK: case REBUILD_BLOCK_KNOWN: case BLOCK_TRANSACTIONS_REQUEST:
    case BLOCK_TRANSACTIONS: case COMPLETE_BLOCK: case MESSAGE_WRITE:
        result->status = make_text(call, result);
        break;
    case BLOCK_TRANSACTIONS_AT: case INVENTORY_READ: case GETHEADERS_READ: case HEADERS_READ: case GETBLOCKTXN_READ: case BLOCKTXN_READ:
        result->status = make_list(call, result);
        break;
    default:
        result->status = make_first(call, result);
        return;
    }
    memcpy(&result->used[0], result->told[0].bytes, sizeof(size_t));
}

void result_drop(struct result *result)
{
    for (size_t i = 0; i < result->outs; i++)
        free(result->out[i]);
    result->outs = 0;
}

static int is_filler(const uint8_t *bytes, size_t size)
{
    for (size_t i = 0; i < size; i++)
        if (bytes[i] != FILLER)
            return 0;
    return 1;
}

/* Whether a function returns a status, and no number. */
static int has_status(const struct call *call)
{
    return call->function != VERSION && call->function != SIP24 && call->function != SHORT_ID;
}

const char *result_fault(const struct call *call, const struct result *result)
{
    int fits = 1;
    if (!has_status(call))
        return NULL;
    if (result->status != CBRELAY_OK && result->status != CBRELAY_TOO_SMALL) {
        for (size_t i = 0; i < result->tolds; i++)
            if (!is_filler(result->told[i].bytes, result->told_size[i]))
                return "a value was written after a fault";
        for (size_t i = 0; i < result->outs; i++)
            if (!is_filler(result->out[i], call->room[i] * result->unit[i]))
                return "a list was written after a fault";
        return NULL;
    }
    for (size_t i = 0; i < result->outs; i++) {
        size_t kept = result->status == CBRELAY_OK ? result->used[i] : 0;
        fits &= result->used[i] <= call->room[i];
        if (kept > call->room[i])
            return "more is told than there is room for";
        if (!is_filler(result->out[i] + kept * result->unit[i], (call->room[i] - kept) * result->unit[i]))
            return "something was written behind a list's items";
    }
    if (fits != (result->status == CBRELAY_OK))
        return "what is told to be too small isn't, or the other way round";
    for (size_t i = 0; i < result->tolds; i++)
        if (!is_filler(result->told[i].bytes + result->told_size[i], sizeof result->told[i] - result->told_size[i]))
            return "something was written behind a value";
    return NULL;
}

int results_equal(const struct call *call, const struct result *one, const struct result *other)
{
    if (one->status != other->status || memcmp(one->told, other->told, sizeof one->told))
        return 0;
    for (size_t i = 0; i < one->outs; i++)
        if (memcmp(one->out[i], other->out[i], call->room[i] * one->unit[i]))
            return 0;
    return 1;
}

static uint64_t hashed(const uint8_t *bytes, size_t size, uint64_t before)
{
    for (size_t i = 0; i < size; i++)
        before = (before ^ bytes[i]) * 1099511628211u;
    return before;
}

uint64_t result_hash(const struct call *call, const struct result *result, uint64_t before)
{
    before = hashed((const uint8_t *)&result->status, sizeof result->status, before);
    for (size_t i = 0; i < result->tolds; i++)
        before = hashed(result->told[i].bytes, result->told_size[i], before);
    for (size_t i = 0; i < result->outs; i++)
        before = hashed(result->out[i], call->room[i] * result->unit[i], before);
    return before;
}
