/*
 * cbrelay: the proved parts of a Bitcoin compact block relay node, for C.
 *
 * Every function takes bytes and gives bytes. It keeps nothing of what it is given, has no state,
 * and may be called by any number of threads at once. It must not be called in a signal handler,
 * nor between fork and exec in the child of a process with several threads: it allocates with
 * malloc, realloc and free.
 *
 * Slices. A pointer and the length behind it are a slice: of bytes, or of that many values. A
 * length is in bytes, a count or capacity in values. NULL with length 0 is an empty slice. The
 * caller owes that a pointer is good for its length, that no length is 2^63 or more, that what a
 * call writes overlaps nothing else that it is given, and that malloc aligns to 16 bytes. Each
 * other argument may be anything.
 *
 * Outputs. A function that gives a text or a list takes the caller's buffer with its capacity, and
 * tells the length or count that is needed. With CBRELAY_TOO_SMALL that is told, and the buffer is
 * unchanged. Behind what is written, a buffer is unchanged. After a fault nothing was written at
 * all.
 *
 * Units. A hash is in wire order, the reverse of the digits that people write. Offsets and lengths
 * are in bytes, values in satoshis, times in Unix seconds. Transactions are in the serialisation
 * without the marker, flag and witnesses of BIP 141.
 *
 * Faults are told for the first field from the left that can't be read, or the first rule that is
 * broken. CBRELAY_MEMORY is told only where something had to be allocated.
 */
#ifndef CBRELAY_H
#define CBRELAY_H

#include <stddef.h>
#include <stdint.h>

#ifdef __cplusplus
extern "C" {
#endif

/* The number of this interface: the major number times 65536, and the minor number. While the major
 * number is 0, any change raises the minor number. */
#define CBRELAY_VERSION 1u

/* ---- Statuses ---- */

/* 0, or a fault, or one of the three statuses from 65536 on. A fault is its number, 1 to 28, and for
 * CBRELAY_BAD_TX 256 times the rule's number more. */
typedef uint32_t cbrelay_status;

#define CBRELAY_OK 0u
/* The caller's buffer is too small. The length that is needed was told. */
#define CBRELAY_TOO_SMALL 65536u
/* The bytes are the beginning of an envelope. More are needed. */
#define CBRELAY_PARTIAL 65537u
/* An envelope has a wrong checksum, or a command is not 1 to 12 bytes from the space to the tilde. */
#define CBRELAY_DAMAGED 65538u

/* The number of the fault in a status, or 0. */
#define CBRELAY_FAULT(status) ((status) < 65536u ? (status) & 255u : 0u)
/* The number of the rule in a status with CBRELAY_BAD_TX, or 0. */
#define CBRELAY_TX_RULE(status) ((status) < 65536u ? (status) >> 8 : 0u)

/* The faults that these functions tell. */
#define CBRELAY_MEMORY 1u         /* an allocation failed */
#define CBRELAY_TRUNCATED 2u      /* bytes are missing, or a count's items can't fit in the rest */
#define CBRELAY_NOT_SHORTEST 3u   /* a CompactSize is not the shortest encoding of its number */
#define CBRELAY_TOO_MANY 4u       /* a count, or the length of a user agent, is above its limit */
#define CBRELAY_BAD_TX 5u         /* a transaction breaks a rule, whose number is in the status */
#define CBRELAY_BAD_ROOT 6u       /* the transactions don't have the Merkle root of the header */
#define CBRELAY_MUTATED 7u        /* two paired hashes in the Merkle tree are equal, CVE-2012-2459 */
#define CBRELAY_SIZE_64 8u        /* a transaction has 64 bytes, CVE-2017-12842 */
#define CBRELAY_EMPTY 9u          /* no transactions, or no hashes */
#define CBRELAY_BAD_COINBASE 10u  /* the first transaction is no coinbase, or a later one is */
#define CBRELAY_BAD_WORK 11u      /* other bits than regtest's, or a hash above the target */
#define CBRELAY_BAD_MAGIC 12u     /* an envelope doesn't begin with the magic of regtest */
#define CBRELAY_OVERSIZE 13u      /* a payload above 4,000,000 bytes, or a block above 1,000,000 */
#define CBRELAY_TRAILING 14u      /* bytes are left over */
#define CBRELAY_BAD_BOOL 15u      /* a flag is not 0 or 1, or a listed header counts transactions */
#define CBRELAY_BAD_INDEX 16u     /* an index is not below the number of transactions (BIP 152) */
#define CBRELAY_WRONG_COUNT 17u   /* not as many transactions, or txids, as there must be */

/* The rules that a transaction must meet by itself (Bitcoin Core's CheckTransaction), in the order
 * in which they are checked. */
#define CBRELAY_NO_INPUTS 1u            /* no inputs */
#define CBRELAY_NO_OUTPUTS 2u           /* no outputs */
#define CBRELAY_TOO_LONG 3u             /* more than 1,000,000 bytes */
#define CBRELAY_BAD_VALUE 4u            /* a value below 0 or above 2,100,000,000,000,000 satoshis */
#define CBRELAY_BAD_SUM 5u              /* values that add up to more than that */
#define CBRELAY_REPEATED_INPUT 6u       /* two inputs that spend the same output */
#define CBRELAY_BAD_COINBASE_SCRIPT 7u  /* a coinbase script below 2 bytes or above 100 */
#define CBRELAY_NULL_INPUT 8u           /* a null outpoint in what is no coinbase */

/* The number of the interface that the library was built with. It is CBRELAY_VERSION if header and
 * library belong together. */
uint32_t cbrelay_version(void);

/* Writes the name of a status, without a zero at its end: "F2 Truncated", "F5 BadTx 3", "OK",
 * "TooSmall", "Partial", "Damaged"; of any other number "Unknown". *len is its length, at most 15.
 * Returns 0 or CBRELAY_TOO_SMALL. It allocates nothing. */
cbrelay_status cbrelay_fault_text(cbrelay_status status, uint8_t *out, size_t capacity, size_t *len);

/* ---- Types ---- */

/* A hash: 32 bytes in wire order. */
typedef struct {
    uint8_t bytes[32];
} cbrelay_hash;

/* A SipHash key: two words. */
typedef struct {
    uint64_t k0;
    uint64_t k1;
} cbrelay_key;

/* A block header. */
typedef struct {
    int32_t version;
    cbrelay_hash prev; /* the hash of the previous block */
    cbrelay_hash root; /* the Merkle root over the txids */
    uint32_t time;     /* Unix seconds */
    uint32_t bits;     /* the target in compact form */
    uint32_t nonce;
} cbrelay_header;

/* Where something lies in the bytes that a function was given. */
typedef struct {
    size_t offset;
    size_t len;
} cbrelay_span;

/* An input: the output that it spends, where its script lies, and its sequence number. */
typedef struct {
    cbrelay_hash txid;
    uint32_t index;
    uint32_t sequence;
    cbrelay_span script;
} cbrelay_input;

/* An output: a value in satoshis, and where its script lies. */
typedef struct {
    int64_t value;
    cbrelay_span script;
} cbrelay_output;

/* The other fields of a transaction, and how many inputs and outputs it has. */
typedef struct {
    int32_t version;
    uint32_t lock_time;
    size_t inputs;
    size_t outputs;
} cbrelay_tx;

/* ---- Hashes ---- */

/* The double SHA-256 (FIPS 180-4) of the bytes. It makes txids, block hashes and checksums. */
void cbrelay_sha256d(const uint8_t *bytes, size_t len, cbrelay_hash *hash);

/* The txid of the transaction that is all of these bytes. Faults: those of cbrelay_tx_read. */
cbrelay_status cbrelay_txid(const uint8_t *tx, size_t len, cbrelay_hash *txid);

/* The hash of the block whose header is all of these bytes, which are 80. Faults: those of
 * cbrelay_header_read. It allocates nothing. */
cbrelay_status cbrelay_block_hash(const uint8_t *header, size_t len, cbrelay_hash *hash);

/* The Merkle root of hashes, and whether two hashes that meet in the tree are equal, so that other
 * lists have the same root (CVE-2012-2459): *mutated is then 1, else 0. Faults: CBRELAY_EMPTY without
 * hashes, CBRELAY_MEMORY with two or more. */
cbrelay_status cbrelay_merkle_root(const cbrelay_hash *hashes, size_t count, cbrelay_hash *root,
                                   uint32_t *mutated);

/* SipHash-2-4 (Aumasson and Bernstein, 2012) of the bytes. It allocates nothing. */
uint64_t cbrelay_sip24(const cbrelay_key *key, const uint8_t *bytes, size_t len);

/* The key of the short ids under a header, which is all of these bytes, and a nonce (BIP 152, Short
 * transaction IDs): the first two little-endian words of the SHA-256 of both. Faults:
 * those of cbrelay_header_read. It allocates nothing. */
cbrelay_status cbrelay_short_id_key(const uint8_t *header, size_t len, uint64_t nonce,
                                    cbrelay_key *key);

/* The short id of a txid under a key (BIP 152, version 1): the low 48 bits of its SipHash-2-4. It
 * allocates nothing. */
uint64_t cbrelay_short_id(const cbrelay_key *key, const cbrelay_hash *txid);

/* ---- Headers, transactions, blocks ---- */

/* Reads the header that is all of these bytes, which are 80. Faults: CBRELAY_TRUNCATED,
 * CBRELAY_TRAILING. It allocates nothing. */
cbrelay_status cbrelay_header_read(const uint8_t *header, size_t len, cbrelay_header *fields);

/* Writes the 80 bytes of a header. *len is 80. Returns 0 or CBRELAY_TOO_SMALL. It allocates
 * nothing. */
cbrelay_status cbrelay_header_write(const cbrelay_header *header, uint8_t *out, size_t capacity,
                                    size_t *len);

/* Checks the proof of work of the header that is all of these bytes, for regtest: its bits are
 * 207fffff, and its hash is at most their target. No difficulty is computed: a header with the bits
 * of another network is CBRELAY_BAD_WORK. Faults: those of cbrelay_header_read, then
 * CBRELAY_BAD_WORK. It allocates nothing. */
cbrelay_status cbrelay_header_check(const uint8_t *header, size_t len);

/* Reads the transaction that is all of these bytes. *fields has its counts. Its inputs and outputs are
 * written if both buffers have room, and none of them otherwise: CBRELAY_TOO_SMALL, with *fields
 * written. Faults: CBRELAY_TRUNCATED, CBRELAY_NOT_SHORTEST, then CBRELAY_TRAILING; CBRELAY_MEMORY only
 * behind a count above 0. */
cbrelay_status cbrelay_tx_read(const uint8_t *tx, size_t len, cbrelay_input *inputs,
                               size_t input_capacity, cbrelay_output *outputs,
                               size_t output_capacity, cbrelay_tx *fields);

/* Checks the rules that the transaction which is all of these bytes must meet by itself, without
 * what it spends: no scripts, signatures or lock times. Faults: those of cbrelay_tx_read, then
 * CBRELAY_BAD_TX with the first rule that is broken, as 5 + 256 * rule. */
cbrelay_status cbrelay_tx_check(const uint8_t *tx, size_t len);

/* Whether the bytes are one sound block: its transactions are the only ones that fit its header. It
 * has transactions, none of 64 bytes, its Merkle tree isn't mutated, and its header has the root of
 * the tree. Faults: those of cbrelay_tx_read, then, in this order, CBRELAY_EMPTY, CBRELAY_SIZE_64,
 * CBRELAY_MUTATED, CBRELAY_BAD_ROOT. */
cbrelay_status cbrelay_block_sound(const uint8_t *block, size_t len);

/* Whether the bytes are one sound block that meets the rules which a block meets by itself: at most
 * 1,000,000 bytes, a coinbase that is first and the only one, and transactions that meet their
 * rules. This is not consensus. Not checked are scripts and signatures, witnesses, what is spent,
 * fees and the coinbase's value, proof of work and difficulty, times and lock times, and the height
 * in the coinbase. Faults: those of cbrelay_block_sound, then, in this order, CBRELAY_OVERSIZE,
 * CBRELAY_BAD_COINBASE, CBRELAY_BAD_TX. */
cbrelay_status cbrelay_block_check(const uint8_t *block, size_t len);

/* Where each transaction lies in the block that is all of these bytes. *count is how many it has.
 * Whether they belong to the header isn't checked. Faults: those of cbrelay_tx_read;
 * CBRELAY_TOO_SMALL. */
cbrelay_status cbrelay_block_transactions_at(const uint8_t *block, size_t len, cbrelay_span *spans,
                                             size_t capacity, size_t *count);

/* ---- Compact blocks (BIP 152, version 1) ----
 *
 * `message` is the payload of a cmpctblock: HeaderAndShortIDs. `txs` are transactions that the
 * caller knows, in any order: their count as a CompactSize, then each. `request` is the payload of a
 * getblocktxn, `answer` that of a blocktxn. All bytes must be read: CBRELAY_TRAILING. */

/* What rebuilding comes to. */
#define CBRELAY_BLOCK 0u   /* the whole block, which is sound */
#define CBRELAY_REQUEST 1u /* the getblocktxn payload that asks for exactly what is missing */
#define CBRELAY_USELESS 2u /* nothing: two short ids are equal, or the block isn't sound */

/* Writes the cmpctblock payload of a block under a nonce: its first transaction prefilled, short ids
 * for the others. It has at most 10 bytes more than the block. Faults: those of
 * cbrelay_block_check; CBRELAY_TOO_SMALL. */
cbrelay_status cbrelay_compact_block(const uint8_t *block, size_t block_len, uint64_t nonce,
                                     uint8_t *out, size_t capacity, size_t *len);

/* Rebuilds the block of a compact block from known transactions. *kind is CBRELAY_BLOCK,
 * CBRELAY_REQUEST or CBRELAY_USELESS, and what that is comes to out; *kind and *len are also told with
 * CBRELAY_TOO_SMALL. A transaction is missing if no known one has its short id, or several have. Each
 * known one is hashed. Faults: of the message CBRELAY_TRUNCATED, CBRELAY_NOT_SHORTEST, CBRELAY_EMPTY,
 * CBRELAY_TOO_MANY, CBRELAY_TRAILING; then CBRELAY_BAD_INDEX if a prefilled transaction has no place
 * in the block; then those of cbrelay_tx_read for txs. */
cbrelay_status cbrelay_rebuild_block(const uint8_t *message, size_t message_len, const uint8_t *txs,
                                     size_t txs_len, uint8_t *out, size_t capacity, size_t *len,
                                     uint32_t *kind);

/* The same for transactions whose txids are known, in the order of txs: so a mempool isn't hashed
 * anew for each block. The txids are the caller's word. A wrong one can make a transaction missing
 * or the compact block useless, and never gives a wrong block. Faults: as above;
 * CBRELAY_WRONG_COUNT if there aren't as many txids as transactions. */
cbrelay_status cbrelay_rebuild_block_known(const uint8_t *message, size_t message_len,
                                           const uint8_t *txs, size_t txs_len,
                                           const cbrelay_hash *txids, size_t txid_count,
                                           uint8_t *out, size_t capacity, size_t *len,
                                           uint32_t *kind);

/* Writes the getblocktxn payload that asks for what is missing of a compact block:
 * BlockTransactionsRequest. If nothing has to be asked for, *len is 0: cbrelay_rebuild_block then
 * gives the block, or tells that the compact block is useless. Faults: those of
 * cbrelay_rebuild_block; CBRELAY_TOO_SMALL. */
cbrelay_status cbrelay_block_transactions_request(const uint8_t *message, size_t message_len,
                                                  const uint8_t *txs, size_t txs_len,
                                                  uint8_t *out, size_t capacity, size_t *len);

/* Writes the blocktxn payload that answers a getblocktxn from its block: BlockTransactions. The
 * caller has found the block by the hash in the request: the answer repeats that hash, and it isn't
 * compared with the block's. Faults: those of cbrelay_tx_read for block and request, CBRELAY_TOO_MANY
 * above 16,666 indexes, CBRELAY_BAD_INDEX if the block has no transaction there;
 * CBRELAY_TOO_SMALL. */
cbrelay_status cbrelay_block_transactions(const uint8_t *block, size_t block_len,
                                          const uint8_t *request, size_t request_len, uint8_t *out,
                                          size_t capacity, size_t *len);

/* Completes the block of a compact block: from the same known transactions, and from the blocktxn
 * payload that answers the request of cbrelay_rebuild_block. *kind is CBRELAY_BLOCK or
 * CBRELAY_USELESS. The block hash in the answer isn't compared. Faults: those of
 * cbrelay_rebuild_block, those of cbrelay_tx_read for the answer, and CBRELAY_WRONG_COUNT if it
 * doesn't have as many transactions as are missing; CBRELAY_TOO_SMALL. */
cbrelay_status cbrelay_complete_block(const uint8_t *message, size_t message_len,
                                      const uint8_t *txs, size_t txs_len, const uint8_t *answer,
                                      size_t answer_len, uint8_t *out, size_t capacity, size_t *len,
                                      uint32_t *kind);

/* ---- Messages (Bitcoin's peer-to-peer protocol, with the magic of regtest) ----
 *
 * An envelope is 24 bytes, then the payload: 4 bytes of magic, fa bf b5 da; the command, padded with
 * zeros to 12; the payload's length; the first 4 bytes of the payload's double SHA-256. The known
 * commands are version, verack, ping, pong, sendheaders, sendcmpct, inv, getdata, notfound, headers,
 * getheaders, tx, block, cmpctblock, getblocktxn and blocktxn. */

/* Looks at the envelope at the front of a stream. With 0 it is whole: *payload_len is the length of
 * its payload, behind 24 bytes, and *told is 0 if the message can be read, the fault of its payload,
 * or CBRELAY_DAMAGED. A message with an unknown command can be read. The next envelope begins behind
 * the payload, whatever *told is. CBRELAY_PARTIAL: more bytes are needed. Faults that end the stream:
 * CBRELAY_BAD_MAGIC, CBRELAY_OVERSIZE. */
cbrelay_status cbrelay_envelope_at(const uint8_t *bytes, size_t len, size_t *payload_len,
                                   cbrelay_status *told);

/* Whether the payload is one of this command. Any is, if the command is unknown. Faults:
 * CBRELAY_DAMAGED if the command isn't the form of one, CBRELAY_OVERSIZE above 4,000,000 bytes, then
 * that of the first field from the left that can't be read: CBRELAY_TRUNCATED, CBRELAY_NOT_SHORTEST,
 * CBRELAY_TOO_MANY, CBRELAY_EMPTY, CBRELAY_BAD_BOOL, and last CBRELAY_TRAILING, which a version never
 * has. */
cbrelay_status cbrelay_message_check(const uint8_t *command, size_t command_len,
                                     const uint8_t *payload, size_t payload_len);

/* Writes the envelope of a command and a payload. Faults: those of cbrelay_message_check;
 * CBRELAY_TOO_SMALL. *len is 24 more than the payload has. */
cbrelay_status cbrelay_message_write(const uint8_t *command, size_t command_len,
                                     const uint8_t *payload, size_t payload_len, uint8_t *out,
                                     size_t capacity, size_t *len);

/* The readers below read a payload into its fields. Their faults are those of
 * cbrelay_message_check for the command, but for CBRELAY_OVERSIZE, which they don't tell, and
 * CBRELAY_TOO_SMALL where there is a list. The payloads of tx and block are read by cbrelay_tx_read
 * and cbrelay_block_transactions_at; those of verack and sendheaders are empty. */

/* A network address of a version: an IPv6 address, or an IPv4 address in its last 4 bytes. */
typedef struct {
    uint64_t services;
    uint8_t ip[16];
    uint16_t port;
} cbrelay_address;

/* The fields of a version. relay (BIP 37) is 0 or 1, and 1 if it is not in the payload. */
typedef struct {
    int32_t version;
    uint32_t relay;
    uint64_t services;
    int64_t time;
    cbrelay_address receiver;
    cbrelay_address sender;
    uint64_t nonce;
    cbrelay_span agent; /* where the user agent lies, at most 256 bytes */
    int32_t height;
} cbrelay_version_fields;

/* Reads the payload of a version. It allocates nothing. */
cbrelay_status cbrelay_version_read(const uint8_t *payload, size_t len,
                                    cbrelay_version_fields *fields);

/* Reads the nonce of a ping or a pong (BIP 31). It allocates nothing. */
cbrelay_status cbrelay_nonce_read(const uint8_t *payload, size_t len, uint64_t *nonce);

/* Reads a sendcmpct (BIP 152): *high_bandwidth is 0 or 1. It allocates nothing. */
cbrelay_status cbrelay_sendcmpct_read(const uint8_t *payload, size_t len, uint32_t *high_bandwidth,
                                      uint64_t *version);

/* An entry of inv, getdata or notfound: its type and a hash. Type 1 is a transaction, 2 a block, 4 a
 * compact block (BIP 152). Others are told as they stand. */
typedef struct {
    uint32_t kind;
    cbrelay_hash hash;
} cbrelay_entry;

/* Reads the entries of inv, getdata or notfound, at most 50,000. */
cbrelay_status cbrelay_inventory_read(const uint8_t *payload, size_t len, cbrelay_entry *entries,
                                      size_t capacity, size_t *count);

/* Reads a getheaders: the protocol version, the block locator, at most 101 hashes, and the hash to
 * stop at. With CBRELAY_TOO_SMALL all but the locator is written. */
cbrelay_status cbrelay_getheaders_read(const uint8_t *payload, size_t len, cbrelay_hash *locator,
                                       size_t capacity, size_t *count, uint32_t *version,
                                       cbrelay_hash *stop);

/* Reads the headers of a headers, at most 2,000. */
cbrelay_status cbrelay_headers_read(const uint8_t *payload, size_t len, cbrelay_header *headers,
                                    size_t capacity, size_t *count);

/* A prefilled transaction of a cmpctblock: its index as a difference (BIP 152), and where it lies. */
typedef struct {
    uint64_t difference;
    cbrelay_span tx;
} cbrelay_prefilled;

/* The other fields of a cmpctblock, and how many short ids and prefilled transactions it has: 1 to
 * 16,666 together. */
typedef struct {
    cbrelay_header header;
    uint64_t nonce;
    size_t ids;
    size_t prefilled;
} cbrelay_compact;

/* Reads a cmpctblock (BIP 152). *fields has the counts. The short ids and the prefilled transactions
 * are written if both buffers have room, and none of them otherwise: CBRELAY_TOO_SMALL, with *fields
 * written. Whether the differences lead to places in the block isn't checked. */
cbrelay_status cbrelay_cmpctblock_read(const uint8_t *payload, size_t len, uint64_t *ids,
                                       size_t id_capacity, cbrelay_prefilled *prefilled,
                                       size_t prefilled_capacity, cbrelay_compact *fields);

/* Reads a getblocktxn (BIP 152): the block's hash, and the indexes as differences, at most 16,666.
 * With CBRELAY_TOO_SMALL *count and *block are written. */
cbrelay_status cbrelay_getblocktxn_read(const uint8_t *payload, size_t len, uint64_t *differences,
                                        size_t capacity, size_t *count, cbrelay_hash *block);

/* Reads a blocktxn (BIP 152): the block's hash, and where each transaction lies. With
 * CBRELAY_TOO_SMALL *count and *block are written. */
cbrelay_status cbrelay_blocktxn_read(const uint8_t *payload, size_t len, cbrelay_span *spans,
                                     size_t capacity, size_t *count, cbrelay_hash *block);

#ifdef __cplusplus
}
#endif

#endif
