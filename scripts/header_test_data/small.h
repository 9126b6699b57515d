#ifndef SMALL_H
#include <stdint.h>
#ifdef __cplusplus
extern "C" {
#endif
typedef struct cbrelay_hash { uint8_t bytes[32]; uint32_t mark; } cbrelay_hash; /* a hash; */
typedef uint32_t cbrelay_status;
#define CBRELAY_TOO_SMALL 65536u
cbrelay_status cbrelay_one(const uint8_t *bytes, size_t bytes_len, uint64_t nonce,
                           cbrelay_hash *hash);
void cbrelay_two(const cbrelay_hash *hash, uint8_t *out, size_t out_capacity, size_t *len);
#ifdef __cplusplus
}
#endif
#endif
