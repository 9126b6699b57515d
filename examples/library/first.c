/* Tells of the block in a file: cc first.c -I$PREFIX/include $PREFIX/lib/libcbrelay.a -o first && ./first block-170.bin */
#include <cbrelay.h>
#include <stdio.h>

static uint8_t block[1000001];

int main(int words, char **word)
{
    FILE *file = words == 2 ? fopen(word[1], "rb") : NULL;
    size_t len = file ? fread(block, 1, sizeof block, file) : 0, count;
    cbrelay_status status = cbrelay_block_check(block, len);
    if (status != CBRELAY_OK) {
        uint8_t text[17];
        size_t size;
        cbrelay_fault_text(status, text, sizeof text, &size);
        printf("%.*s\n", (int)size, (const char *)text);
        return 1;
    }
    cbrelay_hash hash;
    cbrelay_block_hash(block, 80, &hash);
    cbrelay_block_transactions_at(block, len, NULL, 0, &count); /* only counts: there is no room for more */
    for (int i = 31; i >= 0; i--) /* people write a hash from its last byte on */
        printf("%02x", hash.bytes[i]);
    printf(" %zu transactions\n", count);
    return 0;
}
