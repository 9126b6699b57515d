#include <stdint.h>
#include <stdio.h>
#include <stdlib.h>

/* Tells the first ids whose hash in a table with std's seed has no bit of a mask. */
int main(int words, char **word) {
    uint32_t mask = strtoul(word[1], NULL, 10);
    long left = atol(word[2]);
    for (uint64_t id = 1; left > 0 && words == 3; id++) {
        unsigned __int128 product = (unsigned __int128)(0x243f6a8885a308d3 ^ id) * (0x9e3779b97f4a7c15 ^ 16);
        uint64_t folded = (uint64_t)product ^ (uint64_t)(product >> 64);
        if (((uint32_t)(folded ^ folded >> 32) & mask) == 0) {
            printf("%llu\n", (unsigned long long)id);
            left--;
        }
    }
    return 0;
}
