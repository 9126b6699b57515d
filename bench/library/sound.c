/* Tells whether the block on standard input is sound. The status is 0 where it is, else 3. */
#include "cbrelay.h"

#include <stdio.h>
#include <stdlib.h>

int main(void)
{
    uint8_t *block = NULL, text[17];
    size_t room = 0, len = 0, size;
    do {
        if (len == room) {
            room = 2 * room + 65536;
            block = realloc(block, room);
            if (!block)
                return 4;
        }
        size = fread(block + len, 1, room - len, stdin);
        len += size;
    } while (size);
    cbrelay_status status = cbrelay_block_sound(block, len);
    cbrelay_fault_text(status, text, sizeof text, &size);
    printf("%.*s\n", (int)size, (const char *)text);
    free(block);
    return status == CBRELAY_OK ? 0 : 3;
}
