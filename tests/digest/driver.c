/* Reads messages from standard input, each after its length in 8 bytes, lowest first, and writes the digest of each. */
#include <stdio.h>
#include <stdlib.h>

#include "scale.h"

int main(void)
{
    uint8_t head[8];
    while (fread(head, 1, sizeof head, stdin) == sizeof head) {
        size_t length = 0;
        for (int i = 0; i < 8; i++)
            length |= (size_t)head[i] << 8 * i;
        uint8_t *message = malloc(length ? length : 1);
        if (!message || fread(message, 1, length, stdin) != length)
            return 1;
        uint8_t digest[32];
        scale_sha256(message, length, digest);
        free(message);
        if (fwrite(digest, 1, sizeof digest, stdout) != sizeof digest)
            return 1;
    }
    return 0;
}
