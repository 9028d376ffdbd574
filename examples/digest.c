/*
 * Print the SHA-256 digest of a file, or of standard input, as hexadecimal.
 *
 *   cc -std=c99 -Iinclude examples/digest.c target/staticlib/libscale.a -o digest
 *   ./digest FILE
 */
#include <stdio.h>
#include <stdlib.h>

#include "scale.h"

/* The whole of a stream in allocated memory, never NULL; its length in *length. Ends the program if it cannot be read. */
static uint8_t *read_all(FILE *stream, size_t *length)
{
    size_t room = 65536, used = 0, got;
    uint8_t *bytes = malloc(room);
    while (bytes != NULL && (got = fread(bytes + used, 1, room - used, stream)) > 0) {
        used += got;
        if (used == room) {
            uint8_t *larger = room > SIZE_MAX / 2 ? NULL : realloc(bytes, room * 2);
            if (larger == NULL)
                free(bytes);
            bytes = larger;
            room *= 2;
        }
    }
    if (bytes == NULL || ferror(stream)) {
        fputs("digest: the input cannot be read\n", stderr);
        exit(1);
    }
    *length = used;
    return bytes;
}

int main(int count, char **arguments)
{
    uint8_t digest[32];
    size_t length;
    FILE *stream = count > 1 ? fopen(arguments[1], "rb") : stdin;
    if (count > 2 || stream == NULL) {
        fprintf(stderr, count > 2 ? "usage: digest [FILE]\n" : "digest: the file cannot be opened\n");
        return 1;
    }
    uint8_t *bytes = read_all(stream, &length);
    scale_sha256(bytes, length, digest);
    for (unsigned i = 0; i < sizeof digest; i++)
        printf("%02x", digest[i]);
    putchar('\n');
    free(bytes);
    if (stream != stdin)
        fclose(stream);
    return 0;
}
