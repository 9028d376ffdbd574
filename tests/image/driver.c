/* Reads images from standard input, each behind its length (8 bytes, little endian), and writes a line for each: what the check answers,
 * and where the header can be used (neither cause 1 nor 2) the trailing records: TYPE@START+SIZE for each, and then end or stump.
 * Each image lies in memory of its own size, so that a tool that watches memory sees a read beyond it. */
#include <inttypes.h>
#include <stdio.h>
#include <stdlib.h>
#include <string.h>

#include "scale.h"

/* The records as a user of scale.h finds them. False where an answer is none of those that the header has. */
static bool say_records(const uint8_t *image)
{
    size_t length = (size_t)image[4] | (size_t)image[5] << 8, header = (size_t)image[8] | (size_t)image[9] << 8;
    size_t body = (size_t)image[12] | (size_t)image[13] << 8 | (size_t)image[14] << 16 | (size_t)image[15] << 24;
    uint8_t *records = malloc(length ? length : 1);
    if (!records)
        return false;
    memcpy(records, image + header + body, length);
    scale_record r = scale_record_at(records, length, 0);
    for (; r.found == SCALE_RECORD_FOUND; r = scale_record_at(records, length, r.start + r.size))
        printf(" %" PRIu64 "@%" PRIu64 "+%" PRIu64, r.type, r.start, r.size);
    printf(r.found == SCALE_RECORD_END ? " end" : " stump");
    free(records);
    return (r.found == SCALE_RECORD_END || r.found == SCALE_RECORD_STUMP) && !r.type && !r.start && !r.size;
}

int main(void)
{
    unsigned char head[8];
    while (fread(head, 1, 8, stdin) == 8) {
        uint64_t length = 0;
        for (int i = 7; i >= 0; i--)
            length = length << 8 | head[i];
        uint8_t *image = malloc(length ? length : 1);
        uint8_t *before = malloc(length ? length : 1);
        if (!image || !before || fread(image, 1, length, stdin) != length)
            return 1;
        memcpy(before, image, length);
        uint32_t cause = scale_check_image(image, length);
        if (cause > 5 || memcmp(before, image, length) != 0)
            return 1; /* no such cause, or the check wrote */
        printf("%" PRIu32, cause);
        if (cause != 1 && cause != 2 && !say_records(image))
            return 1;
        putchar('\n');
        free(before);
        free(image);
    }
    return fflush(stdout) != 0;
}
