/* The image check against the digest that it takes anyway: least times of many turns, the two asked by turns. */
#include <stdio.h>
#include <stdlib.h>
#include <time.h>

#include "scale.h"

enum { HEADER = 32, BODY = (1 << 20) - HEADER, COVERED = HEADER + BODY, TURNS = 60 };

static double now(void)
{
    struct timespec t;
    clock_gettime(CLOCK_MONOTONIC, &t);
    return (double)t.tv_sec + (double)t.tv_nsec * 1e-9;
}

static void put(uint8_t *at, uint32_t value, int size)
{
    for (int i = 0; i < size; i++)
        at[i] = (uint8_t)(value >> (8 * i));
}

/* An image of 1 MiB of header and body, with so many empty records of type 2 before its digest record. */
static size_t make(uint8_t *image, uint32_t empty)
{
    uint8_t *area = image + COVERED;
    for (size_t i = 0; i < COVERED; i++)
        image[i] = (uint8_t)(i * 2654435761u >> 24);
    put(image, 0x96f3b83cu, 4);
    put(image + 4, 4 * empty + 36, 2);
    put(image + 8, HEADER, 2);
    put(image + 12, BODY, 4);
    for (uint32_t i = 0; i < empty; i++)
        put(area + 4 * i, 2, 4);
    put(area + 4 * empty, 0x00200001u, 4);
    scale_sha256(image, COVERED, area + 4 * empty + 4);
    return COVERED + 4 * empty + 36;
}

static int measure(uint8_t *image, uint32_t empty)
{
    size_t length = make(image, empty);
    uint8_t digest[32];
    double check = 1e9, alone = 1e9;
    for (int turn = 0; turn < TURNS; turn++) {
        double start = now();
        scale_sha256(image, COVERED, digest);
        double between = now();
        if (scale_check_image(image, length) != 0)
            return 1;
        double end = now();
        if (between - start < alone)
            alone = between - start;
        if (end - between < check)
            check = end - between;
    }
    printf("%6u records: check %.3f ms, digest alone %.3f ms, ratio %.3f\n", empty + 1, check * 1e3, alone * 1e3, check / alone);
    return 0;
}

int main(void)
{
    uint8_t *image = malloc(COVERED + 65536);
    if (!image)
        return 1;
    int failed = measure(image, 0) || measure(image, (65535 - 36) / 4);
    free(image);
    if (failed)
        fprintf(stderr, "image: an image that was made is not accepted\n");
    return failed;
}
