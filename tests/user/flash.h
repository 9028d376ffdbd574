/*
 * What the README tells a user, carried out on the archive: here, a flash of one geometry, images in it, its exchanges, and the places of a
 * trailer as the tables in README and header have them.
 */
#ifndef FLASH_H
#define FLASH_H

#include <stdio.h>
#include <stdlib.h>
#include <string.h>

#include "scale.h"

enum { SLOT0, SLOT1, SCRATCH, AREAS };
enum { TEST, PERMANENT, REVERT, KINDS };
enum { HEADER = 48, WIDEST = 8, MOST_SECTORS = 4, MOST = MOST_SECTORS * (384 * WIDEST + 32) };

typedef struct {
    uint8_t area[AREAS][MOST];
} flash;

static const char *const kinds[] = {"test", "permanent", "revert"};
static const uint8_t magic[16] = {0x77, 0xc2, 0x95, 0xf3, 0x60, 0xd2, 0xef, 0x7f, 0x35, 0x52, 0x50, 0x0f, 0x2c, 0xb6, 0x79, 0x80};

/* The geometry that is tried: w, s, n of document 01, and m = n - 1. */
static size_t w, s, n, m;
static unsigned long long tried;

static void smallest(size_t width, size_t sectors)
{
    w = width, s = 384 * w + 32, n = sectors, m = n - 1;
}

/* What has to hold, with its words if it does not. */
#define HOLDS(fact)                                                                                                        \
    do {                                                                                                                   \
        tried++;                                                                                                           \
        if (!(fact)) {                                                                                                     \
            fprintf(stderr, "%s:%d: w %zu, s %zu, n %zu: does not hold: %s\n", __FILE__, __LINE__, w, s, n, #fact);        \
            exit(1);                                                                                                       \
        }                                                                                                                  \
    } while (0)

static size_t sectors_of(unsigned area)
{
    return area == SCRATCH ? 2 : n;
}

static size_t length(unsigned area)
{
    return sectors_of(area) * s;
}

/* The table of the trailer: places are counted from the end of an area. */
static size_t magic_place(unsigned area)
{
    return length(area) - 16;
}

static size_t ok_place(unsigned area)
{
    return length(area) - 24;
}

static size_t done_place(unsigned area)
{
    return length(area) - 32;
}

static size_t mark_place(size_t sector, size_t j)
{
    return n * s - 32 - 3 * w * (sector + 1) + j * w;
}

static bool magic_good(const flash *f, unsigned area)
{
    return memcmp(f->area[area] + magic_place(area), magic, sizeof magic) == 0;
}

static bool same(const flash *a, const flash *b)
{
    for (unsigned area = 0; area < AREAS; area++)
        if (memcmp(a->area[area], b->area[area], length(area)) != 0)
            return false;
    return true;
}

/* The m data sectors of a slot hold the same bytes in both. */
static bool same_data(const flash *a, unsigned slot_a, const flash *b, unsigned slot_b)
{
    return memcmp(a->area[slot_a], b->area[slot_b], m * s) == 0;
}

static void erase_sector(flash *f, unsigned area, size_t sector)
{
    memset(f->area[area] + sector * s, 0xff, s);
}

static void erase_area(flash *f, unsigned area)
{
    memset(f->area[area], 0xff, length(area));
}

static void erase_trailer(flash *f, unsigned area)
{
    erase_sector(f, area, sectors_of(area) - 1);
}

static void put_number(uint8_t *at, unsigned bytes, uint32_t number)
{
    for (unsigned i = 0; i < bytes; i++)
        at[i] = (uint8_t)(number >> (8 * i));
}

/* An image by the table of the image, its body filling the data sectors, over what stands there. */
static void put_image(flash *f, unsigned slot, uint8_t body)
{
    uint8_t *image = f->area[slot];
    size_t body_size = m * s - HEADER - 36;
    memset(image, 0, HEADER);
    put_number(image, 4, 0x96f3b83c);
    put_number(image + 4, 2, 36);
    put_number(image + 8, 2, HEADER);
    put_number(image + 12, 4, (uint32_t)body_size);
    for (size_t i = 0; i < body_size; i++)
        image[HEADER + i] = (uint8_t)(body + i % 7);
    put_number(image + HEADER + body_size, 4, 1 | 32 << 16);
    scale_sha256(image, HEADER + body_size, image + HEADER + body_size + 4);
}

static scale_answer start(flash *f, uint64_t allowance)
{
    return scale_power_up(w, s, n, f->area[SLOT0], n * s, f->area[SLOT1], n * s, f->area[SCRATCH], 2 * s, allowance);
}

static scale_answer checked_start(flash *f)
{
    return scale_full_start(w, s, n, f->area[SLOT0], n * s, f->area[SLOT1], n * s, f->area[SCRATCH], 2 * s, UINT64_MAX, true);
}

static scale_marked mark(flash *f, bool permanent)
{
    return scale_mark(w, s, n, f->area[SLOT0], n * s, f->area[SLOT1], n * s, f->area[SCRATCH], 2 * s, permanent);
}

static scale_marked confirm(flash *f)
{
    return scale_confirm(w, s, n, f->area[SLOT0], n * s, f->area[SLOT1], n * s, f->area[SCRATCH], 2 * s);
}

static bool boots(scale_answer a, uint64_t done)
{
    return a.done == done && a.end == SCALE_END_BOOT && a.offset == HEADER && a.refusal == 0;
}

static bool refused_2(scale_answer a)
{
    return a.done == SCALE_DONE_NONE && a.found == 0 && a.count == 0 && a.end == SCALE_END_REFUSED && a.offset == 0 && a.refusal == 2;
}

/* A flash with an exchange due. Wherever an erase can strike stands a byte that is not 0xff, so that each one can be seen. */
static void due(flash *f, unsigned kind)
{
    for (unsigned area = 0; area < AREAS; area++) {
        erase_area(f, area);
        f->area[area][(sectors_of(area) - 1) * s] = 0;
    }
    f->area[SCRATCH][0] = 0;
    put_image(f, SLOT0, 1);
    put_image(f, SLOT1, 2);
    HOLDS(mark(f, kind == PERMANENT).refusal == 0);
    if (kind == REVERT) {
        HOLDS(boots(start(f, UINT64_MAX), SCALE_DONE_TEST));
        for (unsigned area = 0; area < AREAS; area++)
            f->area[area][(sectors_of(area) - 1) * s] = 0;
    }
}

static uint64_t done_by(unsigned kind)
{
    return kind == TEST ? SCALE_DONE_TEST : kind == PERMANENT ? SCALE_DONE_PERMANENT : SCALE_DONE_REVERT;
}

/* An exchange that is never cut, in operations: the number in README and header. */
static size_t whole(unsigned kind)
{
    return 3 * m * (s / w + 2) + 8 + (kind == TEST ? 0 : 2) + 32 / w;
}

/* Its part before the first data sector is moved. */
static size_t trailers(unsigned kind)
{
    return 7 + (kind == TEST ? 0 : 2) + 32 / w;
}

#endif
