/*
 * A whole test exchange on lent memory through scale_power_up, against the same erases and copies by memset and memcpy. The two take
 * turns, and the best time of each counts. The ratio is plain time / scale time: 1.00 is as fast as plain C, 0.50 half as fast.
 *
 * Small image: what is exchanged is full, but the image in slot 1 covers 64 bytes, so the time is that of erasing and copying.
 * Full image: the image fills the slot. The start checks its digest first, and plain C is given the same digest to compute (by
 * scale_sha256), so that again both sides do the same work.
 *
 * Both sides must leave the same three areas, or the program fails.
 */
#define _POSIX_C_SOURCE 200809L
#include <stdio.h>
#include <stdlib.h>
#include <string.h>
#include <time.h>

#include "plain.h"
#include "scale.h"

enum { SECTOR = 4096, ROUNDS = 60 };

typedef struct {
    size_t unit, sectors, slot, covered;
    uint8_t *slot0, *slot1, *scratch;
} flash;

static double now(void)
{
    struct timespec t;
    clock_gettime(CLOCK_MONOTONIC, &t);
    return (double)t.tv_sec + (double)t.tv_nsec * 1e-9;
}

static uint8_t *lend(size_t length)
{
    uint8_t *bytes = malloc(length);
    if (bytes == NULL)
        exit(1);
    memset(bytes, 0xff, length);
    return bytes;
}

static void put_image(uint8_t *slot, size_t data, size_t covered, unsigned seed)
{
    size_t body = covered - 32;
    for (size_t i = 0; i < data; i++, seed = seed * 1103515245 + 12345)
        slot[i] = (uint8_t)(seed >> 16);
    const uint8_t header[16] = {0x3c, 0xb8, 0xf3, 0x96, 36, 0, 0, 0, 32, 0, 0, 0,
                                (uint8_t)body, (uint8_t)(body >> 8), (uint8_t)(body >> 16), (uint8_t)(body >> 24)};
    const uint8_t record[4] = {1, 0, 32, 0};
    memcpy(slot, header, sizeof header);
    memcpy(slot + covered, record, sizeof record);
    scale_sha256(slot, covered, slot + covered + 4);
}

static flash set_up(size_t unit, size_t sectors, bool full)
{
    flash f = {unit, sectors, sectors * SECTOR, 0, NULL, NULL, NULL};
    size_t data = f.slot - SECTOR;
    f.covered = full ? data - 36 : 64;
    f.slot0 = lend(f.slot);
    f.slot1 = lend(f.slot);
    f.scratch = lend(2 * SECTOR);
    put_image(f.slot0, data, f.covered, 1);
    put_image(f.slot1, data, f.covered, 2);
    return f;
}

static void release(flash f)
{
    free(f.slot0);
    free(f.slot1);
    free(f.scratch);
}

/* Seconds of one exchange through the library. Slot 1 is marked first, outside the time. */
static double scale_once(flash f)
{
    if (scale_mark(f.unit, SECTOR, f.sectors, f.slot0, f.slot, f.slot1, f.slot, f.scratch, 2 * SECTOR, false).refusal != 0)
        exit(1);
    double start = now();
    scale_answer r = scale_power_up(f.unit, SECTOR, f.sectors, f.slot0, f.slot, f.slot1, f.slot, f.scratch, 2 * SECTOR, UINT64_MAX);
    double time = now() - start;
    uint64_t wanted = 3 * (f.sectors - 1) * (SECTOR / f.unit + 2) + 8 + 32 / f.unit;
    if (r.done != SCALE_DONE_TEST || r.end != SCALE_END_BOOT || r.offset != 32 || r.count != wanted) {
        fprintf(stderr, "the exchange did not take place: done %u, end %u\n", (unsigned)r.done, (unsigned)r.end);
        exit(1);
    }
    return time;
}

static double plain_once(flash f, bool full)
{
    uint8_t digest[32];
    double start = now();
    if (full) {
        scale_sha256(f.slot1, f.covered, digest);
        if (memcmp(digest, f.slot1 + f.covered + 4, 32) != 0)
            exit(1);
    }
    plain_exchange(f.unit, SECTOR, f.sectors, f.slot0, f.slot1, f.scratch);
    return now() - start;
}

static double measure(size_t unit, size_t sectors, bool full)
{
    flash ours = set_up(unit, sectors, full), plain = set_up(unit, sectors, full);
    double best_ours = 1e9, best_plain = 1e9;
    for (unsigned round = 0; round < ROUNDS; round++) {
        double a = scale_once(ours), b = plain_once(plain, full);
        if (round == 0) /* the first round has cold memory */
            continue;
        best_ours = a < best_ours ? a : best_ours;
        best_plain = b < best_plain ? b : best_plain;
    }
    if (memcmp(ours.slot0, plain.slot0, ours.slot) != 0 || memcmp(ours.slot1, plain.slot1, ours.slot) != 0 ||
        memcmp(ours.scratch, plain.scratch, 2 * SECTOR) != 0) {
        fprintf(stderr, "the two leave different areas\n");
        exit(1);
    }
    double per_sector = best_ours / (double)(sectors - 1);
    printf("  w %zu  n %3zu  %-11s  scale %9.1f us  plain %9.1f us  ratio %.2f  per sector %7.3f us\n", unit, sectors,
           full ? "full image" : "small image", best_ours * 1e6, best_plain * 1e6, best_plain / best_ours, per_sector * 1e6);
    release(ours);
    release(plain);
    return per_sector;
}

int main(void)
{
    printf("exchange, s %d, best of %d rounds; ratio is plain / scale, 1.00 as fast as memset and memcpy\n", SECTOR, ROUNDS - 1);
    for (size_t unit = 1; unit <= 8; unit *= 8) {
        for (int full = 0; full < 2; full++) {
            double few = measure(unit, 32, full), many = measure(unit, 128, full);
            printf("  w %zu               cost per sector at n 128 over n 32: %.2f\n", unit, many / few);
        }
    }
    return 0;
}
