/* The yardstick: the same erases and copies as a test exchange with w = `unit`, by memset and memcpy, without any check. */
#include <string.h>

#include "plain.h"

static const uint8_t magic[16] = {0x77, 0xc2, 0x95, 0xf3, 0x60, 0xd2, 0xef, 0x7f, 0x35, 0x52, 0x50, 0x0f, 0x2c, 0xb6, 0x79, 0x80};

static void move(uint8_t *to, const uint8_t *from, size_t sector, uint8_t *mark, uint8_t value)
{
    memset(to, 0xff, sector);
    memcpy(to, from, sector);
    *mark = value;
}

void plain_exchange(size_t unit, size_t sector, size_t sectors, uint8_t *slot0, uint8_t *slot1, uint8_t *scratch)
{
    size_t slot = sectors * sector, data = slot - sector;
    uint8_t *mark = slot0 + slot - 32 - 3 * unit * sectors;

    memset(scratch + sector, 0xff, sector);
    memcpy(scratch + 2 * sector - 16, magic, 16);
    memset(slot1 + data, 0xff, sector);
    memset(slot0 + data, 0xff, sector);
    for (unsigned j = 0; j < 3; j++, mark += unit)
        *mark = (uint8_t)(j + 1);
    memcpy(slot0 + slot - 16, magic, 16);
    memset(scratch + sector, 0xff, sector);

    for (size_t i = sectors - 1; i-- > 0; mark += 3 * unit) {
        move(scratch, slot1 + i * sector, sector, mark, 1);
        move(slot1 + i * sector, slot0 + i * sector, sector, mark + unit, 2);
        move(slot0 + i * sector, scratch, sector, mark + 2 * unit, 3);
    }
    slot0[slot - 32] = 1;
}
