/*
 * A firmware update from sending to confirming, with power failures: a new image is put into slot 1 and marked for a test, the scale
 * starts again and again while its power lasts for 700 operations only, boots the new firmware, which confirms itself. That is the allowance of
 * each start; with fewer than SECTOR / UNIT + 2 the exchange would never end.
 *
 *   cc -std=c99 -Iinclude examples/exchange.c target/staticlib/libscale.a -o exchange
 */
#include <stdio.h>
#include <string.h>

#include "scale.h"

enum { UNIT = 4, SECTOR = 2048, SECTORS = 3, SLOT = SECTORS * SECTOR, DATA = SLOT - SECTOR, HEADER = 32 };
enum { VERSION = 16 }; /* the record type that these images keep their version under */

static uint8_t slot0[SLOT], slot1[SLOT], scratch[2 * SECTOR];

static const char *const done_words[] = {"none", "test", "permanent", "revert", "resumed", "cleared"};

static void put_number(uint8_t *at, unsigned bytes, uint32_t number)
{
    for (unsigned i = 0; i < bytes; i++)
        at[i] = (uint8_t)(number >> (8 * i));
}

static size_t number_at(const uint8_t *at, unsigned bytes)
{
    size_t number = 0;
    while (bytes > 0)
        number = number << 8 | at[--bytes];
    return number;
}

/* An image with this text as its body: header, body, a record with a version, and one of type 1 with the digest of header and body.
 * Its size in bytes. */
static size_t put_image(uint8_t *slot, const char *body, const char *version)
{
    size_t body_size = strlen(body), covered = HEADER + body_size, version_size = strlen(version);
    uint8_t *first = slot + covered, *record = first + 4 + version_size;
    memset(slot, 0, HEADER);
    put_number(slot, 4, 0x96f3b83c);           /* magic */
    put_number(slot + 4, 2, (uint32_t)(4 + version_size + 4 + 32)); /* size of the trailing records */
    put_number(slot + 8, 2, HEADER);           /* header size */
    put_number(slot + 12, 4, (uint32_t)body_size);
    memcpy(slot + HEADER, body, body_size);
    put_number(first, 2, VERSION);             /* the type, a pad byte */
    put_number(first + 2, 2, (uint32_t)version_size);
    memcpy(first + 4, version, version_size);
    put_number(record, 2, 1);                  /* type 1, pad byte */
    put_number(record + 2, 2, 32);             /* length */
    scale_sha256(slot, covered, record + 4);
    return covered + 4 + version_size + 4 + 32;
}

/* Print the version of an image that the check accepts: its records stand behind header and body, and one of them has the version. */
static void print_version(const char *what, const uint8_t *image)
{
    const uint8_t *records = image + number_at(image + 8, 2) + number_at(image + 12, 4);
    size_t length = number_at(image + 4, 2);
    scale_record r = scale_record_at(records, length, 0);
    while (r.found == SCALE_RECORD_FOUND && r.type != VERSION)
        r = scale_record_at(records, length, r.start + r.size);
    if (r.found == SCALE_RECORD_FOUND)
        printf("%s: version %.*s\n", what, (int)r.size, (const char *)records + r.start);
    else
        printf("%s: no version\n", what);
}

/* Print a start's answer; true if another start is due. */
static bool print_answer(const char *what, scale_answer answer)
{
    printf("%s: %s, %llu marks found, %llu operations, ", what, done_words[answer.done], (unsigned long long)answer.found,
           (unsigned long long)answer.count);
    switch (answer.end) {
    case SCALE_END_BOOT:
        printf("boot at %llu\n", (unsigned long long)answer.offset);
        return false;
    case SCALE_END_STOPPED:
        printf("power failed\n");
        return true;
    default:
        printf("refused %llu\n", (unsigned long long)answer.refusal);
        return false;
    }
}

static void print_marked(const char *what, scale_marked marked)
{
    printf("%s: refusal %llu, %llu operations\n", what, (unsigned long long)marked.refusal, (unsigned long long)marked.count);
}

int main(void)
{
    char what[32];
    bool again = true;

    memset(slot0, 0xff, sizeof slot0);
    memset(slot1, 0xff, sizeof slot1);
    memset(scratch, 0xff, sizeof scratch);
    printf("geometry: write unit %d, sector %d, %d sectors per slot\n", UNIT, SECTOR, SECTORS);

    put_image(slot0, "firmware 1", "1.9");
    size_t size = put_image(slot1, "firmware 2", "2.0.1");
    printf("slot 1: image of %u bytes, check %u\n", (unsigned)size, (unsigned)scale_check_image(slot1, DATA));
    print_version("slot 1", slot1);

    print_marked("mark for a test", scale_mark(UNIT, SECTOR, SECTORS, slot0, SLOT, slot1, SLOT, scratch, 2 * SECTOR, false));

    for (unsigned start = 1; again; start++) {
        snprintf(what, sizeof what, "start %u", start);
        again = print_answer(what, scale_power_up(UNIT, SECTOR, SECTORS, slot0, SLOT, slot1, SLOT, scratch, 2 * SECTOR, 700));
    }

    printf("slot 0 runs: %.10s; slot 1 keeps: %.10s\n", (const char *)slot0 + HEADER, (const char *)slot1 + HEADER);
    print_version("slot 0", slot0);
    print_marked("confirm", scale_confirm(UNIT, SECTOR, SECTORS, slot0, SLOT, slot1, SLOT, scratch, 2 * SECTOR));

    print_answer("checked start",
                 scale_full_start(UNIT, SECTOR, SECTORS, slot0, SLOT, slot1, SLOT, scratch, 2 * SECTOR, UINT64_MAX, true));
    return 0;
}
