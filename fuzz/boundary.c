/*
 * A libFuzzer target over include/scale.h. The input is a geometry, a flash and a script of changes and calls; after each call what the
 * header promises is asserted. The archive carries no coverage marks of its own, so each new kind of answer is given to libFuzzer as
 * coverage (the section of extra counters), and what was reached is printed at the end.
 */
#include <stdio.h>
#include <stdlib.h>
#include <string.h>

#include "scale.h"

enum { GUARD = 32, LARGEST = 3 * 3104, FEATURES = 4096 };

#define DEMAND(fact)                                                      \
    do {                                                                  \
        if (!(fact)) {                                                    \
            fprintf(stderr, "line %d: not so: %s\n", __LINE__, #fact);    \
            abort();                                                      \
        }                                                                 \
    } while (0)

__attribute__((used, section("__libfuzzer_extra_counters"))) static uint8_t features[FEATURES];

/* ends[done][end, or 2 + refusal], marked[refusal], checks[cause] and records[found], over the whole run */
static unsigned long ends[6][11], marked[9], checks[6], records[3], runs;

typedef struct {
    uint8_t bytes[3][GUARD + LARGEST + GUARD];
} flash;

typedef struct {
    size_t unit, sector, sectors, length[3];
    bool sound;
    flash now;
} scale;

typedef struct {
    const uint8_t *at;
    size_t left;
} input;

static unsigned next(input *in)
{
    if (in->left == 0)
        return 0;
    in->left--;
    return *in->at++;
}

static unsigned next2(input *in)
{
    unsigned low = next(in);
    return low | next(in) << 8;
}

static uint8_t *area(flash *f, unsigned index)
{
    return f->bytes[index] + GUARD;
}

static void feature(unsigned kind, unsigned a, unsigned b)
{
    features[(kind * 977 + a * 61 + b) % FEATURES] = 1;
}

static void guards_stand(scale *s, const flash *before)
{
    for (unsigned i = 0; i < 3; i++) {
        size_t end = GUARD + s->length[i];
        DEMAND(memcmp(s->now.bytes[i], before->bytes[i], GUARD) == 0);
        DEMAND(memcmp(s->now.bytes[i] + end, before->bytes[i] + end, sizeof before->bytes[i] - end) == 0);
    }
}

static bool same(const flash *a, const flash *b)
{
    return memcmp(a, b, sizeof *a) == 0;
}

/* ---- calls, each followed by what holds after it ---- */

static scale_answer call_start(scale *s, uint64_t allowance, bool full, bool check)
{
    uint8_t *a = area(&s->now, 0), *b = area(&s->now, 1), *c = area(&s->now, 2);
    return full ? scale_full_start(s->unit, s->sector, s->sectors, a, s->length[0], b, s->length[1], c, s->length[2], allowance, check)
                : scale_power_up(s->unit, s->sector, s->sectors, a, s->length[0], b, s->length[1], c, s->length[2], allowance);
}

static void answer_in_range(const scale *s, const scale_answer *r, uint64_t allowance, bool full)
{
    DEMAND(r->done <= 5 && r->end <= 2 && r->count <= allowance);
    DEMAND(r->found == 0 || (r->done == SCALE_DONE_RESUMED && r->found >= 3 && r->found <= 3 * s->sectors));
    DEMAND((r->end == SCALE_END_REFUSED) == (r->refusal != 0));
    DEMAND((r->end == SCALE_END_BOOT) == (r->offset != 0));
    DEMAND((r->refusal == 4) == (r->cause != 0));
    DEMAND(r->cause == 0 || (r->cause >= 3 && r->cause <= 5));
    DEMAND(r->refusal <= 4);
    DEMAND(r->refusal != 4 || full);
    DEMAND((r->refusal == 1) == !s->sound);
    if (r->refusal == 1 || r->refusal == 2)
        DEMAND(r->done == 0 && r->count == 0 && r->found == 0);
    if (r->end == SCALE_END_STOPPED)
        DEMAND(r->done != 0 && r->count == allowance);
    if (r->done == SCALE_DONE_NONE)
        DEMAND(r->count == 0);
    if (r->end == SCALE_END_REFUSED && r->refusal >= 3)
        DEMAND(r->done == 0 || r->done == SCALE_DONE_RESUMED || r->done == SCALE_DONE_CLEARED);
}

/* The exchange that ran to its end: data sectors exchanged, slot 1's trailer and scratch's erased. */
static void exchanged(scale *s, flash *before)
{
    size_t data = (s->sectors - 1) * s->sector;
    DEMAND(memcmp(area(&s->now, 0), area(before, 1), data) == 0);
    DEMAND(memcmp(area(&s->now, 1), area(before, 0), data) == 0);
    for (size_t i = 0; i < s->sector; i++)
        DEMAND(area(&s->now, 1)[data + i] == 0xff && area(&s->now, 2)[s->sector + i] == 0xff);
}

static void start(scale *s, uint64_t allowance, bool full, bool check)
{
    static flash before, whole;
    before = s->now;
    scale_answer r = call_start(s, allowance, full, check);
    guards_stand(s, &before);
    answer_in_range(s, &r, allowance, full && check);
    ends[r.done][r.end == SCALE_END_REFUSED ? 2 + r.refusal : r.end]++;
    feature(1, (unsigned)(r.done * 16 + r.end * 5 + r.refusal), (unsigned)(r.found * 7 + r.cause));
    if (r.refusal == 1 || r.refusal == 2 || r.done == SCALE_DONE_NONE || r.count == 0)
        DEMAND(same(&s->now, &before));
    if (r.end == SCALE_END_BOOT) {
        const uint8_t *header = area(&s->now, 0);
        DEMAND(r.offset >= 32 && r.offset == (uint64_t)(header[8] | header[9] << 8));
        DEMAND(!(full && check) || scale_check_image(header, (s->sectors - 1) * s->sector) == 0);
        if (r.done >= SCALE_DONE_TEST && r.done <= SCALE_DONE_REVERT)
            exchanged(s, &before);
    }
    if (r.end != SCALE_END_STOPPED || r.done == SCALE_DONE_CLEARED)
        return;
    /* Cut between two operations: taking it up again ends as the start that was never cut. */
    flash cut = s->now;
    s->now = before;
    scale_answer uncut = call_start(s, UINT64_MAX, false, false);
    whole = s->now;
    s->now = cut;
    scale_answer again = call_start(s, UINT64_MAX, false, false);
    DEMAND(uncut.end != SCALE_END_STOPPED && again.end == uncut.end && again.offset == uncut.offset && again.refusal == uncut.refusal);
    DEMAND(uncut.count > allowance && same(&s->now, &whole));
    s->now = cut;
}

static scale_marked call_mark(scale *s, bool confirm, bool permanent)
{
    uint8_t *a = area(&s->now, 0), *b = area(&s->now, 1), *c = area(&s->now, 2);
    return confirm ? scale_confirm(s->unit, s->sector, s->sectors, a, s->length[0], b, s->length[1], c, s->length[2])
                   : scale_mark(s->unit, s->sector, s->sectors, a, s->length[0], b, s->length[1], c, s->length[2], permanent);
}

static void mark(scale *s, bool confirm, bool permanent)
{
    flash before = s->now;
    scale_marked r = call_mark(s, confirm, permanent);
    guards_stand(s, &before);
    DEMAND(r.refusal <= 7 && r.refusal != 3 && r.refusal != 4 && r.refusal != (confirm ? 5 : 7));
    DEMAND((r.refusal == 1) == !s->sound);
    marked[r.refusal]++;
    feature(2, (unsigned)r.refusal, confirm * 2 + permanent);
    if (r.refusal != 0) {
        DEMAND(r.count == 0 && same(&s->now, &before));
        return;
    }
    DEMAND(r.count == (confirm ? 1 : 16 / s->unit + permanent));
    unsigned other = confirm ? 1 : 0;
    DEMAND(memcmp(&before.bytes[other], &s->now.bytes[other], sizeof before.bytes[other]) == 0);
    DEMAND(memcmp(&before.bytes[2], &s->now.bytes[2], sizeof before.bytes[2]) == 0);
    flash after = s->now;
    DEMAND(call_mark(s, confirm, permanent).refusal == (confirm ? 7 : 5));
    DEMAND(same(&s->now, &after));
}

static void check(scale *s, unsigned index, size_t length)
{
    flash before = s->now;
    if (length > s->length[index])
        length = s->length[index];
    uint32_t cause = scale_check_image(area(&s->now, index), length);
    DEMAND(cause <= 5 && same(&s->now, &before));
    checks[cause]++;
    feature(3, cause, length < 32);
    if (length < 32)
        DEMAND(cause == 2);
}

/* Any bytes as trailing records, asked at any place, and then from there on to their end. */
static void walk(scale *s, unsigned index, size_t from, size_t length, size_t at)
{
    flash before = s->now;
    if (from > s->length[index])
        from = s->length[index];
    if (length > s->length[index] - from)
        length = s->length[index] - from;
    const uint8_t *bytes = area(&s->now, index) + from;
    for (;;) {
        scale_record r = scale_record_at(bytes, length, at);
        DEMAND(r.found <= SCALE_RECORD_STUMP && (r.found == SCALE_RECORD_END) == (at >= length));
        records[r.found]++;
        feature(4, (unsigned)r.found, length < 4);
        if (r.found != SCALE_RECORD_FOUND) {
            DEMAND(r.type == 0 && r.start == 0 && r.size == 0);
            break;
        }
        DEMAND(r.start == at + 4 && r.start <= length && r.size <= length - r.start);
        DEMAND(r.type == bytes[at] && r.size == (uint64_t)(bytes[at + 2] | bytes[at + 3] << 8));
        at = r.start + r.size;
    }
    DEMAND(same(&s->now, &before));
}

/* ---- changes ---- */

static void put_image(uint8_t *slot, size_t room, unsigned header, unsigned body, unsigned flaw)
{
    size_t covered = (size_t)header + body;
    if (header < 32 || covered + 36 > room)
        return;
    const uint8_t fixed[16] = {0x3c, 0xb8, 0xf3, 0x96, 36, 0, 0, 0, (uint8_t)header, (uint8_t)(header >> 8), 0, 0,
                               (uint8_t)body, (uint8_t)(body >> 8), 0, 0};
    memcpy(slot, fixed, sizeof fixed);
    const uint8_t record[4] = {1, 0, 32, 0};
    memcpy(slot + covered, record, sizeof record);
    scale_sha256(slot, covered, slot + covered + 4);
    if (flaw != 0)
        slot[flaw % (covered + 36)] ^= 1;
}

static const uint8_t magic[16] = {0x77, 0xc2, 0x95, 0xf3, 0x60, 0xd2, 0xef, 0x7f, 0x35, 0x52, 0x50, 0x0f, 0x2c, 0xb6, 0x79, 0x80};

static void put_marks(scale *s, unsigned c)
{
    uint8_t *first = area(&s->now, 0) + s->length[0] - 32 - 3 * s->unit * s->sectors;
    memset(first, 0xff, 3 * s->unit * s->sectors);
    for (unsigned i = 0; i < c && i < 3 * s->sectors; i++)
        first[i * s->unit] = (uint8_t)(i % 3 + 1);
}

static void change(scale *s, input *in, unsigned kind)
{
    unsigned index = next(in) % 3;
    uint8_t *bytes = area(&s->now, index);
    size_t length = s->length[index], from_end, at;
    if (!s->sound)
        return;
    switch (kind) {
    case 0: /* a byte counted from the end */
        from_end = 1 + next2(in) % length;
        bytes[length - from_end] = (uint8_t)next(in);
        break;
    case 1: /* a byte counted from the start */
        at = next2(in) % length;
        bytes[at] = (uint8_t)next(in);
        break;
    case 2: /* magic, or some units of it */
        at = next(in) % 17;
        memset(bytes + length - 16, 0xff, 16);
        memcpy(bytes + length - 16, magic, at);
        break;
    case 3:
        put_marks(s, next(in));
        break;
    case 4: /* harm in a data sector */
        at = next(in) % (index == 2 ? 1 : s->sectors - 1);
        for (size_t i = 0, v = next(in); i < s->sector; i++, v = v * 1103515245 + 12345)
            bytes[at * s->sector + i] = (uint8_t)(v >> 16);
        break;
    default: {
        unsigned header = 32 + next(in) % 16, body = next2(in) % 2048, flaw = next2(in);
        if (index < 2)
            put_image(bytes, (s->sectors - 1) * s->sector, header, body, flaw < 32768 ? 0 : flaw);
    }
    }
}

static void set_up(scale *s, input *in)
{
    static const size_t geometries[8][3] = {{1, 416, 2}, {2, 800, 2},  {4, 1568, 2}, {8, 3104, 2},
                                            {1, 512, 3}, {2, 1000, 4}, {4, 1568, 3}, {8, 3104, 3}};
    unsigned choice = next(in), fill = next(in);
    memcpy(&s->unit, geometries[choice % 8], 3 * sizeof s->unit);
    s->length[0] = s->length[1] = s->sectors * s->sector;
    s->length[2] = 2 * s->sector;
    s->sound = true;
    memset(&s->now, 0x5c, sizeof s->now);
    for (unsigned i = 0; i < 3; i++)
        memset(area(&s->now, i), fill & 1 << i ? 0x00 : 0xff, s->length[i]);
    if (choice >= 240) { /* something about the geometry is wrong */
        s->sound = false;
        switch (choice % 5) {
        case 0: s->unit = next(in) % 2 ? 3 : SIZE_MAX; break;
        case 1: s->sector = (size_t)next(in) << (next(in) % 57) | 1 << 20; break;
        case 2: s->sectors = next(in) % 2 ? 1 : SIZE_MAX / 2 + 1 + s->sectors; break;
        case 3: s->length[next(in) % 3] -= 1; break;
        default: s->length[next(in) % 3] = 0; break;
        }
    }
}

static void print_reached(void)
{
    static const char *const words[] = {"none", "test", "permanent", "revert", "resumed", "cleared"};
    printf("reached in %lu runs (boot, stopped, refused 1, 2, 3, 4):\n", runs);
    for (unsigned d = 0; d < 6; d++)
        printf("  %-10s %lu %lu  %lu %lu %lu %lu\n", words[d], ends[d][0], ends[d][1], ends[d][3], ends[d][4], ends[d][5], ends[d][6]);
    printf("  marking and confirming: done %lu, refused 1 %lu, 2 %lu, 5 %lu, 6 %lu, 7 %lu\n", marked[0], marked[1], marked[2], marked[5],
           marked[6], marked[7]);
    printf("  image check: accepted %lu, causes %lu %lu %lu %lu %lu\n", checks[0], checks[1], checks[2], checks[3], checks[4], checks[5]);
    printf("  records: ends %lu, records %lu, stumps %lu\n", records[0], records[1], records[2]);
}

int LLVMFuzzerInitialize(int *count, char ***arguments);
int LLVMFuzzerTestOneInput(const uint8_t *bytes, size_t length);

int LLVMFuzzerInitialize(int *count, char ***arguments)
{
    (void)count, (void)arguments;
    return atexit(print_reached);
}

int LLVMFuzzerTestOneInput(const uint8_t *bytes, size_t length)
{
    static scale s;
    input in = {bytes, length};
    runs++;
    set_up(&s, &in);
    for (unsigned step = 0; in.left > 0 && step < 40; step++) {
        unsigned what = next(&in);
        switch (what % 16) {
        case 0: start(&s, next2(&in), false, false); break;
        case 1: start(&s, next2(&in), true, what & 16); break;
        case 2: start(&s, UINT64_MAX - next(&in), false, false); break;
        case 3: start(&s, UINT64_MAX, true, true); break;
        case 4: mark(&s, false, what & 16); break;
        case 5: mark(&s, true, false); break;
        case 6: {
            unsigned index = next(&in) % 3, length = next2(&in);
            if (what & 16) {
                unsigned from = next2(&in), at = next(&in);
                walk(&s, index, from, length, what & 32 ? SIZE_MAX - at : at);
            } else {
                check(&s, index, length);
            }
            break;
        }
        default: change(&s, &in, what % 16 - 7); break;
        }
    }
    start(&s, UINT64_MAX, true, true);
    mark(&s, true, false);
    return 0;
}
