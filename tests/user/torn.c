/*
 * torn [SEED]: a board that does not finish its trailer operation when power fails, as the README tells of it: random bytes in the unit or the
 * sector of each trailer operation of exchanges of each kind and width, and then a start.
 */
#include "flash.h"

enum { TIMES = 40, UNSET = 0xff, SPOILT = 0x55 };

static uint64_t state;

static uint8_t random_byte(void)
{
    state ^= state << 13, state ^= state >> 7, state ^= state << 17;
    return (uint8_t)(state >> 32);
}

/* Where two flashes first differ; false if nowhere. */
static bool differ(const flash *a, const flash *b, unsigned *area, size_t *at)
{
    for (*area = 0; *area < AREAS; (*area)++)
        for (*at = 0; *at < length(*area); (*at)++)
            if (a->area[*area][*at] != b->area[*area][*at])
                return true;
    return false;
}

/* Random bytes where the operation between these two flashes strikes. True if they are blank, or what it would have left: no tear at all. */
static bool tear(flash *f, const flash *after)
{
    unsigned area;
    size_t at;
    HOLDS(differ(f, after, &area, &at));
    size_t bytes = after->area[area][at] == 0xff ? s : w; /* an erase, or a write */
    uint8_t *from = f->area[area] + at / bytes * bytes, blank[WIDEST];
    memset(blank, 0xff, sizeof blank);
    for (size_t i = 0; i < bytes; i++)
        from[i] = random_byte();
    return bytes == w && (memcmp(from, blank, w) == 0 || memcmp(from, after->area[area] + at / w * w, w) == 0);
}

static unsigned torn_marks, torn_done, torn_trailers, other_kinds;

static void ends_exchanged(flash *f, const flash *before)
{
    scale_answer a = start(f, UINT64_MAX);
    HOLDS(a.end == SCALE_END_BOOT);
    HOLDS(same_data(f, SLOT0, before, SLOT1) && same_data(f, SLOT1, before, SLOT0));
}

/* Lines 1 to 6: taken up again, for neither the decision nor the other trailers depend on what was torn. */
static void torn_trailer(flash *f, const flash *before)
{
    ends_exchanged(f, before);
    torn_trailers++;
}

/*
 * The erase of line 6, torn so that scratch's magic still stands: the exchange goes on as scratch's image ok then reads, and slot 0's is written by
 * that. Unset, as a test: the next start takes it back, which after a revert is the failed firmware again. 01, as one for good.
 */
static void torn_but_for_magic(const flash *last, const flash *before, unsigned kind, uint8_t ok)
{
    flash f = *last;
    memset(f.area[SCRATCH] + ok_place(SCRATCH), 0xff, w);
    f.area[SCRATCH][ok_place(SCRATCH)] = ok;
    if (ok == SPOILT) {
        HOLDS(refused_2(start(&f, UINT64_MAX)));
        return;
    }
    HOLDS(boots(start(&f, UINT64_MAX), SCALE_DONE_RESUMED));
    HOLDS(same_data(&f, SLOT0, before, SLOT1) && same_data(&f, SLOT1, before, SLOT0));
    HOLDS(boots(start(&f, UINT64_MAX), ok == UNSET ? SCALE_DONE_REVERT : SCALE_DONE_NONE));
    HOLDS(same_data(&f, SLOT0, before, ok == UNSET ? SLOT0 : SLOT1));
    other_kinds += (kind == TEST) != (ok == UNSET);
}

static void torn_mark(flash *f)
{
    HOLDS(refused_2(start(f, UINT64_MAX)));
    torn_marks++;
}

/* The firmware runs that came last; it is neither on trial, so that nothing brings the old one back, nor can it be confirmed. */
static void torn_copy_done(flash *f, const flash *before)
{
    for (unsigned again = 0; again < 3; again++) {
        scale_answer a = start(f, UINT64_MAX);
        HOLDS(boots(a, SCALE_DONE_NONE) && a.count == 0);
        HOLDS(same_data(f, SLOT0, before, SLOT1));
        HOLDS(confirm(f).refusal == 7);
    }
    torn_done++;
}

static void exchange(unsigned kind)
{
    flash before, f, after;
    due(&before, kind);
    for (size_t cut = 0; cut < whole(kind); cut++) {
        bool line = cut < trailers(kind), last = cut + 1 == whole(kind);
        if (!line && !last && (cut - trailers(kind)) % (s / w + 2) != s / w + 1)
            continue; /* data */
        f = before, after = before;
        start(&f, cut);
        start(&after, cut + 1);
        if (cut + 1 == trailers(kind)) {
            torn_but_for_magic(&f, &before, kind, SPOILT);
            torn_but_for_magic(&f, &before, kind, UNSET);
            torn_but_for_magic(&f, &before, kind, 1);
        }
        for (unsigned time = 0; time < TIMES; time++) {
            flash torn = f;
            if (tear(&torn, &after))
                continue;
            if (line)
                torn_trailer(&torn, &before);
            else if (last)
                torn_copy_done(&torn, &before);
            else
                torn_mark(&torn);
        }
    }
}

int main(int words, char **word)
{
    state = words > 1 ? strtoull(word[1], NULL, 10) : 2026;
    if (state == 0) {
        fprintf(stderr, "torn: a seed is a number above 0\n");
        return 1;
    }
    printf("torn trailer operations: seed %llu (again: tests/user/run %llu)\n", (unsigned long long)state, (unsigned long long)state);
    fflush(stdout);
    for (size_t width = 1; width <= 8; width *= 2) {
        smallest(width, 3);
        for (unsigned kind = 0; kind < KINDS; kind++)
            exchange(kind);
    }
    printf("torn trailer operations: %u progress marks all refused 2, %u copy done all left a firmware not on trial, %u of the six lines all "
           "taken up again; %u exchanges went on as another kind, by scratch's image ok\n", torn_marks, torn_done, torn_trailers, other_kinds);
    return 0;
}
