/*
 * Refusal 2, what to do: the README's steps, for damage under A (scratch's magic good, its image ok neither unset nor 01) and under B (slot 0's
 * progress marks are no legal run), at cuts of exchanges of each kind and width. Also what one would try first and what does not work.
 */
#include "flash.h"

static void is_refused_2(const flash *f)
{
    flash tried_on = *f;
    HOLDS(refused_2(start(&tried_on, UINT64_MAX)));
    HOLDS(refused_2(checked_start(&tried_on)));
    HOLDS(mark(&tried_on, false).refusal == 2);
    HOLDS(mark(&tried_on, true).refusal == 2);
    HOLDS(confirm(&tried_on).refusal == 2);
    HOLDS(same(f, &tried_on));
}

/* A new image in slot 1 and a mark, written by hand since scale_mark refuses; a new image over slot 0's data. */
static void firmware_anew(const flash *damaged)
{
    flash f = *damaged;
    erase_area(&f, SLOT1);
    put_image(&f, SLOT1, 9);
    is_refused_2(&f);
    memcpy(f.area[SLOT1] + magic_place(SLOT1), magic, sizeof magic);
    is_refused_2(&f);

    f = *damaged;
    put_image(&f, SLOT0, 9);
    is_refused_2(&f);
}

/* An update works again: slot 1's image is marked and exchanged, and slot 0's comes to slot 1. */
static void updates_again(const flash *repaired)
{
    flash f = *repaired;
    HOLDS(mark(&f, false).refusal == 0);
    HOLDS(boots(start(&f, UINT64_MAX), SCALE_DONE_TEST));
    HOLDS(same_data(&f, SLOT0, repaired, SLOT1) && same_data(&f, SLOT1, repaired, SLOT0));
    HOLDS(confirm(&f).refusal == 0);
    HOLDS(boots(checked_start(&f), SCALE_DONE_NONE));
}

/* B's steps: slot 0 and slot 1 erased whole, an image put into slot 0. They serve under A too if scratch is erased as well. */
static void write_slot_0(const flash *damaged, bool scratch_too)
{
    flash f = *damaged;
    erase_area(&f, SLOT0);
    erase_area(&f, SLOT1);
    if (scratch_too)
        erase_area(&f, SCRATCH);
    put_image(&f, SLOT0, 9);
    scale_answer a = checked_start(&f);
    HOLDS(boots(a, SCALE_DONE_NONE) && a.count == 0);
    put_image(&f, SLOT1, 10);
    updates_again(&f);
}

static void repair_under_A(const flash *damaged, const flash *before)
{
    flash f = *damaged;
    is_refused_2(damaged);
    firmware_anew(damaged);
    erase_area(&f, SLOT0);
    erase_area(&f, SLOT1);
    put_image(&f, SLOT0, 9);
    is_refused_2(&f); /* scratch still says it */

    /* Slot 0 anew and scratch's trailer erased: it boots, but a mark that slot 1 still has is obeyed. */
    f = *damaged;
    erase_trailer(&f, SCRATCH);
    erase_area(&f, SLOT0);
    put_image(&f, SLOT0, 9);
    bool marked = magic_good(&f, SLOT1);
    scale_answer a = checked_start(&f);
    HOLDS(boots(a, a.done) && (a.done != SCALE_DONE_NONE) == marked);

    /* A's steps: the three trailer sectors erased. Nothing had been moved: both images are where they were. */
    f = *damaged;
    for (unsigned area = 0; area < AREAS; area++)
        erase_trailer(&f, area);
    HOLDS(same_data(&f, SLOT0, before, SLOT0) && same_data(&f, SLOT1, before, SLOT1));
    a = checked_start(&f);
    HOLDS(boots(a, SCALE_DONE_NONE) && a.count == 0);
    updates_again(&f);

    write_slot_0(damaged, true);
}

static void repair_under_B(const flash *damaged)
{
    flash f = *damaged;
    is_refused_2(damaged);
    firmware_anew(damaged);
    erase_area(&f, SCRATCH);
    is_refused_2(&f);
    erase_area(&f, SLOT1);
    is_refused_2(&f); /* slot 0 still says it */

    write_slot_0(damaged, false);
    write_slot_0(damaged, true);
}

/* How many progress marks stand, of an undamaged run. */
static size_t marks(const flash *f)
{
    size_t c = 0;
    while (c < 3 * n && f->area[SLOT0][mark_place(n - 1 - c / 3, c % 3)] == c % 3 + 1)
        c++;
    return c;
}

static unsigned under_A, under_B;

/* Each way to hurt the flash of a cut that the loader would refuse by 2. */
static void hurt(const flash *cut, const flash *before, size_t number)
{
    static const uint8_t values[] = {0x00, 0x02, 0x03, 0x81};
    flash f = *cut;
    uint8_t value = values[number % 4];
    if (magic_good(cut, SCRATCH)) {
        f.area[SCRATCH][ok_place(SCRATCH)] = value;
        repair_under_A(&f, before);
        if (w > 1) { /* a mark is one unit: the rest of it counts too */
            f = *cut;
            f.area[SCRATCH][ok_place(SCRATCH) + w - 1] = 0;
            repair_under_A(&f, before);
        }
        under_A++;
    } else if (magic_good(cut, SLOT0) && marks(cut) >= 3 && cut->area[SLOT0][done_place(SLOT0)] == 0xff) {
        size_t hurt_mark = number % marks(cut);
        f.area[SLOT0][mark_place(n - 1 - hurt_mark / 3, hurt_mark % 3)] = hurt_mark % 3 + 1 == value ? 0 : value;
        repair_under_B(&f);
        under_B++;
    }
}

int main(void)
{
    for (size_t width = 1; width <= 8; width *= 2) {
        smallest(width, 3);
        for (unsigned kind = 0; kind < KINDS; kind++) {
            flash before;
            due(&before, kind);
            /* every cut of the trailer exchange, and some of the data exchange */
            for (size_t cut = 0; cut < whole(kind); cut += cut < trailers(kind) ? 1 : 61) {
                flash f = before;
                scale_answer a = start(&f, cut);
                HOLDS(a.done == done_by(kind) && a.end == SCALE_END_STOPPED);
                hurt(&f, &before, cut);
            }
        }
    }
    HOLDS(under_A > 0 && under_B > 0);
    printf("refusal 2: %u cuts damaged under A and %u under B, repaired by the README's steps (%llu facts)\n", under_A, under_B, tried);
    return 0;
}
