/*
 * What to do after the other refusals, as the README's table says it, carried out at each width. (Refusal 1 is a wrong call; 8 does not come.)
 */
#include "flash.h"

/* Slot 1 erased, an image put there, marked for good, and a start: it boots what was put. */
static void put_marked_permanent(flash *f)
{
    erase_area(f, SLOT1);
    put_image(f, SLOT1, 9);
    flash put = *f;
    HOLDS(mark(f, true).refusal == 0);
    HOLDS(boots(checked_start(f), SCALE_DONE_PERMANENT) && same_data(f, SLOT0, &put, SLOT1));
    HOLDS(boots(checked_start(f), SCALE_DONE_NONE));
}

/* 3: slot 0 is empty. 4: a bit of its body is turned over. */
static void no_firmware(void)
{
    flash f;
    due(&f, TEST);
    erase_area(&f, SLOT1);
    flash damaged = f;
    erase_area(&f, SLOT0);
    HOLDS(start(&f, UINT64_MAX).refusal == 3);
    put_marked_permanent(&f);

    damaged.area[SLOT0][HEADER] ^= 4;
    scale_answer a = checked_start(&damaged);
    HOLDS(a.refusal == 4 && a.cause == 5);
    put_marked_permanent(&damaged);
}

/* 5: marked already. The mark stands, and is obeyed; or slot 1 is erased and an image put anew. */
static void marked_already(void)
{
    flash f, obeyed;
    due(&f, TEST);
    HOLDS(mark(&f, true).refusal == 5 && mark(&f, false).refusal == 5);
    obeyed = f;
    HOLDS(boots(start(&obeyed, UINT64_MAX), SCALE_DONE_TEST));
    put_marked_permanent(&f);
}

/* 6: an exchange is under way. Finished first, the firmware is on trial and can be confirmed. 7: once, and no more. */
static void under_way(void)
{
    flash f;
    due(&f, TEST);
    HOLDS(start(&f, trailers(TEST) + 5).end == SCALE_END_STOPPED);
    HOLDS(mark(&f, true).refusal == 6 && confirm(&f).refusal == 6);
    HOLDS(boots(start(&f, UINT64_MAX), SCALE_DONE_RESUMED));
    HOLDS(confirm(&f).refusal == 0);
    HOLDS(confirm(&f).refusal == 7);
    HOLDS(boots(start(&f, UINT64_MAX), SCALE_DONE_NONE));
    HOLDS(mark(&f, false).refusal == 0);
}

int main(void)
{
    for (size_t width = 1; width <= 8; width *= 2) {
        smallest(width, 3);
        no_firmware();
        marked_already();
        under_way();
    }
    printf("refusals 3 to 7: what the README says to do was done (%llu facts)\n", tried);
    return 0;
}
