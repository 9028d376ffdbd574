/*
 * The numbers in README and header, on exchanges of each kind and width, as the archive carries them out: the places in a trailer and in an
 * image, erases for each sector with and without a cut, the length of an exchange, and the least allowance.
 */
#include "flash.h"

/* The table in README and header, taken from there: places in bytes from the end of the area. */
enum { WIDTH, MARKS_BEGIN, MARKS_OF_0, COPY_DONE = MARKS_OF_0 + 3, IMAGE_OK, MAGIC, COLUMNS };
static const size_t places[4][COLUMNS] = {
#include "places.h"
};

static void put_mark(uint8_t *trailer, size_t from_end, uint8_t value)
{
    trailer[s - from_end] = value;
}

/* A trailer sector made by the table alone, with so many progress marks. */
static void made(uint8_t *trailer, const size_t *row, size_t marks, bool ok, bool done)
{
    memset(trailer, 0xff, s);
    for (size_t c = 0; c < marks; c++) {
        size_t sector = n - 1 - c / 3, j = c % 3;
        put_mark(trailer, row[MARKS_OF_0 + j] + 3 * w * sector, (uint8_t)(j + 1));
        HOLDS(row[MARKS_OF_0 + j] + 3 * w * sector <= row[MARKS_BEGIN]);
    }
    if (ok)
        put_mark(trailer, row[IMAGE_OK], 1);
    if (done)
        put_mark(trailer, row[COPY_DONE], 1);
    memcpy(trailer + s - row[MAGIC], magic, sizeof magic);
}

static bool trailer_is(const flash *f, unsigned area, const size_t *row, size_t marks, bool ok, bool done)
{
    static uint8_t trailer[MOST];
    made(trailer, row, marks, ok, done);
    return memcmp(f->area[area] + (sectors_of(area) - 1) * s, trailer, s) == 0;
}

static void trailer_places(const size_t *row)
{
    flash f;
    HOLDS(row[WIDTH] == w && row[MARKS_OF_0] + 3 * w * 127 == row[MARKS_BEGIN]);
    for (unsigned permanent = 0; permanent < 2; permanent++) {
        for (unsigned area = 0; area < AREAS; area++)
            erase_area(&f, area);
        put_image(&f, SLOT0, 1);
        put_image(&f, SLOT1, 2);
        HOLDS(mark(&f, permanent).count == 16 / w + permanent);
        HOLDS(trailer_is(&f, SLOT1, row, 0, permanent, false));
        start(&f, 1 + permanent + 16 / w);
        HOLDS(trailer_is(&f, SCRATCH, row, 0, permanent, false));
        start(&f, whole(permanent) - 1 - (1 + permanent + 16 / w));
        HOLDS(trailer_is(&f, SLOT0, row, 3 * n, permanent, false));
        start(&f, 1);
        HOLDS(trailer_is(&f, SLOT0, row, 3 * n, permanent, true));
        if (!permanent) {
            HOLDS(confirm(&f).count == 1);
            HOLDS(trailer_is(&f, SLOT0, row, 3 * n, true, true));
        }
    }
}

/* The first format's magic is taken. The newer one's is cause 1: cleared out of slot 1, refusal 3 in slot 0. */
static void image_magic(void)
{
    flash f;
    due(&f, TEST);
    HOLDS(scale_check_image(f.area[SLOT1], m * s) == 0);
    f.area[SLOT1][0] = 0x3d;
    HOLDS(scale_check_image(f.area[SLOT1], m * s) == 1);
    HOLDS(boots(start(&f, UINT64_MAX), SCALE_DONE_CLEARED));
    f.area[SLOT0][0] = 0x3d;
    HOLDS(start(&f, UINT64_MAX).refusal == 3);
}

typedef unsigned counts[AREAS][MOST_SECTORS];

/* The erases of the operation that leads from one flash to the other, seen by a byte that becomes 0xff, added to their counts. */
static void add_erases(counts erases, const flash *from, const flash *to)
{
    for (unsigned area = 0; area < AREAS; area++)
        for (size_t k = 0; k < sectors_of(area); k++) {
            const uint8_t *old = from->area[area] + k * s, *now = to->area[area] + k * s;
            bool seen = false;
            if (memcmp(old, now, s) != 0)
                for (size_t i = 0; i < s && !seen; i++)
                    seen = now[i] == 0xff && old[i] != 0xff;
            erases[area][k] += seen;
        }
}

/* A sector that is blank gets a byte that is not, where the loader does not read: its next erase can be seen then. */
static void make_erases_seen(flash *f)
{
    for (unsigned area = 0; area < AREAS; area++)
        for (size_t k = 0; k < sectors_of(area); k++) {
            bool blank = true;
            for (size_t i = k * s; i < (k + 1) * s && blank; i++)
                blank = f->area[area][i] == 0xff;
            if (blank)
                f->area[area][k * s] = 0;
        }
}

/* All that a start carries out. Two flashes in turn, and no byte beyond their areas: one exchange is stepped through a thousand times below. */
static void count_erases(counts erases, const flash *from)
{
    static flash after[2];
    after[0] = after[1] = *from;
    size_t operations = start(&after[1], UINT64_MAX).count;
    for (size_t b = 0; b < operations; b++) {
        flash *next = &after[(b + 1) % 2];
        for (unsigned area = 0; area < AREAS; area++)
            memcpy(next->area[area], from->area[area], length(area));
        start(next, b + 1);
        add_erases(erases, &after[b % 2], next);
    }
}

static void wear(unsigned kind)
{
    flash before;
    counts erases = {{0}};
    due(&before, kind);
    count_erases(erases, &before);
    for (size_t k = 0; k < n; k++)
        HOLDS(erases[SLOT0][k] == 1 && erases[SLOT1][k] == 1);
    HOLDS(erases[SCRATCH][0] == m && erases[SCRATCH][1] == 2);
}

static unsigned cuts;

/* Every cut and every stop, and then a start that goes to the end. The operation that was cut counts, whether it happened or not. */
static void wear_of_cuts(unsigned kind)
{
    flash before, cut, after;
    counts uncut = {{0}}, so_far = {{0}};
    due(&before, kind);
    count_erases(uncut, &before);
    for (size_t b = 0; b < whole(kind); b++) {
        counts erases;
        cut = before, after = before;
        start(&cut, b);
        start(&after, b + 1);
        add_erases(so_far, &cut, &after);
        memcpy(erases, so_far, sizeof erases);
        make_erases_seen(&cut);
        count_erases(erases, &cut);
        unsigned more_data = 0, more_trailers = 0;
        for (unsigned area = 0; area < AREAS; area++)
            for (size_t k = 0; k < sectors_of(area); k++) {
                HOLDS(erases[area][k] >= uncut[area][k] && erases[area][k] <= uncut[area][k] + 1);
                *(k + 1 == sectors_of(area) ? &more_trailers : &more_data) += erases[area][k] - uncut[area][k];
            }
        HOLDS(more_data <= 1 && (more_data == 0 || more_trailers == 0));
        cuts++;
    }
}

static size_t most_starts;

/* Starts until one is not stopped. */
static size_t starts_with(flash f, const flash *before, uint64_t allowance)
{
    size_t starts = 1;
    for (; start(&f, allowance).end == SCALE_END_STOPPED; starts++)
        HOLDS(starts < 3 * m + 2);
    HOLDS(same_data(&f, SLOT0, before, SLOT1) && same_data(&f, SLOT1, before, SLOT0));
    return starts;
}

/*
 * With s/w + 2 operations a start or more it ends in 3m + 2 starts, from wherever it stands, and with exactly s/w + 2 it takes them all. With
 * fewer, all starts are stopped while more than copy done is left, and no mark comes beside those that stood.
 */
static void least_allowance(unsigned kind)
{
    flash before, f;
    due(&before, kind);
    most_starts = starts_with(before, &before, s / w + 2);
    HOLDS(most_starts == 3 * m + 2);
    HOLDS(starts_with(before, &before, s / w + 3) < 3 * m + 2 && starts_with(before, &before, whole(kind)) == 1);
    for (size_t cut = 0; cut + 1 < whole(kind); cut += cut < trailers(kind) ? 1 : 61) {
        f = before;
        start(&f, cut);
        starts_with(f, &before, s / w + 2);
        size_t moved = cut < trailers(kind) ? 0 : (cut - trailers(kind)) / (s / w + 2);
        for (unsigned again = 0; again < 20; again++) {
            scale_answer a = start(&f, again % 4 ? s / w + 1 : again);
            HOLDS(a.end == SCALE_END_STOPPED && a.found <= 3 + moved);
        }
    }
    f = before;
    start(&f, whole(kind) - 1);
    HOLDS(boots(start(&f, 1), SCALE_DONE_RESUMED));
}

int main(void)
{
    for (size_t row = 0; row < 4; row++) {
        for (size_t sectors = 2; sectors <= MOST_SECTORS; sectors++) {
            smallest(places[row][WIDTH], sectors);
            trailer_places(places[row]);
            image_magic();
            for (unsigned kind = 0; kind < KINDS; kind++) {
                flash f;
                due(&f, kind);
                HOLDS(start(&f, UINT64_MAX).count == whole(kind));
                least_allowance(kind);
                if (sectors <= 3)
                    wear(kind);
            }
        }
    }
    smallest(1, 2);
    wear_of_cuts(PERMANENT);
    printf("numbers of README and header: %llu facts hold; %zu starts of s/w + 2 operations at n = %d; erases after %u cuts\n", tried,
           most_starts, MOST_SECTORS, cuts);
    return 0;
}
