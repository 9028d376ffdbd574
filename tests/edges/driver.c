/* Carries out the script on standard input, whose head says what its commands mean, on the archive, and prints what the script asks for. The
 * areas are lent as copies of exactly their length, so that valgrind, or a checked build, sees a byte too far. */
#include <ctype.h>
#include <inttypes.h>
#include <stdio.h>
#include <stdlib.h>
#include <string.h>

#include "scale.h"

enum { FLASH = 1000000, KEPT = 7, NUMBERS = 5 };

static uint8_t flash[FLASH];
static uint8_t *kept[KEPT]; /* number 0 is the flash before the last call */
static size_t unit, sector, sectors, slot, scratch;

/* The command: its word, its numbers, its text. */
static char word[16];
static size_t n[NUMBERS], numbers;
static const char *text = "";
static size_t text_length;

static bool is(const char *name, size_t how_many) {
    return strcmp(word, name) == 0 && numbers == how_many;
}

static void stop(const char *why) {
    fprintf(stderr, "edges: %s: %.*s\n", why, (int)text_length, text);
    exit(1);
}

static size_t size(void) {
    return 2 * slot + scratch;
}

/* The bytes at a place, of which so many must be there. */
static uint8_t *at(size_t area, size_t offset, size_t length) {
    size_t place = area * slot + offset;
    if (area > 2 || place > FLASH || length > FLASH - place)
        stop("no such place");
    return flash + place;
}

static uint8_t *shelf(size_t k) {
    if (k >= KEPT)
        stop("no such flash");
    if (!kept[k] && !(kept[k] = calloc(1, FLASH)))
        stop("no memory");
    return kept[k];
}

static uint8_t *copy_of(const uint8_t *from, size_t length) {
    uint8_t *area = malloc(length ? length : 1);
    if (!area)
        stop("no memory");
    return memcpy(area, from, length);
}

static void give_back(uint8_t *to, uint8_t *area, size_t length) {
    memcpy(to, area, length);
    free(area);
}

typedef enum { START, FULL, TEST, PERMANENT, CONFIRM } function;

/* A call on copies of the areas; a mark's answer stands in refusal and count. */
static scale_answer call(function f, uint64_t allowance) {
    uint8_t *a = copy_of(flash, slot), *b = copy_of(flash + slot, slot), *c = copy_of(flash + 2 * slot, scratch);
    scale_answer answer = {0, 0, 0, 0, 0, 0, 0};
    if (f == START) {
        answer = scale_power_up(unit, sector, sectors, a, slot, b, slot, c, scratch, allowance);
    } else if (f == FULL) {
        answer = scale_full_start(unit, sector, sectors, a, slot, b, slot, c, scratch, allowance, true);
    } else {
        scale_marked marked = f == CONFIRM ? scale_confirm(unit, sector, sectors, a, slot, b, slot, c, scratch)
                                           : scale_mark(unit, sector, sectors, a, slot, b, slot, c, scratch, f == PERMANENT);
        answer.refusal = marked.refusal;
        answer.count = marked.count;
    }
    give_back(flash, a, slot);
    give_back(flash + slot, b, slot);
    give_back(flash + 2 * slot, c, scratch);
    return answer;
}

/* A start's answer as the show program prints it, with the cause of refusal 4. */
static void say_start(scale_answer a) {
    static const char *const done[] = {"none", "test", "permanent", "revert", "resumed", "cleared"};
    printf("%s %" PRIu64 " %" PRIu64, a.done <= SCALE_DONE_CLEARED ? done[a.done] : "WRONG", a.found, a.count);
    if (a.end == SCALE_END_BOOT)
        printf(" boot %" PRIu64, a.offset);
    else if (a.end == SCALE_END_STOPPED)
        printf(" stopped 0");
    else
        printf(" refused %" PRIu64, a.refusal);
    if (a.cause)
        printf(" cause %" PRIu64, a.cause);
    if ((a.end != SCALE_END_BOOT && a.offset) || (a.end != SCALE_END_REFUSED && a.refusal))
        printf(" WRONG, offset %" PRIu64 ", refusal %" PRIu64, a.offset, a.refusal);
}

static void ask(function f, uint64_t allowance) {
    memcpy(shelf(0), flash, size());
    scale_answer a = call(f, allowance);
    if (f == START || f == FULL)
        say_start(a);
    else if (a.refusal)
        printf(a.count ? "refused %" PRIu64 " after %" PRIu64 : "refused %" PRIu64, a.refusal, a.count);
    else
        printf("written %" PRIu64, a.count);
    if (memcmp(shelf(0), flash, size()) == 0)
        printf(", as before");
}

/* A start from a kept flash, its answer, and whether it leaves the flash as it stands here, or where not first. */
static void leaves(size_t k, uint64_t allowance) {
    static uint8_t wanted[FLASH];
    size_t place = 0;
    memcpy(wanted, flash, size());
    memcpy(flash, shelf(k), size());
    say_start(call(START, allowance));
    while (place < size() && flash[place] == wanted[place])
        place++;
    if (place == size())
        printf(", as stated");
    else
        printf(", WRONG at byte %zu of the flash, %02x and not %02x", place, flash[place], wanted[place]);
    memcpy(flash, wanted, size());
}

/* Bytes of two digits each, with a space between. */
static void put(size_t area, size_t offset) {
    size_t count = (text_length + 1) / 3;
    uint8_t *to = at(area, offset, count);
    for (size_t i = 0; i < count; i++) {
        unsigned byte;
        if (sscanf(text + 3 * i, "%2x", &byte) != 1)
            stop("no bytes");
        to[i] = (uint8_t)byte;
    }
}

static uint64_t cuts(size_t due, size_t ended, size_t below) {
    uint64_t count = 0;
    for (size_t operations = 0; operations < below; operations++) {
        memcpy(flash, shelf(due), size());
        call(START, operations);
        call(START, 4000);
        count += memcmp(flash, shelf(ended), size()) == 0;
    }
    return count;
}

/* What stands at a place of the records, which are lent as they are. */
static scale_record say_record(const uint8_t *records, size_t length, size_t place) {
    scale_record r = scale_record_at(records, length, place);
    if (r.found == SCALE_RECORD_FOUND)
        printf("type %" PRIu64 " at %" PRIu64 " of %" PRIu64, r.type, r.start, r.size);
    else
        printf(r.found == SCALE_RECORD_END ? "end" : r.found == SCALE_RECORD_STUMP ? "stump" : "WRONG");
    if (r.found != SCALE_RECORD_FOUND && (r.type || r.start || r.size))
        printf(" WRONG");
    return r;
}

static void walk(const uint8_t *records, size_t length) {
    scale_record r = say_record(records, length, 0);
    while (r.found == SCALE_RECORD_FOUND) {
        printf(", ");
        r = say_record(records, length, r.start + r.size);
    }
}

/* Commands that print nothing. */
static bool change(void) {
    if (is("geometry", 5)) {
        unit = n[0], sector = n[1], sectors = n[2], slot = n[3], scratch = n[4];
        at(0, 0, size());
    } else if (is("erase", 0)) {
        memset(flash, 0xff, size());
    } else if (is("erase", 3)) {
        memset(at(n[0], n[1], n[2]), 0xff, n[2]);
    } else if (is("copy", 5)) {
        memmove(at(n[2], n[3], n[4]), at(n[0], n[1], n[4]), n[4]);
    } else if (is("keep", 1)) {
        memcpy(shelf(n[0]), flash, size());
    } else if (is("from", 1)) {
        memcpy(flash, shelf(n[0]), size());
    } else if (is("put", 2)) {
        put(n[0], n[1]);
    } else if (is("text", 2)) {
        memcpy(at(n[0], n[1], text_length), text, text_length);
    } else if (is("digest", 5)) {
        uint8_t digest[32];
        scale_sha256(at(n[0], n[1], n[4]), n[4], digest);
        memcpy(at(n[2], n[3], 32), digest, 32);
    } else {
        return false;
    }
    return true;
}

/* Commands that print what they find. */
static void tell(void) {
    printf("%.*s: ", (int)text_length, text);
    if (is("start", 1)) {
        ask(START, n[0]);
    } else if (is("full", 1)) {
        ask(FULL, n[0]);
    } else if (is("test", 0)) {
        ask(TEST, 0);
    } else if (is("permanent", 0)) {
        ask(PERMANENT, 0);
    } else if (is("confirm", 0)) {
        ask(CONFIRM, 0);
    } else if (is("byte", 2)) {
        printf("%u", *at(n[0], n[1], 1));
    } else if (is("check", 3)) {
        uint8_t *image = copy_of(at(n[0], n[1], n[2]), n[2]);
        uint32_t cause = scale_check_image(image, n[2]);
        free(image);
        if (cause)
            printf("cause %" PRIu32, cause);
        else
            printf("accepted");
    } else if (is("record", 4) || is("records", 3)) {
        uint8_t *records = copy_of(at(n[0], n[1], n[2]), n[2]);
        if (numbers == 4)
            say_record(records, n[2], n[3]);
        else
            walk(records, n[2]);
        free(records);
    } else if (is("same", 5)) {
        printf(memcmp(at(n[0], n[1], n[4]), at(n[2], n[3], n[4]), n[4]) == 0 ? "right" : "WRONG");
    } else if (is("leaves", 2)) {
        leaves(n[0], n[1]);
    } else if (is("cuts", 3)) {
        printf("%" PRIu64 " ended as the one never cut", cuts(n[0], n[1], n[2]));
    } else {
        stop("no such command");
    }
    printf("\n");
}

/* A command: a word, its numbers, and then its end, or a colon, a space and a text. */
static void obey(const char *from, const char *end) {
    size_t letters = 0;
    const char *p = from;
    text = from, text_length = (size_t)(end - from);
    memset(word, 0, sizeof word);
    memset(n, 0, sizeof n);
    while (p < end && isalpha((unsigned char)*p) && letters + 1 < sizeof word)
        word[letters++] = *p++;
    for (numbers = 0; p < end && *p == ' ' && numbers < NUMBERS; numbers++) {
        char *behind;
        n[numbers] = strtoull(p + 1, &behind, 10);
        p = behind;
    }
    if (p < end && (p + 1 >= end || p[0] != ':' || p[1] != ' '))
        stop("cannot read");
    if (p < end)
        text = p + 2, text_length = (size_t)(end - text);
    else
        text = end, text_length = 0;
    if (!change())
        tell();
}

int main(void) {
    static char script[65536];
    size_t length = fread(script, 1, sizeof script - 1, stdin);
    const char *p = script, *end = script + length;
    if (length == sizeof script - 1)
        stop("the script is too long");
    memset(flash, 'a', sizeof flash);
    while (p < end) {
        const char *line = memchr(p, '\n', (size_t)(end - p));
        if (!line)
            line = end;
        if (*p == '#') {
            p = line + 1;
        } else if (*p == ' ' || *p == '\n') {
            p++;
        } else {
            const char *semicolon = memchr(p, ';', (size_t)(line - p));
            obey(p, semicolon ? semicolon : line);
            p = (semicolon ? semicolon : line) + 1;
        }
    }
    return 0;
}
