/*
 * Stack of each call: a thread paints its own stack, makes the call, and counts the paint that is gone. What an empty call leaves is
 * taken off. The deepest path of each function is tried: a start that checks and exchanges, one that resumes, one that clears out.
 */
#define _GNU_SOURCE
#include <pthread.h>
#include <stdio.h>
#include <stdlib.h>
#include <string.h>

#include "scale.h"

enum { STACK = 1 << 18, UNIT = 8, SECTOR = 3104, SECTORS = 3, SLOT = SECTORS * SECTOR, DATA = SLOT - SECTOR, PAINT = 0xb7 };

static uint8_t slot0[SLOT], slot1[SLOT], scratch[2 * SECTOR], digest[32];
static volatile uint64_t sink;

#define AREAS UNIT, SECTOR, SECTORS, slot0, SLOT, slot1, SLOT, scratch, 2 * SECTOR

static void put_image(uint8_t *slot)
{
    const size_t covered = DATA - 36, body = covered - 32;
    const uint8_t header[16] = {0x3c, 0xb8, 0xf3, 0x96, 36, 0, 0, 0, 32, 0, 0, 0, (uint8_t)body, (uint8_t)(body >> 8), 0, 0};
    const uint8_t record[4] = {1, 0, 32, 0};
    memset(slot, 0x11, DATA);
    memcpy(slot, header, sizeof header);
    memcpy(slot + covered, record, sizeof record);
    scale_sha256(slot, covered, slot + covered + 4);
}

static void due(void)
{
    memset(slot0, 0xff, SLOT);
    memset(slot1, 0xff, SLOT);
    memset(scratch, 0xff, sizeof scratch);
    put_image(slot0);
    put_image(slot1);
    scale_mark(AREAS, false);
}

static void cut(void)
{
    due();
    scale_power_up(AREAS, 900);
}

static void flawed(void)
{
    due();
    slot1[100] ^= 1;
}

static void over(void)
{
    due();
    scale_power_up(AREAS, UINT64_MAX);
}

static void unmarked(void)
{
    over();
    scale_confirm(AREAS);
}

static void empty(void) { sink = 0; }
static void hash(void) { scale_sha256(slot1, DATA, digest); }
static void check(void) { sink = scale_check_image(slot1, DATA); }
static void record(void) { sink = scale_record_at(slot1, DATA, 0).size; }
static void plain(void) { sink = scale_power_up(AREAS, UINT64_MAX).count; }
static void full(void) { sink = scale_full_start(AREAS, UINT64_MAX, true).count; }
static void mark(void) { sink = scale_mark(AREAS, true).count; }
static void confirm(void) { sink = scale_confirm(AREAS).count; }

static _Alignas(4096) uint8_t stack[STACK];

typedef struct {
    void (*call)(void);
    size_t used;
} trial;

/* Runs on `stack`: paint all of it below the stack pointer, call, and look for the lowest byte that changed. No call in between. */
static void *paint_and_call(void *argument)
{
    trial *t = argument;
    volatile uint8_t *pointer, *at;
    __asm__ volatile("mov %%rsp, %0" : "=r"(pointer));
    for (at = stack; at < pointer; at++)
        *at = PAINT;
    t->call();
    for (at = stack; *at == PAINT; at++)
        continue;
    t->used = (size_t)(pointer - at);
    return NULL;
}

static size_t deepest(void (*call)(void))
{
    trial t = {call, 0};
    pthread_attr_t attributes;
    pthread_t thread;
    if (pthread_attr_init(&attributes) != 0 || pthread_attr_setstack(&attributes, stack, STACK) != 0 ||
        pthread_create(&thread, &attributes, paint_and_call, &t) != 0 || pthread_join(thread, NULL) != 0)
        exit(1);
    pthread_attr_destroy(&attributes);
    return t.used;
}

int main(void)
{
    static const struct {
        const char *name;
        void (*prepare)(void);
        void (*call)(void);
    } cases[] = {
        {"scale_sha256", due, hash},
        {"scale_check_image", due, check},
        {"scale_record_at", due, record},
        {"scale_power_up, exchange", due, plain},
        {"scale_power_up, resumed", cut, plain},
        {"scale_power_up, clear-out", flawed, plain},
        {"scale_power_up, nothing due", unmarked, plain},
        {"scale_full_start, exchange and check", due, full},
        {"scale_mark", unmarked, mark},
        {"scale_confirm", over, confirm},
    };
    size_t nothing = deepest(empty);
    printf("stack of a call, in bytes, with its arguments and its answer (%zu for an empty call taken off)\n", nothing);
    for (size_t i = 0; i < sizeof cases / sizeof cases[0]; i++) {
        cases[i].prepare();
        size_t used = deepest(cases[i].call);
        printf("  %-38s %6zu\n", cases[i].name, used - nothing);
    }
    return 0;
}
