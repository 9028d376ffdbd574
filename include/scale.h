/*
 * Scale loader: the C boundary.
 *
 * Link with libscale.a: machine code for x86-64 (64-bit, System V calls), for host tools, simulators and test benches. The library
 * works on flash that is lent to it as plain memory. It keeps no state, allocates nothing, and calls nothing but memset (`nm -u libscale.a`
 * shows that one name). It carries nothing over from one call to the next but the bytes of the areas. Every function is total: there is no
 * argument value that is undefined, except that each pointer must be good for its length (see "Memory" below).
 *
 * Power failure: what the board owes
 * ----------------------------------
 * No update is lost by power failures IF the board finishes one operation on a trailer sector after its power fails: the write of a unit or
 * the erase of that sector, which takes longest. A capacitor does it. Data sectors need no such care: half an erase or half a write of them is
 * done again at the next start.
 *
 * Without that, random bytes where a trailer operation was cut do this. In a progress mark (how far the exchange has come): refusal 2, and the
 * firmware is in parts. In copy done (the exchange is over): the new firmware runs and is not on trial, that is, nothing takes it back if it is
 * not confirmed. The other trailer operations are taken up again, unless the last erase of scratch's trailer left its magic (the trailers are
 * being exchanged): with its image ok (the firmware stays) spoilt that is refusal 2; with image ok gone a permanent exchange or a revert goes on
 * as a test, which the next start takes back (after a revert, the failed firmware runs again); with image ok 01 a test is for good.
 * docs/ARCHITECTURE.md has all that a board owes.
 *
 * The flash
 * ---------
 * Three areas are lent to each call as plain memory: slot 0 (the firmware that boots), slot 1 (the firmware that was sent) and scratch.
 * A geometry is three numbers:
 *
 *   unit     bytes in a write unit, w: 1, 2, 4 or 8
 *   sector   bytes in a sector, s: a multiple of w, from 384 * w + 32 to 65536
 *   sectors  sectors in a slot, n: 2 to 128
 *
 * Slot 0 and slot 1 are exactly n * s bytes each and scratch exactly 2 * s; any other length, longer ones too, is refusal 1. The last
 * sector of each area is its trailer sector, where the loader keeps its marks. The m = n - 1 sectors before it in a slot hold its image.
 *
 * An operation is one of two: erase one sector (all bytes become 0xff), or write one unit whose bytes are all 0xff. Counts and
 * allowances are numbers of operations. An allowance is the most that a start may carry out: see scale_power_up.
 *
 * The trailer
 * -----------
 * In the last sector of each area. Places are counted in bytes from the end of the area: 16 is its last 16 bytes.
 *
 *   w   progress marks   marks 0, 1, 2     copy    image   magic   a mark of
 *       begin at         of sector 0       done    ok              value v is
 *   1    416             35, 34, 33        32      24      16      v
 *   2    800             38, 36, 34        32      24      16      v ff
 *   4   1568             44, 40, 36        32      24      16      v ff ff ff
 *   8   3104             56, 48, 40        32      24      16      v ff ff ff ff ff ff ff
 *
 *   progress marks  three for each sector, 01 02 03 as its three moves are done; those of sector i stand 3 * w * i further from the end than
 *                   those of sector 0, and those of sector n - 1 stand for the exchange of the trailers
 *   copy done       01 in slot 0: the exchange is over
 *   image ok        01 in slot 0: the firmware is confirmed, it is not on trial; 01 in slot 1: exchange for good, not on trial
 *   magic           77 c2 95 f3 60 d2 ef 7f 35 52 50 0f 2c b6 79 80: in slot 1, an exchange is wanted; in slot 0, one was begun; in scratch,
 *                   the trailers are being exchanged, and scratch's image ok is 01 if slot 0's is to be
 *
 * A mark is one unit, and unset while all of it is ff; the bytes between a mark and what follows it are neither read nor written.
 *
 * On trial is the firmware in slot 0 after a test exchange, until scale_confirm: magic there, copy done 01, image ok unset. The next start
 * brings the old firmware back.
 *
 * The image
 * ---------
 * From the first byte of a slot on. Numbers are little endian; h, b and r are those that the header gives.
 *
 *   at      bytes   what
 *   0       4       magic 96f3b83c: bytes 3c b8 f3 96
 *   4       2       size of the trailing records, r
 *   8       2       header size, h: 32 or more; the body begins there, and the firmware boots there
 *   12      4       body size, b
 *   h       b       body
 *   h + b   r       trailing records, one after the other: type (1 byte), a byte that is not read, length (2), and that many bytes
 *
 * One record has type 1 and length 32: the SHA-256 of the first h + b bytes. Others may stand beside it. Nothing else of the header is read.
 *
 * Image and trailer are those of the published mcuboot design (source document 003), with its first image format. Its newer format has magic
 * 96f3b83d: cause 1.
 *
 * Memory
 * ------
 * - slot0, slot1 and scratch must not overlap, not even in part: the library is proved for three distinct areas.
 * - message and digest must not overlap either.
 * - Each pointer must be readable for its length, and writable where it is not const. It needs no alignment. It must not be NULL,
 *   also where the length is 0 (nothing is read then).
 * - While a call runs nobody else writes to what is lent. Calls on different memory may run at the same time.
 *
 * Wear
 * ----
 * Erases in an exchange: scratch's data sector m, scratch's trailer sector 2, every sector of both slots 1. A start that is cut or stopped
 * costs at most one more, of the data sector that it was at or of each trailer sector. A clear-out erases each sector of slot 1 once.
 *
 * Refusals
 * --------
 *   No.  When                                                      The areas then hold
 *   1    the geometry, or the length of an area, is wrong          what they held before
 *   2    damage: scratch's magic is good and its image ok is       what they held before
 *        neither unset nor 01 (under A); or slot 0 says that an
 *        exchange is under way and its progress marks are no
 *        legal run (under B); README.md has the steps to repair it
 *   3    slot 0 cannot be booted: its header magic is wrong, its   the counted operations are done
 *        header size is under 32, or its sizes sum to more than
 *        the slot's data bytes (causes 1 and 2)
 *   4    scale_full_start with check_slot0: slot 0 is no image;    the counted operations are done
 *        the cause, 3, 4 or 5, is in the answer
 *   5    scale_mark: image ok or magic of slot 1 is not unset      what they held before
 *   6    scale_mark, scale_confirm: an exchange is under way       what they held before
 *   7    scale_confirm: slot 0 is not a firmware on trial (magic   what they held before
 *        good, copy done 01, image ok unset)
 *   8    a unit to be written is not erased (never comes: proved)  the counted operations are done
 *
 * They are asked in this order: starting 1, 2, then as things come; marking 1, 2, 6, 5; confirming 1, 2, 6, 7.
 *
 * Causes
 * ------
 *   1    the header's magic is wrong
 *   2    fewer than 32 bytes (asked before cause 1), header size under 32, or the sizes sum to more than the bytes given
 *   3    the trailing records do not fill their area exactly
 *   4    not exactly one digest record (type 1), or its length is not 32
 *   5    the digest of header and body differs from the recorded one
 *
 * Trailing records
 * ----------------
 * The loader gives no type but 1 a meaning, so that a version or a key may stand in a record of any other type. In an image that
 * scale_check_image accepts the records fill their r bytes exactly. scale_record_at walks over them.
 */
#ifndef SCALE_H
#define SCALE_H

#if !defined __x86_64__ || defined __ILP32__ || defined _WIN32
#error "scale.h: libscale.a is machine code for x86-64 with 64-bit pointers and System V calls, and for no other processor or system"
#endif

#include <stdbool.h>
#include <stddef.h>
#include <stdint.h>

#ifdef __cplusplus
extern "C" {
#endif

/* What a start did: the list of operations in force, even if the allowance let none of them happen. */
enum {
    SCALE_DONE_NONE = 0,      /* nothing was due; also with refusals 1 and 2 */
    SCALE_DONE_TEST = 1,      /* the images were exchanged, on trial: without scale_confirm the next start reverts */
    SCALE_DONE_PERMANENT = 2, /* the images were exchanged for good */
    SCALE_DONE_REVERT = 3,    /* the trial was not confirmed: the images were exchanged back */
    SCALE_DONE_RESUMED = 4,   /* an exchange that power failure had cut was taken up again */
    SCALE_DONE_CLEARED = 5    /* slot 1's image was rejected and erased */
};

/* How a start ended. */
enum {
    SCALE_END_BOOT = 0,    /* jump to slot 0 at `offset` */
    SCALE_END_STOPPED = 1, /* the allowance is used up and another operation is due: start again */
    SCALE_END_REFUSED = 2  /* see `refusal` */
};

/* The answer of a start. A field that does not apply is 0. */
typedef struct {
    uint64_t done;    /* SCALE_DONE_...: what was done */
    uint64_t found;   /* the number of progress marks found, 3 to 3 * sectors, if these resumed an exchange; else 0 */
    uint64_t count;   /* operations carried out: the smaller of the allowance and what was due */
    uint64_t end;     /* SCALE_END_...: how it ended */
    uint64_t offset;  /* with SCALE_END_BOOT: the header size of the image in slot 0, where its body begins */
    uint64_t refusal; /* with SCALE_END_REFUSED: 1, 2, 3, 4 or 8 */
    uint64_t cause;   /* with refusal 4: 3, 4 or 5 */
} scale_answer;

/* The answer of marking and confirming. */
typedef struct {
    uint64_t refusal; /* 0: done; else 1, 2, 5, 6, 7 or 8 */
    uint64_t count;   /* operations carried out; 0 with refusals 1, 2, 5, 6 and 7 */
} scale_marked;

/* What stands at a place of the trailing records. */
enum {
    SCALE_RECORD_END = 0,   /* nothing: the records end there, or before it */
    SCALE_RECORD_FOUND = 1, /* a whole record */
    SCALE_RECORD_STUMP = 2  /* bytes that make no whole record: the records do not fill their area (cause 3) */
};

/* A record. `type`, `start` and `size` are 0 where none was found. */
typedef struct {
    uint64_t found; /* SCALE_RECORD_...: what stands there */
    uint64_t type;  /* its type, 0 to 255; the digest is 1 */
    uint64_t start; /* where its bytes start, counted from the start of the records; never beyond their end */
    uint64_t size;  /* how many bytes it has, 0 to 65535; the next record begins at start + size */
} scale_record;

/*
 * SHA-256 (FIPS 180-4) of `length` bytes at `message`, into the 32 bytes at `digest`.
 */
void scale_sha256(const uint8_t *message, size_t length, uint8_t digest[32]);

/*
 * Is there an image at the start of these bytes? 0 if so, else the cause, 1 to 5. For a slot, give its first
 * (sectors - 1) * sector bytes. Bytes after the image are not read. Writes nothing.
 */
uint32_t scale_check_image(const uint8_t *image, size_t length);

/*
 * What stands at place `at` of the trailing records, `length` bytes at `records`. Any `at` may be asked: SCALE_RECORD_END is the answer
 * where it is `length` or more. Writes nothing, and reads nothing outside the records. To go over them all:
 *
 *   for (r = scale_record_at(records, length, 0); r.found == SCALE_RECORD_FOUND; r = scale_record_at(records, length, r.start + r.size))
 *       ...                      its bytes are records[r.start] and on
 *
 * This ends, since each record takes four bytes and more; SCALE_RECORD_END then tells that the records fill their area exactly.
 */
scale_record scale_record_at(const uint8_t *records, size_t length, size_t at);

/*
 * The plain start: what to do at each power-up. Resumes an exchange that was cut; else does the exchange that is due (slot 1 is marked,
 * or a trial was not confirmed) if slot 1 holds an image, and erases slot 1 if not; then gives the offset to boot at. Slot 0's digest is
 * not checked.
 *
 * At most `allowance` operations are carried out, in their order, and the areas then hold exactly what these leave. Give UINT64_MAX
 * to go to the end. After SCALE_END_STOPPED call it again: it goes on from the flash alone.
 *
 * Give at least sector / unit + 2: an exchange that is due or under way is then done after at most 3 * m + 2 starts (m = sectors - 1). A start
 * that is stopped in a move begins that move again, from its erase. So with less, as long as more than copy done is left of an exchange, all
 * starts are stopped, however many, and wear out the same sector. A whole exchange is
 * 3 * m * (sector / unit + 2) + 8 + 2 * p + 32 / unit operations; p is 0 for a test, else 1.
 *
 * Refusals: 1, 2, 3, 8. With 1 and 2 nothing was written and count is 0.
 */
scale_answer scale_power_up(size_t unit, size_t sector, size_t sectors,
                            uint8_t *slot0, size_t slot0_length,
                            uint8_t *slot1, size_t slot1_length,
                            uint8_t *scratch, size_t scratch_length,
                            uint64_t allowance);

/*
 * The full start: as scale_power_up, and with `check_slot0` the image in slot 0 is checked, digest and all, before it is booted.
 *
 * Refusals: 1, 2, 3, 4, 8. Without `check_slot0` the answer is that of scale_power_up.
 */
scale_answer scale_full_start(size_t unit, size_t sector, size_t sectors,
                              uint8_t *slot0, size_t slot0_length,
                              uint8_t *slot1, size_t slot1_length,
                              uint8_t *scratch, size_t scratch_length,
                              uint64_t allowance, bool check_slot0);

/*
 * Mark slot 1: its image is exchanged into slot 0 at the next start, for good if `permanent`, else on trial. Whether there is an image
 * is asked at that start, not here. Takes 16 / unit operations, one more if `permanent`. Slot 0 and scratch are only read.
 *
 * Refusals: 1, 2, 6, 5, asked in this order, all with count 0 and nothing written; 8.
 */
scale_marked scale_mark(size_t unit, size_t sector, size_t sectors,
                        const uint8_t *slot0, size_t slot0_length,
                        uint8_t *slot1, size_t slot1_length,
                        const uint8_t *scratch, size_t scratch_length,
                        bool permanent);

/*
 * Confirm slot 0: the firmware on trial stays. Call it from that firmware once it is content with itself. Takes 1 operation. Slot 1 and
 * scratch are only read.
 *
 * Refusals: 1, 2, 6, 7, asked in this order, all with count 0 and nothing written; 8.
 */
scale_marked scale_confirm(size_t unit, size_t sector, size_t sectors,
                           uint8_t *slot0, size_t slot0_length,
                           const uint8_t *slot1, size_t slot1_length,
                           const uint8_t *scratch, size_t scratch_length);

#ifdef __cplusplus
}
#endif

#endif
