/* The functions of libexports.a (`rt lib` in crates/exports), for C and whatever links as C does, on x86-64 Linux. Each is proved to give
 * the outcome that docs/PROMISES.md names, on all numbers and on all contents of what is lent.
 *
 * A slice is a pointer and a length in elements. The proofs presume of it what Rust and Rattle see to by themselves: the pointer is
 * valid for that many elements, aligned for their type and not null, for an empty slice too (any aligned address serves there); and a
 * slice that a call writes overlaps no other slice of the same call. Nothing is kept after a call. */
#ifndef VILTHORWY_H
#define VILTHORWY_H

#include <stddef.h>
#include <stdint.h>

#ifdef __cplusplus
extern "C" {
#endif

/* An answer of at least this is a refusal: this and the refusal's number. So it is with all functions but two: vilthorwy_validate
 * answers 0 or the number alone, vilthorwy_run_calls how many answers it wrote, in each of which the number stands alone as well. */
#define VILTHORWY_REFUSED ((uint64_t)1 << 63)
/* The document answered behind the last one. Ids lie below it. */
#define VILTHORWY_TERMINATED 2147483647u
/* How many numbers an answer of vilthorwy_run_calls is, and their places: refusal or 0, document, frequency, blocks unpacked, entries read,
 * hit; with a refusal the others are 0. */
#define VILTHORWY_ANSWER_NUMBERS 6
#define VILTHORWY_REFUSAL_PLACE 0
#define VILTHORWY_DOC_PLACE 1
#define VILTHORWY_FREQ_PLACE 2
#define VILTHORWY_UNPACKED_PLACE 3
#define VILTHORWY_ENTRIES_PLACE 4
#define VILTHORWY_HIT_PLACE 5

/* The numbers of the refusals. F is the number of full blocks, count / 128; the tail is the count % 128 documents behind them. */
enum {
    VILTHORWY_UNKNOWN_MODE = 1,       /* a mode above 1, or a requested mode above 2 */
    VILTHORWY_COUNT_TOO_LARGE = 2,    /* a count above 2147483647 */
    VILTHORWY_SKIP_LENGTH_BROKEN = 3, /* image: the skip length is incomplete, beyond its limits, or above the bytes left */
    VILTHORWY_SKIP_LENGTH_WRONG = 4,  /* image: it isn't 5 * F without frequencies, 8 * F with */
    VILTHORWY_ENTRY_BROKEN = 5,       /* image: a frequency width above 32, a last id out of order, a block that isn't all there */
    VILTHORWY_DOCS_NOT_RISING = 6,    /* image: ids don't rise strictly below 2147483647, or a block ends on another id than its entry's */
    VILTHORWY_FREQ_OUT_OF_RANGE = 7,  /* image: a frequency that isn't 1 to 4294967295 */
    VILTHORWY_NUMBER_BROKEN = 8,      /* image: a number of the tail is incomplete, missing or beyond its limits */
    VILTHORWY_BYTES_LEFT = 9,         /* image: bytes are left behind the tail */
    VILTHORWY_TARGET_TOO_LARGE = 10,  /* a target above 2147483647; a seek asks it at the end too */
    VILTHORWY_ID_TOO_LARGE = 11,      /* writing: an id of 2147483647 or more */
    VILTHORWY_ID_NOT_RISING = 12,     /* writing: an id that isn't above the one before */
    VILTHORWY_FREQ_ZERO = 13,         /* writing: a frequency of 0 that would be kept */
    VILTHORWY_COUNT_MISMATCH = 14,    /* writing: slices of different length, or another number of documents than announced */
    VILTHORWY_NO_ROOM = 15,           /* a slice to write into is too short */
    VILTHORWY_STATE_BROKEN = 16       /* a lent cursor or writer is out of bounds; these functions are lent none */
};

/* Writes a whole list. mode is 0 (documents) or 1 (with frequencies); record says whether frequencies are kept: in mode 1 where it is
 * any number but 0, in mode 0 never. Both slices are equally long in any case. skips and postings are working areas; the image is at
 * the front of output. Answers the image's length. It asks 1, then 14, then 11 to 13 of each document, then 15; a refusal changes
 * nothing.
 *
 * Always enough for n documents, in bytes (a shorter slice is refused under 15 only where the list really needs more):
 *                              skips             postings             output
 *     frequencies kept         8 * (n / 128)     1008 * (n / 128)     10 * n
 *     not kept                 5 * (n / 128)      496 * (n / 128)      5 * n
 * since a full block has an entry of 8 or 5 bytes and 16 for each bit of its widths, 31 at most for ids and 32 for frequencies; and
 * the image has both areas, a skip length of 4 bytes at most before them where there is a full block, and for each number of the tail
 * 5 bytes at most. */
uint64_t vilthorwy_write_list(uint8_t mode, uint8_t record, const uint32_t *ids, size_t ids_len, const uint32_t *freqs,
                              size_t freqs_len, uint8_t *skips, size_t skips_len, uint8_t *postings, size_t postings_len,
                              uint8_t *output, size_t output_len);

/* The same by single calls, closed with an announced count: before the first of them it asks 1, then 14 of the two lengths, then 11 to
 * 13 of each document, then 14 of the announced count, then 15; a refusal changes nothing. */
uint64_t vilthorwy_write_docs(uint8_t mode, uint8_t record, const uint32_t *ids, size_t ids_len, const uint32_t *freqs,
                              size_t freqs_len, uint32_t announced, uint8_t *skips, size_t skips_len, uint8_t *postings,
                              size_t postings_len, uint8_t *output, size_t output_len);

/* 0 where the image is sound, else the number, 1 to 9, of the first refusal that a walk over the whole of it meets. */
uint64_t vilthorwy_validate(uint8_t mode, uint32_t count, const uint8_t *image, size_t image_len);

/* All documents and frequencies, at the front of both slices, which have at least count places each. requested is 0 (frequencies read
 * as 1), 1 or 2, which reads as 1. Answers how many, the count. It asks 1, of the requested mode too, then the rest of what
 * vilthorwy_validate asks, 2 to 9, then 15; a refusal changes nothing. */
uint64_t vilthorwy_read(uint8_t mode, uint8_t requested, uint32_t count, const uint8_t *image, size_t image_len, uint32_t *docs,
                        size_t docs_len, uint32_t *freqs, size_t freqs_len);

/* How many documents lie below the target, and the sum of their frequencies, each 1 where none are kept. A target above 2147483647 is
 * refused under 10, before the image is looked at. Both ask their questions of what they read alone, and so answer of images too that
 * aren't sound: rank reads the entries up to the block that it lands on and unpacks that one and the first, no frequencies; total
 * reads the blocks up to the first document at or above the target. Validate an image that somebody else wrote first. */
uint64_t vilthorwy_rank(uint8_t mode, uint32_t count, const uint8_t *image, size_t image_len, uint32_t target);
uint64_t vilthorwy_total(uint8_t mode, uint32_t count, const uint8_t *image, size_t image_len, uint32_t target);

/* Opens a cursor and makes calls on it in order. A call is kind * 2^32 + target; kinds: 0 step, 1 seek, 2 step on a lent cursor, 3 seek on
 * a lent cursor; a step takes no notice of its target. VILTHORWY_ANSWER_NUMBERS numbers are answered for the opening and for each call.
 * The hit is 1 where the document that a seek answers is its target, also where the cursor stood on it already; else 0. It is 0 for the
 * opening, for a step, and at the end, for the target 2147483647 too. After a refusal the next call finds the cursor as it was. At the end the
 * document is 2147483647 and the frequency 0, and a step or a seek stays there; but a seek to a target above 2147483647 is refused under
 * 10 wherever the cursor is, at the end too. Of an image that isn't sound the call is refused that comes to read what is wrong. Returns
 * how many answers were written: one for a refused opening; 0, and nothing written, where answers is shorter than
 * VILTHORWY_ANSWER_NUMBERS * (calls + 1) or a kind is unknown. */
uint64_t vilthorwy_run_calls(uint8_t mode, uint8_t requested, uint32_t count, const uint8_t *image, size_t image_len,
                             const uint64_t *calls, size_t calls_len, uint64_t *answers, size_t answers_len);

#ifdef __cplusplus
}
#endif

#endif
