/* Writes a list of three documents in both ways, validates its image, and reads it in every way the library has. */
#include "vilthorwy.h"
#include <inttypes.h>
#include <stdio.h>
#include <stdlib.h>
#include <string.h>

/* The answer itself; the program ends where it is a refusal. */
static uint64_t taken(const char *call, uint64_t answer) {
    if (answer < VILTHORWY_REFUSED) return answer;
    fprintf(stderr, "%s refused: %" PRIu64 "\n", call, answer - VILTHORWY_REFUSED);
    exit(1);
}

/* Ends the program where something isn't as it must be. */
static void must(int holds, const char *what) {
    if (holds) return;
    fprintf(stderr, "not so: %s\n", what);
    exit(1);
}

int main(void) {
    const uint32_t ids[] = {3, 7, 300}, freqs[] = {1, 2, 130};
    /* Room for any list of three documents; vilthorwy.h says how much a longer one needs. */
    uint8_t skips[8], postings[1008], image[30], again[30];
    uint64_t size = taken("write_list", vilthorwy_write_list(1, 1, ids, 3, freqs, 3, skips, sizeof skips, postings, sizeof postings,
                                                             image, sizeof image));
    uint64_t same = taken("write_docs", vilthorwy_write_docs(1, 1, ids, 3, freqs, 3, 3, skips, sizeof skips, postings, sizeof postings,
                                                             again, sizeof again));
    must(same == size && memcmp(image, again, size) == 0, "document by document the image is the same");
    printf("image:");
    for (uint64_t i = 0; i < size; i++) printf(" %02X", image[i]);

    uint64_t refusal = vilthorwy_validate(1, 3, image, size); /* a number alone, 0 where the image is sound */
    printf("\nvalidate: %" PRIu64 "\n", refusal);
    must(refusal == 0, "the image is sound");

    uint32_t docs[3], counts[3];
    uint64_t n = taken("read", vilthorwy_read(1, 1, 3, image, size, docs, 3, counts, 3));
    for (uint64_t i = 0; i < n; i++) printf("document %" PRIu32 ", frequency %" PRIu32 "\n", docs[i], counts[i]);
    uint64_t below = taken("rank", vilthorwy_rank(1, 3, image, size, 300));
    uint64_t occurrences = taken("total", vilthorwy_total(1, 3, image, size, 300));
    printf("documents below 300: %" PRIu64 ", occurrences: %" PRIu64 "\n", below, occurrences);

    /* Seeks 7 and 8, a step to the end, and there a seek to a mistyped target: by value, and on a lent cursor. */
    enum { CALLS = 4, PLACES = (CALLS + 1) * VILTHORWY_ANSWER_NUMBERS };
    const uint64_t seek = (uint64_t)1 << 32, on_lent = (uint64_t)2 << 32, mistyped = 2147483648u;
    const uint64_t by_value[CALLS] = {seek + 7, seek + 8, 0, seek + mistyped};
    uint64_t lent[CALLS], answers[PLACES], lent_answers[PLACES];
    for (int i = 0; i < CALLS; i++) lent[i] = on_lent + by_value[i]; /* kinds 2 and 3 for 0 and 1 */
    n = vilthorwy_run_calls(1, 1, 3, image, size, by_value, CALLS, answers, PLACES);
    must(n == CALLS + 1, "opening and the four calls are answered");
    must(vilthorwy_run_calls(1, 1, 3, image, size, lent, CALLS, lent_answers, PLACES) == n, "as many on a lent cursor");
    must(memcmp(answers, lent_answers, sizeof answers) == 0, "the answers are the same");
    const uint64_t *last = answers + PLACES - VILTHORWY_ANSWER_NUMBERS;
    for (const uint64_t *a = answers; a < last; a += VILTHORWY_ANSWER_NUMBERS) {
        must(a[VILTHORWY_REFUSAL_PLACE] == 0, "the call isn't refused");
        printf("at %" PRIu64 ", frequency %" PRIu64 ", %" PRIu64 " unpacked%s\n", a[VILTHORWY_DOC_PLACE], a[VILTHORWY_FREQ_PLACE],
               a[VILTHORWY_UNPACKED_PLACE], a[VILTHORWY_HIT_PLACE] ? ", the target itself" : "");
    }
    must(last[VILTHORWY_REFUSAL_PLACE] == VILTHORWY_TARGET_TOO_LARGE, "the mistyped target is refused");
    printf("refused: a target above %u\n", VILTHORWY_TERMINATED);
    return 0;
}
