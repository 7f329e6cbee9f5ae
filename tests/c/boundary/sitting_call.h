/* A sitting, marked on lent buffers, with all that is expected of it. */
#ifndef SITTING_CALL_H
#define SITTING_CALL_H

#include <mitongory.h>

/* What a call is given; the lengths are in elements. */
struct sitting {
    const uint32_t *key;
    size_t key_len;
    const uint32_t *sheets;
    size_t sheets_len;
    const uint64_t *counts;
    size_t counts_len, report_len, answer_len;
};

/* So many sheets, with just enough report and answer cells. */
struct sitting sitting_of(const uint32_t *key, size_t key_len, const uint32_t *sheets, size_t sheets_len,
                          const uint64_t *counts, size_t counts_len);

/*
 * Expects, on both sides, that the call is accepted, with the report's three cells for each sheet and their sums as the
 * answer, and that all else stays.
 */
void marked(const char *name, struct sitting s, const uint32_t *report);

/* Expects, on both sides, the refusal, and that all stays. */
void unmarked(const char *name, struct sitting s, uint32_t refusal);

#endif
