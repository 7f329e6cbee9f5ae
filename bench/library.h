// The library's search calls (include/mitongory.h) with the yardsticks' parameters.
#ifndef LIBRARY_H
#define LIBRARY_H
#include "rules.h"
#include "set_yardstick.h"
#include <mitongory.h>

enum { CELLS = MITONGORY_SCRATCH_CELLS };

// Text, pattern and second run have just the bytes that their bits need, and the scratch just the cells that the method takes.
static inline void library_search(const uint8_t *text, uint64_t n, const struct word *w, int method, uint32_t mark,
                                  uint32_t budget, uint32_t *list, size_t cells, uint64_t *scratch, struct answer *out) {
    uint64_t a[MITONGORY_ANSWER_CELLS] = {0};
    size_t bytes = (w->m + 7) / 8;
    uint32_t refused =
        mitongory_search(text, (n + 7) / 8, n, w->bits, bytes, w->fixed, bytes, w->m, method, mark, budget, list, cells, scratch,
                         scratch_cells(method, w->m), a, MITONGORY_ANSWER_CELLS);
    *out = (struct answer){refused, a[MITONGORY_STEPS], a[MITONGORY_OCCURRENCES], a[MITONGORY_MARK], a[MITONGORY_STOP]};
}

static inline void library_search_set(const uint8_t *text, uint64_t n, const struct set *set, uint32_t mark, uint32_t budget,
                                      uint32_t *list, size_t cells, struct answer *out) {
    uint64_t a[MITONGORY_ANSWER_CELLS] = {0};
    uint32_t refused = mitongory_search_set(text, (n + 7) / 8, n, set->bits, set->bytes, set->fixed, set->bytes, set->counts,
                                            set->count, mark, budget, list, cells, a, MITONGORY_ANSWER_CELLS);
    *out = (struct answer){refused, a[MITONGORY_STEPS], a[MITONGORY_OCCURRENCES], a[MITONGORY_MARK], a[MITONGORY_STOP]};
}
#endif
