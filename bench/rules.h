// The search rules read bit by bit, for the check of the library and of the yardstick.
#ifndef RULES_H
#define RULES_H
#include "set_yardstick.h"

extern const char *const method_names[METHODS];

// Whether a method takes patterns of m bits.
int takes(int method, size_t m);

// The cells of scratch that a method takes for a pattern of m bits.
static inline size_t scratch_cells(int method, size_t m) {
    switch (method) {
    case PLAIN: return 16 * ((m + 14) / 8);
    case HASH: return 512;
    case SKIP: return 256 + m;
    case WIDE: return 2 * (63 + m);
    default: return 2;
    }
}

// What a call answers.
void rules_search(const uint8_t *t, size_t n, const struct word *w, int method, size_t mark, size_t budget, uint32_t *list,
                  size_t cells, struct answer *out);

// The places of a set in a text of n bits: the most that any pattern has.
size_t rules_places(const struct set *set, size_t n);

// What a call for a set answers.
void rules_search_set(const uint8_t *t, size_t n, const struct set *set, size_t mark, size_t budget, uint32_t *list,
                      size_t cells, struct answer *out);

// H(B) of a pattern of at least 8 bits.
size_t rules_hash_value(const struct word *w, unsigned value);
#endif
