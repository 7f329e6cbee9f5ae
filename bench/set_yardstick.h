// The C yardstick of a search for a set of patterns, with the call's loop.
#ifndef SET_YARDSTICK_H
#define SET_YARDSTICK_H
#include "yardstick.h"

// A set: a bit count for each pattern, and both runs, in which each pattern begins on the byte after the one before it.
struct set {
    const uint8_t *bits, *fixed;
    const uint64_t *counts;
    size_t count, bytes;
};

// A call; the hits of the answer are pairs, which take two cells each.
void c_search_set(const uint8_t *text, uint64_t n, const struct set *set, uint32_t mark, uint32_t budget, uint32_t *list,
                  size_t cells, struct answer *out);
#endif
