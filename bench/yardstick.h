// The C yardstick: the five search rules in plain C, with the call's loop, to measure the library against.
#ifndef YARDSTICK_H
#define YARDSTICK_H
#include <stddef.h>
#include <stdint.h>

enum method { PLAIN, HASH, SKIP, WIDE, TAIL, METHODS };
enum stop { DONE, FULL, SPENT };

struct answer {
    uint64_t refused; // a refusal's number, or 0
    uint64_t steps;
    uint64_t hits;
    uint64_t mark;
    uint64_t stop;
};

// A pattern: m bits, and the second run, in which a 1 stands for a fixed bit and a 0 for a wild one.
struct word {
    const uint8_t *bits, *fixed;
    size_t m;
};

// A search call; scratch has the cells that the method takes for m (scratch_cells of rules.h), or more.
void c_search(const uint8_t *text, uint64_t n, const struct word *pattern, int method, uint32_t mark, uint32_t budget,
              uint32_t *list, size_t cells, uint64_t *scratch, struct answer *out);
#endif
