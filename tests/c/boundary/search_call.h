/* A search, made on lent buffers, with all that is expected of it. */
#ifndef SEARCH_CALL_H
#define SEARCH_CALL_H

#include "lend.h"

/* What a call is given; the lengths are in elements. */
struct search {
    const void *text;
    size_t text_len;
    uint64_t n;
    const void *pattern;
    size_t pattern_len;
    const void *fixed;
    size_t fixed_len;
    uint64_t m;
    uint32_t method, mark, budget;
    size_t list_len, scratch_len, answer_len;
};

/* The cells of scratch that a method takes for a pattern of m bits, by the words of document 02. */
size_t scratch_for(uint32_t method, uint64_t m);

/*
 * Paper 1 or 2 from the mark 0 on, without wild bits, with the largest budget, three list cells, and the least scratch and
 * answer.
 */
struct search paper1(uint32_t method);
struct search paper2(uint32_t method);

struct search_buffers {
    struct lent text, pattern, fixed, list, scratch, answer;
};

/* Lends the buffers, makes the call and returns its result. */
uint32_t search_on(const struct search *q, enum side side, struct search_buffers *b);
void give_back_all(struct search_buffers *b);

/* Expects, on both sides, that the call is accepted with the four answer cells and the places. */
void accepted(const char *name, struct search q, uint64_t steps, uint64_t occurrences, uint64_t mark, uint64_t stop,
              const uint32_t *places);

/* Expects, on both sides, the refusal, and that all stays. */
void refused(const char *name, struct search q, uint32_t refusal);

#endif
