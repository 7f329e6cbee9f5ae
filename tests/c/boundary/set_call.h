/* A search for a set of patterns, made on lent buffers, with all that is expected of it. */
#ifndef SET_CALL_H
#define SET_CALL_H

#include <mitongory.h>

#include "bounds.h"
#include "lend.h"

/* Room for one pattern more than the most, each of the longest. */
enum { SET_ROOM = MITONGORY_MOST_PATTERNS + 1, SET_BYTES = SET_ROOM * (LARGEST_M / 8), PAIR_CELLS = 2 };

/* Patterns, laid out as a call takes them. */
struct set {
    uint8_t values[SET_BYTES], fixed[SET_BYTES];
    uint64_t counts[SET_ROOM];
    size_t bytes, count;
};

void empty_set(struct set *s);

/* Adds a pattern; the bits from m on in its last byte are those of the given runs. */
void add_pattern(struct set *s, const uint8_t *values, const uint8_t *fixed, uint64_t m);

/* Adds patterns that are written as characters, with ? for a wild bit and a space between two patterns. */
void add_patterns(struct set *s, const char *patterns);

/* What a call is given; the lengths are in elements. */
struct set_search {
    const uint8_t *text;
    size_t text_len;
    uint64_t n;
    const uint8_t *patterns;
    size_t patterns_len;
    const uint8_t *fixed;
    size_t fixed_len;
    const uint64_t *counts;
    size_t counts_len;
    uint32_t mark, budget;
    size_t list_len, answer_len;
};

/* From the mark 0 on, with the largest budget, so many list cells, and just the bytes and answer cells that are needed. */
struct set_search search_for_set(const uint8_t *text, uint64_t n, const struct set *s, size_t list_len);

/*
 * Makes the call on one side. Expects the result, of an accepted call the four answer cells and the pairs, and that all
 * else stays.
 */
void expect_set(const struct set_search *q, enum side side, uint32_t result, const uint64_t *told, const uint32_t *pairs);

/* Expects, on both sides, that the call is accepted with the four answer cells and the pairs. */
void accepted_set(const char *name, struct set_search q, uint64_t steps, uint64_t count, uint64_t mark, uint64_t stop,
                  const uint32_t *pairs);

/* Expects, on both sides, the refusal, and that all stays. */
void refused_set(const char *name, struct set_search q, uint32_t refusal);

#endif
