/* A search for a set by document 02's words, place after place, pattern after pattern and bit by bit. */
#ifndef NAIVE_SETS_H
#define NAIVE_SETS_H

#include "set_call.h"

/* The most pairs that a naive search writes. */
enum { MOST_PAIRS = 1 << 15 };

/* What a call answers that is not refused: the answer cells, and the pairs that it writes. */
struct naive_set {
    uint64_t told[MITONGORY_ANSWER_CELLS];
    uint32_t pairs[PAIR_CELLS * MOST_PAIRS];
};

/* The places of the set: the largest number that any pattern has. The lengths are good. */
uint64_t places_of_set(const struct set_search *q);

/* The result of the call; and where that is 0, what it answers. */
uint32_t search_set_naively(const struct set_search *q, struct naive_set *r);

/* Makes the call on one side, and expects what the naive search says, which goes to r too. */
void as_naively(const struct set_search *q, enum side side, struct naive_set *r);

#endif
