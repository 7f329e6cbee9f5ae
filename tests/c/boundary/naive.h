/*
 * The rules of documents 01 and 02, read bit by bit: where a pattern with wild bits occurs, H(B), and all that a call of a
 * search leaves.
 */
#ifndef NAIVE_H
#define NAIVE_H

#include <mitongory.h>

#include "search_call.h"

/* The most places that a naive search writes: the text has fewer bits, or hardly more than the pattern. */
enum { MOST_PLACES = 512 };

/* Whether the method takes no pattern of m bits. */
int unfit(uint32_t method, uint64_t m);

/* Whether the first k bits of the pattern agree with the text from bit p on. */
int begins(const struct search *q, uint64_t k, uint64_t p);

/* The least d in from..m at which the pattern agrees with the value; H(B) from 0 on. Only the pattern plays a part. */
uint64_t least_move(const struct search *q, unsigned value, uint64_t from);

/* What a call answers that is not refused: the answer cells, and the places that it writes. */
struct naive {
    uint64_t told[MITONGORY_ANSWER_CELLS];
    uint32_t places[MOST_PLACES];
};

/* By the machine of document 01; the method takes the pattern. */
void search_naively(const struct search *q, struct naive *r);

/*
 * Makes the call, whose bytes and mark are good. Expects this answer, or refusal 5 or 7, whichever comes first, and that
 * all stays but the cells that may be written.
 */
void search_like(const struct search *q, enum side side, const struct naive *r);

#endif
