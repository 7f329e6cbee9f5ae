/* The course's two papers as packed bits, and a reading of single bits that is this test's own. */
#ifndef PAPERS_H
#define PAPERS_H

#include <stddef.h>
#include <stdint.h>

#include "bounds.h"

/* The bits of text and pattern, the bytes that they take, and the number of places. */
enum {
    PAPER1_N = 36,
    PAPER1_M = 10,
    PAPER1_TEXT_BYTES = 5,
    PAPER1_PATTERN_BYTES = 2,
    PAPER1_PLACES = PAPER1_N - PAPER1_M + 1,
    PAPER1_OCCURRENCE = 11,
    PAPER2_N = 33,
    PAPER2_M = 21,
    PAPER2_TEXT_BYTES = 5,
    PAPER2_PATTERN_BYTES = 3,
    PAPER2_PLACES = PAPER2_N - PAPER2_M + 1,
    PAPER2_OCCURRENCES = 3
};

extern uint8_t paper1_text[PAPER1_TEXT_BYTES], paper1_pattern[PAPER1_PATTERN_BYTES];
extern uint8_t paper2_text[PAPER2_TEXT_BYTES], paper2_pattern[PAPER2_PATTERN_BYTES];
extern const uint32_t paper2_occurrences[PAPER2_OCCURRENCES];

/* The second run of a pattern without wild bits, and a byte more than the longest one takes. */
extern uint8_t all_fixed[LARGEST_M / 8 + 1];

/* Fills the arrays. */
void pack_papers(void);

unsigned bit(const uint8_t *bytes, uint64_t p);

/* Sets a bit that is 0. */
void set_bit(uint8_t *bytes, uint64_t p, unsigned value);

/* So many bits from bit p of a run on, to the front of another one, where they are 0. */
void copy_bits(const uint8_t *from, uint64_t p, uint64_t count, uint8_t *to);

/* A 1 for each character that is among `ones`, in a run of zeros; the number of characters. */
size_t pack(const char *bits, const char *ones, uint8_t *bytes);

#endif
