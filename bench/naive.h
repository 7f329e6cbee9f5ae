// The naive loops of naive.rs, by their C names.
#ifndef NAIVE_H
#define NAIVE_H
#include <stddef.h>
#include <stdint.h>

// All hits to the list, which has a cell for each; returns their number. The first takes every bit as fixed.
size_t naive_search(const uint8_t *text, size_t n, const uint8_t *pattern, const uint8_t *fixed, size_t m, uint32_t *list,
                    size_t cells);
size_t naive_search_wild(const uint8_t *text, size_t n, const uint8_t *pattern, const uint8_t *fixed, size_t m, uint32_t *list,
                         size_t cells);

// A byte of up to eight bits, and how many there are; returns 0, or 1 where the text is refused.
uint32_t naive_eight_bits(const uint8_t *text, size_t text_len, uint64_t n, uint32_t place, uint64_t *answer,
                          size_t answer_len);

// The file of a list, or the list of a file: the byte count or the list's count, or SIZE_MAX where there is none.
size_t naive_write(const uint32_t *list, size_t count, uint8_t *target, size_t len);
size_t naive_read(const uint8_t *file, size_t len, uint32_t *cells, size_t count);

// The report of a sitting and its totals; returns whether it was marked.
_Bool naive_mark(const uint32_t *key, size_t key_len, const uint32_t *sheets, size_t sheets_len, const uint64_t *counts,
                 size_t counts_len, uint32_t *report, size_t report_len, uint64_t *totals);
#endif
