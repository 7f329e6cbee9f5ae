// The C yardstick of marking a sitting: the same rules as the library's call, refusals included, with either of two merges.
#ifndef MARKER_H
#define MARKER_H
#include <stddef.h>
#include <stdint.h>

// One merge branches on which of two positions is lower, which is fast where that can be predicted; the other never does.
enum merge { BRANCHING, BRANCH_FREE, MERGES };

// The report and three totals: 0, or refusal 15, 16, 8 or 9, which leaves both.
uint32_t c_mark_sitting(const uint32_t *key, size_t key_len, const uint32_t *sheets, size_t sheets_len,
                        const uint64_t *counts, size_t counts_len, uint32_t *report, size_t report_len,
                        uint64_t *totals, enum merge merge);
#endif
