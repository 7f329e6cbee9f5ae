// The C yardstick of a read of eight bits: the same rule as the library's call, refusals included.
#ifndef EIGHT_YARDSTICK_H
#define EIGHT_YARDSTICK_H
#include <stddef.h>
#include <stdint.h>

// The byte and how many of its bits lie before n, to the first two answer cells: 0, or refusal 101, 1 or 2, which leaves both.
uint32_t c_eight_bits(const uint8_t *text, size_t text_len, uint64_t n, uint32_t place, uint64_t *answer, size_t answer_len);
#endif
