#include "papers.h"

#include <string.h>

uint8_t paper1_text[PAPER1_TEXT_BYTES], paper1_pattern[PAPER1_PATTERN_BYTES];
uint8_t paper2_text[PAPER2_TEXT_BYTES], paper2_pattern[PAPER2_PATTERN_BYTES];
const uint32_t paper2_occurrences[PAPER2_OCCURRENCES] = {0, 6, 12};
uint8_t all_fixed[LARGEST_M / 8 + 1];

unsigned bit(const uint8_t *bytes, uint64_t p)
{
    return (bytes[p / 8] >> (7 - p % 8)) & 1u;
}

void set_bit(uint8_t *bytes, uint64_t p, unsigned value)
{
    bytes[p / 8] = (uint8_t)(bytes[p / 8] | (value << (7 - p % 8)));
}

void copy_bits(const uint8_t *from, uint64_t p, uint64_t count, uint8_t *to)
{
    uint64_t j;
    for (j = 0; j < count; j++)
        set_bit(to, j, bit(from, p + j));
}

size_t pack(const char *bits, const char *ones, uint8_t *bytes)
{
    size_t i;
    for (i = 0; bits[i] != '\0'; i++)
        set_bit(bytes, i, strchr(ones, bits[i]) != NULL);
    return i;
}

void pack_papers(void)
{
    pack("011001001000100110100101000101001001", "1", paper1_text);
    pack("0100110100", "1", paper1_pattern);
    pack("110010110010110010110010110010110", "1", paper2_text);
    pack("110010110010110010110", "1", paper2_pattern);
    memset(all_fixed, 0xff, sizeof all_fixed);
}
