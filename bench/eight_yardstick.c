#include "eight_yardstick.h"

uint32_t c_eight_bits(const uint8_t *text, size_t text_len, uint64_t n, uint32_t place, uint64_t *answer, size_t answer_len) {
    if (answer_len < 2) return 101;
    if (n > (uint64_t)1 << 30) return 1;
    if (text_len < (n + 7) / 8) return 2;
    unsigned byte = 0, count = place >= n ? 0 : n - place < 8 ? (unsigned)(n - place) : 8;
    if (count) {
        // The byte of the first bit and that of the last, which may be the same one.
        unsigned both = text[place / 8] << 8 | text[(place + count - 1) / 8];
        byte = both >> (8 - place % 8) & 0xff & 0xff00 >> count;
    }
    answer[0] = byte, answer[1] = count;
    return 0;
}
