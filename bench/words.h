// What the C yardsticks share: reading 64 bits of a run of bytes, the first leftmost, and flags for values of four bits.
#ifndef WORDS_H
#define WORDS_H
#include <stddef.h>
#include <stdint.h>
#include <string.h>

static inline uint64_t be64(const uint8_t *p) {
    uint64_t x;
    memcpy(&x, p, 8);
    return __builtin_bswap64(x);
}

static uint64_t __attribute__((noinline)) be64_end(const uint8_t *s, size_t len, size_t b) {
    uint8_t t[8] = {0};
    if (b < len) memcpy(t, s + b, len - b < 8 ? len - b : 8);
    return be64(t);
}

static inline uint64_t bytes64(const uint8_t *s, size_t len, size_t b) {
    return b + 8 <= len ? be64(s + b) : be64_end(s, len, b);
}

// 64 bits from bit p on.
static inline uint64_t bits64(const uint8_t *s, size_t len, size_t p) {
    size_t b = p >> 3, r = p & 7;
    if (b + 9 <= len) return be64(s + b) << r | (uint64_t)s[b + 8] >> (8 - r);
    return be64_end(s, len, b) << r | (b + 8 < len ? (uint64_t)s[b + 8] >> (8 - r) : 0);
}

// Words of 64 flags each, with a 1 where four bits of a pattern agree with a value of four bits. The runs have the values and
// the fixed bits of the patterns' first, second, third and last of these bits, one flag for each place or pattern.
static void fours(const uint64_t *bits, const uint64_t *fixed, uint64_t *c) {
    uint64_t two[2][4];
    for (size_t i = 0; i < 2; i++) {
        uint64_t p = bits[2 * i], f = fixed[2 * i], q = bits[2 * i + 1], g = fixed[2 * i + 1];
        uint64_t first[2] = {~(p & f), p | ~f}, second[2] = {~(q & g), q | ~g};
        for (size_t v = 0; v < 4; v++) two[i][v] = first[v >> 1] & second[v & 1];
    }
    for (size_t v = 0; v < 16; v++) c[v] = two[0][v >> 2] & two[1][v & 3];
}
#endif
