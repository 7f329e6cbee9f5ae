// The position list file in plain C, written for speed. A refusal leaves every buffer as it was, so writer and reader
// go over their input twice, once to judge and once to store. See codec.h.
#include "codec.h"

enum { LIMIT = 1 << 30 };

static inline size_t size_of(uint32_t x) {
    return 1 + (x >= 1u << 7) + (x >= 1u << 14) + (x >= 1u << 21) + (x >= 1u << 28);
}

static inline uint8_t *put(uint8_t *at, uint32_t x) {
    for (; x >= 128; x >>= 7) *at++ = (uint8_t)(x | 128);
    *at++ = (uint8_t)x;
    return at;
}

uint32_t c_list_write(const uint32_t *list, size_t count, uint8_t *target, size_t len, uint64_t *bytes) {
    // No early end, so that the compiler can judge several positions at once.
    size_t need = size_of((uint32_t)count) + (count ? size_of(list[0]) : 0);
    int falls = 0;
    for (size_t i = 1; i < count; i++) {
        falls |= list[i] <= list[i - 1];
        need += size_of(list[i] - list[i - 1] - 1);
    }
    if (falls || (count && list[count - 1] >= LIMIT)) return 8;
    if (len < need) return 9;
    uint8_t *at = put(target, (uint32_t)count);
    uint32_t least = 0;
    for (size_t i = 0; i < count; i++) {
        at = put(at, list[i] - least);
        least = list[i] + 1;
    }
    *bytes = need;
    return 0;
}

// A number at *at, which moves past it; or its fault. Most numbers are one byte.
static inline uint32_t take(const uint8_t *file, size_t len, size_t *at, uint32_t *x) {
    size_t from = *at;
    if (from >= len) return 10;
    uint64_t value = file[from++];
    for (unsigned shift = 7; file[from - 1] >= 128; shift += 7) {
        if (shift == 35) return 12;
        if (from >= len) return 10;
        value = (value ^ (128ull << (shift - 7))) | (uint64_t)file[from] << shift;
        if (file[from++] == 0) return 11;
    }
    if (value > LIMIT) return 12;
    *at = from;
    *x = (uint32_t)value;
    return 0;
}

uint32_t c_list_read(const uint8_t *file, size_t len, uint32_t *cells, size_t count, uint64_t *positions) {
    size_t at = 0, from;
    uint32_t k, x, least = 0, fault = take(file, len, &at, &k);
    if (fault) return fault;
    from = at;
    for (uint32_t i = 0; i < k; i++) {
        if ((fault = take(file, len, &at, &x))) return fault;
        if (x >= LIMIT - least) return 12;
        least += x + 1;
    }
    if (at < len) return 13;
    if (count < k) return 14;
    least = 0;
    for (uint32_t i = 0; i < k; i++) {
        take(file, len, &from, &x);
        cells[i] = least + x;
        least += x + 1;
    }
    *positions = k;
    return 0;
}
