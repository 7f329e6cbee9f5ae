// See draw.h.
#include "draw.h"

static uint64_t seed = 88172645463325252ull;
uint64_t draw(void) {
    seed ^= seed << 13, seed ^= seed >> 7, seed ^= seed << 17;
    return seed * 2685821657736338717ull;
}

uint64_t below(uint64_t k) { return (draw() >> 16) % k; }

void pack(uint8_t *s, const char *bits) {
    for (size_t i = 0; bits[i]; i++) set_bit(s, i, bits[i] == '1');
}

void draw_text(uint8_t *t, size_t n, unsigned zeros) {
    for (size_t i = 0; i < n / 8; i++) {
        unsigned byte = 0;
        for (int half = 0; half < 2; half++) {
            uint64_t x = draw();
            for (int j = 0; j < 4; j++, x >>= 16) byte = byte << 1 | ((x & 65535) * 100 >= zeros * 65536ull);
        }
        t[i] = (uint8_t)byte;
    }
}

void draw_word(uint8_t *w, size_t m, const uint8_t *t, size_t n) {
    size_t p = below(n - m + 1);
    for (size_t j = 0; j < m; j++) set_bit(w, j, bit_at(t, p + j));
}

const uint8_t every_bit[256] = {[0 ... 255] = 255};

const char *const wild_names[WILD_KINDS] = {"none",           "one",           "one in twenty",      "every second by chance",
                                            "nine in ten",    "all",           "the first eight",    "the last eight",
                                            "a field of 8",   "every ninth"};

void draw_fixed(enum wild kind, uint8_t *fixed, size_t m) {
    size_t field = m < 8 ? m : 8, from = kind == WILD_LAST ? m - field : kind == WILD_FIELD ? below(m - field + 1) : 0;
    size_t one = below(m);
    for (size_t i = 0; i < (m + 7) / 8 * 8; i++) {
        int wild = kind == WILD_ONE     ? i == one
                   : kind == WILD_FEW   ? below(20) == 0
                   : kind == WILD_HALF  ? below(2) == 0
                   : kind == WILD_MOST  ? below(10) != 0
                   : kind == WILD_ALL   ? 1
                   : kind == WILD_NINTH ? i % 9 == one % 9
                   : kind == WILD_NONE  ? 0
                                        : i >= from && i < from + field;
        set_bit(fixed, i, i < m ? !wild : (int)below(2)); // bits after the last one never matter
    }
}

const char *const hard_names[HARD_KINDS] = {"zeros, pattern of zeros", "zeros, pattern ends in 1", "zeros, pattern begins with 1",
                                            "zeros, pattern has a 1 in its middle", "period 6"};

void draw_hard(enum hard kind, uint8_t *t, size_t n, uint8_t *w, size_t m) {
    size_t one = kind == HARD_LAST ? m - 1 : kind == HARD_FIRST ? 0 : kind == HARD_MIDDLE ? m / 2 : m;
    for (size_t i = 0; i < n; i++) set_bit(t, i, kind == HARD_PERIOD && "110010"[i % 6] == '1');
    for (size_t i = 0; i < m; i++) set_bit(w, i, kind == HARD_PERIOD ? "110010"[i % 6] == '1' : i == one);
}

void draw_list(uint32_t *list, size_t count, uint32_t widest) {
    uint32_t p = 0;
    for (size_t i = 0; i < count; i++) list[i] = p += 1 + (uint32_t)below(widest);
}
