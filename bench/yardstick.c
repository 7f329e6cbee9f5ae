// The five search rules in plain C, written for speed, with no proof and no care for bytes that a caller did not lend
// other than those past the end. Where a pattern with wild bits needs other code than one without, a function has `wild`,
// which is always known when it is compiled, so that a pattern without wild bits does not pay for the others. See yardstick.h.
#include "yardstick.h"
#include "words.h"
#include <string.h>

struct run {
    size_t at, steps, hits;
    int full;
};

// Eight bits from bit p on.
static inline unsigned bits8(const uint8_t *s, size_t p) {
    unsigned x = (unsigned)s[p >> 3] << 8 | s[(p + 7) >> 3];
    return x >> (7 - ((p + 7) & 7)) & 255;
}

static inline unsigned bit(const uint8_t *s, size_t p) { return s[p >> 3] >> (7 - (p & 7)) & 1; }

#define INLINE static inline __attribute__((always_inline))

// The first 64 bits of both runs, and the head, which is the first 57 bits, or all of a shorter pattern: what eight bytes show
// at any place. The mask has a 1 for each of these bits that is fixed.
struct pattern {
    const uint8_t *bytes, *fixed;
    size_t m, len;
    uint64_t first, care, head, mask;
    unsigned cut;
};

INLINE struct pattern pattern_of(const struct word *word, int wild) {
    size_t m = word->m;
    struct pattern w = {word->bits, word->fixed, m, (m + 7) / 8, 0, 0, 0, 0, m < 57 ? 64 - m : 7};
    w.first = bytes64(w.bytes, w.len, 0), w.care = wild ? bytes64(w.fixed, w.len, 0) : ~0ull;
    w.head = w.first >> w.cut, w.mask = w.care >> w.cut;
    return w;
}

static inline int has_wild(const struct word *w) {
    size_t len = (w->m + 7) / 8, o = 0;
    for (; o + 8 < len; o += 8)
        if (be64(w->fixed + o) != ~0ull) return 1;
    return ~bytes64(w->fixed, len, o) >> (64 - (w->m - 8 * o)) != 0;
}

INLINE uint64_t where(uint64_t differ, uint64_t fixed, int wild) { return wild ? differ & fixed : differ; }

INLINE int rest(const uint8_t *t, size_t len, const struct pattern *w, size_t s, int wild) {
    const uint8_t *f = w->fixed;
    if (w->m <= 64)
        return where(bits64(t, len, s) ^ w->first, w->care, wild) >> (64 - w->m) == 0;
    size_t o = 0, last = w->m - 64;
    for (; o < last; o += 64)
        if (where(bits64(t, len, s + o) ^ be64(w->bytes + o / 8), wild ? be64(f + o / 8) : 0, wild)) return 0;
    return where(bits64(t, len, s + last) ^ bits64(w->bytes, w->len, last), wild ? bits64(f, w->len, last) : 0, wild) == 0;
}

static int __attribute__((noinline)) rest_fixed(const uint8_t *t, size_t len, const struct pattern *w, size_t s) {
    return rest(t, len, w, s, 0);
}

static int __attribute__((noinline)) rest_wild(const uint8_t *t, size_t len, const struct pattern *w, size_t s) {
    return rest(t, len, w, s, 1);
}

INLINE int same(const uint8_t *t, size_t len, const struct pattern *w, size_t s, int wild) {
    size_t b = s >> 3;
    if (b + 8 <= len) {
        if (where(be64(t + b) << (s & 7) >> w->cut ^ w->head, w->mask, wild)) return 0;
        if (w->m <= 57) return 1;
    }
    return (wild ? rest_wild : rest_fixed)(t, len, w, s);
}

// Plain: rows of 64-bit pieces, cell 16 k + i a row's, 16 k + 8 + i its mask.
INLINE void plain_tables(const struct pattern *w, uint64_t *c, int wild) {
    uint64_t x0 = 0, mask0 = 0;
    for (size_t k = 0; 64 * k < w->m + 7; k++) {
        size_t left = 64 * k < w->m ? w->m - 64 * k : 0;
        uint64_t mask = left >= 64 ? ~0ull : left ? ~0ull << (64 - left) : 0;
        if (wild && left) mask &= k ? bytes64(w->fixed, w->len, 8 * k) : w->care;
        uint64_t x = !left ? 0 : (k ? bytes64(w->bytes, w->len, 8 * k) : w->first) & mask;
        for (size_t i = 0; i < 8; i++) {
            c[16 * k + i] = x0 << (63 - i) << 1 | x >> i;
            c[16 * k + 8 + i] = mask0 << (63 - i) << 1 | mask >> i;
        }
        x0 = x, mask0 = mask;
    }
}

static int plain_rest(const uint8_t *t, size_t len, const uint64_t *c, size_t m, size_t s) {
    size_t i = s & 7, b = s >> 3;
    for (size_t k = 1; 64 * k < m + i; k++)
        if ((bytes64(t, len, b + 8 * k) ^ c[16 * k + i]) & c[16 * k + 8 + i]) return 0;
    return 1;
}

static inline size_t plain_next(const uint8_t *t, size_t len, const uint64_t *c, size_t s, size_t limit) {
    for (; s < limit && (s & 7); s++)
        if (!((bytes64(t, len, s >> 3) ^ c[s & 7]) & c[8 + (s & 7)])) return s;
    for (; s < limit; s += 8) {
        uint64_t x = bytes64(t, len, s >> 3);
        for (size_t i = 0; i < 8; i++)
            if (!((x ^ c[i]) & c[8 + i])) return s + i;
    }
    return limit;
}

static struct run plain(const uint8_t *t, size_t len, const struct pattern *w, const uint64_t *c, size_t from,
                        size_t limit, uint32_t *list, size_t cells) {
    size_t hits = 0;
    for (size_t s = plain_next(t, len, c, from, limit); s < limit; s = plain_next(t, len, c, s + 1, limit))
        if (plain_rest(t, len, c, w->m, s)) {
            if (hits == cells) return (struct run){s, s - from, hits, 1};
            list[hits++] = s;
        }
    return (struct run){limit, limit - from, hits, 0};
}

// Hash: cell B the move after reading B.
static void hash_tables(const struct pattern *restrict w, uint64_t *restrict c) {
    for (size_t i = 0; i < 256; i++) c[i] = w->m;
    for (size_t k = 1; k < 8; k++)
        for (size_t i = w->bytes[0] >> (8 - k); i < 256; i += (size_t)1 << k) c[i] = w->m - k;
    size_t p = 0;
    for (; p + 16 <= w->m; p += 8) {
        unsigned x = w->bytes[p / 8] << 8 | w->bytes[p / 8 + 1];
        for (size_t r = 0; r < 8; r++) c[x >> (8 - r) & 255] = w->m - 8 - p - r;
    }
    for (; p + 8 < w->m; p++) c[bits8(w->bytes, p)] = w->m - 8 - p;
}

// The 64 bits of a run that end d bits before its bit m, those before its first bit 0.
static inline uint64_t ending(const uint8_t *s, size_t len, size_t m, size_t d) {
    size_t left = m - d;
    return left >= 64 ? bits64(s, len, left - 64) : left ? bytes64(s, len, 0) >> (64 - left) : 0;
}

// With wild bits many values may meet the condition at one move. 57 moves at a time, bit e of a word stands for the move
// d + e. Only values are looked at that have no move yet, and of whose halves both agree somewhere.
static void hash_tables_wild(const struct pattern *w, uint64_t *c) {
    uint16_t unset[16];
    memset(unset, 255, sizeof unset);
    for (size_t d = 1, left = 1; left; d += 57) {
        uint64_t p[4], f[4], half[16];
        unsigned some = 0;
        p[3] = ending(w->bytes, w->len, w->m, d), f[3] = ending(w->fixed, w->len, w->m, d);
        for (size_t i = 0; i < 3; i++) p[i] = p[3] >> (3 - i), f[i] = f[3] >> (3 - i);
        fours(p, f, half);
        for (size_t v = 0; v < 16; v++) some |= (unsigned)(half[v] << 7 != 0) << v;
        left = 0;
        for (size_t high = 0; high < 16; high++) {
            uint64_t later = half[high] >> 4 & ~0ull >> 7;
            if (later)
                for (unsigned try = unset[high] & some; try; try &= try - 1) {
                    size_t low = __builtin_ctz(try);
                    uint64_t moves = half[low] & later;
                    if (!moves) continue;
                    c[16 * high + low] = d + __builtin_ctzll(moves);
                    unset[high] ^= 1u << low;
                }
            left |= unset[high];
        }
    }
}

INLINE struct run hash_go(const uint8_t *t, size_t len, const struct pattern *w, const uint64_t *c, size_t from, size_t end,
                          size_t budget, uint32_t *list, size_t cells, int wild) {
    unsigned care = wild ? bits8(w->fixed, w->m - 8) : 255, last = bits8(w->bytes, w->m - 8) & care;
    size_t s = from, steps = 0, hits = 0, e8 = w->m - 8;
    while (s < end && steps < budget) {
        unsigned v = bits8(t, s + e8);
        if ((v & care) == last && same(t, len, w, s, wild)) {
            if (hits == cells) return (struct run){s, steps, hits, 1};
            list[hits++] = s;
        }
        steps++;
        s += c[v];
    }
    return (struct run){s < end ? s : end, steps, hits, 0};
}

static __attribute__((noinline)) struct run hash(const uint8_t *t, size_t len, const struct pattern *w, uint64_t *c, size_t from,
                                                 size_t end, size_t budget, uint32_t *list, size_t cells) {
    hash_tables(w, c);
    return hash_go(t, len, w, c, from, end, budget, list, cells, 0);
}

static struct run hash_wild(const uint8_t *t, size_t len, const struct pattern *w, uint64_t *c, size_t from, size_t end,
                            size_t budget, uint32_t *list, size_t cells) {
    hash_tables_wild(w, c);
    return hash_go(t, len, w, c, from, end, budget, list, cells, 1);
}

// Skip: cell B one more than the greatest index of B, cell 256 + j the next lower one.
static void skip_tables(const struct pattern *w, size_t count, uint64_t *c) {
    memset(c, 0, 256 * sizeof *c);
    size_t j = 0;
    for (; j + 8 <= count; j += 8) {
        unsigned x = w->bytes[j / 8] << 8 | w->bytes[j / 8 + 1];
        for (size_t r = 0; r < 8; r++) {
            unsigned v = x >> (8 - r) & 255;
            c[256 + j + r] = c[v];
            c[v] = j + r + 1;
        }
    }
    for (; j < count; j++) {
        unsigned v = bits8(w->bytes, j);
        c[256 + j] = c[v];
        c[v] = j + 1;
    }
}

static struct run skip_go(const uint8_t *t, size_t len, const struct pattern *w, const uint64_t *c, size_t from, size_t end,
                          size_t budget, uint32_t *list, size_t cells, size_t hits) {
    size_t s = from, steps = 0, stride = (w->m + 1) / 8 - 1;
    for (size_t b = (s + w->m) / 8 - 1; s < end && steps < budget; b += stride) {
        size_t j = c[t[b]];
        if (j)
            for (size_t low = end <= 8 * b ? 8 * b + 1 - end : 0; j > low; j = c[255 + j]) {
                size_t a = 8 * b + 1 - j;
                if (same(t, len, w, a, 0)) {
                    if (hits == cells) return (struct run){a, steps, hits, 1};
                    list[hits++] = a;
                }
            }
        steps++;
        s = 8 * b + 1;
    }
    return (struct run){s < end ? s : end, steps, hits, 0};
}

// The first step goes from any mark and has a table of its own, of the indices that it can need.
static struct run skip(const uint8_t *t, size_t len, const struct pattern *w, uint64_t *c, size_t from, size_t end,
                       size_t budget, uint32_t *list, size_t cells) {
    skip_tables(w, (from + w->m) / 8 * 8 - 7 - from, c);
    struct run r = skip_go(t, len, w, c, from, end, budget < 1 ? 0 : 1, list, cells, 0);
    if (r.full || budget <= 1 || r.at == end) return r;
    skip_tables(w, (w->m + 1) / 8 * 8 - 8, c);
    r = skip_go(t, len, w, c, r.at, end, budget - 1, list, cells, r.hits);
    r.steps++;
    return r;
}

// With wild bits: cell 32 k + h has a 1 at bit 63 - i where the four bits from index 64 k + i on agree with h, and cell
// 32 k + 16 + l where the next four agree with l.
static void skip_tables_wild(const struct pattern *w, uint64_t *c) {
    for (size_t o = 0; o + 8 <= w->m; o += 64)
        for (size_t half = 0; half < 2; half++, c += 16) {
            uint64_t p[4], f[4];
            for (size_t i = 0; i < 4; i++) {
                p[i] = bits64(w->bytes, w->len, o + 4 * half + i);
                f[i] = bits64(w->fixed, w->len, o + 4 * half + i);
            }
            fours(p, f, c);
        }
}

// The places of a step rise as the indices fall, from the last one to the first that leaves a place before the end.
static struct run skip_wild(const uint8_t *t, size_t len, const struct pattern *w, uint64_t *c, size_t from, size_t end,
                            size_t budget, uint32_t *list, size_t cells) {
    size_t s = from, steps = 0, hits = 0, stride = (w->m + 1) / 8 - 1;
    skip_tables_wild(w, c);
    for (size_t b = (s + w->m) / 8 - 1; s < end && steps < budget; b += stride) {
        const uint64_t *high = c + (t[b] >> 4), *low = c + 16 + (t[b] & 15);
        size_t most = 8 * b - s, least = end <= 8 * b ? 8 * b + 1 - end : 0;
        uint64_t cut = ~0ull << (63 - most % 64);
        for (size_t k = most / 64 + 1; k-- > least / 64; cut = ~0ull) {
            uint64_t f = high[32 * k] & low[32 * k] & cut;
            if (k == least / 64) f &= ~0ull >> least % 64;
            for (; f; f &= f - 1) {
                size_t a = 8 * b - (64 * k + 63 - __builtin_ctzll(f));
                if (same(t, len, w, a, 1)) {
                    if (hits == cells) return (struct run){a, steps, hits, 1};
                    list[hits++] = a;
                }
            }
        }
        steps++;
        s = 8 * b + 1;
    }
    return (struct run){s < end ? s : end, steps, hits, 0};
}

// Wide: cell 2 q + c the flags that stand when window bit q is c.
INLINE void wide_tables(const struct pattern *w, uint64_t *c, int wild) {
    uint64_t zero = ~0ull, one = ~0ull;
    size_t q = 0;
    for (; q + 8 <= w->m; q += 8)
        for (size_t j = 0; j < 8; j++) {
            uint64_t b = w->bytes[q / 8] >> (7 - j) & 1, open = wild ? ~w->fixed[q / 8] >> (7 - j) & 1 : 0;
            c[2 * (q + j)] = zero = zero << 1 | (1 - b) | open;
            c[2 * (q + j) + 1] = one = one << 1 | b | open;
        }
    for (; q < w->m; q++) {
        uint64_t b = bit(w->bytes, q), open = wild ? 1 - bit(w->fixed, q) : 0;
        c[2 * q] = zero = zero << 1 | (1 - b) | open;
        c[2 * q + 1] = one = one << 1 | b | open;
    }
    for (; q < w->m + 63; q++) {
        c[2 * q] = zero = zero << 1 | 1;
        c[2 * q + 1] = one = one << 1 | 1;
    }
}

INLINE size_t wide_move(const struct pattern *w, unsigned c, int wild) {
    size_t k = w->m;
    while (k && where(bit(w->bytes, k - 1) ^ c, wild ? bit(w->fixed, k - 1) : 1, wild)) k--;
    return w->m + 64 - k;
}

static inline uint64_t wide_keep(const uint8_t *t, const uint64_t *c, size_t s, size_t q, uint64_t f) {
    unsigned x = bits8(t, s + q);
    for (size_t j = 0; j < 8; j++) f &= c[2 * (q + j) + (x >> (7 - j) & 1)];
    return f;
}

// Some bits of a window that lies whole in the text: enough to leave few flags. A pattern below 64 bits needs the whole
// window, every second byte and then the others; a longer one the bits from the middle on, which speak for all flags.
static inline uint64_t wide_scan(const uint8_t *t, size_t m, const uint64_t *c, size_t s) {
    uint64_t f = ~0ull;
    if (m < 64)
        for (size_t from = 0; from <= 8 && (f & (f - 1)); from += 8)
            for (size_t q = from; q <= 72 && q + 8 <= m + 63; q += 16) f = wide_keep(t, c, s, q, f);
    else
        for (size_t q = 56; q + 16 <= m + 63 && (f & (f - 1)); q += 16)
            f = wide_keep(t, c, s, q + 8, wide_keep(t, c, s, q, f));
    return f;
}

INLINE struct run wide(const uint8_t *t, size_t len, size_t n, const struct pattern *w, const uint64_t *c, size_t from,
                       size_t end, size_t budget, uint32_t *list, size_t cells, int wild) {
    size_t move[2] = {wide_move(w, 0, wild), wide_move(w, 1, wild)}, ws = w->m + 63;
    size_t s = from, steps = 0, hits = 0;
    while (s < end && steps < budget) {
        uint64_t f = ~0ull;
        size_t next = end;
        if (s + ws < n) {
            next = s + move[bit(t, s + ws)];
            f = wide_scan(t, w->m, c, s);
        }
        for (; f; f &= f - 1) {
            size_t a = s + __builtin_ctzll(f);
            if (a >= end) break;
            if (same(t, len, w, a, wild)) {
                if (hits == cells) return (struct run){a, steps, hits, 1};
                list[hits++] = a;
            }
        }
        steps++;
        s = next;
    }
    return (struct run){s < end ? s : end, steps, hits, 0};
}

// Tail: cell c a 1 at bit 63 - j for each index j at which the pattern agrees with c.
static void tail_tables(const struct pattern *w, uint64_t *c) {
    uint64_t all = ~0ull << (64 - w->m);
    c[0] = ~(w->first & w->care) & all;
    c[1] = (w->first | ~w->care) & all;
}

// The window, of at most 64 bits, is read from its last bit on. After k bits d has a 1 at bit 63 - j for each index j
// from which the pattern agrees with these k; bit 63 says that they are its first k. The greatest such k below m is the
// rule's r, and k = m is a hit.
static struct run tail(const uint8_t *t, size_t len, size_t m, const uint64_t *c, size_t from, size_t end,
                       size_t budget, uint32_t *list, size_t cells) {
    size_t s = from, steps = 0, hits = 0;
    while (s < end && steps < budget) {
        uint64_t x = bits64(t, len, s) >> (64 - m), d = c[x & 1];
        size_t r = 0, k = 1;
        while (d) {
            if (d >> 63) {
                if (k == m) {
                    if (hits == cells) return (struct run){s, steps, hits, 1};
                    list[hits++] = s;
                    break;
                }
                r = k;
            }
            x >>= 1, k++;
            d = d << 1 & c[x & 1];
        }
        steps++;
        s += m - r;
    }
    return (struct run){s < end ? s : end, steps, hits, 0};
}

INLINE void search(const uint8_t *text, size_t n, const struct word *pattern, int method, size_t mark, size_t budget,
                   uint32_t *list, size_t cells, uint64_t *scratch, struct answer *out, int wild) {
    struct pattern w = pattern_of(pattern, wild);
    size_t len = (n + 7) / 8, end = w.m <= n ? n - w.m + 1 : 0;
    struct run r;
    if (method == PLAIN) {
        plain_tables(&w, scratch, wild);
        r = plain(text, len, &w, scratch, mark, budget < end - mark ? mark + budget : end, list, cells);
    } else if (method == HASH) {
        r = (wild ? hash_wild : hash)(text, len, &w, scratch, mark, end, budget, list, cells);
    } else if (method == SKIP) {
        r = (wild ? skip_wild : skip)(text, len, &w, scratch, mark, end, budget, list, cells);
    } else if (method == WIDE) {
        wide_tables(&w, scratch, wild);
        r = wide(text, len, n, &w, scratch, mark, end, budget, list, cells, wild);
    } else {
        tail_tables(&w, scratch);
        r = tail(text, len, w.m, scratch, mark, end, budget, list, cells);
    }
    *out = (struct answer){0, r.steps, r.hits, r.at, r.full ? FULL : r.at == end ? DONE : SPENT};
}

static __attribute__((noinline)) void search_wild(const uint8_t *text, size_t n, const struct word *pattern, int method,
                                                  size_t mark, size_t budget, uint32_t *list, size_t cells,
                                                  uint64_t *scratch, struct answer *out) {
    search(text, n, pattern, method, mark, budget, list, cells, scratch, out, 1);
}

void c_search(const uint8_t *text, uint64_t n, const struct word *pattern, int method, uint32_t mark, uint32_t budget,
              uint32_t *list, size_t cells, uint64_t *scratch, struct answer *out) {
    if (has_wild(pattern))
        search_wild(text, n, pattern, method, mark, budget, list, cells, scratch, out);
    else
        search(text, n, pattern, method, mark, budget, list, cells, scratch, out, 0);
}
