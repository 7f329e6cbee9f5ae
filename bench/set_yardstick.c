// A search for a set of patterns in plain C, written for speed. Four tables say which patterns agree with the 32 bits from a
// place on; what they leave is compared pattern by pattern. See set_yardstick.h.
#include "set_yardstick.h"
#include "words.h"

enum { MOST = 64, HEAD = 32 };

// Flag p of cell B of table c stands where pattern p agrees with B at its bits 8 c to 8 c + 7; bits after its last one agree
// with all. And for each pattern its number of places, where it begins, and its first 64 bits.
struct tables {
    uint64_t agree[4][256];
    uint64_t first[MOST], care[MOST], longer;
    size_t ends[MOST], starts[MOST], least_end, end;
};

static void make_tables(const struct set *set, size_t n, struct tables *k) {
    uint64_t values[HEAD] = {0}, fixed[HEAD] = {0}, fours_of[HEAD / 4][16];
    size_t start = 0;
    k->longer = 0, k->least_end = ~(size_t)0, k->end = 0;
    for (size_t p = 0; p < set->count; p++) {
        size_t m = set->counts[p], end = m <= n ? n - m + 1 : 0;
        uint64_t care = bytes64(set->fixed, set->bytes, start) & (m < 64 ? ~0ull << (64 - m) : ~0ull);
        uint64_t first = bytes64(set->bits, set->bytes, start) & care;
        for (size_t j = 0; j < HEAD; j++) values[j] |= (first >> (63 - j) & 1) << p, fixed[j] |= (care >> (63 - j) & 1) << p;
        k->first[p] = first, k->care[p] = care, k->starts[p] = start, k->ends[p] = end;
        k->longer |= (uint64_t)(m > HEAD) << p;
        if (end < k->least_end) k->least_end = end;
        if (end > k->end) k->end = end;
        start += (m + 7) / 8;
    }
    for (size_t j = 0; j < HEAD; j += 4) fours(values + j, fixed + j, fours_of[j / 4]);
    for (size_t high = 0; high < 16; high++) fours_of[0][high] &= ~0ull >> (MOST - set->count); // there are no others
    for (size_t c = 0; c < 4; c++)
        for (size_t high = 0; high < 16; high++)
            for (size_t low = 0; low < 16; low++)
                k->agree[c][16 * high + low] = fours_of[2 * c][high] & fours_of[2 * c + 1][low];
}

// The patterns that agree with 32 bits.
static inline uint64_t flags(const struct tables *k, uint32_t v) {
    return k->agree[0][v >> 24] & k->agree[1][v >> 16 & 255] & k->agree[2][v >> 8 & 255] & k->agree[3][v & 255];
}

// Whether a pattern of more than 64 bits stands from its bit 64 on.
static int rest(const uint8_t *t, size_t len, const struct set *set, size_t m, size_t start, size_t s) {
    const uint8_t *bits = set->bits + start, *fixed = set->fixed + start;
    size_t last = m - 64, bytes = (m + 7) / 8;
    for (size_t o = 64; o < last; o += 64)
        if ((bits64(t, len, s + o) ^ be64(bits + o / 8)) & be64(fixed + o / 8)) return 0;
    return ((bits64(t, len, s + last) ^ bits64(bits, bytes, last)) & bits64(fixed, bytes, last)) == 0;
}

// Of the patterns that agree so far, those that occur at s.
static __attribute__((noinline)) uint64_t standing(const uint8_t *t, size_t len, const struct set *set, const struct tables *k,
                                                   size_t s, uint64_t f) {
    uint64_t x = bits64(t, len, s);
    for (uint64_t try = f; try; try &= try - 1) {
        size_t p = __builtin_ctzll(try);
        if (s >= k->ends[p] || (x ^ k->first[p]) & k->care[p] ||
            (set->counts[p] > 64 && !rest(t, len, set, set->counts[p], k->starts[p], s)))
            f &= ~(try & -try);
    }
    return f;
}

// A call: what it reads, and how many cells it has taken.
struct call {
    const uint8_t *t;
    size_t len, cells, taken;
    const struct set *set;
    const struct tables *k;
    uint32_t *list;
};

// Decides place s, with the patterns that agree with its first 32 bits. All of its pairs are listed, or where there is no room
// for them none is; the answer is whether they were.
static inline int decide(struct call *c, size_t s, uint64_t f) {
    if (f & c->k->longer || s >= c->k->least_end) f = standing(c->t, c->len, c->set, c->k, s, f);
    size_t count = 0;
    for (uint64_t left = f; left; left &= left - 1) count++;
    if (c->cells - c->taken < 2 * count) return 0;
    uint32_t *to = c->list + c->taken;
    for (; f; f &= f - 1, to += 2) to[0] = (uint32_t)s, to[1] = __builtin_ctzll(f);
    c->taken += 2 * count;
    return 1;
}

// Decides places up to the limit; the answer is the first that is not decided. In the middle eight bytes show 32 places: from
// each of the eight offsets seven bytes go on, and four places share them.
static size_t scan(struct call *c, size_t s, size_t limit) {
    const uint64_t(*agree)[256] = c->k->agree;
    for (; s < limit && s & 7; s++) {
        uint64_t f = flags(c->k, bits64(c->t, c->len, s) >> 32);
        if (f && !decide(c, s, f)) return s;
    }
    for (; s + 32 <= limit && s / 8 + 8 <= c->len; s += 32) {
        uint64_t x = be64(c->t + s / 8), found[32], any = 0;
#pragma GCC unroll 8
        for (size_t i = 0; i < 8; i++) {
            uint64_t y = x << i;
            size_t b[7];
            for (size_t j = 0; j < 7; j++) b[j] = y >> (56 - 8 * j) & 255;
            for (size_t j = 0; j < 4; j++)
                any |= found[8 * j + i] = agree[0][b[j]] & agree[1][b[j + 1]] & agree[2][b[j + 2]] & agree[3][b[j + 3]];
        }
        if (!any) continue;
        uint64_t some = 0;
        for (size_t e = 0; e < 32; e++) some |= (uint64_t)(found[e] != 0) << e;
        for (; some; some &= some - 1) {
            size_t e = __builtin_ctzll(some);
            if (!decide(c, s + e, found[e])) return s + e;
        }
    }
    for (; s < limit; s++) {
        uint64_t f = flags(c->k, bits64(c->t, c->len, s) >> 32);
        if (f && !decide(c, s, f)) return s;
    }
    return s;
}

void c_search_set(const uint8_t *t, uint64_t n, const struct set *set, uint32_t mark, uint32_t budget, uint32_t *list,
                  size_t cells, struct answer *out) {
    struct tables k;
    struct call c = {.t = t, .len = (n + 7) / 8, .cells = cells, .set = set, .k = &k, .list = list};
    make_tables(set, n, &k);
    size_t end = k.end, limit = budget < end - mark ? mark + (size_t)budget : end, s = scan(&c, mark, limit);
    *out = (struct answer){0, s - mark, c.taken / 2, s, s < limit ? FULL : s == end ? DONE : SPENT};
}
