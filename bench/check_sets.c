// Holds the library and the C code to document 02's words on drawn sets.
#include "bench.h"
#include "draw.h"
#include "library.h"
#include "room.h"
#include <stdio.h>
#include <stdlib.h>
#include <string.h>

// A large input has a long text and few patterns, so that the pairs of both kinds fit.
enum { MOST = MITONGORY_MOST_PATTERNS, FEW = 6, BITS = 400, MANY_BITS = 3000, ALL_CELLS = 2 * MOST * BITS };

// Room for the parts of an input, each between pages that cannot be touched.
struct rooms {
    uint8_t *text, *bits[2], *fixed[2], *counts, *list;
};

struct input {
    const uint8_t *t;
    size_t n;
    struct set set, twin;
};

// The length of a pattern: most are short or about those at which the C code takes another way.
static size_t draw_length(int large) {
    static const size_t edges[] = {32, 64, 128, 192};
    if (below(4) == 0) return edges[below(4)] - 1 + below(3);
    return 1 + below(below(2) ? 40 : large ? 2048 : 300);
}

// The bits of a pattern by chance, from the text, or as the pattern before it begins; in a third of them one bit is changed,
// often the last.
static void draw_bits(uint8_t *bits, size_t m, const uint8_t *t, size_t n, const uint8_t *before, size_t before_m) {
    size_t kind = below(4), from = m <= n ? below(n - m + 1) : 0;
    for (size_t j = 0; j < (m + 7) / 8 * 8; j++) set_bit(bits, j, (int)below(2));
    for (size_t j = 0; j < m && kind < 3; j++)
        if (kind == 0 ? j < before_m : m <= n) set_bit(bits, j, kind == 0 ? bit_at(before, j) : bit_at(t, from + j));
    size_t change = below(2) ? m - 1 : below(m);
    if (below(3) == 0) set_bit(bits, change, !bit_at(bits, change));
}

// A text and a set, and a set that is the same to the rules: other values at the wild bits, and other bits after the last one
// of a pattern in both runs.
static struct input input(struct rooms *in, int large, int front) {
    static uint8_t bits[2][MOST * 256], fixed[2][MOST * 256];
    static uint64_t counts[MOST];
    size_t count = 1 + below(large || below(3) ? FEW : MOST), kind = below(2 * WILD_KINDS), start = 0, before = 0;
    size_t n = below((large ? MANY_BITS : BITS) + 1), ones = 1 + below(10), period = large || below(3) ? 0 : 1 + below(12);
    uint8_t *t = lent(in->text, (n + 7) / 8, front);
    for (size_t i = 0; i < (n + 7) / 8 * 8; i++)
        set_bit(t, i, period && i >= period ? bit_at(t, i - period) : below(20) < ones);
    for (size_t p = 0; p < count; p++) {
        size_t m = counts[p] = draw_length(large), bytes = (m + 7) / 8;
        draw_bits(bits[0] + start, m, t, n, bits[0] + before, p ? counts[p - 1] : 0);
        draw_fixed(kind < WILD_KINDS ? kind : below(2) ? WILD_NONE : below(WILD_KINDS), fixed[0] + start, m);
        for (size_t j = 0; j < 8 * bytes; j++) {
            int known = j < m && bit_at(fixed[0] + start, j);
            set_bit(bits[1] + start, j, known ? bit_at(bits[0] + start, j) : (int)below(2));
            set_bit(fixed[1] + start, j, j < m ? known : (int)below(2));
        }
        before = start, start += bytes;
    }
    struct input x = {.t = t, .n = n};
    uint64_t *lent_counts = lent(in->counts, count * sizeof *counts, front);
    memcpy(lent_counts, counts, count * sizeof *counts);
    for (int i = 0; i < 2; i++) {
        uint8_t *b = lent(in->bits[i], start, front), *f = lent(in->fixed[i], start, front);
        memcpy(b, bits[i], start), memcpy(f, fixed[i], start);
        *(i ? &x.twin : &x.set) = (struct set){b, f, lent_counts, count, start};
    }
    return x;
}

// One call of both, with the set and with its twin, held to the rules. Cells after those that are lent cannot be touched.
static void check_call(const struct input *x, size_t mark, size_t budget, size_t cells, uint8_t *lists) {
    static uint32_t want_list[ALL_CELLS];
    struct answer want, got;
    uint32_t *list = lent(lists, cells * sizeof *list, 0);
    memset(want_list, 0x5a, cells * sizeof *list);
    rules_search_set(x->t, x->n, &x->set, mark, budget, want_list, cells, &want);
    for (int who = 0; who < 4; who++) {
        memset(list, 0x5a, cells * sizeof *list);
        const struct set *set = who < 2 ? &x->set : &x->twin;
        (who % 2 ? library_search_set : c_search_set)(x->t, x->n, set, mark, budget, list, cells, &got);
        if (memcmp(&want, &got, sizeof got) || memcmp(want_list, list, cells * sizeof *list)) {
            printf("%s n=%zu patterns=%zu mark=%zu budget=%zu cells=%zu: refused %lu steps %lu pairs %lu mark %lu stop %lu, "
                   "should be steps %lu pairs %lu mark %lu stop %lu\n",
                   who % 2 ? "library" : "yardstick", x->n, x->set.count, mark, budget, cells, got.refused, got.steps, got.hits,
                   got.mark, got.stop, want.steps, want.hits, want.mark, want.stop);
            exit(1);
        }
    }
}

long check_sets(long rounds) {
    struct rooms in = {room(), {room(), room()}, {room(), room()}, room(), room()};
    long calls = 0;
    for (long r = 0; r < rounds; r++) {
        int large = r % 4 == 3;
        struct input x = input(&in, large, below(2));
        size_t end = rules_places(&x.set, x.n);
        for (size_t mark = 0; mark <= end; mark += 1 + below(end / (large ? 1 : 4) + 1)) {
            size_t budgets[] = {0, 1, below(20), 4294967295u}, cells[] = {0, 1, below(12), 2 * MOST + below(8), ALL_CELLS};
            for (int k = 0; k < 20; k++, calls += 4) check_call(&x, mark, budgets[k % 4], cells[k / 4], in.list);
        }
    }
    return calls;
}
