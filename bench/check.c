// Holds the searches of library and yardstick to the rules (the course's papers, the refusals, drawn inputs), and compares
// what the two say of drawn list files, good and damaged. For sets and sittings see check_sets.c and check_sittings.c.
#include "bench.h"
#include "codec.h"
#include "draw.h"
#include "library.h"
#include "room.h"
#include "rules.h"
#include <stdio.h>
#include <stdlib.h>
#include <string.h>

static void differ(const char *who, int method, size_t n, size_t m, size_t mark, size_t budget, size_t cells,
                   const struct answer *a, const struct answer *b) {
    printf("%s %s n=%zu m=%zu mark=%zu budget=%zu cells=%zu: refused %lu steps %lu hits %lu mark %lu stop %lu, "
           "should be steps %lu hits %lu mark %lu stop %lu\n",
           who, method_names[method], n, m, mark, budget, cells, a->refused, a->steps, a->hits, a->mark, a->stop, b->steps,
           b->hits, b->mark, b->stop);
    exit(1);
}

struct input {
    const uint8_t *t;
    size_t n;
    struct word w, twin;
};

// Room for the parts of an input, each between pages that cannot be touched.
struct rooms {
    uint8_t *text, *bits[2], *fixed[2];
};

// A pattern that is the same to every rule: other values at the wild bits, and other bits after the last one in both runs.
static struct word twin_of(const struct word *w, struct rooms *in, int front) {
    size_t bytes = (w->m + 7) / 8;
    uint8_t *bits = lent(in->bits[1], bytes, front), *fixed = lent(in->fixed[1], bytes, front);
    for (size_t j = 0; j < 8 * bytes; j++) {
        set_bit(bits, j, j < w->m && bit_at(w->fixed, j) ? bit_at(w->bits, j) : (int)below(2));
        set_bit(fixed, j, j < w->m ? bit_at(w->fixed, j) : (int)below(2));
    }
    return (struct word){bits, fixed, w->m};
}

// A text and a pattern of it or near it, of 5 to 50 % ones or with a period, and wild bits of a kind. A quarter of the large
// ones have a pattern that every method takes.
static struct input input(struct rooms *in, int large, int front, enum wild kind) {
    size_t ones = 1 + below(10), period = below(4) ? 0 : 1 + below(12);
    size_t n = below(large ? 6000 : 301), m = !large ? 1 + below(below(3) ? 80 : 240) : below(4) ? 1 + below(2048) : 15 + below(50);
    uint8_t *t = lent(in->text, (n + 7) / 8, front), *bits = lent(in->bits[0], (m + 7) / 8, front),
            *fixed = lent(in->fixed[0], (m + 7) / 8, front);
    for (size_t i = 0; i < (n + 7) / 8 * 8; i++) set_bit(t, i, period && i >= period ? bit_at(t, i - period) : below(20) < ones);
    for (size_t i = 0; i < (m + 7) / 8 * 8; i++) set_bit(bits, i, below(20) < ones);
    for (size_t k = period && n ? below(4) : 0; k; k--) set_bit(t, below(n), below(2));
    if (m <= n && below(4)) {
        size_t p = below(n - m + 1), q = below(n - m + 1);
        for (size_t j = 0; j < m; j++) set_bit(bits, j, bit_at(t, p + j));
        if (below(2))
            for (size_t j = 0; j < m; j++) set_bit(t, q + j, bit_at(bits, j));
        if (below(3) == 0) set_bit(bits, below(m), below(2));
    }
    draw_fixed(kind, fixed, m);
    struct input x = {t, n, {bits, fixed, m}, {0}};
    x.twin = twin_of(&x.w, in, front);
    return x;
}

// One call of both, from any scratch and list, with the pattern and with its twin, held to the rules. The scratch has just the
// cells that the method takes. A page that cannot be touched lies before it or after it, and where it lies before, some bytes
// after the scratch are compared.
static void check_call(const struct input *x, int method, size_t mark, size_t budget, size_t cells, uint8_t *lists,
                       uint8_t *cell_room) {
    static uint32_t want_list[8192];
    struct answer want, got;
    uint32_t *list = lent(lists, cells * sizeof *list, 0);
    size_t scratch_bytes = scratch_cells(method, x->w.m) * sizeof(uint64_t);
    int front = below(2);
    uint8_t *scratch = lent(cell_room, scratch_bytes, front);
    memset(want_list, 0x5a, cells * sizeof *list);
    rules_search(x->t, x->n, &x->w, method, mark, budget, want_list, cells, &want);
    for (int who = 0; who < 4; who++) {
        memset(list, 0x5a, cells * sizeof *list);
        size_t after = front ? 256 : 0;
        int fill = 0x11 * below(16);
        memset(scratch, fill, scratch_bytes + after);
        (who % 2 ? library_search : c_search)(x->t, x->n, who < 2 ? &x->w : &x->twin, method, mark, budget, list, cells,
                                              (uint64_t *)scratch, &got);
        if (memcmp(&want, &got, sizeof got) || memcmp(want_list, list, cells * sizeof *list))
            differ(who % 2 ? "library" : "yardstick", method, x->n, x->w.m, mark, budget, cells, &got, &want);
        for (size_t i = 0; i < after; i++)
            if (scratch[scratch_bytes + i] != fill) {
                printf("%s, m %zu: a store after the scratch\n", method_names[method], x->w.m);
                exit(1);
            }
    }
}

// The library's H(B) for every B, with the pattern and with its twin.
static long check_hash_values(const struct input *x) {
    size_t bytes = (x->w.m + 7) / 8;
    for (int value = 0; value < 256; value++)
        for (int who = 0; who < 2; who++) {
            const struct word *w = who ? &x->twin : &x->w;
            uint64_t got = 0, want = rules_hash_value(w, value);
            if (mitongory_hash_value(w->bits, bytes, w->fixed, bytes, w->m, value, &got, 1) || got != want) {
                printf("H(%d), m %zu: %lu, should be %lu\n", value, w->m, got, want);
                exit(1);
            }
        }
    return 512;
}

// Worked examples: text, pattern (? for a wild bit), cells, and steps, mark and hits of each method (steps -1: not tried).
struct paper {
    const char *text, *pattern;
    size_t cells;
    struct {
        long steps, mark, hits;
    } want[METHODS];
};
#define R1 "011001001000100110100101000101001001"
#define R2 "110010110010110010110010110010110"
#define V2 "110010110010110010110"
#define ZEROS "0000000000000000000000000000000000000000"
static const struct paper papers[] = {
    {R1, "0100110100", 9, {{27, 27, 1}, {5, 27, 1}, {-1, 0, 0}, {1, 27, 1}, {5, 27, 1}}},
    {R2, V2, 1, {{6, 6, 1}, {1, 6, 1}, {0, 6, 1}, {0, 6, 1}, {1, 6, 1}}},
    {R2, V2, 0, {{0, 0, 0}, {0, 0, 0}, {0, 0, 0}, {0, 0, 0}, {0, 0, 0}}},
    {R2, V2, 9, {{13, 13, 3}, {-1, 0, 0}, {2, 13, 3}, {1, 13, 3}, {3, 13, 3}}},
    {"", "1", 9, {{0, 0, 0}, {-1, 0, 0}, {-1, 0, 0}, {0, 0, 0}, {0, 0, 0}}},
    {"11111", "111", 9, {{3, 3, 3}, {-1, 0, 0}, {-1, 0, 0}, {1, 3, 3}, {3, 3, 3}}},
    // Tail moves by 1 at first, as the window 1001 ends in 001: a beginning of the pattern that does not end it.
    {"10010011", "0011", 9, {{5, 5, 1}, {-1, 0, 0}, {-1, 0, 0}, {1, 5, 1}, {3, 5, 1}}},
    // Wild bits.
    {R1, "010???0100", 9, {{27, 27, 2}, {9, 27, 2}, {-1, 0, 0}, {1, 27, 2}, {8, 27, 2}}},
    // Hash moves on from 17 by the value just read, which is not the pattern's own.
    {R1, "0100????00", 9, {{27, 27, 3}, {7, 27, 3}, {-1, 0, 0}, {1, 27, 3}, {6, 27, 3}}},
    {R2, "?10?10?10?10?10?10?10", 9, {{13, 13, 5}, {5, 13, 5}, {2, 13, 5}, {1, 13, 5}, {5, 13, 5}}},
    // One byte that two indices show through one wild bit, and a wide move that a wild bit decides.
    {"010000001000000100000010", "1000000?00000010", 9, {{9, 9, 2}, {-1, 0, 0}, {1, 9, 2}, {1, 9, 2}, {-1, 0, 0}}},
    {ZEROS ZEROS ZEROS ZEROS ZEROS, "?1", 9, {{199, 199, 0}, {-1, 0, 0}, {-1, 0, 0}, {4, 199, 0}, {199, 199, 0}}},
    {"11001", "???", 9, {{3, 3, 3}, {-1, 0, 0}, {-1, 0, 0}, {1, 3, 3}, {3, 3, 3}}},
};

static void check_papers(void) {
    static uint8_t t[64], w[64], fixed[64];
    static uint64_t scratch[CELLS];
    uint32_t list[16];
    struct answer got;
    for (size_t i = 0; i < sizeof papers / sizeof *papers; i++)
        for (int method = 0; method < METHODS; method++)
            for (int who = 0; who < 3 && papers[i].want[method].steps >= 0; who++) {
                const struct paper *p = papers + i;
                size_t n = strlen(p->text), m = strlen(p->pattern);
                struct word word = {w, fixed, m};
                pack(t, p->text), pack(w, p->pattern);
                for (size_t k = 0; k < m; k++) set_bit(fixed, k, p->pattern[k] != '?');
                if (who == 0)
                    rules_search(t, n, &word, method, 0, 4294967295u, list, p->cells, &got);
                else
                    (who == 1 ? c_search : library_search)(t, n, &word, method, 0, 4294967295u, list, p->cells, scratch, &got);
                struct answer want = {0, p->want[method].steps, p->want[method].hits, p->want[method].mark,
                                      p->want[method].mark + m <= n ? FULL : DONE};
                if (memcmp(&want, &got, sizeof got)) differ("paper", method, n, m, 0, 0, p->cells, &got, &want);
            }
}

// The cells of scratch that the library tells, for every method and length.
static void check_cells(void) {
    for (int method = 0; method < METHODS; method++)
        for (size_t m = 0; m < 2060; m++) {
            uint32_t refused = m == 0 || m > 2048 ? 3 : takes(method, m) ? 0 : 5;
            uint64_t told = 0, want = refused ? 0 : scratch_cells(method, m);
            if (mitongory_scratch_cells(method, m, &told, 1) != refused || told != want) {
                printf("%s, m %zu: %lu cells of scratch, should be %lu\n", method_names[method], m, told, want);
                exit(1);
            }
        }
}

static void refused(const char *call, size_t row, int want, uint32_t got) {
    if (got == (uint32_t)want) return;
    printf("%s, refusal row %zu: %u, should be %d\n", call, row, got, want);
    exit(1);
}

// The library's refusals, each where all later ones would hold too; the yardstick has none.
static void check_refusals(void) {
    static uint8_t t[8], w[300];
    static uint64_t scratch[CELLS];
    uint32_t list[4];
    static const struct {
        uint64_t n, text, m, pattern, fixed, mark, cells;
        int method, want;
    } rows[] = {
        {1073741825, 0, 0, 0, 0, 9, 0, HASH, 1},   {~0ull, 0, ~0ull, 0, 0, 9, 0, HASH, 1},
        {9, 1, 0, 0, 0, 99, 0, HASH, 2},           {9, 2, 0, 0, 0, 99, 0, HASH, 3},
        {9, 2, 2049, 0, 0, 99, 0, HASH, 3},        {9, 2, ~0ull, 0, 0, 99, 0, SKIP, 3},
        {9, 2, 9, 1, 0, 99, 0, SKIP, 4},           {64, 8, 65, 8, 8, 99, 0, TAIL, 4},
        {9, 2, 7, 0, 0, 99, 0, HASH, 4},           {9, 2, 7, 1, 0, 99, 0, HASH, 17},
        {9, 2, 9, 2, 1, 99, 0, SKIP, 17},          {64, 8, 65, 9, 8, 99, 0, TAIL, 17},
        {0, 0, 2048, 256, 255, 99, 0, TAIL, 17},   {36, 5, 10, 2, 1, 28, 0, PLAIN, 17},
        {36, 5, 10, 2, 0, 27, 145, WIDE, 17},      {36, 5, 10, 2, 1, 27, CELLS, WIDE, 17},
        {9, 2, 7, 1, 1, 99, 0, HASH, 5},           {64, 8, 14, 2, 2, 99, 0, SKIP, 5},
        {0, 0, 2048, 256, 256, 0, CELLS, TAIL, 5}, {64, 8, 65, 9, 9, 99, 0, TAIL, 5},
        {36, 5, 10, 2, 2, 28, 0, PLAIN, 6},        {36, 5, 10, 2, 2, ~0u, 0, WIDE, 6},
        {0, 0, 1, 1, 1, 1, CELLS, PLAIN, 6},       {64, 8, 64, 8, 8, 2, 0, TAIL, 6},
        {36, 5, 10, 2, 2, 27, 145, WIDE, 7},       {36, 5, 10, 2, 2, 27, 146, WIDE, 0},
        {36, 5, 8, 1, 1, 29, 511, HASH, 7},        {36, 5, 8, 1, 1, 29, 512, HASH, 0},
        {36, 5, 15, 2, 2, 22, 270, SKIP, 7},       {36, 5, 15, 2, 2, 22, 271, SKIP, 0},
        {36, 5, 10, 2, 2, 27, 47, PLAIN, 7},       {36, 5, 10, 2, 2, 27, 48, PLAIN, 0},
        {64, 8, 64, 8, 8, 1, 1, TAIL, 7},          {64, 8, 64, 8, 8, 1, 2, TAIL, 0},
        {64, 8, 1, 1, 1, 64, CELLS, TAIL, 0},      {0, 0, 2048, 256, 256, 0, CELLS, SKIP, 0},
        {~0ull, 0, 0, 0, 0, 9, 0, METHODS, 100},
    };
    uint64_t o[4];
    for (size_t i = 0; i < sizeof rows / sizeof *rows; i++)
        refused("search", i, rows[i].want,
                mitongory_search(t, rows[i].text, rows[i].n, w, rows[i].pattern, every_bit, rows[i].fixed, rows[i].m,
                                 rows[i].method, rows[i].mark, 1, list, 4, scratch, rows[i].cells, o, 4));
    static const struct {
        uint64_t m, pattern, fixed;
        int want;
    } values[] = {{0, 0, 0, 3}, {2049, 0, 0, 3}, {~0ull, 0, 0, 3},    {9, 1, 1, 4},         {7, 0, 0, 4},        {7, 1, 0, 17},
                  {9, 2, 1, 17}, {7, 1, 1, 5},   {2048, 256, 255, 17}, {2048, 255, 256, 4}, {2048, 256, 256, 0}, {8, 1, 1, 0}};
    for (size_t i = 0; i < sizeof values / sizeof *values; i++)
        refused("hash value", i, values[i].want,
                mitongory_hash_value(w, values[i].pattern, every_bit, values[i].fixed, values[i].m, 0, o, 4));
}

// A list that rises or nearly does, and its file, whole and damaged: library and yardstick say and store the same.
static long check_files(long rounds) {
    enum { MOST = 40, BYTES = 5 * MOST + 8 };
    long calls = 0;
    for (long r = 0; r < rounds; r++) {
        uint32_t list[MOST], cells[2][MOST], said[2];
        uint8_t file[2][BYTES];
        uint64_t count[2] = {0, 0};
        size_t k = below(MOST), len = below(4) ? BYTES : below(3 * MOST);
        draw_list(list, k, 1u << below(27));
        if (k && below(4) == 0) list[below(k)] = (uint32_t)draw() >> below(20);
        memset(file, 0x5a, sizeof file), memset(cells, 0x5a, sizeof cells);
        said[0] = mitongory_list_write(list, k, file[0], len, count, 1);
        said[1] = c_list_write(list, k, file[1], len, count + 1);
        int same = said[0] == said[1] && count[0] == count[1] && !memcmp(file[0], file[1], BYTES);
        size_t bytes = said[0] ? below(BYTES - 2) : count[0];
        for (size_t cut = below(4); cut; cut--) file[0][below(bytes + 1)] = below(2) ? (uint8_t)draw() : "\0\1\4\x80\xff"[below(5)];
        if (below(4) == 0) bytes = below(bytes + 3);
        size_t room = below(2) ? MOST : below(MOST);
        count[0] = count[1] = 0;
        said[0] = mitongory_list_read(file[0], bytes, cells[0], room, count, 1);
        said[1] = c_list_read(file[0], bytes, cells[1], room, count + 1);
        same = same && said[0] == said[1] && count[0] == count[1] && !memcmp(cells[0], cells[1], sizeof cells[0]);
        calls += 4;
        if (!same) {
            printf("list file round %ld: library %u, yardstick %u\n", r, said[0], said[1]);
            exit(1);
        }
    }
    return calls;
}

// Rounds for each kind of wild bits, large inputs in every fourth.
int check(long rounds) {
    struct rooms in = {room(), {room(), room()}, {room(), room()}};
    uint8_t *lists = room(), *cell_room = room();
    long calls = 0;
    check_papers();
    check_cells();
    check_refusals();
    long files = check_files(rounds * 1000);
    for (long r = 0; r < rounds * WILD_KINDS; r++) {
        int large = r / WILD_KINDS % 4 == 3;
        struct input x = input(&in, large, below(2), r % WILD_KINDS);
        size_t end = x.w.m <= x.n ? x.n - x.w.m + 1 : 0;
        if (takes(HASH, x.w.m)) calls += check_hash_values(&x);
        for (int method = 0; method < METHODS; method++) {
            if (!takes(method, x.w.m)) continue;
            for (size_t mark = 0; mark <= end; mark += 1 + below(large ? end / 4 + 1 : 8)) {
                size_t budgets[] = {0, 1, 2, below(20), 4294967295u}, cells[] = {0, 1, below(5), large ? 6000 : 400};
                for (int k = 0; k < 20; k++, calls += 4)
                    check_call(&x, method, mark, budgets[k % 5], cells[k / 5], lists, cell_room);
            }
        }
    }
    long sittings = check_sittings(rounds * 1000), sets = check_sets(rounds * 20), eights = check_eights(rounds * 500);
    printf("%ld searches as the rules say, %ld list file calls alike, %ld sets, %ld sittings and %ld reads of eight bits as the "
           "rules say\n",
           calls, files, sets, sittings, eights);
    return 0;
}
