// Holds the library and the C code to document 02's words on drawn sittings, good and spoiled.
#include "bench.h"
#include "draw.h"
#include "marker.h"
#include "room.h"
#include <mitongory.h>
#include <stdio.h>
#include <string.h>

enum { SHEETS = 257, BASE = 64, CELLS = 40 * BASE, REPORT = 3 * SHEETS + 8, TOTALS = MITONGORY_SHEET_CELLS, LIMIT = 1 << 30 };

struct sitting {
    uint32_t *key, *sheets;
    uint64_t *counts;
    size_t keys, cells, count, report, answer;
};

static int on(uint32_t p, const uint32_t *list, size_t count) {
    for (size_t i = 0; i < count; i++)
        if (list[i] == p) return 1;
    return 0;
}

static int rises(const uint32_t *list, size_t count) {
    for (size_t i = 0; i < count; i++)
        if (list[i] >= LIMIT || (i && list[i] <= list[i - 1])) return 0;
    return 1;
}

// What the rules say: each position is looked for in the whole of the other list.
static uint32_t rules(const struct sitting *s, uint32_t *report, uint64_t *totals) {
    unsigned __int128 sum = 0;
    if (s->answer < TOTALS) return MITONGORY_ANSWER_CELLS_MISSING;
    if (s->count > 256) return 15;
    for (size_t i = 0; i < s->count; i++) sum += s->counts[i];
    if (sum != s->cells) return 16;
    int good = rises(s->key, s->keys);
    const uint32_t *sheet = s->sheets;
    for (size_t i = 0; i < s->count; sheet += s->counts[i++]) good &= rises(sheet, s->counts[i]);
    if (!good) return 8;
    if (s->report < 3 * s->count) return 9;
    memset(totals, 0, TOTALS * sizeof *totals);
    sheet = s->sheets;
    for (size_t i = 0; i < s->count; sheet += s->counts[i++]) {
        uint32_t *cells = report + 3 * i;
        memset(cells, 0, 3 * sizeof *cells);
        for (size_t k = 0; k < s->keys; k++) cells[on(s->key[k], sheet, s->counts[i]) ? 0 : 1]++;
        for (size_t k = 0; k < s->counts[i]; k++) cells[2] += !on(sheet[k], s->key, s->keys);
        for (size_t k = 0; k < 3; k++) totals[k] += cells[k];
    }
    return 0;
}

// Some positions of a rising list, those with a 1, in order; the answer is how many.
static size_t pick(uint32_t *to, const uint32_t *from, uint64_t ones) {
    size_t count = 0;
    for (size_t i = 0; i < BASE; i++)
        if (ones >> i & 1) to[count++] = from[i];
    return count;
}

// What a sheet picks, by the key's ones: these, nearly these, every second, half, none of them, all, any or nothing.
static uint64_t draw_ones(uint64_t key, uint64_t kind) {
    switch (kind) {
    case 0: return key;
    case 1: return key ^ (draw() & draw() & draw() & draw() & draw());
    case 2: return key & 0x5555555555555555;
    case 3: return key & draw();
    case 4: return ~key;
    case 5: return ~0ull;
    case 6: return draw();
    default: return 0;
    }
}

// A cell of a list becomes the one before it, or is about the limit.
static void spoil_list(uint32_t *list, size_t count) {
    if (!count || below(12)) return;
    size_t i = below(count);
    list[i] = below(2) ? LIMIT - 2 + (uint32_t)below(4) : list[i ? i - 1 : 0];
}

// One or two counts are made wrong: one more, one less, a sum that wraps, a cell that goes to another sheet, or any count.
static void spoil_counts(uint64_t *counts, size_t count) {
    static const uint64_t added[][2] = {{1, 0}, {~0ull, 0}, {1ull << 63, 1ull << 63}, {1, ~0ull}, {~0ull - 2, 0}};
    if (!count || below(6)) return;
    uint64_t kind = below(6);
    size_t i = below(count), j = below(count);
    if (kind == 5)
        counts[i] = draw() >> below(64);
    else
        counts[i] += added[kind][0], counts[j] += added[kind][1];
}

// The buffers, each between pages that cannot be touched.
static uint8_t *rooms[3];

static struct sitting draw_sitting(void) {
    static uint32_t base[BASE], key[BASE], sheets[CELLS];
    static uint64_t counts[SHEETS];
    struct sitting s = {.count = below(20) ? below(7) : 254 + below(4)};
    draw_list(base, BASE, 1u << below(4));
    uint32_t up = below(8) ? (uint32_t)below(1000) : LIMIT - 3 - base[BASE - 1 - below(3)];
    for (size_t i = 0; i < BASE; i++) base[i] += up;
    uint64_t ones = draw_ones(draw() >> below(64), below(8) ? 0 : 5);
    s.keys = pick(key, base, ones);
    for (size_t i = 0; i < s.count; i++) {
        uint64_t kind = below(s.count < 16 ? 8 : 100);
        counts[i] = s.cells + BASE <= CELLS ? pick(sheets + s.cells, base, draw_ones(ones, kind)) : 0;
        s.cells += counts[i];
    }
    spoil_list(key, s.keys), spoil_list(sheets, s.cells), spoil_counts(counts, s.count);
    if (s.cells + 1 < CELLS && below(24) == 0) s.cells++;
    s.report = 3 * s.count + below(4);
    if (below(6) == 0) s.report -= s.report ? 1 + below(s.report) : 0;
    s.answer = below(20) ? TOTALS + below(2) : below(TOTALS);
    int front = below(2);
    s.key = lent(rooms[0], s.keys * sizeof *key, front), memcpy(s.key, key, s.keys * sizeof *key);
    s.sheets = lent(rooms[1], s.cells * sizeof *sheets, front), memcpy(s.sheets, sheets, s.cells * sizeof *sheets);
    s.counts = lent(rooms[2], s.count * sizeof *counts, front), memcpy(s.counts, counts, s.count * sizeof *counts);
    return s;
}

long check_sittings(long rounds) {
    uint8_t *reports = room(), *answers = room();
    long calls = 0;
    for (int i = 0; i < 3; i++) rooms[i] = room();
    for (long r = 0; r < rounds; r++) {
        static uint32_t want_report[REPORT];
        uint64_t want_totals[TOTALS + 1];
        struct sitting s = draw_sitting();
        int fill = (int)below(256);
        memset(want_report, fill, sizeof want_report), memset(want_totals, fill, sizeof want_totals);
        uint32_t want = rules(&s, want_report, want_totals);
        // the C code with either merge, which has no answer cells to miss; then the library
        for (int who = want == MITONGORY_ANSWER_CELLS_MISSING ? MERGES : 0; who <= MERGES; who++, calls++) {
            uint32_t *report = lent(reports, s.report * sizeof *report, r % 2), got;
            uint64_t *totals = lent(answers, s.answer * sizeof *totals, r % 2);
            memset(report, fill, s.report * sizeof *report), memset(totals, fill, s.answer * sizeof *totals);
            if (who == MERGES)
                got = mitongory_mark_sitting(s.key, s.keys, s.sheets, s.cells, s.counts, s.count, report, s.report, totals,
                                             s.answer);
            else
                got = c_mark_sitting(s.key, s.keys, s.sheets, s.cells, s.counts, s.count, report, s.report, totals, who);
            if (got != want || memcmp(want_report, report, s.report * sizeof *report) ||
                memcmp(want_totals, totals, s.answer * sizeof *totals)) {
                printf("%s, sitting %ld of %zu sheets: %u, should be %u\n", who == MERGES ? "library" : "yardstick", r,
                       s.count, got, want);
                exit(1);
            }
        }
    }
    return calls;
}
