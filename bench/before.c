// Times the library's searches against those of an earlier archive, on the same data in the same run, with all bits of the
// pattern fixed. bench/run links that archive with its calls under other names; where there is none, there is nothing to time.
// The calls must have today's parameters, as they have since version 0.6. For list files see files.c, for
// eight bits eights.c.
#include "bench.h"
#include "draw.h"
#include "library.h"
#include "timing.h"
#include <stdio.h>
#include <stdlib.h>
#include <string.h>

uint32_t before_search(const uint8_t *text, size_t text_len, uint64_t n, const uint8_t *pattern, size_t pattern_len,
                       const uint8_t *fixed, size_t fixed_len, uint64_t m, uint32_t method, uint32_t mark, uint32_t budget,
                       uint32_t *list, size_t list_len, uint64_t *scratch, size_t scratch_len, uint64_t *answer,
                       size_t answer_len) __attribute__((weak));

enum { BEFORE, NOW, PAIR, CALLS = 1000 };

static uint64_t scratch[CELLS];

// Calls from marks 0, 1, .. with a budget each; CALLS of them have the budget 1, and one has no limit.
struct pair {
    const uint8_t *t, *w;
    size_t n, m, cells;
    int method;
    uint32_t *list, calls, budget;
    uint64_t answers[PAIR][MITONGORY_ANSWER_CELLS], sums[PAIR];
};

static uint32_t search(struct pair *p, int who, uint32_t mark) {
    size_t bytes = (p->m + 7) / 8;
    return (who == NOW ? mitongory_search : before_search)(p->t, p->n / 8, p->n, p->w, bytes, every_bit, bytes, p->m, p->method,
                                                           mark, p->budget, p->list, p->cells, scratch,
                                                           scratch_cells(p->method, p->m), p->answers[who],
                                                           MITONGORY_ANSWER_CELLS);
}

static void run(void *of, int who) {
    struct pair *p = of;
    for (uint32_t mark = 0; mark < p->calls; mark++)
        if (search(p, who, mark)) {
            printf("%s, m %zu: refused\n", method_names[p->method], p->m);
            exit(1);
        }
}

static void look(void *of, int who) {
    struct pair *p = of;
    p->sums[who] = 0;
    for (size_t i = 0; i < p->answers[who][MITONGORY_OCCURRENCES]; i++) p->sums[who] = p->sums[who] * 31 + p->list[i];
}

enum { ROWS = 128 };
static double ratios[METHODS][ROWS];
static int noted[METHODS];

// One row: the least times of both, for each of `units`.
static void measure(const char *what, struct pair *p, double units) {
    double best[PAIR];
    least((struct race){run, look, p, PAIR}, 1.5, 60, best);
    if (memcmp(p->answers[BEFORE], p->answers[NOW], sizeof p->answers[NOW]) || p->sums[BEFORE] != p->sums[NOW]) {
        printf("%s, m %zu: the answers differ\n", method_names[p->method], p->m);
        exit(1);
    }
    printf("| %s | %zu | %s | %zu | %.3g | %.3g | %.2f |\n", what, p->m, method_names[p->method],
           8 * scratch_cells(p->method, p->m), best[BEFORE] / units, best[NOW] / units, best[NOW] / best[BEFORE]);
    fflush(stdout);
    ratios[p->method][noted[p->method]++] = best[NOW] / best[BEFORE];
}

// A search of the whole text by each method that takes the pattern and, where they are asked for, calls of one step.
static void searches(const char *what, struct pair p, int one_step) {
    for (p.method = 0; p.method < METHODS; p.method++) {
        if (!takes(p.method, p.m)) continue;
        p.calls = 1, p.budget = UINT32_MAX;
        measure(what, &p, p.n);
        p.calls = CALLS, p.budget = 1;
        if (one_step) measure("one step", &p, CALLS);
    }
}

void time_before(void) {
    static const unsigned zeros[] = {50, 70, 90};
    static const size_t lengths[] = {8, 15, 20, 32, 64, 128, 500, 2048};
    enum { LENGTHS = sizeof lengths / sizeof *lengths };
    size_t n = (size_t)1 << 22;
    uint8_t *t = malloc(n / 8), w[256];
    uint32_t *list = calloc(n, sizeof *list);
    if (!before_search) {
        fprintf(stderr, "bench before: no earlier archive is linked\n");
        exit(2);
    }
    head(" text | m | method | scratch | before | now | now / before ");
    for (size_t z = 0; z < sizeof zeros / sizeof *zeros; z++) {
        char what[32];
        snprintf(what, sizeof what, "%u %% zeros", zeros[z]);
        draw_text(t, n, zeros[z]);
        for (size_t k = 0; k < LENGTHS; k++) {
            progress("before and now: %s, m = %zu", what, lengths[k]);
            draw_word(w, lengths[k], t, n);
            searches(what, (struct pair){.t = t, .w = w, .n = n, .m = lengths[k], .cells = n, .list = list}, z == 0);
        }
    }
    n = 1 << 19;
    for (int kind = 0; kind < HARD_KINDS; kind++)
        for (size_t k = 0; k < LENGTHS; k++) {
            progress("before and now: %s, m = %zu", hard_names[kind], lengths[k]);
            draw_hard(kind, t, n, w, lengths[k]);
            searches(hard_names[kind], (struct pair){.t = t, .w = w, .n = n, .m = lengths[k], .cells = n, .list = list}, 0);
        }
    head(" method | rows | now / before, median | least | largest ");
    for (int g = 0; g < METHODS; g++) {
        int k = noted[g];
        sort(ratios[g], k);
        printf("| %s | %d | %.2f | %.2f | %.2f |\n", method_names[g], k, ratios[g][k / 2], ratios[g][0], ratios[g][k - 1]);
    }
    free(t), free(list);
    time_files_before();
    time_eights_before();
}
