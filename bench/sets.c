// Times searches for a set of patterns: the library against the same rule in C, and against as many plain searches of the
// library one after the other.
#include "bench.h"
#include "draw.h"
#include "library.h"
#include "set_yardstick.h"
#include "timing.h"
#include <stdio.h>
#include <stdlib.h>
#include <string.h>

// The third contender is the plain searches, which get the text's first eighth for their time's sake.
enum { MOST = MITONGORY_MOST_PATTERNS, BYTES = 64, SINGLE = NAIVE, LIST_CELLS = 1 << 25 };

struct job {
    const uint8_t *t;
    size_t n;
    struct set set;
    uint32_t *list;
    struct answer answers[2];
    uint64_t sums[2], found[2][MOST]; // the hits of each pattern in the first eighth: the library's pairs, the plain searches
};

static void search(void *of, int contender) {
    static uint64_t scratch[CELLS];
    struct job *job = of;
    const struct set *set = &job->set;
    if (contender == LIBRARY)
        library_search_set(job->t, job->n, set, 0, UINT32_MAX, job->list, LIST_CELLS, job->answers);
    else if (contender == YARDSTICK)
        c_search_set(job->t, job->n, set, 0, UINT32_MAX, job->list, LIST_CELLS, job->answers + YARDSTICK);
    else
        for (size_t p = 0, start = 0; p < set->count; start += (set->counts[p++] + 7) / 8) {
            struct word w = {set->bits + start, set->fixed + start, set->counts[p]};
            struct answer one;
            library_search(job->t, job->n / 8, &w, PLAIN, 0, UINT32_MAX, job->list, LIST_CELLS, scratch, &one);
            job->found[1][p] = one.hits;
        }
}

// A sum over the list, and what the library found in the first eighth.
static void look(void *of, int contender) {
    struct job *job = of;
    if (contender == SINGLE) return;
    uint64_t sum = 0;
    for (size_t i = 0; i < 2 * job->answers[contender].hits; i++) sum = sum * 31 + job->list[i];
    job->sums[contender] = sum;
    if (contender != LIBRARY) return;
    memset(job->found, 0, sizeof job->found);
    for (size_t i = 0; i < 2 * job->answers->hits; i += 2)
        job->found[0][job->list[i + 1]] += job->list[i] + job->set.counts[job->list[i + 1]] <= job->n / 8;
}

static void compare(const struct job *job, const char *what) {
    if (job->answers->refused || job->answers->stop != DONE ||
        memcmp(job->answers, job->answers + YARDSTICK, sizeof *job->answers) || job->sums[LIBRARY] != job->sums[YARDSTICK] ||
        memcmp(job->found[0], job->found[1], sizeof job->found[0])) {
        printf("set, %s: the answers differ, or a list was full\n", what);
        exit(1);
    }
}

// The rows: each of the lengths with each of the numbers of patterns.
static const size_t lengths[] = {20, 64, 500}, counts[] = {1, 8, 64};

// So many patterns of m bits each, from drawn places of the text.
static struct set draw_set(const uint8_t *t, size_t n, size_t m, size_t count) {
    static uint8_t bits[MOST * BYTES], fixed[MOST * BYTES];
    static uint64_t bit_counts[MOST];
    size_t bytes = (m + 7) / 8;
    memset(bits, 0, sizeof bits), memset(fixed, 255, sizeof fixed);
    for (size_t p = 0; p < count; p++) bit_counts[p] = m, draw_word(bits + p * bytes, m, t, n);
    return (struct set){bits, fixed, bit_counts, count, count * bytes};
}

// A thousand calls with a budget of one step, from marks 0 to 999: mostly the making of tables.
enum { CALLS = 1000, SHORT_TEXT = 1 << 15 };

static void search_shortly(void *of, int contender) {
    struct job *job = of;
    for (uint32_t mark = 0; mark < CALLS; mark++)
        (contender == LIBRARY ? library_search_set : c_search_set)(job->t, job->n, &job->set, mark, 1, job->list, LIST_CELLS,
                                                                   job->answers + contender);
}

static void time_short_sets(uint8_t *t, uint32_t *list) {
    draw_text(t, SHORT_TEXT, 50);
    head(" m | patterns | library | C | library / C ");
    for (size_t k = 0; k < 9; k++) {
        size_t m = lengths[k / 3], count = counts[k % 3];
        double ns[2];
        struct job job = {.t = t, .n = SHORT_TEXT, .list = list, .set = draw_set(t, SHORT_TEXT, m, count)};
        progress("sets, a budget of 1: m = %zu, %zu patterns", m, count);
        least((struct race){search_shortly, 0, &job, 2}, 1, 40, ns);
        if (memcmp(job.answers, job.answers + YARDSTICK, sizeof *job.answers)) {
            printf("set, a budget of 1: the answers differ\n");
            exit(1);
        }
        printf("| %zu | %zu | %.0f | %.0f | %.2f |\n", m, count, ns[LIBRARY] / CALLS, ns[YARDSTICK] / CALLS,
               ns[LIBRARY] / ns[YARDSTICK]);
    }
}

void time_sets(int log2) {
    static const unsigned zeros[] = {50, 90};
    uint8_t *t = malloc((size_t)1 << log2 >> 3);
    uint32_t *list = malloc(LIST_CELLS * sizeof *list);
    memset(list, 1, LIST_CELLS * sizeof *list); // so that no run pays for new pages
    head(" zeros | m | patterns | bits | pairs | library | C | plain searches | library / C | plain / library ");
    for (size_t z = 0; z < 2; z++) {
        draw_text(t, (size_t)1 << log2, zeros[z]);
        for (size_t k = 0; k < 9; k++) {
            size_t m = lengths[k / 3], count = counts[k % 3];
            int bits = zeros[z] == 90 && m == 20 && log2 > 22 ? 22 : log2;
            double ns[SIDES];
            char what[80];
            struct job job = {.t = t, .n = (size_t)1 << bits, .list = list};
            progress("sets: %u %% zeros, m = %zu, %zu patterns", zeros[z], m, count);
            job.set = draw_set(t, job.n, m, count);
            least((struct race){search, look, &job, SIDES}, 3.5, 9, ns);
            for (int i = 0; i < SIDES; i++) ns[i] /= i == SINGLE ? job.n / 8 : job.n;
            snprintf(what, sizeof what, "%u %% | %zu | %zu | 2^%d | %lu", zeros[z], m, count, bits, job.answers->hits);
            compare(&job, what);
            row(what, ns);
        }
    }
    time_short_sets(t, list);
    free(t), free(list);
}
