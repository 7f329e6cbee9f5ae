// Times searches: each method of the library against the same rule in C and against the naive Rust loop, which finds the
// same hits in its one way.
#include "bench.h"
#include "draw.h"
#include "library.h"
#include "naive.h"
#include "rules.h"
#include "timing.h"
#include <stdio.h>
#include <stdlib.h>
#include <string.h>

enum { CONTENDERS = 2 * METHODS + 1, LOOP = 2 * METHODS, PATTERNS = 2, ALL = -1 };

static uint64_t scratch[CELLS];

// A text and a pattern, and what each contender found: the library's methods, then the yardstick's, then the naive loop. That
// one takes the same time for each bit of any such text, and long; so it gets the text's first eighth.
struct job {
    const uint8_t *t;
    size_t n, cells;
    struct word w;
    int only; // the one method that runs, or ALL
    uint32_t *list;
    struct answer answers[CONTENDERS];
    uint64_t sums[CONTENDERS][2];
};

static int runs(const struct job *job, int method) {
    return takes(method, job->w.m) && (job->only == ALL || job->only == method);
}

static void search(void *of, int contender) {
    struct job *job = of;
    struct answer *out = job->answers + contender;
    int method = contender % METHODS;
    if (contender == LOOP)
        *out = (struct answer){.hits = (job->w.fixed == every_bit ? naive_search : naive_search_wild)(
                                   job->t, job->n / 8, job->w.bits, job->w.fixed, job->w.m, job->list, job->cells)};
    else if (!runs(job, method))
        return;
    else
        (contender < METHODS ? library_search : c_search)(job->t, job->n, &job->w, method, 0, ALL, job->list, job->cells, scratch,
                                                          out);
}

// A sum over the list and one over the hits in the first eighth.
static void sum(void *of, int contender) {
    struct job *job = of;
    uint64_t *sums = job->sums[contender];
    sums[0] = sums[1] = 0;
    for (size_t i = 0; i < job->answers[contender].hits; i++) {
        sums[0] = sums[0] * 31 + job->list[i];
        if (job->list[i] + job->w.m <= job->n / 8) sums[1] = sums[0];
    }
}

// Where the lists were summed up, they are compared too; those of the naive loop in the first eighth.
static void compare(const struct job *job, int summed) {
    for (int i = 0; i < METHODS; i++) {
        int c = METHODS + i;
        if (!runs(job, i)) continue;
        if (memcmp(job->answers + i, job->answers + c, sizeof *job->answers) || job->sums[i][0] != job->sums[c][0] ||
            (summed && job->sums[i][1] != job->sums[LOOP][0])) {
            printf("%s, n %zu, m %zu: the answers differ\n", method_names[i], job->n, job->w.m);
            exit(1);
        }
    }
}

// One job's least times, added to the sums of nanoseconds a bit.
static void measure(struct job *job, double seconds, double *sums) {
    double best[CONTENDERS];
    least((struct race){search, sum, job, CONTENDERS}, seconds, 9, best);
    compare(job, 1);
    for (int i = 0; i < CONTENDERS; i++) sums[i] += best[i] / (i == LOOP ? job->n / 8 : job->n);
}

// A row for each method that ran.
static void rows(const char *what, const struct job *job, const double *sums, int patterns) {
    for (int method = 0; method < METHODS; method++) {
        if (!runs(job, method)) continue;
        double ns[SIDES] = {sums[method] / patterns, sums[METHODS + method] / patterns, sums[LOOP] / patterns};
        char name[80];
        snprintf(name, sizeof name, "%s | %s | %zu", what, method_names[method], 8 * scratch_cells(method, job->w.m));
        row(name, ns);
        note(method, ns);
    }
}

// Texts with 50, 70 and 90 % zeros, and two patterns of each length, with wild bits of a kind.
static void texts(int log2, const size_t *lengths, size_t count, enum wild kind) {
    static const unsigned zeros[] = {50, 70, 90};
    size_t n = (size_t)1 << log2, cells = n / 2;
    uint8_t *t = malloc(n / 8), w[256], fixed[256];
    uint32_t *list = malloc(cells * sizeof *list);
    memset(list, 1, cells * sizeof *list); // so that no run pays for new pages
    for (size_t z = 0; z < 3; z++) {
        printf("\n### %u %% zeros\n", zeros[z]);
        head(" m | method | scratch | library | C | naive Rust | library / C | naive / library ");
        draw_text(t, n, zeros[z]);
        for (size_t k = 0; k < count; k++) {
            double sums[CONTENDERS] = {0};
            progress("searching: %u %% zeros, m = %zu, wild bits: %s", zeros[z], lengths[k], wild_names[kind]);
            struct word word = {w, kind == WILD_NONE ? every_bit : fixed, lengths[k]};
            struct job job = {.t = t, .n = n, .cells = cells, .w = word, .only = ALL, .list = list};
            for (int pattern = 0; pattern < PATTERNS; pattern++) {
                draw_word(w, lengths[k], t, n);
                if (kind != WILD_NONE) draw_fixed(kind, fixed, lengths[k]);
                measure(&job, 3.5, sums);
            }
            char what[16];
            snprintf(what, sizeof what, "%zu", lengths[k]);
            rows(what, &job, sums, PATTERNS);
        }
    }
    printf("\n### All rows\n");
    summary(method_names, METHODS);
    free(t), free(list);
}

void time_texts(int log2) {
    static const size_t lengths[] = {8, 15, 20, 32, 64, 128, 500, 2048};
    texts(log2, lengths, sizeof lengths / sizeof *lengths, WILD_NONE);
}

void time_wild(int log2) {
    static const size_t lengths[] = {20, 32, 64, 500};
    texts(log2, lengths, sizeof lengths / sizeof *lengths, WILD_FIELD);
}

// Texts and patterns on which little is ruled out early. Tail, which takes 64 bits at most, gets more short patterns.
void time_hard(void) {
    static const struct {
        size_t m;
        int only;
    } lengths[] = {{8, TAIL}, {15, ALL}, {20, TAIL}, {32, TAIL}, {64, ALL}, {2048, ALL}};
    size_t n = 1 << 19;
    uint8_t *t = malloc(n / 8), w[256];
    uint32_t *list = calloc(n, sizeof *list);
    head(" text and pattern | m | method | scratch | library | C | naive Rust | library / C | naive / library ");
    for (int kind = 0; kind < HARD_KINDS; kind++) {
        progress("hard texts: %s", hard_names[kind]);
        for (size_t k = 0; k < sizeof lengths / sizeof *lengths; k++) {
            size_t m = lengths[k].m;
            double sums[CONTENDERS] = {0};
            draw_hard(kind, t, n, w, m);
            struct job job = {.t = t, .n = n, .cells = n, .w = {w, every_bit, m}, .only = lengths[k].only, .list = list};
            measure(&job, 1, sums);
            char what[80];
            snprintf(what, sizeof what, "%s | %zu", hard_names[kind], m);
            rows(what, &job, sums, 1);
        }
    }
    free(t), free(list);
}

// A thousand calls with a budget of one step, from marks 0 to 999 as far as there are places: mostly the making of tables.
enum { CALLS = 1000, SHORT_TEXT = 4096 };

static void search_shortly(void *of, int contender) {
    struct job *job = of;
    struct answer *out = job->answers + contender;
    size_t places = job->n - job->w.m + 1;
    for (uint32_t i = 0; i < CALLS && runs(job, contender % METHODS); i++)
        (contender < METHODS ? library_search : c_search)(job->t, job->n, &job->w, contender % METHODS, i < places ? i : 0, 1,
                                                          job->list, job->cells, scratch, out);
}

// Each contender's nanoseconds for a call.
static void measure_shortly(const uint8_t *t, size_t n, struct word w, double seconds, double *best) {
    static uint32_t list[16];
    struct job job = {.t = t, .n = n, .cells = 16, .w = w, .only = ALL, .list = list};
    least((struct race){search_shortly, 0, &job, 2 * METHODS}, seconds, 40, best);
    compare(&job, 0);
    for (int i = 0; i < 2 * METHODS; i++) best[i] /= CALLS;
}

void time_short(void) {
    static const size_t lengths[] = {15, 64, 2048};
    static uint8_t t[SHORT_TEXT], w[256];
    draw_text(t, 8 * sizeof t, 50);
    progress("calls with a budget of 1");
    head(" m | method | scratch | library | C | library / C ");
    for (size_t k = 0; k < sizeof lengths / sizeof *lengths; k++) {
        double best[2 * METHODS];
        draw_word(w, lengths[k], t, 8 * sizeof t);
        measure_shortly(t, 8 * sizeof t, (struct word){w, every_bit, lengths[k]}, 4, best);
        for (int method = 0; method < METHODS; method++)
            if (takes(method, lengths[k]))
                printf("| %zu | %s | %zu | %.0f | %.0f | %.2f |\n", lengths[k], method_names[method],
                       8 * scratch_cells(method, lengths[k]), best[method], best[METHODS + method],
                       best[method] / best[METHODS + method]);
    }
}

// The kind of pattern and of wild bits whose calls take longest beside those of the same pattern with none.
struct worst {
    double none, ns;
    int pattern, kind;
};

// Drawn patterns, zeros and a period, each with wild bits of every kind. The text has one place, so that the step has little
// to compare whatever bits are wild.
void time_tables(void) {
    enum { DRAWN, ZEROS, PERIOD, SHAPES };
    static const char *const shapes[SHAPES] = {"drawn", "zeros", "period 6"};
    static const size_t lengths[] = {64, 500, 2048};
    static uint8_t t[SHORT_TEXT], other[8], w[256], fixed[256];
    draw_text(t, 8 * sizeof t, 50);
    head(" m | method | library, none | most | ratio | with | C, none | most | ratio | library / C, largest ");
    for (size_t k = 0; k < sizeof lengths / sizeof *lengths; k++) {
        size_t m = lengths[k];
        struct worst worst[2 * METHODS] = {0};
        double against[METHODS] = {0};
        progress("tables with wild bits: m = %zu", m);
        for (int shape = 0; shape < SHAPES; shape++) {
            double none[2 * METHODS], best[2 * METHODS];
            if (shape == DRAWN)
                draw_word(w, m, t, 8 * sizeof t);
            else
                draw_hard(shape == ZEROS ? HARD_ZEROS : HARD_PERIOD, other, 8 * sizeof other, w, m);
            for (int kind = 0; kind < WILD_KINDS; kind++) {
                draw_fixed(kind, fixed, m);
                measure_shortly(t, m, (struct word){w, fixed, m}, 0.4, best);
                if (kind == WILD_NONE) memcpy(none, best, sizeof none);
                for (int i = 0; i < 2 * METHODS; i++)
                    if (best[i] * worst[i].none >= worst[i].ns * none[i]) worst[i] = (struct worst){none[i], best[i], shape, kind};
                for (int i = 0; i < METHODS; i++)
                    if (best[i] > against[i] * best[METHODS + i]) against[i] = best[i] / best[METHODS + i];
            }
        }
        for (int i = 0; i < METHODS; i++) {
            const struct worst *a = worst + i, *b = worst + METHODS + i;
            if (takes(i, m))
                printf("| %zu | %s | %.0f | %.0f | %.2f | %s, %s | %.0f | %.0f | %.2f | %.2f |\n", m, method_names[i], a->none,
                       a->ns, a->ns / a->none, shapes[a->pattern], wild_names[a->kind], b->none, b->ns, b->ns / b->none,
                       against[i]);
        }
        fflush(stdout);
    }
}
