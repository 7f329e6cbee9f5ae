// Times the marking of a sitting: the library against the same rules in C and against naive Rust.
#include "bench.h"
#include "draw.h"
#include "marker.h"
#include "naive.h"
#include "timing.h"
#include <mitongory.h>
#include <stdio.h>
#include <stdlib.h>
#include <string.h>

enum { SHEETS = MITONGORY_SHEETS, KEY = 100000, WIDEST = 20, REPORT = 3 * SHEETS };

// The contenders: the C code has two, one for each merge.
enum { BY_LIBRARY, BY_C, BY_NAIVE = BY_C + MERGES, CONTENDERS };

// A sitting, and what the contenders made of it.
struct job {
    uint32_t key[KEY], *sheets;
    uint64_t counts[SHEETS];
    size_t cells;
    uint32_t report[REPORT], first[REPORT];
    uint64_t totals[CONTENDERS][MITONGORY_SHEET_CELLS];
};

static void run(void *of, int contender) {
    struct job *job = of;
    uint64_t *totals = job->totals[contender];
    if (contender == BY_LIBRARY)
        mitongory_mark_sitting(job->key, KEY, job->sheets, job->cells, job->counts, SHEETS, job->report, REPORT, totals,
                               MITONGORY_SHEET_CELLS);
    else if (contender == BY_NAIVE)
        naive_mark(job->key, KEY, job->sheets, job->cells, job->counts, SHEETS, job->report, REPORT, totals);
    else
        c_mark_sitting(job->key, KEY, job->sheets, job->cells, job->counts, SHEETS, job->report, REPORT, totals,
                       contender - BY_C);
}

// The report and the totals are those of the first contender. The next one finds the report cleared.
static void look(void *of, int contender) {
    struct job *job = of;
    if (contender == 0) memcpy(job->first, job->report, sizeof job->first);
    if (memcmp(job->first, job->report, sizeof job->first) ||
        memcmp(job->totals[0], job->totals[contender], sizeof *job->totals) ||
        job->totals[0][0] + job->totals[0][1] != (uint64_t)SHEETS * KEY) {
        printf("sitting: contender %d differs\n", contender);
        exit(1);
    }
    memset(job->report, 0, sizeof job->report);
}

enum kind { NEARLY_RIGHT, HALF, NOISE, KINDS };

// A sheet of a kind; the answer is its count.
static size_t draw_sheet(enum kind kind, const uint32_t *key, uint32_t *sheet) {
    if (kind == NOISE) {
        draw_list(sheet, KEY, WIDEST);
        return KEY;
    }
    size_t count = 0;
    for (size_t i = 0; i < KEY; i++) {
        int missed = kind == HALF ? below(2) : below(100) == 0;
        if (!missed) sheet[count++] = key[i];
        // A false position, where there is room for one before the key's next.
        if (kind == NEARLY_RIGHT && below(100) == 0 && i + 1 < KEY && key[i] + 1 < key[i + 1]) sheet[count++] = key[i] + 1;
    }
    return count;
}

void time_sitting(void) {
    static const char *const kinds[KINDS] = {"nearly right: 1 in 100 missed, 1 in 100 false", "a random half of the key",
                                             "noise, as long as the key"};
    static const char *const merges[MERGES] = {"branching", "branch-free"};
    static struct job job;
    job.sheets = malloc((size_t)SHEETS * 2 * KEY * sizeof *job.sheets);
    draw_list(job.key, KEY, WIDEST);
    head(" sheets | right | missed | false | merge in C | library | C | naive Rust | library / C | naive / library ");
    for (int kind = 0; kind < KINDS; kind++) {
        progress("a sitting: %s", kinds[kind]);
        job.cells = 0;
        for (size_t i = 0; i < SHEETS; i++)
            job.cells += job.counts[i] = draw_sheet(kind, job.key, job.sheets + job.cells);
        double best[CONTENDERS], positions = (double)SHEETS * KEY + (double)job.cells;
        least((struct race){run, look, &job, CONTENDERS}, 4, 20, best);
        int merge = best[BY_C + BRANCHING] < best[BY_C + BRANCH_FREE] ? BRANCHING : BRANCH_FREE;
        double ns[SIDES] = {best[BY_LIBRARY] / positions, best[BY_C + merge] / positions, best[BY_NAIVE] / positions};
        char what[160];
        snprintf(what, sizeof what, "%s | %lu | %lu | %lu | %s", kinds[kind], job.totals[0][0], job.totals[0][1],
                 job.totals[0][2], merges[merge]);
        row(what, ns);
    }
    free(job.sheets);
}
