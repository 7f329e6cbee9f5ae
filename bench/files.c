// Times the position list file: writing and reading dense and sparse lists, and judging their files where there are no cells,
// the library against the same rules in C and against a naive Rust codec; and against an earlier archive of the library,
// where bench/run has linked one.
#include "bench.h"
#include "codec.h"
#include "draw.h"
#include "library.h"
#include "naive.h"
#include "timing.h"
#include <stdio.h>
#include <stdlib.h>
#include <string.h>

static const struct {
    const char *name;
    size_t count;
    uint32_t widest;
} lists[] = {
    {"dense: distances to 8", 1 << 20, 8},
    {"distances to 256", 1 << 20, 256},
    {"sparse: distances to 2,000", 1 << 20, 2000},
    {"very sparse: distances to 200,000", 10000, 200000},
};
enum { LISTS = sizeof lists / sizeof *lists };

// What is done with a list or its file. The last is a reading with no cells, which ends with 14.
enum call { WRITE, READ, JUDGE, CALLS };
static const char *const calls[] = {"write", "read", "read, no cells"};

// A list, its file, and where the contenders write. Contender who of the call c is c * SIDES + who.
struct job {
    const uint32_t *list;
    size_t count, len, bytes;
    uint8_t *file;
    uint32_t *cells;
    uint64_t done[CALLS * SIDES];
    uint32_t said[CALLS * SIDES];
};

static struct job drawn(int k) {
    size_t count = lists[k].count, len = 5 * count + 5;
    uint32_t *list = malloc(count * sizeof *list);
    draw_list(list, count, lists[k].widest);
    struct job job = {.list = list, .count = count, .len = len, .file = malloc(len), .cells = malloc(count * sizeof *list)};
    mitongory_list_write(list, count, job.file, len, job.done, 1);
    job.bytes = job.done[0];
    return job;
}

static void give_back(struct job *job) {
    free((uint32_t *)job->list), free(job->file), free(job->cells);
}

static void run(void *of, int contender) {
    struct job *job = of;
    uint64_t *done = job->done + contender;
    uint32_t *said = job->said + contender;
    size_t cells = contender / SIDES == READ ? job->count : 0;
    switch (contender) {
    case LIBRARY: *said = mitongory_list_write(job->list, job->count, job->file, job->len, done, 1); break;
    case YARDSTICK: *said = c_list_write(job->list, job->count, job->file, job->len, done); break;
    case NAIVE: *done = naive_write(job->list, job->count, job->file, job->len); break;
    case READ * SIDES + NAIVE: *done = naive_read(job->file, job->bytes, job->cells, cells); break;
    case READ * SIDES + LIBRARY:
    case JUDGE * SIDES + LIBRARY: *said = mitongory_list_read(job->file, job->bytes, job->cells, cells, done, 1); break;
    case READ * SIDES + YARDSTICK:
    case JUDGE * SIDES + YARDSTICK: *said = c_list_read(job->file, job->bytes, job->cells, cells, done); break;
    default: break; // the naive codec does not judge a file by itself
    }
}

// Every contender once, on cleared buffers: the file and the list are the same each time. Without cells the answer is 14 and
// nothing is stored.
static void compare(struct job *job) {
    size_t size = job->count * sizeof *job->cells;
    uint8_t *first = malloc(job->len), *cleared = calloc(1, size);
    for (int i = 0; i < CALLS * SIDES; i++) {
        int call = i / SIDES, judges = call == JUDGE && i % SIDES != NAIVE;
        if (call == WRITE) memset(job->file, 0, job->len);
        memset(job->cells, 0, size);
        job->done[i] = job->said[i] = 0;
        run(job, i);
        if (i == 0) memcpy(first, job->file, job->len);
        int same = job->said[i] == (judges ? MITONGORY_CELLS_MISSING : MITONGORY_OK) && !memcmp(first, job->file, job->len) &&
                   job->done[i] == (call == WRITE ? job->bytes : call == READ ? job->count : 0) &&
                   !memcmp(call == READ ? (const void *)job->list : cleared, job->cells, size);
        if (!same) {
            printf("list file: contender %d differs\n", i);
            exit(1);
        }
    }
    free(first), free(cleared);
}

void time_files(void) {
    head(" list | positions | bytes | call | library | C | naive Rust | library / C | naive / library ");
    for (int k = 0; k < LISTS; k++) {
        progress("list files: %s", lists[k].name);
        struct job job = drawn(k);
        double best[CALLS * SIDES];
        compare(&job);
        least((struct race){run, 0, &job, CALLS * SIDES}, 4, job.count < 100000 ? 200 : 20, best);
        for (int i = 0; i < CALLS * SIDES; i++) best[i] /= job.count;
        best[JUDGE * SIDES + NAIVE] = 0;
        for (int i = 0; i < CALLS; i++) {
            char what[120];
            snprintf(what, sizeof what, "%s | %zu | %zu | %s", lists[k].name, job.count, job.bytes, calls[i]);
            row(what, best + SIDES * i);
        }
        give_back(&job);
    }
}

// ---- against an earlier archive

uint32_t before_list_write(const uint32_t *list, size_t list_len, uint8_t *target, size_t target_len, uint64_t *answer,
                           size_t answer_len) __attribute__((weak));
uint32_t before_list_read(const uint8_t *file, size_t file_len, uint32_t *cells, size_t cells_len, uint64_t *answer,
                          size_t answer_len) __attribute__((weak));

enum { BEFORE, NOW, PAIR };

// Contender who of the call c is c * PAIR + who.
static void run_pair(void *of, int contender) {
    struct job *job = of;
    uint64_t *done = job->done + contender;
    uint32_t *said = job->said + contender;
    if (contender / PAIR == WRITE)
        *said = (contender % PAIR == NOW ? mitongory_list_write : before_list_write)(job->list, job->count, job->file, job->len,
                                                                                     done, 1);
    else
        *said = (contender % PAIR == NOW ? mitongory_list_read : before_list_read)(job->file, job->bytes, job->cells, job->count,
                                                                                   done, 1);
}

// The contender did what the call asks: it told the list's count or the file's bytes, and the list is in the cells.
static int good(struct job *job, int contender) {
    uint64_t done = contender / PAIR == WRITE ? job->bytes : job->count;
    run_pair(job, contender);
    return job->said[contender] == MITONGORY_OK && job->done[contender] == done &&
           (contender / PAIR == WRITE || !memcmp(job->list, job->cells, job->count * sizeof *job->cells));
}

// Writing and reading good files.
void time_files_before(void) {
    head(" list | call | before | now | now / before ");
    for (int k = 0; k < LISTS; k++) {
        progress("before and now: list files, %s", lists[k].name);
        struct job job = drawn(k);
        double best[2 * PAIR];
        least((struct race){run_pair, 0, &job, 2 * PAIR}, 4, job.count < 100000 ? 400 : 60, best);
        for (int c = WRITE; c <= READ; c++) {
            double *pair = best + c * PAIR;
            if (!good(&job, c * PAIR + BEFORE) || !good(&job, c * PAIR + NOW)) {
                printf("%s, %s: a wrong answer\n", lists[k].name, calls[c]);
                exit(1);
            }
            printf("| %s | %s | %.3g | %.3g | %.2f |\n", lists[k].name, calls[c], pair[BEFORE] / job.count, pair[NOW] / job.count,
                   pair[NOW] / pair[BEFORE]);
        }
        give_back(&job);
    }
}
