// See timing.h.
#include "timing.h"
#include <stdarg.h>
#include <stdio.h>
#include <stdlib.h>
#include <string.h>
#include <time.h>

static double clock_of(clockid_t id) {
    struct timespec t;
    clock_gettime(id, &t);
    return t.tv_sec * 1e9 + t.tv_nsec;
}

void least(struct race race, double seconds, int most, double *best) {
    double end = clock_of(CLOCK_MONOTONIC) + seconds * 1e9;
    for (int i = 0; i < race.count; i++) best[i] = 1e300;
    for (int k = 0; k < 2 || (k < most && clock_of(CLOCK_MONOTONIC) < end); k++)
        for (int i = 0; i < race.count; i++) {
            double from = clock_of(CLOCK_THREAD_CPUTIME_ID); // not the time that other programs took
            race.run(race.job, i);
            double took = clock_of(CLOCK_THREAD_CPUTIME_ID) - from;
            if (took < best[i]) best[i] = took;
            if (k == 0 && race.look) race.look(race.job, i);
        }
}

void head(const char *columns) {
    int count = 1;
    for (const char *c = columns; *c; c++) count += *c == '|';
    printf("\n|%s|\n|", columns);
    for (int i = 0; i < count; i++) printf("---|");
    printf("\n");
}

// Three digits that say something, whatever the size.
static void number(double x) {
    if (x == 0)
        printf(" – |");
    else
        printf(" %.*f |", x >= 100 ? 0 : x >= 10 ? 1 : x >= 1 ? 2 : 3, x);
}

void row(const char *what, const double *ns) {
    printf("| %s |", what);
    for (int i = 0; i < SIDES; i++) number(ns[i]);
    number(ns[LIBRARY] / ns[YARDSTICK]);
    number(ns[NAIVE] / ns[LIBRARY]);
    printf("\n");
    fflush(stdout);
}

enum { GROUPS = 8, ROWS = 256 };
static double ratios[GROUPS][2][ROWS];
static int noted[GROUPS];

void note(int group, const double *ns) {
    int i = noted[group]++;
    ratios[group][0][i] = ns[LIBRARY] / ns[YARDSTICK];
    ratios[group][1][i] = ns[NAIVE] / ns[LIBRARY];
}

static int rising(const void *a, const void *b) {
    double x = *(const double *)a, y = *(const double *)b;
    return (x > y) - (x < y);
}

void sort(double *ratios, int count) { qsort(ratios, count, sizeof *ratios, rising); }

void summary(const char *const *groups, int count) {
    head(" | rows | library / C, median | library / C, largest | naive / library, least | naive / library, median ");
    for (int g = 0; g < count; g++) {
        int k = noted[g];
        for (int i = 0; i < 2; i++) sort(ratios[g][i], k);
        printf("| %s | %d |", groups[g], k);
        number(ratios[g][0][k / 2]), number(ratios[g][0][k - 1]);
        number(ratios[g][1][0]), number(ratios[g][1][k / 2]);
        printf("\n");
        noted[g] = 0;
    }
}

void progress(const char *format, ...) {
    va_list values;
    va_start(values, format);
    vfprintf(stderr, format, values);
    va_end(values);
    fputc('\n', stderr);
}
