// Times several contenders against each other, and prints tables.
#ifndef TIMING_H
#define TIMING_H
#include <stddef.h>

enum { LIBRARY, YARDSTICK, NAIVE, SIDES };

// What is timed: contenders 0 to count - 1, which do the same on one job. After its first run each is looked at, where
// there is something to look at; that is not timed.
struct race {
    void (*run)(void *job, int contender);
    void (*look)(void *job, int contender);
    void *job;
    int count;
};

// Runs the contenders in turn, and that some times over, so that whatever else the machine does falls on all alike: at
// least twice, and then until the seconds are over or it has been done so many times. Each one's least time in nanoseconds
// goes to best.
void least(struct race race, double seconds, int most, double *best);

// A table's head: its columns, divided by |.
void head(const char *columns);

// A row: what it is, nanoseconds of the three sides (0: not measured) and their ratios.
void row(const char *what, const double *ns);

// The rows of all tables so far by group (a method, say): how many, the median and the largest of library / C and the least
// of naive / library.
void note(int group, const double *ns);
void summary(const char *const *groups, int count);

// Puts ratios in rising order.
void sort(double *ratios, int count);

// A line of progress.
void progress(const char *format, ...) __attribute__((format(printf, 1, 2)));
#endif
