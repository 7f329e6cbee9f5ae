// The benchmark's parts: the check, the timed searches, for a pattern and for a set, the timed list files, the timed sitting,
// the timed reads of eight bits, and the comparison with an earlier archive. Tables go to standard output as Markdown,
// progress to standard error.
#ifndef BENCH_H
#define BENCH_H

int check(long rounds);
long check_sets(long rounds);
long check_sittings(long rounds);
long check_eights(long rounds);
void time_texts(int log2);
void time_wild(int log2);
void time_hard(void);
void time_short(void);
void time_tables(void);
void time_sets(int log2);
void time_files(void);
void time_files_before(void);
void time_sitting(void);
void time_eights(void);
void time_eights_before(void);
void time_before(void);
#endif
