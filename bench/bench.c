// Measures the library against the same rules in C and against naive Rust, on the same data in the same run.
//   bench check [ROUNDS]    small drawn inputs, every answer held to a bit-by-bit reading of the rules
//   bench texts [BITS_LOG2] searches in texts with 50, 70 and 90 % zeros, nanoseconds for each bit
//   bench wild [BITS_LOG2]  the same with a field of eight wild bits in each pattern
//   bench hard              searches on texts and patterns on which little is ruled out early
//   bench short             calls with a budget of one step, nanoseconds for a call
//   bench tables            calls on a text of one place, with wild bits of every kind against none
//   bench sets [BITS_LOG2]  searches for a set of patterns, nanoseconds for each bit
//   bench files             the position list file, nanoseconds for a position
//   bench sitting           the marking of a sitting, nanoseconds for a position
//   bench eights            eight bits by themselves, nanoseconds for a call
//   bench before            searches, list files and eight bits against an earlier archive of the library, where one was linked
//   bench all               all of the timed parts, but for the last one
#include "bench.h"
#include <stdio.h>
#include <stdlib.h>
#include <string.h>

int main(int count, char **args) {
    const char *mode = count > 1 ? args[1] : "";
    long number = count > 2 ? atol(args[2]) : 0;
    int all = !strcmp(mode, "all"), known = all;
    if (!strcmp(mode, "check")) return check(number ? number : 100);
    if (all || !strcmp(mode, "texts")) {
        printf("\n## Searches\n\nNanoseconds for each bit of the text. Scratch is the memory that the call needs, in bytes; it is\n"
               "lent no more.\n");
        known = 1, time_texts(number ? (int)number : 27);
    }
    if (all || !strcmp(mode, "wild")) {
        printf("\n## Searches with wild bits\n\nThe same with a field of eight wild bits at a drawn place of each pattern.\n");
        known = 1, time_wild(number ? (int)number : 27);
    }
    if (all || !strcmp(mode, "hard")) {
        printf("\n## Hard texts\n\nNanoseconds for each bit of texts of 2^19 bits on which little is ruled out early.\n"
               "Patterns of 8, 20 and 32 bits are there for tail alone.\n");
        known = 1, time_hard();
    }
    if (all || !strcmp(mode, "short")) {
        printf("\n## Calls with a budget of one step\n\nNanoseconds for a call, which are those of making its tables.\n");
        known = 1, time_short();
    }
    if (all || !strcmp(mode, "tables")) {
        printf("\n## Tables with wild bits\n\n"
               "Nanoseconds for a call on a text of m bits, which has one place. Drawn patterns, zeros and patterns of period 6\n"
               "have one wild bit, some, many, all of them wild, fields of eight at the beginning, the end and between, and every\n"
               "ninth bit. Each is held against the same pattern with no wild bit. A row has the largest ratio, and the pattern\n"
               "and the wild bits that the library has it with; last comes the largest library / C, whatever the wild bits.\n");
        known = 1, time_tables();
    }
    if (all || !strcmp(mode, "sets")) {
        printf("\n## Searches for a set\n\n"
               "1, 8 and 64 patterns of m bits, drawn once for each row: nanoseconds for each bit of the text. Library and C make one\n"
               "pass; the plain searches are those of the library for each pattern by itself, one after the other, on the first\n"
               "eighth of the text. At 90 %% zeros, 64 patterns of 20 bits have more than one occurrence a place between them. So that\n"
               "the list of pairs stays short enough, the text has 2^22 bits there. Last come calls with a budget of one step, in\n"
               "nanoseconds for a call, which are those of making its tables.\n");
        known = 1, time_sets(number ? (int)number : 27);
    }
    if (all || !strcmp(mode, "files")) {
        printf("\n## The position list file\n\nNanoseconds for each position. With no cells the file is judged, and the answer is\n"
               "refusal 14.\n");
        known = 1, time_files();
    }
    if (all || !strcmp(mode, "sitting")) {
        printf("\n## A sitting\n\n"
               "256 sheets against a key of 100,000 positions: nanoseconds for each position of the key, once for each\n"
               "sheet, and of the sheets. The C code is timed with two merges, one that branches on the order of two\n"
               "positions and one that does not, and the faster of the two is its time.\n");
        known = 1, time_sitting();
    }
    if (all || !strcmp(mode, "eights")) {
        printf("\n## Eight bits\n\n"
               "Eight bits by themselves, with how many of them lie before n: nanoseconds for a call at a place of a text of 2^17\n"
               "bits, on the average of eight loops that lie at different addresses.\n");
        known = 1, time_eights();
    }
    if (!strcmp(mode, "before")) known = 1, time_before();
    if (!known)
        fprintf(stderr, "bench check | texts | wild | hard | short | tables | sets | files | sitting | eights | before | all\n");
    return known ? 0 : 2;
}
