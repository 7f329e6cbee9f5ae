/*
 * What the header itself defines: the version, the numbers of a search, of a set and of a sitting, and a sentence for every
 * result.
 */
#include <mitongory.h>
#include <stdio.h>
#include <string.h>

#include "check.h"
#include "parts.h"

/* The results that there are. */
static const uint32_t results[] = {
    MITONGORY_OK,
    MITONGORY_TEXT_TOO_LONG,
    MITONGORY_TEXT_BYTES_MISSING,
    MITONGORY_PATTERN_LENGTH,
    MITONGORY_PATTERN_BYTES_MISSING,
    MITONGORY_PATTERN_UNFIT,
    MITONGORY_BEYOND_END,
    MITONGORY_SCRATCH_TOO_SHORT,
    MITONGORY_LIST_NOT_RISING,
    MITONGORY_TARGET_TOO_SHORT,
    MITONGORY_FILE_ENDS_EARLY,
    MITONGORY_NUMBER_NOT_SHORTEST,
    MITONGORY_NUMBER_TOO_LARGE,
    MITONGORY_BYTES_LEFT_OVER,
    MITONGORY_CELLS_MISSING,
    MITONGORY_TOO_MANY_SHEETS,
    MITONGORY_COUNTS_DIFFER,
    MITONGORY_FIXED_BYTES_MISSING,
    MITONGORY_SET_SIZE,
    MITONGORY_UNKNOWN_METHOD,
    MITONGORY_ANSWER_CELLS_MISSING};

enum { RESULTS = sizeof results / sizeof results[0], BEYOND_ALL_RESULTS = 200 };

static void version(void)
{
    char text[40];
    about("version");
    check(MITONGORY_VERSION_NUMBER == 800, "number of the header");
    check(mitongory_version() == MITONGORY_VERSION_NUMBER, "number of the library");
    check(mitongory_version_0_8() == mitongory_version(), "the two functions");
    snprintf(text, sizeof text, "%d.%d.%d", MITONGORY_VERSION_MAJOR, MITONGORY_VERSION_MINOR, MITONGORY_VERSION_PATCH);
    check(strcmp(text, MITONGORY_VERSION) == 0, "text");
}

static void cells_of_a_search(void)
{
    about("a search");
    check(MITONGORY_SCRATCH_CELLS == 4222, "scratch");
    check(MITONGORY_ANSWER_CELLS == 4, "answer");
    check(MITONGORY_FIXED_BYTES_MISSING == 17, "refusal of the second run");
}

static void cells_of_eight_bits(void)
{
    about("eight bits");
    check(MITONGORY_EIGHT_CELLS == 2, "cells");
    check(MITONGORY_BYTE == 0 && MITONGORY_COUNT == 1, "their order");
}

static void numbers_of_a_set(void)
{
    about("a set");
    check(MITONGORY_MOST_PATTERNS == 64, "patterns");
    check(MITONGORY_SET_SIZE == 18, "refusal");
}

static void numbers_of_a_sitting(void)
{
    about("a sitting");
    check(MITONGORY_SHEETS == 256, "sheets");
    check(MITONGORY_SHEET_CELLS == 3, "cells of a sheet");
    check(MITONGORY_RIGHT == 0 && MITONGORY_MISSED == 1 && MITONGORY_FALSE_POSITIVES == 2, "the order of the cells");
    check(MITONGORY_TOO_MANY_SHEETS == 15 && MITONGORY_COUNTS_DIFFER == 16, "refusals");
}

static int is_result(uint32_t number)
{
    int i;
    for (i = 0; i < RESULTS && results[i] != number; i++)
        ;
    return i < RESULTS;
}

static int is_sentence(const char *text)
{
    const char *stop = strchr(text, '.');
    return text[0] >= 'A' && text[0] <= 'Z' && stop != NULL && stop[1] == '\0';
}

/* Every result has a sentence of its own, and all other numbers share one. */
static void result_texts(void)
{
    const char *unknown = mitongory_result_text(UINT32_MAX);
    int i, j, others = 1;
    uint32_t number;
    about("the text of a result");
    for (i = 0; i < RESULTS; i++) {
        const char *text = mitongory_result_text(results[i]);
        int own = strcmp(text, unknown) != 0;
        for (j = 0; j < i; j++)
            own = own && strcmp(text, mitongory_result_text(results[j])) != 0;
        check(is_sentence(text) && own, text);
    }
    for (number = 0; number < BEYOND_ALL_RESULTS; number++)
        others = others && (is_result(number) || strcmp(mitongory_result_text(number), unknown) == 0);
    check(is_sentence(unknown) && others, "any other number");
}

void header(void)
{
    version();
    cells_of_a_search();
    cells_of_eight_bits();
    numbers_of_a_set();
    numbers_of_a_sitting();
    result_texts();
}
