/*
 * The scratch: the figure that is told, for every method and every m; and for each of them a search with a scratch of just
 * so many cells, and with one less.
 */
#include <mitongory.h>

#include "bounds.h"
#include "check.h"
#include "draw.h"
#include "naive.h"
#include "papers.h"
#include "parts.h"
#include "second_run.h"

enum { MORE_BITS = 80, MOST_BYTES = (LARGEST_M + MORE_BITS) / 8 };

static const uint32_t no_method = MITONGORY_TAIL + 1;

/* Expects, on both sides, the result and the figure; an answer of so many cells is lent. */
static void cells_told(uint32_t method, uint64_t m, size_t answer_len, uint32_t result, uint64_t told)
{
    int side;
    for (side = AT_START; side < SIDES; side++) {
        struct lent answer = lend(answer_len * sizeof told, NULL, (enum side)side, WRITTEN);
        check(mitongory_scratch_cells(method, m, at(&answer), answer_len) == result, "result");
        check(holds(&answer, &told, result == MITONGORY_OK ? sizeof told : 0), "answer");
        give_back(&answer);
    }
}

/* 100, 101, 3 and 5 in this order: everything is wrong at first, and then one thing after the other is put right. */
static void refused_cells(void)
{
    static const uint64_t wrong_m[] = {0, LARGEST_M + 1, TWO_TO_32 + PAPER2_M, UINT64_MAX};
    size_t i;
    uint32_t method;
    about("scratch cells that are refused");
    for (i = 0; i < sizeof wrong_m / sizeof *wrong_m; i++) {
        cells_told(no_method, wrong_m[i], 0, MITONGORY_UNKNOWN_METHOD, 0);
        cells_told(256 + MITONGORY_HASH, wrong_m[i], 1, MITONGORY_UNKNOWN_METHOD, 0);
        cells_told(UINT32_MAX, PAPER2_M, 1, MITONGORY_UNKNOWN_METHOD, 0);
        for (method = MITONGORY_PLAIN; method <= MITONGORY_TAIL; method++) {
            cells_told(method, wrong_m[i], 0, MITONGORY_ANSWER_CELLS_MISSING, 0);
            cells_told(method, wrong_m[i], 1, MITONGORY_PATTERN_LENGTH, 0);
        }
    }
    cells_told(MITONGORY_HASH, LEAST_M_HASH - 1, 0, MITONGORY_ANSWER_CELLS_MISSING, 0);
    cells_told(MITONGORY_HASH, LEAST_M_HASH - 1, 1, MITONGORY_PATTERN_UNFIT, 0);
    cells_told(MITONGORY_SKIP, LEAST_M_SKIP - 1, 1, MITONGORY_PATTERN_UNFIT, 0);
    cells_told(MITONGORY_TAIL, MOST_M_TAIL + 1, 1, MITONGORY_PATTERN_UNFIT, 0);
    cells_told(MITONGORY_TAIL, LARGEST_M, 1, MITONGORY_PATTERN_UNFIT, 0);
}

/* Figures by hand; a second answer cell stays. */
static void known_cells(void)
{
    about("scratch cells by hand");
    cells_told(MITONGORY_PLAIN, 1, 1, MITONGORY_OK, 16);
    cells_told(MITONGORY_PLAIN, 2, 2, MITONGORY_OK, 32);
    cells_told(MITONGORY_PLAIN, 9, 1, MITONGORY_OK, 32);
    cells_told(MITONGORY_PLAIN, 10, 1, MITONGORY_OK, 48);
    cells_told(MITONGORY_PLAIN, LARGEST_M, 1, MITONGORY_OK, 4112);
    cells_told(MITONGORY_HASH, LEAST_M_HASH, 1, MITONGORY_OK, 512);
    cells_told(MITONGORY_HASH, LARGEST_M, 2, MITONGORY_OK, 512);
    cells_told(MITONGORY_SKIP, LEAST_M_SKIP, 1, MITONGORY_OK, 271);
    cells_told(MITONGORY_SKIP, LARGEST_M, 1, MITONGORY_OK, 2304);
    cells_told(MITONGORY_WIDE, 1, 1, MITONGORY_OK, 128);
    cells_told(MITONGORY_WIDE, LARGEST_M, 1, MITONGORY_OK, 4222);
    cells_told(MITONGORY_TAIL, 1, 1, MITONGORY_OK, 2);
    cells_told(MITONGORY_TAIL, MOST_M_TAIL, 2, MITONGORY_OK, 2);
}

/* One method and m: what is told, and a search with so many cells and with one less, on both sides. */
static void one_method(struct search q)
{
    const size_t figure = scratch_for(q.method, q.m);
    struct naive r = {{0}, {0}};
    uint64_t told = 0;
    int side;
    if (unfit(q.method, q.m)) {
        check(mitongory_scratch_cells(q.method, q.m, &told, 1) == MITONGORY_PATTERN_UNFIT && told == 0, "no cells");
        q.scratch_len = figure;
        search_like(&q, AT_END, &r);
        return;
    }
    check(mitongory_scratch_cells(q.method, q.m, &told, 1) == MITONGORY_OK && told == figure, "cells");
    search_naively(&q, &r);
    for (side = AT_START; side < SIDES; side++) {
        q.scratch_len = figure;
        search_like(&q, (enum side)side, &r);
        q.scratch_len = figure - 1;
        search_like(&q, (enum side)side, &r);
    }
}

/* A text of fewer than MORE_BITS bits more than the pattern, which occurs in it; its wild bits differ by m. */
static void one_length(uint64_t m)
{
    uint8_t text[MOST_BYTES], pattern[MOST_BYTES] = {0}, fixed[MOST_BYTES];
    struct search q = paper1(MITONGORY_PLAIN);
    uint64_t i;
    for (i = 0; i < sizeof text; i++)
        text[i] = (uint8_t)(m % 3 == 0 ? 0x55 : draw(256));
    q.text = text, q.n = m + draw(MORE_BITS), q.text_len = (size_t)(q.n + 7) / 8;
    q.pattern = pattern, q.m = m, q.pattern_len = (size_t)(m + 7) / 8;
    copy_bits(text, draw(q.n - m + 1), m, pattern);
    draw_fixed((enum wild)(m % WAYS), m, fixed);
    q.fixed = fixed, q.fixed_len = q.pattern_len;
    q.list_len = MORE_BITS;
    for (q.method = MITONGORY_PLAIN; q.method <= MITONGORY_TAIL; q.method++)
        one_method(q);
}

/* The macro is the largest figure that is told for any method and m. */
static void largest_cells(void)
{
    uint64_t m, told, largest = 0;
    uint32_t method;
    for (method = MITONGORY_PLAIN; method <= MITONGORY_TAIL; method++)
        for (m = 1; m <= LARGEST_M; m++)
            if (mitongory_scratch_cells(method, m, &told, 1) == MITONGORY_OK && told > largest)
                largest = told;
    about("the largest figure");
    check(largest == MITONGORY_SCRATCH_CELLS, "the macro");
}

void scratches(void)
{
    uint64_t m;
    refused_cells();
    known_cells();
    about("every method and m, with a scratch of just the cells, and of one less");
    for (m = 1; m <= LARGEST_M; m++)
        one_length(m);
    largest_cells();
}
