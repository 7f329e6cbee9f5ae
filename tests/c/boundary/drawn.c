/* Drawn texts and patterns, with wild bits in every way: the calls of every method against a search bit by bit. */
#include <mitongory.h>
#include <string.h>

#include "check.h"
#include "draw.h"
#include "naive.h"
#include "papers.h"
#include "parts.h"
#include "second_run.h"

enum { ROUNDS = 200 * WAYS, MOST_BYTES = MOST_PLACES / 8, SHORT_PATTERN = 24, LONG_PATTERN = 200 };
enum { FEW_CELLS = 4, FEW_STEPS = 6 };
enum { ZEROS_M = 16, ZEROS_N = 40, ZEROS_BYTES = ZEROS_N / 8 };

/* A pattern that occurs in the text from a drawn place on. */
static void take_from_text(const struct search *q, uint8_t *pattern)
{
    memset(pattern, 0, MOST_BYTES);
    copy_bits(q->text, draw(q->n - q->m + 1), q->m, pattern);
}

/* A call for all places, and the same with another pattern that agrees with the same texts. */
static void all_places(struct search q, enum side side, uint32_t more_cells)
{
    uint8_t pattern[MOST_BYTES], fixed[MOST_BYTES];
    struct naive r = {{0}, {0}};
    q.list_len = MOST_PLACES;
    if (!unfit(q.method, q.m))
        search_naively(&q, &r);
    q.list_len = (size_t)r.told[MITONGORY_OCCURRENCES] + more_cells;
    search_like(&q, side, &r);
    memcpy(pattern, q.pattern, q.pattern_len);
    memcpy(fixed, q.fixed, q.fixed_len);
    change_the_rest(q.m, pattern, fixed);
    q.pattern = pattern;
    q.fixed = fixed;
    search_like(&q, side, &r);
}

/* A call from any mark on, with few cells or few steps. */
static void some_places(struct search q, enum side side)
{
    struct naive r = {{0}, {0}};
    q.mark = (uint32_t)draw(q.m <= q.n ? q.n - q.m + 2 : 1);
    q.list_len = draw(FEW_CELLS);
    q.budget = draw(3) == 0 ? UINT32_MAX : (uint32_t)draw(FEW_STEPS);
    if (!unfit(q.method, q.m))
        search_naively(&q, &r);
    search_like(&q, side, &r);
}

static void one_round(uint32_t round)
{
    const enum side side = round % 2 == 0 ? AT_START : AT_END;
    uint8_t text[MOST_BYTES], pattern[MOST_BYTES], fixed[MOST_BYTES];
    struct search q = paper1(MITONGORY_PLAIN);
    uint64_t i;
    for (i = 0; i < MOST_BYTES; i++) {
        text[i] = draw_byte();
        pattern[i] = draw_byte();
    }
    if (draw(3) == 0)
        draw_periodic(text, MOST_BYTES);
    q.text = text, q.n = draw(8 * MOST_BYTES + 1), q.text_len = (size_t)(q.n + 7) / 8;
    q.pattern = pattern, q.m = 1 + draw(draw(2) == 0 ? SHORT_PATTERN : LONG_PATTERN);
    q.fixed = fixed, q.pattern_len = q.fixed_len = (size_t)(q.m + 7) / 8;
    if (draw(3) > 0 && q.m <= q.n)
        take_from_text(&q, pattern);
    draw_fixed((enum wild)(round % WAYS), q.m, fixed);
    for (q.method = MITONGORY_PLAIN; q.method <= MITONGORY_TAIL; q.method++) {
        q.scratch_len = scratch_for(q.method, q.m) + draw(3);
        all_places(q, side, round % 3);
        some_places(q, side);
    }
}

/*
 * Zeros in zeros, with one bit of the pattern wild and a text that ends at any bit of a byte: the bits after it would agree
 * too. From a drawn mark on, and from 0.
 */
static void zeros_to_the_end(unsigned wild_bit)
{
    static const uint8_t zeros[ZEROS_BYTES];
    uint8_t fixed[ZEROS_M / 8] = {0};
    struct search q = paper1(MITONGORY_PLAIN);
    struct naive r;
    unsigned j;
    for (j = 0; j < ZEROS_M; j++)
        set_bit(fixed, j, j != wild_bit);
    q.text = q.pattern = zeros, q.fixed = fixed, q.pattern_len = q.fixed_len = sizeof fixed, q.m = ZEROS_M;
    q.list_len = ZEROS_N;
    for (q.n = ZEROS_M; q.n <= ZEROS_N; q.n++) {
        q.text_len = (size_t)(q.n + 7) / 8;
        for (q.method = MITONGORY_PLAIN; q.method <= MITONGORY_TAIL; q.method++) {
            q.scratch_len = scratch_for(q.method, q.m);
            q.mark = (uint32_t)draw(q.n - q.m + 2);
            search_naively(&q, &r);
            search_like(&q, AT_END, &r);
            q.mark = 0;
            search_naively(&q, &r);
            search_like(&q, AT_START, &r);
        }
    }
}

void drawn(void)
{
    uint32_t round;
    unsigned wild_bit;
    about("drawn input");
    for (round = 0; round < ROUNDS; round++)
        one_round(round);
    about("zeros");
    for (wild_bit = 0; wild_bit < ZEROS_M; wild_bit++)
        zeros_to_the_end(wild_bit);
}
