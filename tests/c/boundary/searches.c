/* Searches of the papers by every method: accepted in every way to stop, and refused for every reason. */
#include <mitongory.h>
#include <string.h>

#include "bounds.h"
#include "papers.h"
#include "parts.h"
#include "search_call.h"

enum { MORE_BYTES = 20, MORE_SCRATCH = 600, MORE_ANSWER = 5 };

static const uint32_t no_method = MITONGORY_TAIL + 1;

/* Paper 1, and then with more bytes than its bits take. */
static void first_paper(uint32_t method, uint32_t steps)
{
    static const uint32_t places[] = {PAPER1_OCCURRENCE};
    struct search q = paper1(method);
    uint8_t text[MORE_BYTES], pattern[MORE_BYTES], fixed[MORE_BYTES];
    accepted("paper 1", q, steps, 1, PAPER1_PLACES, MITONGORY_DONE, places);
    memset(text, paper1_pattern[0], sizeof text);
    memcpy(text, paper1_text, sizeof paper1_text);
    memset(pattern, 0xff, sizeof pattern);
    memcpy(pattern, paper1_pattern, sizeof paper1_pattern);
    memset(fixed, 0, sizeof fixed);
    memcpy(fixed, all_fixed, sizeof paper1_pattern);
    q.text = text;
    q.text_len = sizeof text;
    q.pattern = pattern;
    q.pattern_len = sizeof pattern;
    q.fixed = fixed;
    q.fixed_len = sizeof fixed;
    accepted("more bytes than needed", q, steps, 1, PAPER1_PLACES, MITONGORY_DONE, places);
}

/*
 * Paper 2 with too few cells, whose cut step is not counted and is made again by the next call; with no budget, from marks
 * at the end, and with no place.
 */
static void second_paper(uint32_t method, uint32_t steps_to_full, uint32_t steps_from_there)
{
    struct search q = paper2(method);
    q.list_len = 1;
    accepted("paper 2 with one cell", q, steps_to_full, 1, 6, MITONGORY_FULL, paper2_occurrences);
    q.list_len = 0;
    accepted("paper 2 with no cell", q, 0, 0, 0, MITONGORY_FULL, NULL);
    q.list_len = 1;
    q.budget = steps_to_full;
    if (steps_to_full > 0)
        accepted("no step left for the one that is cut", q, steps_to_full, 1, 6, MITONGORY_SPENT, paper2_occurrences);
    q.budget = steps_to_full + 1;
    accepted("a step left for the one that is cut", q, steps_to_full, 1, 6, MITONGORY_FULL, paper2_occurrences);
    q.mark = 6;
    q.list_len = 2;
    q.budget = UINT32_MAX;
    accepted("from the occurrence that found no cell", q, steps_from_there, 2, PAPER2_PLACES, MITONGORY_DONE,
             paper2_occurrences + 1);
    q = paper2(method);
    q.budget = 0;
    accepted("no budget", q, 0, 0, 0, MITONGORY_SPENT, NULL);
    q.mark = PAPER2_PLACES;
    accepted("no budget at the end", q, 0, 0, PAPER2_PLACES, MITONGORY_DONE, NULL);
    q.budget = 1;
    q.mark = PAPER2_PLACES - 1;
    accepted("the last place", q, 1, 1, PAPER2_PLACES, MITONGORY_DONE, paper2_occurrences + 2);
    q = paper2(method);
    q.mark = PAPER2_PLACES;
    q.answer_len = MITONGORY_ANSWER_CELLS + MORE_ANSWER;
    q.scratch_len = MITONGORY_SCRATCH_CELLS + MORE_SCRATCH;
    accepted("more cells than needed", q, 0, 0, PAPER2_PLACES, MITONGORY_DONE, NULL);
    q.n = PAPER2_M - 1;
    q.mark = 0;
    accepted("a pattern longer than the text", q, 0, 0, 0, MITONGORY_DONE, NULL);
    q = paper2(method);
    q.text_len = 0;
    q.n = 0;
    accepted("an empty text", q, 0, 0, 0, MITONGORY_DONE, NULL);
}

/* A text of n bits and a pattern of m bits, one byte each; all else as for paper 1. */
static struct search one_byte_each(uint32_t method, const char *text, uint64_t n, const char *pattern, uint64_t m)
{
    struct search q = paper1(method);
    q.text = text, q.text_len = 1, q.n = n;
    q.pattern = pattern, q.pattern_len = q.fixed_len = 1, q.m = m;
    return q;
}

/* The pattern 111 in 11111, whatever the bits after the text's last are. Plain and tail move by one place. */
static void ones(uint32_t method)
{
    static const uint32_t places[] = {0, 1, 2};
    struct search q = one_byte_each(method, "\xf8", 5, "\xe0", 3);
    accepted("occurrences that overlap", q, 3, 3, 3, MITONGORY_DONE, places);
    q.text = "\xff";
    accepted("bits after the last one", q, 3, 3, 3, MITONGORY_DONE, places);
}

/*
 * The pattern 0011 in 10010011 by tail. The first window, 1001, ends in 001, which begins the pattern but does not end
 * it: the mark moves by one place only.
 */
static void beginning_of_the_pattern(void)
{
    static const uint32_t places[] = {4};
    struct search q = one_byte_each(MITONGORY_TAIL, "\x93", 8, "\x30", 4);
    accepted("0011 in 10010011", q, 3, 1, 5, MITONGORY_DONE, places);
    q.budget = 1;
    accepted("its first step", q, 1, 0, 1, MITONGORY_SPENT, NULL);
    q.mark = 1;
    accepted("its second step", q, 1, 0, 4, MITONGORY_SPENT, NULL);
    q.mark = 4;
    accepted("its third step", q, 1, 1, 5, MITONGORY_DONE, places);
    q.list_len = 0;
    accepted("its third step with no cell", q, 0, 0, 4, MITONGORY_FULL, NULL);
}

static void refused_n(const char *name, struct search q, uint64_t n, uint32_t refusal)
{
    q.n = n;
    refused(name, q, refusal);
}

static void refused_m(const char *name, struct search q, uint64_t m, uint32_t refusal)
{
    q.m = m;
    refused(name, q, refusal);
}

static void refused_mark(const char *name, struct search q, uint32_t mark)
{
    q.mark = mark;
    refused(name, q, MITONGORY_BEYOND_END);
}

static void refused_scratch(const char *name, struct search q, size_t scratch_len)
{
    q.scratch_len = scratch_len;
    refused(name, q, MITONGORY_SCRATCH_TOO_SHORT);
}

/* 17 where the second run has too few bytes, after 4 and before 6 and 7; just the bytes are enough. */
static void short_second_run(struct search q)
{
    for (q.fixed_len = 0; q.fixed_len < PAPER2_PATTERN_BYTES; q.fixed_len++) {
        struct search wrong = q;
        refused("too few bytes of the second run", wrong, MITONGORY_FIXED_BYTES_MISSING);
        wrong.scratch_len = 0;
        refused("and no scratch", wrong, MITONGORY_FIXED_BYTES_MISSING);
        wrong.mark = UINT32_MAX;
        refused("and the largest mark", wrong, MITONGORY_FIXED_BYTES_MISSING);
        wrong.pattern_len = q.fixed_len;
        refused("and as few pattern bytes", wrong, MITONGORY_PATTERN_BYTES_MISSING);
        wrong.fixed_len = PAPER2_PATTERN_BYTES;
        refused("only the pattern bytes", wrong, MITONGORY_PATTERN_BYTES_MISSING);
    }
    q.fixed_len = PAPER2_PATTERN_BYTES;
    q.mark = PAPER2_PLACES;
    accepted("just the bytes of the second run", q, 0, 0, PAPER2_PLACES, MITONGORY_DONE, NULL);
}

/* Every refusal but those of the method, with the least and the largest number that it is given for. */
static void refused_by_every_method(uint32_t method)
{
    static const uint8_t zeros[LARGEST_M / 8 + 1];
    const struct search good = paper2(method);
    struct search q = good;
    refused_n("n = 2^30 + 1", good, LARGEST_N + 1, MITONGORY_TEXT_TOO_LONG);
    refused_n("the largest n", good, UINT64_MAX, MITONGORY_TEXT_TOO_LONG);
    refused_n("an n of 33 bits", good, TWO_TO_32 + PAPER2_N, MITONGORY_TEXT_TOO_LONG);
    refused_n("n = 2^30 with five bytes", good, LARGEST_N, MITONGORY_TEXT_BYTES_MISSING);
    refused_n("one byte too few", good, PAPER2_TEXT_BYTES * 8 + 1, MITONGORY_TEXT_BYTES_MISSING);
    q.text_len = 0;
    refused("no text bytes", q, MITONGORY_TEXT_BYTES_MISSING);

    refused_m("m = 0", good, 0, MITONGORY_PATTERN_LENGTH);
    q = good;
    q.pattern_len = 0;
    refused("no pattern bytes", q, MITONGORY_PATTERN_BYTES_MISSING);
    q.pattern = zeros;
    q.pattern_len = sizeof zeros;
    refused_m("m = 2049", q, LARGEST_M + 1, MITONGORY_PATTERN_LENGTH);
    refused_m("the largest m", q, UINT64_MAX, MITONGORY_PATTERN_LENGTH);
    refused_m("an m of 33 bits", q, TWO_TO_32 + PAPER2_M, MITONGORY_PATTERN_LENGTH);
    q.pattern_len = LARGEST_M / 8 - 1;
    refused_m("m = 2048 with 255 bytes", q, LARGEST_M, MITONGORY_PATTERN_BYTES_MISSING);
    q.pattern_len = LARGEST_M / 8;
    q.fixed_len = LARGEST_M / 8 - 1;
    refused_m("m = 2048 with 255 bytes of the second run", q, LARGEST_M, MITONGORY_FIXED_BYTES_MISSING);
    q.fixed_len = LARGEST_M / 8;
    q.m = method == MITONGORY_TAIL ? MOST_M_TAIL : LARGEST_M;
    q.scratch_len = scratch_for(method, q.m);
    accepted("the largest m that the method takes", q, 0, 0, 0, MITONGORY_DONE, NULL);

    short_second_run(good);
    refused_mark("a mark after the end", good, PAPER2_PLACES + 1);
    refused_mark("the largest mark", good, UINT32_MAX);
    refused_scratch("one scratch cell too few", good, scratch_for(method, good.m) - 1);
    refused_scratch("no scratch", good, 0);
    q = good;
    for (q.answer_len = 0; q.answer_len < MITONGORY_ANSWER_CELLS; q.answer_len++)
        refused("too few answer cells", q, MITONGORY_ANSWER_CELLS_MISSING);
}

/* 17 comes before 5. */
static void short_and_unfit(const char *name, struct search q, uint64_t m)
{
    q.fixed_len = (size_t)(m + 7) / 8 - 1;
    refused_m(name, q, m, MITONGORY_FIXED_BYTES_MISSING);
    q.fixed_len++;
    refused_m(name, q, m, MITONGORY_PATTERN_UNFIT);
}

static void refused_for_a_method(void)
{
    refused_m("hash, m = 7", paper1(MITONGORY_HASH), LEAST_M_HASH - 1, MITONGORY_PATTERN_UNFIT);
    refused_m("skip, m = 14", paper2(MITONGORY_SKIP), LEAST_M_SKIP - 1, MITONGORY_PATTERN_UNFIT);
    refused("paper 1 by skip", paper1(MITONGORY_SKIP), MITONGORY_PATTERN_UNFIT);
    short_and_unfit("hash, m = 7, and a short second run", paper1(MITONGORY_HASH), LEAST_M_HASH - 1);
    short_and_unfit("skip, m = 14, and a short second run", paper2(MITONGORY_SKIP), LEAST_M_SKIP - 1);
    refused_mark("the mark 28 of document 01", paper1(MITONGORY_PLAIN), PAPER1_PLACES + 1);
    refused("a good call by method 5", paper2(no_method), MITONGORY_UNKNOWN_METHOD);
}

/* Tail on zeros: its largest m and its least, one bit more, and where the refusal for that stands among the others. */
static void longest_by_tail(void)
{
    static const uint8_t zeros[LARGEST_M / 8];
    static const uint32_t places[] = {0, 1, 2};
    struct search q = paper1(MITONGORY_TAIL);
    q.text = q.pattern = zeros;
    q.n = MOST_M_TAIL + 2;
    q.text_len = q.pattern_len = q.fixed_len = MOST_M_TAIL / 8 + 1;
    q.m = MOST_M_TAIL;
    accepted("tail, m = 64", q, 3, 3, 3, MITONGORY_DONE, places);
    q.n = 3;
    q.m = 1;
    accepted("tail, m = 1", q, 3, 3, 3, MITONGORY_DONE, places);
    q.n = MOST_M_TAIL + 2;
    refused_m("tail, m = 65", q, MOST_M_TAIL + 1, MITONGORY_PATTERN_UNFIT);
    q.pattern_len = q.fixed_len = LARGEST_M / 8;
    refused_m("tail, m = 2048", q, LARGEST_M, MITONGORY_PATTERN_UNFIT);

    q.m = MOST_M_TAIL + 1;
    q.pattern_len = q.fixed_len = MOST_M_TAIL / 8;
    q.mark = UINT32_MAX;
    q.scratch_len = 0;
    refused("tail, m = 65: first the pattern bytes", q, MITONGORY_PATTERN_BYTES_MISSING);
    q.pattern_len++;
    refused("tail, m = 65: then the second run's bytes", q, MITONGORY_FIXED_BYTES_MISSING);
    q.fixed_len++;
    refused("tail, m = 65: then the pattern's length", q, MITONGORY_PATTERN_UNFIT);
    q.mark = 0;
    refused("tail, m = 65: before the scratch", q, MITONGORY_PATTERN_UNFIT);
    q.m = MOST_M_TAIL;
    q.mark = 4;
    refused("tail, m = 64: then the mark", q, MITONGORY_BEYOND_END);
    q.mark = 3;
    refused("tail, m = 64: then the scratch", q, MITONGORY_SCRATCH_TOO_SHORT);
    q.scratch_len = 1;
    refused("tail, m = 64: one scratch cell too few", q, MITONGORY_SCRATCH_TOO_SHORT);
    q.scratch_len = 2;
    accepted("tail, m = 64: and then it is accepted", q, 0, 0, 3, MITONGORY_DONE, NULL);
}

/* Everything is wrong at first; then one thing after the other is put right, in the order of the refusals. */
static void order_of_refusals(void)
{
    struct search q = paper1(no_method);
    q.n = UINT64_MAX;
    q.m = 0;
    q.pattern_len = q.fixed_len = 0;
    q.mark = UINT32_MAX;
    q.scratch_len = 0;
    q.answer_len = MITONGORY_ANSWER_CELLS - 1;
    refused("method 5", q, MITONGORY_UNKNOWN_METHOD);
    q.method = 256;
    refused("method 256", q, MITONGORY_UNKNOWN_METHOD);
    q.method = UINT32_MAX;
    refused("the largest method", q, MITONGORY_UNKNOWN_METHOD);
    q.method = MITONGORY_SKIP;
    refused("then the answer cells", q, MITONGORY_ANSWER_CELLS_MISSING);
    q.answer_len = MITONGORY_ANSWER_CELLS;
    refused("then n", q, MITONGORY_TEXT_TOO_LONG);
    q.n = PAPER1_TEXT_BYTES * 8 + 1;
    refused("then the text bytes", q, MITONGORY_TEXT_BYTES_MISSING);
    q.n = PAPER1_N;
    refused("then m", q, MITONGORY_PATTERN_LENGTH);
    q.m = PAPER1_M;
    refused("then the pattern bytes", q, MITONGORY_PATTERN_BYTES_MISSING);
    q.pattern_len = PAPER1_PATTERN_BYTES;
    refused("then the second run's bytes", q, MITONGORY_FIXED_BYTES_MISSING);
    q.fixed_len = PAPER1_PATTERN_BYTES - 1;
    refused("then the second run's last byte", q, MITONGORY_FIXED_BYTES_MISSING);
    q.fixed_len = PAPER1_PATTERN_BYTES;
    refused("then the pattern's length for the method", q, MITONGORY_PATTERN_UNFIT);
    q.method = MITONGORY_HASH;
    refused("then the mark", q, MITONGORY_BEYOND_END);
    q.mark = PAPER1_PLACES;
    refused("then the scratch", q, MITONGORY_SCRATCH_TOO_SHORT);
    q.scratch_len = 511;
    refused("then its last cell", q, MITONGORY_SCRATCH_TOO_SHORT);
    q.scratch_len = 512;
    accepted("and then it is accepted", q, 0, 0, PAPER1_PLACES, MITONGORY_DONE, NULL);
}

void searches(void)
{
    static const uint32_t steps_to_full[] = {6, 1, 0, 0, 1}, steps_from_there[] = {7, 2, 1, 1, 2};
    uint32_t method;
    first_paper(MITONGORY_PLAIN, 27);
    first_paper(MITONGORY_HASH, 5);
    first_paper(MITONGORY_WIDE, 1);
    first_paper(MITONGORY_TAIL, 5);
    for (method = MITONGORY_PLAIN; method <= MITONGORY_TAIL; method++) {
        second_paper(method, steps_to_full[method], steps_from_there[method]);
        refused_by_every_method(method);
    }
    ones(MITONGORY_PLAIN);
    ones(MITONGORY_TAIL);
    beginning_of_the_pattern();
    refused_for_a_method();
    longest_by_tail();
    order_of_refusals();
}
