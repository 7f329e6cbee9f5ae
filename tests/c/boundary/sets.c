/*
 * Searches for a set of patterns: what is found and in what order, every way to stop, every refusal and their order, and
 * the edges.
 */
#include <string.h>

#include "check.h"
#include "draw.h"
#include "naive_sets.h"
#include "papers.h"
#include "parts.h"

enum { MOST = MITONGORY_MOST_PATTERNS, LINE_BYTES = 64, MORE = 9, ENOUGH = 40 }; /* MORE: elements more than needed */

static struct set set;
static struct naive_set naive;

/* A search for patterns in a line, both written as characters. There are cells enough for all pairs. */
static struct set_search search_line(const char *line, const char *patterns)
{
    static uint8_t text[LINE_BYTES];
    uint64_t n;
    memset(text, 0, sizeof text);
    n = pack(line, "1", text);
    empty_set(&set);
    add_patterns(&set, patterns);
    return search_for_set(text, n, &set, ENOUGH);
}

/* The line and the set of most cases, and their pairs. */
static const char *const line = "0110110", *const nested = "1 11 110";
static const uint32_t nested_pairs[] = {1, 0, 1, 1, 1, 2, 2, 0, 4, 0, 4, 1, 4, 2, 5, 0};
enum { NESTED_PAIRS = 8, LINE_N = 7 };

static void small_sets(void)
{
    static const uint32_t apart[] = {0, 1, 1, 0, 2, 2, 3, 1, 4, 0};
    static const uint32_t other_order[] = {1, 0, 1, 1, 1, 2, 2, 1, 4, 0, 4, 1, 4, 2, 5, 1};
    static const uint32_t equal[] = {1, 0, 1, 1, 1, 2, 4, 0, 4, 1, 4, 2}, wild[] = {0, 0, 0, 1, 1, 0, 1, 1, 2, 0};
    static const uint32_t whole[] = {0, 0, 0, 1, 3, 1, 6, 1}, one[] = {1, 0, 4, 0};
    accepted_set("three patterns", search_line(line, "11 0110 1?1"), 6, 5, 6, MITONGORY_DONE, apart);
    accepted_set("each a beginning of the next", search_line(line, nested), 7, NESTED_PAIRS, 7, MITONGORY_DONE,
                 nested_pairs);
    accepted_set("the same in another order", search_line(line, "110 1 11"), 7, NESTED_PAIRS, 7, MITONGORY_DONE,
                 other_order);
    accepted_set("one pattern", search_line(line, "11"), 6, 2, 6, MITONGORY_DONE, one);
    accepted_set("three that are equal", search_line(line, "11 11 11"), 6, 6, 6, MITONGORY_DONE, equal);
    accepted_set("only wild bits", search_line("010", "? ??"), 3, 5, 3, MITONGORY_DONE, wild);
    accepted_set("the whole text and a bit", search_line(line, "0110110 0"), 7, 4, 7, MITONGORY_DONE, whole);
    accepted_set("one longer than the text", search_line(line, "11 01101101"), 6, 2, 6, MITONGORY_DONE, one);
    accepted_set("all longer than the text", search_line(line, "01101101 ?????????"), 0, 0, 0, MITONGORY_DONE, NULL);
    accepted_set("an empty text", search_line("", nested), 0, 0, 0, MITONGORY_DONE, NULL);
}

/* The bits after the last one of the text and of each pattern, and more bytes than needed, never matter. */
static void bits_after_the_last(void)
{
    uint8_t text[MORE + 1], values[MORE + 3], fixed[MORE + 3];
    struct set_search q = search_line(line, nested);
    memset(text, 0xff, sizeof text);
    text[0] = q.text[0] | 1; /* the bit after the line's last */
    memset(values, 0xff, sizeof values);
    memset(fixed, 0xff, sizeof fixed);
    q.text = text;
    q.patterns = values;
    values[2] = 0xdf; /* 110, and then ones */
    q.fixed = fixed;
    accepted_set("ones after the last bit", q, 7, NESTED_PAIRS, 7, MITONGORY_DONE, nested_pairs);
    q.text_len = sizeof text;
    q.patterns_len = sizeof values;
    q.fixed_len = sizeof fixed;
    q.answer_len += MORE;
    accepted_set("more of everything than needed", q, 7, NESTED_PAIRS, 7, MITONGORY_DONE, nested_pairs);
}

/* With so many cells the first call stops here. The next one goes on from there with cells for all. */
static void cells(size_t list_len, uint64_t steps, uint64_t count, uint64_t mark)
{
    const uint64_t stop = mark == LINE_N ? MITONGORY_DONE : MITONGORY_FULL;
    struct set_search q = search_line(line, nested);
    q.list_len = list_len;
    accepted_set("so many cells", q, steps, count, mark, stop, nested_pairs);
    q.mark = (uint32_t)mark;
    q.list_len = ENOUGH;
    accepted_set("from the place that found no cells", q, LINE_N - mark, NESTED_PAIRS - count, LINE_N, MITONGORY_DONE,
                 nested_pairs + PAIR_CELLS * count);
}

/* The first place of the three patterns takes six cells, the next two, the next six, and the last two. */
static void every_list(void)
{
    size_t list_len;
    for (list_len = 0; list_len <= PAIR_CELLS * NESTED_PAIRS + 3; list_len++) {
        if (list_len < 6)
            cells(list_len, 1, 0, 1);
        else if (list_len < 8)
            cells(list_len, 2, 3, 2);
        else if (list_len < 14)
            cells(list_len, 4, 4, 4);
        else if (list_len < 16)
            cells(list_len, 5, 7, 5);
        else
            cells(list_len, LINE_N, NESTED_PAIRS, LINE_N);
    }
}

static void budgets(void)
{
    struct set_search q = search_line(line, nested);
    q.budget = 0;
    accepted_set("no budget", q, 0, 0, 0, MITONGORY_SPENT, NULL);
    q.mark = LINE_N;
    accepted_set("no budget at the end", q, 0, 0, LINE_N, MITONGORY_DONE, NULL);
    q.mark = 1;
    q.list_len = 0;
    accepted_set("no budget and no cell", q, 0, 0, 1, MITONGORY_SPENT, NULL);
    q.budget = 1;
    accepted_set("one step that finds no cell", q, 0, 0, 1, MITONGORY_FULL, NULL);
    q.list_len = 6;
    accepted_set("one step", q, 1, 3, 2, MITONGORY_SPENT, nested_pairs);
    q.budget = 2;
    accepted_set("a step, and one that finds no cell", q, 1, 3, 2, MITONGORY_FULL, nested_pairs);
    q = search_line(line, nested);
    q.budget = LINE_N - 1;
    accepted_set("one step too few", q, LINE_N - 1, NESTED_PAIRS, LINE_N - 1, MITONGORY_SPENT, nested_pairs);
    q.budget = LINE_N;
    accepted_set("just the steps", q, LINE_N, NESTED_PAIRS, LINE_N, MITONGORY_DONE, nested_pairs);
}

/* Every mark up to one after the end, with some budgets and every list up to more cells than all pairs take. */
static void every_call(const char *text, const char *patterns)
{
    static const uint32_t some[] = {0, 1, 3, UINT32_MAX};
    struct set_search q = search_line(text, patterns);
    const uint64_t end = places_of_set(&q);
    size_t most, i;
    about("every mark, some budgets and every list");
    as_naively(&q, AT_END, &naive);
    most = (size_t)naive.told[MITONGORY_OCCURRENCES] * PAIR_CELLS + 3;
    for (q.mark = 0; q.mark <= end + 1; q.mark++)
        for (i = 0; i < sizeof some / sizeof some[0]; i++)
            for (q.list_len = 0; q.list_len <= most; q.list_len++) {
                q.budget = some[i];
                as_naively(&q, q.list_len % 2 == 0 ? AT_START : AT_END, &naive);
            }
}

/* Pattern i is the number i in seven bits, and so is byte i of the text but for its first bit. */
static void so_many_patterns(size_t count)
{
    uint8_t text[SET_ROOM];
    struct set_search q;
    unsigned i;
    empty_set(&set);
    for (i = 0; i < SET_ROOM; i++)
        text[i] = (uint8_t)i;
    for (i = 0; i < count; i++) {
        const uint8_t number = (uint8_t)(i << 1);
        add_pattern(&set, &number, all_fixed, 7);
    }
    q = search_for_set(text, 8 * sizeof text, &set, PAIR_CELLS * MOST_PAIRS);
    if (count == 0 || count > MOST) {
        refused_set("no patterns, or too many", q, MITONGORY_SET_SIZE);
        return;
    }
    about("so many patterns");
    as_naively(&q, AT_START, &naive);
    as_naively(&q, AT_END, &naive);
    check(naive.told[MITONGORY_OCCURRENCES] >= count, "each is found");
}

/* As many patterns as there may be at one place: with one cell too few none of them is written. */
static void one_place_for_all(void)
{
    static const uint8_t one[] = {0x80};
    uint32_t pairs[PAIR_CELLS * MOST] = {0}, i;
    struct set_search q;
    empty_set(&set);
    for (i = 0; i < MOST; i++) {
        add_pattern(&set, one, all_fixed, 1);
        pairs[PAIR_CELLS * i + 1] = i;
    }
    q = search_for_set(one, 1, &set, PAIR_CELLS * MOST);
    accepted_set("64 at one place", q, 1, MOST, 1, MITONGORY_DONE, pairs);
    q.list_len--;
    accepted_set("64 at one place, one cell too few", q, 0, 0, 0, MITONGORY_FULL, NULL);
}

/*
 * A pattern of m bits from the text, the same without its last bit, a short one, and the first with one bit changed. The
 * bits of the text are drawn or alternate.
 */
static void one_length(uint64_t m, int repeats)
{
    enum { MORE_BITS = 80, BYTES = (LARGEST_M + MORE_BITS) / 8 };
    uint8_t text[BYTES], pattern[BYTES] = {0}, shorter[BYTES] = {0};
    const uint64_t n = m + draw(MORE_BITS), changed = draw(m), m2 = 1 + draw(m < 64 ? m : 64);
    struct set_search q;
    size_t i;
    for (i = 0; i < sizeof text; i++)
        text[i] = (uint8_t)(repeats ? 0x55 : draw(256));
    copy_bits(text, draw(n - m + 1), m, pattern);
    copy_bits(text, draw(n - m2 + 1), m2, shorter);
    empty_set(&set);
    add_pattern(&set, pattern, all_fixed, m);
    if (m > 1)
        add_pattern(&set, pattern, all_fixed, m - 1);
    add_pattern(&set, shorter, all_fixed, m2);
    pattern[changed / 8] ^= (uint8_t)(0x80 >> changed % 8);
    add_pattern(&set, pattern, all_fixed, m);
    q = search_for_set(text, n, &set, PAIR_CELLS * MOST_PAIRS);
    as_naively(&q, AT_END, &naive);
}

/* Patterns of many lengths together, all from one text that repeats but for its end. */
static void mixed_lengths(void)
{
    static const uint64_t lengths[] = {LARGEST_M, 1, 2, 7, 8, 9, 15, 16, 17, 24, 31, 32, 33, 39, 40, 41, 57, 63, 64, 65, 71,
                                       72, 73, 127, 128, 129, 500, LARGEST_M - 1, LARGEST_M};
    enum { BYTES = LARGEST_M / 8 + 4 };
    uint8_t text[BYTES];
    struct set_search q;
    size_t i;
    empty_set(&set);
    for (i = 0; i < sizeof text; i++)
        text[i] = (uint8_t)(i < LARGEST_M / 8 ? 0x6d : draw(256));
    for (i = 0; i < sizeof lengths / sizeof lengths[0]; i++) {
        uint8_t pattern[BYTES] = {0};
        copy_bits(text, draw(9), lengths[i], pattern);
        add_pattern(&set, pattern, all_fixed, lengths[i]);
    }
    q = search_for_set(text, 8 * sizeof text - 3, &set, PAIR_CELLS * MOST_PAIRS);
    about("mixed lengths");
    as_naively(&q, AT_START, &naive);
    as_naively(&q, AT_END, &naive);
    q.n = LARGEST_M - 1; /* two of them do not fit */
    as_naively(&q, AT_END, &naive);
    q.n = 30;
    as_naively(&q, AT_END, &naive);
}

static void lengths(void)
{
    enum { ALL_BELOW = 300, THEN_EVERY = 7 };
    uint64_t m;
    about("every length");
    for (m = 1; m <= LARGEST_M; m += m < ALL_BELOW ? 1 : THEN_EVERY)
        one_length(m, m % 5 == 0);
    one_length(LARGEST_M, 0);
    one_length(LARGEST_M, 1);
    mixed_lengths();
}

/* ---- refusals */

static void refused_n(const char *name, struct set_search q, uint64_t n, uint32_t refusal)
{
    q.n = n;
    refused_set(name, q, refusal);
}

/* One of the 64 patterns has this length, whichever it is. There are bytes enough. */
static void refused_length(const char *name, struct set_search q, uint64_t m)
{
    size_t i;
    q.patterns_len = q.fixed_len = SET_BYTES;
    for (i = 0; i < set.count; i++) {
        const uint64_t good = set.counts[i];
        set.counts[i] = m;
        refused_set(name, q, MITONGORY_PATTERN_LENGTH);
        set.counts[i] = good;
    }
}

/* Each refusal, with the least and the largest number that it is given for. */
static void each_refusal(void)
{
    struct set_search good = search_line(line, nested), q = good;
    for (q.answer_len = 0; q.answer_len <= MITONGORY_ANSWER_CELLS + 1; q.answer_len++) {
        if (q.answer_len < MITONGORY_ANSWER_CELLS)
            refused_set("too few answer cells", q, MITONGORY_ANSWER_CELLS_MISSING);
        else
            accepted_set("answer cells", q, LINE_N, NESTED_PAIRS, LINE_N, MITONGORY_DONE, nested_pairs);
    }
    refused_n("n = 2^30 + 1", good, LARGEST_N + 1, MITONGORY_TEXT_TOO_LONG);
    refused_n("the largest n", good, UINT64_MAX, MITONGORY_TEXT_TOO_LONG);
    refused_n("an n of 33 bits", good, TWO_TO_32 + LINE_N, MITONGORY_TEXT_TOO_LONG);
    refused_n("n = 2^30 with one byte", good, LARGEST_N, MITONGORY_TEXT_BYTES_MISSING);
    refused_n("one byte too few", good, 9, MITONGORY_TEXT_BYTES_MISSING);
    q = good;
    q.text_len = 0;
    refused_set("no text bytes", q, MITONGORY_TEXT_BYTES_MISSING);
    q = good;
    q.mark = LINE_N;
    accepted_set("the largest mark of the set", q, 0, 0, LINE_N, MITONGORY_DONE, NULL);
    q.mark = LINE_N + 1;
    refused_set("a mark after the end", q, MITONGORY_BEYOND_END);
    q.mark = UINT32_MAX;
    refused_set("the largest mark", q, MITONGORY_BEYOND_END);
    q = search_line(line, "01101101 0110110110");
    q.mark = 1;
    refused_set("mark 1 where there is no place", q, MITONGORY_BEYOND_END);

    empty_set(&set);
    while (set.count < MOST)
        add_patterns(&set, "01");
    q = search_for_set(good.text, LINE_N, &set, ENOUGH);
    refused_length("m = 0", q, 0);
    refused_length("m = 2049", q, LARGEST_M + 1);
    refused_length("an m of 33 bits", q, TWO_TO_32 + 2);
    refused_length("the largest m", q, UINT64_MAX);
}

/* Both runs with every number of bytes up to more than needed: the first pattern that lacks one tells which. */
static void short_runs(void)
{
    struct set_search q = search_line(line, "011011011 11 0110110110110110110 1");
    about("runs of every length");
    for (q.patterns_len = 0; q.patterns_len <= set.bytes + 1; q.patterns_len++)
        for (q.fixed_len = 0; q.fixed_len <= set.bytes + 1; q.fixed_len++) {
            as_naively(&q, AT_START, &naive);
            as_naively(&q, AT_END, &naive);
        }
    q.fixed_len = 0;
    q.patterns_len = 2;
    refused_set("17 of pattern 0 before 4 of pattern 1", q, MITONGORY_FIXED_BYTES_MISSING);
    q.fixed_len = set.bytes;
    q.patterns_len = 0;
    set.counts[1] = 0;
    refused_set("4 of pattern 0 before 3 of pattern 1", q, MITONGORY_PATTERN_BYTES_MISSING);
    q.patterns_len = 2;
    refused_set("3 of pattern 1 before 4 of pattern 2", q, MITONGORY_PATTERN_LENGTH);
}

/* Every choice of the eleven conditions: the first of them in the order of the refusals is told. */
static void order_of_refusals(void)
{
    static const uint32_t order[] = {MITONGORY_ANSWER_CELLS_MISSING,
                                     MITONGORY_TEXT_TOO_LONG,
                                     MITONGORY_TEXT_BYTES_MISSING,
                                     MITONGORY_SET_SIZE,
                                     MITONGORY_PATTERN_LENGTH,
                                     MITONGORY_PATTERN_BYTES_MISSING,
                                     MITONGORY_FIXED_BYTES_MISSING,
                                     MITONGORY_PATTERN_LENGTH,
                                     MITONGORY_PATTERN_BYTES_MISSING,
                                     MITONGORY_FIXED_BYTES_MISSING,
                                     MITONGORY_BEYOND_END};
    static const uint64_t wrong_n[] = {LARGEST_N + 1, UINT64_MAX};
    static const uint64_t wrong_m[] = {0, LARGEST_M + 1, TWO_TO_32 + 9, UINT64_MAX};
    enum { ANSWER, LONG, TEXT, SIZE, M0, VALUES0, FIXED0, M1, VALUES1, FIXED1, MARK, CONDITIONS }; /* in that order */
    unsigned choice, first;
    about("the first condition that holds");
    for (choice = 1; choice < 1u << CONDITIONS; choice++) {
        struct set_search q = search_line(line, "0110110110 110110110110");
#define HOLDS(condition) ((choice >> (condition) & 1) == 1)
        if (HOLDS(ANSWER))
            q.answer_len = (size_t)draw(MITONGORY_ANSWER_CELLS);
        if (HOLDS(LONG))
            q.n = wrong_n[draw(2)];
        if (HOLDS(TEXT))
            q.text_len = 0;
        if (HOLDS(SIZE))
            q.counts_len = draw(2) == 0 ? 0 : SET_ROOM;
        if (HOLDS(M0))
            set.counts[0] = wrong_m[draw(4)];
        if (HOLDS(M1))
            set.counts[1] = wrong_m[draw(4)];
        if (HOLDS(VALUES0) || HOLDS(VALUES1))
            q.patterns_len = (size_t)draw(2) + (HOLDS(VALUES0) ? 0 : 2);
        if (HOLDS(FIXED0) || HOLDS(FIXED1))
            q.fixed_len = (size_t)draw(2) + (HOLDS(FIXED0) ? 0 : 2);
        if (HOLDS(MARK))
            q.mark = draw(2) == 0 ? 1 : UINT32_MAX;
        for (first = 0; !HOLDS(first); first++)
            ;
#undef HOLDS
        expect_set(&q, choice % 2 == 0 ? AT_START : AT_END, order[first], NULL, NULL);
    }
}

void sets(void)
{
    static const size_t counts[] = {0, 1, 2, MOST - 1, MOST, MOST + 1};
    size_t i;
    small_sets();
    bits_after_the_last();
    every_list();
    budgets();
    every_call(line, nested);
    every_call("11011011011011101101", "11011 1?0 110110110110111 0?1??1?01");
    for (i = 0; i < sizeof counts / sizeof counts[0]; i++)
        so_many_patterns(counts[i]);
    one_place_for_all();
    lengths();
    each_refusal();
    short_runs();
    order_of_refusals();
}
