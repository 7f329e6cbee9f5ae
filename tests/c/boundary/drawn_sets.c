/*
 * Drawn sets against a search by document 02's words: all pairs at once and by chains of calls, the same set in another
 * order, each pattern by itself against the plain method, and calls with something wrong.
 */
#include <string.h>

#include "check.h"
#include "draw.h"
#include "naive_sets.h"
#include "papers.h"
#include "parts.h"
#include "search_call.h"
#include "second_run.h"

enum { ROUNDS = 240, TEXT_BITS = 320, TEXT_BYTES = TEXT_BITS / 8, MOST = MITONGORY_MOST_PATTERNS, FEW = 6 };
enum { SHORT_PATTERN = 12, MIDDLE_PATTERN = 50, LONG_PATTERN = 400, LONGEST_CHAIN = 16 };

/* The naive answer to the call for all pairs, and to another one. */
static struct naive_set all, some;

/* A pattern from the text, any bits, or a beginning of the one before it, perhaps with one bit changed. */
static void draw_pattern(const uint8_t *text, uint64_t n, enum wild way, struct set *s)
{
    static const uint64_t longest[] = {SHORT_PATTERN, MIDDLE_PATTERN, LONG_PATTERN};
    uint8_t values[LONG_PATTERN / 8] = {0}, fixed[LONG_PATTERN / 8];
    uint64_t m = 1 + draw(longest[draw(3)]), kind = draw(4);
    size_t i;
    if (kind == 0 && s->count > 0) {
        const uint64_t before = s->counts[s->count - 1];
        m = draw(2) == 0 ? before : 1 + draw(before);
        copy_bits(s->values + s->bytes - (before + 7) / 8, 0, m, values);
    } else if (kind < 3 && m <= n) {
        copy_bits(text, draw(n - m + 1), m, values);
    } else {
        for (i = 0; i < sizeof values; i++)
            values[i] = draw_byte();
    }
    if (draw(3) == 0)
        values[draw(m) / 8] ^= (uint8_t)(1u << draw(8));
    draw_fixed(way, m, fixed);
    add_pattern(s, values, fixed, m);
}

/* Most sets have a few patterns, with wild bits of one way or of every way; the runs are longer than needed. */
static void draw_set(const uint8_t *text, uint64_t n, struct set *s)
{
    const size_t count = 1 + (size_t)draw(draw(12) == 0 ? MOST : FEW);
    const uint64_t way = draw(2 * WAYS);
    size_t i;
    empty_set(s);
    for (i = 0; i < count; i++)
        draw_pattern(text, n, (enum wild)(way < WAYS ? way : draw(3) > 0 ? NONE_WILD : draw(WAYS)), s);
    for (i = s->bytes; i < s->bytes + 3; i++) {
        s->values[i] = (uint8_t)draw(256);
        s->fixed[i] = (uint8_t)draw(256);
    }
}

/* The same with other values of all bits that never matter. */
static void with_another_rest(struct set_search q, enum side side, const struct set *s)
{
    static struct set other;
    uint8_t text[TEXT_BYTES];
    size_t i, first = 0;
    other = *s;
    for (i = 0; i < s->count; first += (size_t)(s->counts[i++] + 7) / 8)
        change_the_rest(s->counts[i], other.values + first, other.fixed + first);
    memcpy(text, q.text, q.text_len);
    if (q.n % 8 != 0)
        text[q.n / 8] ^= (uint8_t)(0xff >> q.n % 8);
    q.text = text;
    q.patterns = other.values;
    q.fixed = other.fixed;
    expect_set(&q, side, MITONGORY_OK, all.told, all.pairs);
}

/* The same patterns in a drawn order: the same places, and the numbers that the patterns have now. */
static void in_another_order(struct set_search q, enum side side, const struct set *s)
{
    static struct set other;
    static uint32_t pairs[PAIR_CELLS * MOST_PAIRS];
    size_t first[MOST + 1] = {0}, order[MOST] = {0}, i, j;
    uint64_t k, written = 0;
    for (i = 0; i < s->count; i++) {
        first[i + 1] = first[i] + (size_t)(s->counts[i] + 7) / 8;
        j = (size_t)draw(i + 1);
        order[i] = order[j];
        order[j] = i;
    }
    empty_set(&other);
    for (i = 0; i < s->count; i++)
        add_pattern(&other, s->values + first[order[i]], s->fixed + first[order[i]], s->counts[order[i]]);
    for (k = 0; k < all.told[MITONGORY_OCCURRENCES]; k++) {
        const uint32_t place = all.pairs[PAIR_CELLS * k];
        uint64_t to = written++;
        uint32_t number = 0;
        while (order[number] != all.pairs[PAIR_CELLS * k + 1])
            number++;
        for (; to > 0 && pairs[PAIR_CELLS * (to - 1)] == place && pairs[PAIR_CELLS * (to - 1) + 1] > number; to--)
            memcpy(pairs + PAIR_CELLS * to, pairs + PAIR_CELLS * (to - 1), PAIR_CELLS * sizeof *pairs);
        pairs[PAIR_CELLS * to] = place;
        pairs[PAIR_CELLS * to + 1] = number;
    }
    q.patterns = other.values;
    q.fixed = other.fixed;
    q.counts = other.counts;
    expect_set(&q, side, MITONGORY_OK, all.told, pairs);
}

/* A call from any mark on, with any budget and any list. */
static struct set_search draw_call(struct set_search q)
{
    const uint64_t end = places_of_set(&q), cells = PAIR_CELLS * all.told[MITONGORY_OCCURRENCES];
    q.mark = (uint32_t)draw(end + 1);
    q.budget = draw(2) == 0 ? UINT32_MAX : (uint32_t)draw(draw(2) == 0 ? 4 : end + 2);
    q.list_len = (size_t)draw(draw(2) == 0 ? 6 : cells + 4);
    return q;
}

/* The cells that the place with the most pairs takes. */
static size_t cells_of_a_place(void)
{
    size_t most = 0, here = 0;
    uint64_t k;
    for (k = 0; k < all.told[MITONGORY_OCCURRENCES]; k++) {
        here = k > 0 && all.pairs[PAIR_CELLS * k] == all.pairs[PAIR_CELLS * (k - 1)] ? here + PAIR_CELLS : PAIR_CELLS;
        most = here > most ? here : most;
    }
    return most;
}

/*
 * Calls until all is done, each from the mark that the one before it left: together their pairs are all pairs, each once,
 * and their steps at most the last mark.
 */
static void chain(struct set_search q, enum side side)
{
    const uint64_t end = places_of_set(&q), total = all.told[MITONGORY_OCCURRENCES];
    const size_t least = cells_of_a_place();
    uint64_t joined = 0, steps = 0;
    int same = 1;
    q.list_len = least + (size_t)draw(5) + (size_t)(total / LONGEST_CHAIN) * PAIR_CELLS;
    q.budget = draw(2) == 0 ? UINT32_MAX : 1 + (uint32_t)(end / LONGEST_CHAIN + draw(end + 1));
    do {
        const uint64_t before = q.mark;
        as_naively(&q, side, &some);
        same = same && joined + some.told[MITONGORY_OCCURRENCES] <= total &&
               memcmp(some.pairs, all.pairs + PAIR_CELLS * joined,
                      (size_t)some.told[MITONGORY_OCCURRENCES] * PAIR_CELLS * sizeof *some.pairs) == 0;
        joined += some.told[MITONGORY_OCCURRENCES];
        steps += some.told[MITONGORY_STEPS];
        q.mark = (uint32_t)some.told[MITONGORY_MARK];
        if (q.mark == before && some.told[MITONGORY_STOP] != MITONGORY_DONE)
            cannot("a chain of calls does not go on");
    } while (same && some.told[MITONGORY_STOP] != MITONGORY_DONE);
    check(same && joined == total, "the joined pairs");
    check(steps <= q.mark && q.mark == end, "steps and last mark");
}

/* A pattern of the set by itself: the answer of the plain method from the same mark on, on half as many cells. */
static void one_pattern(struct set_search q, enum side side, size_t i)
{
    static uint64_t scratch[MITONGORY_SCRATCH_CELLS];
    uint64_t told[MITONGORY_ANSWER_CELLS] = {0}, k;
    uint32_t places[TEXT_BITS] = {0}, pairs[PAIR_CELLS * TEXT_BITS] = {0};
    size_t first = 0, half, j;
    for (j = 0; j < i; j++)
        first += (size_t)(q.counts[j] + 7) / 8;
    q.patterns += first;
    q.fixed += first;
    q.patterns_len = q.fixed_len = (size_t)(q.counts[i] + 7) / 8;
    q.counts += i;
    q.counts_len = 1;
    q = draw_call(q);
    half = q.list_len / PAIR_CELLS < TEXT_BITS ? q.list_len / PAIR_CELLS : TEXT_BITS; /* one for each place is enough */
    check(mitongory_search(q.text, q.text_len, q.n, q.patterns, q.patterns_len, q.fixed, q.fixed_len, q.counts[0],
                           MITONGORY_PLAIN, q.mark, q.budget, places, half, scratch, MITONGORY_SCRATCH_CELLS, told,
                           MITONGORY_ANSWER_CELLS) == MITONGORY_OK,
          "result of the plain method");
    for (k = 0; k < told[MITONGORY_OCCURRENCES]; k++)
        pairs[PAIR_CELLS * k] = places[k];
    expect_set(&q, side, MITONGORY_OK, told, pairs);
}

/* Something is wrong, or two or three things are. */
static void spoiled(struct set_search q, enum side side, struct set *s)
{
    static const uint64_t wrong_m[] = {0, LARGEST_M + 1, TWO_TO_32 + 1, UINT64_MAX};
    const uint64_t things = 1 + draw(3);
    const size_t i = (size_t)draw(s->count);
    const uint64_t good = s->counts[i];
    uint64_t k;
    for (k = 0; k < things; k++) {
        switch (draw(8)) {
        case 0: q.answer_len = (size_t)draw(MITONGORY_ANSWER_CELLS); break;
        case 1: q.n = LARGEST_N + 1 + draw(2) * TWO_TO_32; break;
        case 2: q.text_len = (size_t)draw(q.text_len + 1); break;
        case 3: q.counts_len = draw(2) == 0 ? 0 : SET_ROOM; break;
        case 4: s->counts[i] = wrong_m[draw(4)]; break;
        case 5: q.patterns_len = (size_t)draw(s->bytes); break;
        case 6: q.fixed_len = (size_t)draw(s->bytes); break;
        default: q.mark = draw(2) == 0 ? UINT32_MAX : q.mark + (uint32_t)draw(TEXT_BITS + 2); break;
        }
    }
    as_naively(&q, side, &some);
    s->counts[i] = good;
}

static void one_round(uint32_t round)
{
    static struct set s;
    const enum side side = round % 2 == 0 ? AT_START : AT_END;
    const uint64_t n = draw(4) == 0 ? draw(24) : draw(TEXT_BITS + 1);
    uint8_t text[TEXT_BYTES];
    struct set_search q, other;
    size_t i;
    for (i = 0; i < sizeof text; i++)
        text[i] = draw_byte();
    if (draw(3) == 0)
        draw_periodic(text, sizeof text);
    draw_set(text, n, &s);
    q = search_for_set(text, n, &s, PAIR_CELLS * MOST_PAIRS);
    search_set_naively(&q, &all);
    q.list_len = (size_t)all.told[MITONGORY_OCCURRENCES] * PAIR_CELLS + (size_t)draw(3);
    q.answer_len += (size_t)draw(2);
    expect_set(&q, side, MITONGORY_OK, all.told, all.pairs);
    with_another_rest(q, side, &s);
    in_another_order(q, side, &s);
    q.patterns_len += (size_t)draw(4);
    q.fixed_len += (size_t)draw(4);
    for (i = 0; i < 3; i++) {
        other = draw_call(q);
        as_naively(&other, side, &some);
        spoiled(other, side, &s);
    }
    chain(q, side);
    chain(q, side);
    one_pattern(q, side, (size_t)draw(s.count));
    one_pattern(q, side, (size_t)draw(s.count));
}

void drawn_sets(void)
{
    uint32_t round;
    about("a drawn set");
    for (round = 0; round < ROUNDS; round++)
        one_round(round);
}
