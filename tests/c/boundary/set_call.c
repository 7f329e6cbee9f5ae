#include "set_call.h"

#include <string.h>

#include "check.h"
#include "papers.h"

void empty_set(struct set *s)
{
    memset(s, 0, sizeof *s);
}

void add_pattern(struct set *s, const uint8_t *values, const uint8_t *fixed, uint64_t m)
{
    const size_t bytes = (size_t)(m + 7) / 8;
    memcpy(s->values + s->bytes, values, bytes);
    memcpy(s->fixed + s->bytes, fixed, bytes);
    s->bytes += bytes;
    s->counts[s->count++] = m;
}

void add_patterns(struct set *s, const char *patterns)
{
    uint64_t m = 0;
    for (; *patterns != '\0'; patterns++) {
        if (*patterns != ' ') {
            set_bit(s->values + s->bytes, m, *patterns == '1');
            set_bit(s->fixed + s->bytes, m, *patterns != '?');
            m++;
        }
        if (patterns[1] == ' ' || patterns[1] == '\0') {
            s->bytes += (size_t)(m + 7) / 8;
            s->counts[s->count++] = m;
            m = 0;
        }
    }
}

struct set_search search_for_set(const uint8_t *text, uint64_t n, const struct set *s, size_t list_len)
{
    struct set_search q = {text, (size_t)(n + 7) / 8, n, s->values, s->bytes, s->fixed, s->bytes, s->counts, s->count, 0,
                           UINT32_MAX, list_len, MITONGORY_ANSWER_CELLS};
    return q;
}

void expect_set(const struct set_search *q, enum side side, uint32_t result, const uint64_t *told, const uint32_t *pairs)
{
    const int accepted = result == MITONGORY_OK;
    struct lent text = lend(q->text_len, q->text, side, ONLY_READ);
    struct lent patterns = lend(q->patterns_len, q->patterns, side, ONLY_READ);
    struct lent fixed = lend(q->fixed_len, q->fixed, side, ONLY_READ);
    struct lent counts = lend(q->counts_len * sizeof *q->counts, q->counts, side, ONLY_READ);
    struct lent list = lend(q->list_len * sizeof *pairs, NULL, side, WRITTEN);
    struct lent answer = lend(q->answer_len * sizeof *told, NULL, side, WRITTEN);
    check(mitongory_search_set(at(&text), q->text_len, q->n, at(&patterns), q->patterns_len, at(&fixed), q->fixed_len,
                               at(&counts), q->counts_len, q->mark, q->budget, at(&list), q->list_len, at(&answer),
                               q->answer_len) == result,
          "result");
    check(stays(&text) && stays(&patterns) && stays(&fixed) && stays(&counts), "text, patterns, fixed and counts");
    check(holds(&answer, told, accepted ? MITONGORY_ANSWER_CELLS * sizeof *told : 0), "answer");
    check(holds(&list, pairs, accepted ? (size_t)told[MITONGORY_OCCURRENCES] * PAIR_CELLS * sizeof *pairs : 0), "list");
    give_back(&text);
    give_back(&patterns);
    give_back(&fixed);
    give_back(&counts);
    give_back(&list);
    give_back(&answer);
}

void accepted_set(const char *name, struct set_search q, uint64_t steps, uint64_t count, uint64_t mark, uint64_t stop,
                  const uint32_t *pairs)
{
    const uint64_t told[MITONGORY_ANSWER_CELLS] = {steps, count, mark, stop};
    about(name);
    expect_set(&q, AT_START, MITONGORY_OK, told, pairs);
    expect_set(&q, AT_END, MITONGORY_OK, told, pairs);
}

void refused_set(const char *name, struct set_search q, uint32_t refusal)
{
    about(name);
    expect_set(&q, AT_START, refusal, NULL, NULL);
    expect_set(&q, AT_END, refusal, NULL, NULL);
}
