#include "search_call.h"

#include <mitongory.h>

#include "check.h"
#include "papers.h"

size_t scratch_for(uint32_t method, uint64_t m)
{
    switch (method) {
    case MITONGORY_PLAIN: return 16 * ((m + 7) / 8 + ((m + 7) % 8 != 0));
    case MITONGORY_HASH: return 512;
    case MITONGORY_SKIP: return 256 + m;
    case MITONGORY_WIDE: return 2 * (63 + m);
    default: return 2;
    }
}

/* All but the text and the pattern's values. */
static struct search search_by(uint32_t method, uint64_t m)
{
    struct search q = {NULL, 0, 0, NULL, 0, all_fixed, (size_t)(m + 7) / 8, m, method, 0, UINT32_MAX, 3,
                       scratch_for(method, m), MITONGORY_ANSWER_CELLS};
    return q;
}

struct search paper1(uint32_t method)
{
    struct search q = search_by(method, PAPER1_M);
    q.text = paper1_text, q.text_len = PAPER1_TEXT_BYTES, q.n = PAPER1_N;
    q.pattern = paper1_pattern, q.pattern_len = PAPER1_PATTERN_BYTES;
    return q;
}

struct search paper2(uint32_t method)
{
    struct search q = search_by(method, PAPER2_M);
    q.text = paper2_text, q.text_len = PAPER2_TEXT_BYTES, q.n = PAPER2_N;
    q.pattern = paper2_pattern, q.pattern_len = PAPER2_PATTERN_BYTES;
    return q;
}

uint32_t search_on(const struct search *q, enum side side, struct search_buffers *b)
{
    b->text = lend(q->text_len, q->text, side, ONLY_READ);
    b->pattern = lend(q->pattern_len, q->pattern, side, ONLY_READ);
    b->fixed = lend(q->fixed_len, q->fixed, side, ONLY_READ);
    b->list = lend(q->list_len * sizeof(uint32_t), NULL, side, WRITTEN);
    b->scratch = lend(q->scratch_len * sizeof(uint64_t), NULL, side, WRITTEN);
    b->answer = lend(q->answer_len * sizeof(uint64_t), NULL, side, WRITTEN);
    return mitongory_search(at(&b->text), q->text_len, q->n, at(&b->pattern), q->pattern_len, at(&b->fixed), q->fixed_len,
                            q->m, q->method, q->mark, q->budget, at(&b->list), q->list_len, at(&b->scratch),
                            q->scratch_len, at(&b->answer), q->answer_len);
}

void give_back_all(struct search_buffers *b)
{
    give_back(&b->text);
    give_back(&b->pattern);
    give_back(&b->fixed);
    give_back(&b->list);
    give_back(&b->scratch);
    give_back(&b->answer);
}

/*
 * Expects, on both sides, the result and so many bytes at the front of answer and list. All else stays, but so many bytes
 * at the front of the scratch.
 */
static void expect(const char *name, const struct search *q, uint32_t result, const void *told, size_t told_bytes,
                   const void *places, size_t places_bytes, size_t scratch_bytes)
{
    struct search_buffers b;
    int side;
    about(name);
    for (side = AT_START; side < SIDES; side++) {
        check(search_on(q, (enum side)side, &b) == result, "result");
        check(stays(&b.text) && stays(&b.pattern) && stays(&b.fixed), "text, pattern and fixed");
        check(holds(&b.answer, told, told_bytes), "answer");
        check(holds(&b.list, places, places_bytes), "list");
        check(stays_after(&b.scratch, scratch_bytes), "scratch");
        give_back_all(&b);
    }
}

void accepted(const char *name, struct search q, uint64_t steps, uint64_t occurrences, uint64_t mark, uint64_t stop,
              const uint32_t *places)
{
    const uint64_t told[MITONGORY_ANSWER_CELLS] = {steps, occurrences, mark, stop};
    expect(name, &q, MITONGORY_OK, told, sizeof told, places, (size_t)occurrences * sizeof *places,
           scratch_for(q.method, q.m) * sizeof(uint64_t));
}

void refused(const char *name, struct search q, uint32_t refusal)
{
    expect(name, &q, refusal, NULL, 0, NULL, 0, 0);
}
