#include "naive.h"

#include "bounds.h"
#include "check.h"
#include "papers.h"

int unfit(uint32_t method, uint64_t m)
{
    return (method == MITONGORY_HASH && m < LEAST_M_HASH) || (method == MITONGORY_SKIP && m < LEAST_M_SKIP) ||
           (method == MITONGORY_TAIL && m > MOST_M_TAIL);
}

/* Whether bit j of the pattern is wild or has the value. */
static int agrees(const struct search *q, uint64_t j, unsigned value)
{
    return bit(q->fixed, j) == 0 || bit(q->pattern, j) == value;
}

int begins(const struct search *q, uint64_t k, uint64_t p)
{
    uint64_t j;
    for (j = 0; j < k && agrees(q, j, bit(q->text, p + j)); j++)
        ;
    return j == k;
}

static int meets(const struct search *q, unsigned value, uint64_t d)
{
    unsigned j;
    for (j = 0; j < 8; j++)
        if (q->m + j >= 8 + d && !agrees(q, q->m + j - 8 - d, (value >> (7 - j)) & 1u))
            return 0;
    return 1;
}

uint64_t least_move(const struct search *q, unsigned value, uint64_t from)
{
    uint64_t d = from;
    while (!meets(q, value, d))
        d++;
    return d;
}

static uint64_t move_of_hash(const struct search *q, uint64_t s)
{
    unsigned value = 0, j;
    uint64_t d;
    for (j = 0; j < 8; j++)
        value = value * 2 + bit(q->text, s + q->m - 8 + j);
    d = least_move(q, value, 0);
    return d > 0 ? d : least_move(q, value, 1);
}

static uint64_t move_of_wide(const struct search *q, uint64_t s)
{
    const uint64_t window = 63 + q->m;
    uint64_t k = q->m;
    if (s + window >= q->n)
        return window;
    while (k > 0 && !agrees(q, k - 1, bit(q->text, s + window)))
        k--;
    return window + 1 - k;
}

static uint64_t move_of_tail(const struct search *q, uint64_t s)
{
    uint64_t r = q->m - 1;
    while (!begins(q, r, s + q->m - r))
        r--;
    return q->m - r;
}

/* The next mark after s, not yet cut at the number of places. */
static uint64_t next_mark(const struct search *q, uint64_t s)
{
    switch (q->method) {
    case MITONGORY_PLAIN: return s + 1;
    case MITONGORY_HASH: return s + move_of_hash(q, s);
    case MITONGORY_SKIP: return 8 * ((s + q->m) / 8 - 1) + 1;
    case MITONGORY_WIDE: return s + move_of_wide(q, s);
    default: return s + move_of_tail(q, s);
    }
}

void search_naively(const struct search *q, struct naive *r)
{
    const uint64_t end = q->m <= q->n ? q->n - q->m + 1 : 0;
    uint64_t mark = q->mark, steps = 0, count = 0, stop = MITONGORY_DONE;
    while (stop != MITONGORY_FULL && mark < end && steps < q->budget) {
        const uint64_t next = next_mark(q, mark);
        while (stop != MITONGORY_FULL && mark < next && mark < end) {
            if (!begins(q, q->m, mark))
                mark++;
            else if (count < q->list_len && count < MOST_PLACES)
                r->places[count++] = (uint32_t)mark++;
            else
                stop = MITONGORY_FULL;
        }
        if (stop != MITONGORY_FULL)
            steps++;
    }
    if (stop != MITONGORY_FULL && mark < end)
        stop = MITONGORY_SPENT;
    r->told[MITONGORY_STEPS] = steps;
    r->told[MITONGORY_OCCURRENCES] = count;
    r->told[MITONGORY_MARK] = mark;
    r->told[MITONGORY_STOP] = stop;
}

void search_like(const struct search *q, enum side side, const struct naive *r)
{
    const size_t figure = scratch_for(q->method, q->m);
    const uint32_t refusal = unfit(q->method, q->m)    ? MITONGORY_PATTERN_UNFIT
                             : q->scratch_len < figure ? MITONGORY_SCRATCH_TOO_SHORT
                                                       : MITONGORY_OK;
    struct search_buffers b;
    uint32_t result = search_on(q, side, &b);
    check(result == refusal, "result");
    check(stays(&b.text) && stays(&b.pattern) && stays(&b.fixed), "text, pattern and fixed");
    if (result == MITONGORY_OK) {
        check(holds(&b.list, r->places, r->told[MITONGORY_OCCURRENCES] * sizeof *r->places), "places");
        check(holds(&b.answer, r->told, sizeof r->told), "answer");
        check(stays_after(&b.scratch, figure * sizeof(uint64_t)), "scratch");
    } else {
        check(stays(&b.list) && stays(&b.answer) && stays(&b.scratch), "buffers of a refused call");
    }
    give_back_all(&b);
}
