#include "naive_sets.h"

#include "check.h"
#include "naive.h"

static uint64_t bytes_of(uint64_t m)
{
    return m / 8 + (m % 8 != 0);
}

/* The number of places of a pattern of m bits. */
static uint64_t places_of(const struct set_search *q, uint64_t m)
{
    return m <= q->n ? q->n - m + 1 : 0;
}

uint64_t places_of_set(const struct set_search *q)
{
    uint64_t most = 0;
    size_t i;
    for (i = 0; i < q->counts_len; i++)
        if (places_of(q, q->counts[i]) > most)
            most = places_of(q, q->counts[i]);
    return most;
}

static uint32_t refusal_of(const struct set_search *q)
{
    uint64_t bytes = 0;
    size_t i;
    if (q->answer_len < MITONGORY_ANSWER_CELLS)
        return MITONGORY_ANSWER_CELLS_MISSING;
    if (q->n > LARGEST_N)
        return MITONGORY_TEXT_TOO_LONG;
    if (q->text_len < bytes_of(q->n))
        return MITONGORY_TEXT_BYTES_MISSING;
    if (q->counts_len == 0 || q->counts_len > MITONGORY_MOST_PATTERNS)
        return MITONGORY_SET_SIZE;
    for (i = 0; i < q->counts_len; i++) {
        if (q->counts[i] == 0 || q->counts[i] > LARGEST_M)
            return MITONGORY_PATTERN_LENGTH;
        bytes += bytes_of(q->counts[i]);
        if (q->patterns_len < bytes)
            return MITONGORY_PATTERN_BYTES_MISSING;
        if (q->fixed_len < bytes)
            return MITONGORY_FIXED_BYTES_MISSING;
    }
    return q->mark > places_of_set(q) ? MITONGORY_BEYOND_END : MITONGORY_OK;
}

/* The numbers of the patterns that occur at a place, and how many they are. */
static size_t hits_at(const struct set_search *q, uint64_t place, uint32_t *numbers)
{
    struct search one = {0};
    uint64_t first = 0;
    size_t count = 0;
    uint32_t i;
    one.text = q->text;
    for (i = 0; i < q->counts_len; i++) {
        one.pattern = q->patterns + first;
        one.fixed = q->fixed + first;
        if (place < places_of(q, q->counts[i]) && begins(&one, q->counts[i], place))
            numbers[count++] = i;
        first += bytes_of(q->counts[i]);
    }
    return count;
}

uint32_t search_set_naively(const struct set_search *q, struct naive_set *r)
{
    const uint32_t refusal = refusal_of(q);
    uint64_t end, mark = q->mark, steps = 0, pairs = 0, full = 0;
    if (refusal != MITONGORY_OK)
        return refusal;
    end = places_of_set(q);
    while (!full && mark < end && steps < q->budget) {
        uint32_t numbers[MITONGORY_MOST_PATTERNS];
        const size_t count = hits_at(q, mark, numbers);
        size_t i;
        if (pairs + count > MOST_PAIRS)
            cannot("there is no room for the pairs of a naive search");
        if (PAIR_CELLS * (pairs + count) > q->list_len) {
            full = 1;
            continue;
        }
        for (i = 0; i < count; i++, pairs++) {
            r->pairs[PAIR_CELLS * pairs] = (uint32_t)mark;
            r->pairs[PAIR_CELLS * pairs + 1] = numbers[i];
        }
        steps++;
        mark++;
    }
    r->told[MITONGORY_STEPS] = steps;
    r->told[MITONGORY_OCCURRENCES] = pairs;
    r->told[MITONGORY_MARK] = mark;
    r->told[MITONGORY_STOP] = full ? MITONGORY_FULL : mark == end ? MITONGORY_DONE : MITONGORY_SPENT;
    return MITONGORY_OK;
}

void as_naively(const struct set_search *q, enum side side, struct naive_set *r)
{
    const uint32_t result = search_set_naively(q, r);
    expect_set(q, side, result, r->told, r->pairs);
}
