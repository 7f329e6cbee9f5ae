#include "sitting_call.h"

#include "check.h"
#include "lend.h"

struct sitting sitting_of(const uint32_t *key, size_t key_len, const uint32_t *sheets, size_t sheets_len,
                          const uint64_t *counts, size_t counts_len)
{
    struct sitting s = {key,    key_len,    sheets, sheets_len,
                        counts, counts_len, counts_len * MITONGORY_SHEET_CELLS, MITONGORY_SHEET_CELLS};
    return s;
}

/* Expects, on both sides, the result and so many bytes at the front of report and answer. All else stays. */
static void expect(const char *name, const struct sitting *s, uint32_t result, const void *marks, size_t marks_bytes,
                   const void *totals, size_t totals_bytes)
{
    int side;
    about(name);
    for (side = AT_START; side < SIDES; side++) {
        struct lent key = lend(s->key_len * sizeof *s->key, s->key, (enum side)side, ONLY_READ);
        struct lent sheets = lend(s->sheets_len * sizeof *s->sheets, s->sheets, (enum side)side, ONLY_READ);
        struct lent counts = lend(s->counts_len * sizeof *s->counts, s->counts, (enum side)side, ONLY_READ);
        struct lent report = lend(s->report_len * sizeof(uint32_t), NULL, (enum side)side, WRITTEN);
        struct lent answer = lend(s->answer_len * sizeof(uint64_t), NULL, (enum side)side, WRITTEN);
        check(mitongory_mark_sitting(at(&key), s->key_len, at(&sheets), s->sheets_len, at(&counts), s->counts_len,
                                     at(&report), s->report_len, at(&answer), s->answer_len) == result,
              "result");
        check(stays(&key) && stays(&sheets) && stays(&counts), "key, sheets and counts");
        check(holds(&report, marks, marks_bytes), "report");
        check(holds(&answer, totals, totals_bytes), "answer");
        give_back(&key);
        give_back(&sheets);
        give_back(&counts);
        give_back(&report);
        give_back(&answer);
    }
}

void marked(const char *name, struct sitting s, const uint32_t *report)
{
    const size_t cells = s.counts_len * MITONGORY_SHEET_CELLS;
    uint64_t totals[MITONGORY_SHEET_CELLS] = {0};
    size_t i;
    for (i = 0; i < cells; i++)
        totals[i % MITONGORY_SHEET_CELLS] += report[i];
    expect(name, &s, MITONGORY_OK, report, cells * sizeof *report, totals, sizeof totals);
}

void unmarked(const char *name, struct sitting s, uint32_t refusal)
{
    expect(name, &s, refusal, NULL, 0, NULL, 0);
}
