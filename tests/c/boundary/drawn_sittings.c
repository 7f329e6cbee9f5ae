/*
 * Drawn sittings against a marking by document 02's words: a position is looked for on the other list from its front to its
 * end. Most are good; in the others something is wrong.
 */
#include "bounds.h"
#include "draw.h"
#include "parts.h"
#include "sitting_call.h"

enum { ROUNDS = 600, MOST_POSITIONS = 80, MOST_SHEETS = 6, CELLS = MITONGORY_SHEET_CELLS };

static int is_on(uint32_t position, const uint32_t *list, uint64_t count)
{
    uint64_t i;
    for (i = 0; i < count && list[i] != position; i++)
        ;
    return i < count;
}

/* How many positions of a list are on another one, or are not. */
static uint32_t how_many(const uint32_t *list, uint64_t count, int on, const uint32_t *other, uint64_t other_count)
{
    uint32_t many = 0;
    uint64_t i;
    for (i = 0; i < count; i++)
        many += is_on(list[i], other, other_count) == on;
    return many;
}

static int rises(const uint32_t *list, uint64_t count)
{
    uint64_t i;
    for (i = 0; i < count; i++) {
        if (list[i] > LARGEST_POSITION || (i > 0 && list[i - 1] >= list[i]))
            return 0;
    }
    return 1;
}

/* What the call should say, and what the report's front should be if it says 0. */
static uint32_t mark(const struct sitting *s, uint32_t *report)
{
    const uint32_t *sheet = s->sheets;
    uint64_t left = s->sheets_len;
    int all_rise = rises(s->key, s->key_len);
    size_t i;
    if (s->answer_len < CELLS)
        return MITONGORY_ANSWER_CELLS_MISSING;
    if (s->counts_len > MITONGORY_SHEETS)
        return MITONGORY_TOO_MANY_SHEETS;
    for (i = 0; i < s->counts_len && s->counts[i] <= left; i++)
        left -= s->counts[i];
    if (i < s->counts_len || left > 0)
        return MITONGORY_COUNTS_DIFFER;
    for (i = 0; i < s->counts_len; i++) {
        report[i * CELLS + MITONGORY_RIGHT] = how_many(s->key, s->key_len, 1, sheet, s->counts[i]);
        report[i * CELLS + MITONGORY_MISSED] = how_many(s->key, s->key_len, 0, sheet, s->counts[i]);
        report[i * CELLS + MITONGORY_FALSE_POSITIVES] = how_many(sheet, s->counts[i], 0, s->key, s->key_len);
        all_rise = all_rise && rises(sheet, s->counts[i]);
        sheet += s->counts[i];
    }
    if (!all_rise)
        return MITONGORY_LIST_NOT_RISING;
    return s->report_len < s->counts_len * CELLS ? MITONGORY_TARGET_TOO_SHORT : MITONGORY_OK;
}

/* The positions from which a round draws its lists: `count` of them, at one distance from each other. */
struct positions {
    uint32_t first, distance, count;
};

static struct positions draw_positions(void)
{
    struct positions p;
    p.count = (uint32_t)draw(MOST_POSITIONS + 1);
    p.distance = 1 + (uint32_t)(draw(2) * draw(1000000));
    p.first = draw(2) == 0 || p.count == 0 ? (uint32_t)draw(3) : LARGEST_POSITION - (p.count - 1) * p.distance;
    return p;
}

/* Each of the positions with a chance of so many in eight; or, with a list that it is to be like, mostly as that has it. */
static size_t draw_list(const struct positions *p, const uint32_t *like, size_t like_count, uint32_t *list)
{
    const uint64_t chance = draw(9);
    size_t count = 0;
    uint32_t i;
    for (i = 0; i < p->count; i++) {
        const uint32_t position = p->first + i * p->distance;
        const int with = like != NULL ? is_on(position, like, like_count) != (draw(20) == 0) : draw(8) < chance;
        if (with)
            list[count++] = position;
    }
    return count;
}

/* Makes a position the same as the one before it, or too large; in a list of one it is too large. */
static void spoil(uint32_t *list, size_t count)
{
    const size_t i = count == 0 ? 0 : (size_t)draw(count);
    if (count > 0)
        list[i] = i > 0 && draw(2) == 0 ? list[i - 1] : LARGEST_POSITION + 1;
}

static void one_round(void)
{
    uint32_t key[MOST_POSITIONS], sheets[MOST_SHEETS * MOST_POSITIONS], report[(MOST_SHEETS + 1) * CELLS];
    uint64_t counts[MOST_SHEETS + 1];
    const struct positions p = draw_positions();
    const size_t key_len = draw_list(&p, NULL, 0, key), sheets_count = (size_t)draw(MOST_SHEETS + 1);
    size_t sheets_len = 0, i;
    struct sitting s;
    uint32_t said;
    for (i = 0; i < sheets_count; i++) {
        counts[i] = draw_list(&p, draw(2) == 0 ? key : NULL, key_len, sheets + sheets_len);
        sheets_len += (size_t)counts[i];
    }
    s = sitting_of(key, key_len, sheets, sheets_len, counts, sheets_count);
    s.report_len += draw(3);
    s.answer_len += draw(3);
    if (draw(8) == 0)
        spoil(key, key_len);
    if (draw(8) == 0)
        spoil(sheets, sheets_len);
    if (draw(12) == 0 && sheets_count > 0)
        counts[draw(sheets_count)] += draw(2) == 0 ? 1 : UINT64_MAX;
    if (draw(12) == 0) { /* a sheet more: an empty one, or one with which the counts wrap to the right sum */
        counts[sheets_count] = 0;
        if (sheets_count > 0 && draw(2) == 0) {
            counts[0]++;
            counts[sheets_count] = UINT64_MAX;
        }
        s.counts_len++;
    }
    if (draw(12) == 0)
        s.report_len = (size_t)draw(s.report_len + 1);
    if (draw(20) == 0)
        s.answer_len = (size_t)draw(CELLS);
    said = mark(&s, report);
    if (said == MITONGORY_OK)
        marked("a drawn sitting", s, report);
    else
        unmarked("a drawn sitting", s, said);
}

void drawn_sittings(void)
{
    int round;
    for (round = 0; round < ROUNDS; round++)
        one_round();
}
