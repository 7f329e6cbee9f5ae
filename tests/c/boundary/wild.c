/* Patterns with wild bits, which are written as ? here: the papers, and a step of each kind that a wild bit decides. */
#include <mitongory.h>
#include <string.h>

#include "papers.h"
#include "parts.h"
#include "search_call.h"

enum { MOST_BYTES = 32 };

/* Text and pattern of a call, packed. */
struct paper {
    uint8_t text[MOST_BYTES], pattern[MOST_BYTES], fixed[MOST_BYTES];
};

/* All else as for paper 1. The values at the wild bits are 0. */
static struct search search_for(uint32_t method, const char *text, const char *pattern, struct paper *p)
{
    struct search q = paper1(method);
    memset(p, 0, sizeof *p);
    q.n = pack(text, "1", p->text);
    q.m = pack(pattern, "1", p->pattern);
    pack(pattern, "01", p->fixed);
    q.text = p->text, q.text_len = (size_t)(q.n + 7) / 8;
    q.pattern = p->pattern, q.fixed = p->fixed, q.pattern_len = q.fixed_len = (size_t)(q.m + 7) / 8;
    q.scratch_len = scratch_for(method, q.m);
    return q;
}

/* Expects this, and the same with ones as the values at the wild bits, and other bits from n and m on in all three runs. */
static void finds(const char *name, struct search q, struct paper *p, uint64_t steps, uint64_t occurrences, uint64_t mark,
                  uint64_t stop, const uint32_t *places)
{
    uint64_t j;
    accepted(name, q, steps, occurrences, mark, stop, places);
    for (j = q.n; j < 8 * q.text_len; j++)
        set_bit(p->text, j, 1);
    for (j = 0; j < 8 * q.pattern_len; j++)
        set_bit(p->pattern, j, j >= q.m || bit(p->fixed, j) == 0);
    for (j = q.m; j < 8 * q.fixed_len; j++)
        set_bit(p->fixed, j, 1);
    accepted(name, q, steps, occurrences, mark, stop, places);
}

/* The first paper, with a field of its pattern wild. */
static void wild_field(uint32_t method, uint64_t steps)
{
    static const uint32_t places[] = {11, 17, 22};
    struct paper p;
    struct search q = search_for(method, "011001001000100110100101000101001001", "0100????00", &p);
    if (method == MITONGORY_SKIP)
        refused("paper 1 with a wild field, by skip", q, MITONGORY_PATTERN_UNFIT);
    else
        finds("paper 1 with a wild field", q, &p, steps, 3, PAPER1_PLACES, MITONGORY_DONE, places);
}

/* The second paper, with all bits of its pattern wild: it occurs at every place. */
static void all_wild(uint32_t method, uint64_t steps)
{
    uint32_t every[PAPER2_PLACES], i;
    struct paper p;
    struct search q = search_for(method, "110010110010110010110010110010110", "?????????????????????", &p);
    for (i = 0; i < PAPER2_PLACES; i++)
        every[i] = i;
    q.list_len = PAPER2_PLACES + 1;
    finds("paper 2 with all bits wild", q, &p, steps, PAPER2_PLACES, PAPER2_PLACES, MITONGORY_DONE, every);
}

/*
 * By hash the window ends in 00111100, for which H is 0 as for the pattern's own end, 00110100 as paper 1 has it. The move
 * after it is the one for the value that was read, 9, and not 6.
 */
static void move_after_another_end(void)
{
    static const uint32_t places[] = {0};
    struct paper p;
    struct search q = search_for(MITONGORY_HASH, "010011110000000000000000", "0100????00", &p);
    q.budget = 1;
    finds("hash: the move after another end", q, &p, 1, 1, 9, MITONGORY_SPENT, places);
    q = search_for(MITONGORY_HASH, "010011010000000000000000", "0100????00", &p);
    q.budget = 1;
    finds("hash: the move after the paper's end", q, &p, 1, 1, 6, MITONGORY_SPENT, places);
}

/* By wide the bit after the window is 0, and the last index that agrees with it is the wild one: the move is 66 - 1. */
static void move_by_a_wild_bit(void)
{
    static const char *const zeros = "00000000000000000000000000000000000000000000000000000000000000000000000000000000"
                                     "00000000000000000000000000000000000000000000000000000000000000000000000000000000"
                                     "0000000000000000000000000000000000000000";
    struct paper p;
    struct search q = search_for(MITONGORY_WIDE, zeros, "1?1", &p);
    finds("wide: to the end", q, &p, 4, 0, 198, MITONGORY_DONE, NULL);
    q = search_for(MITONGORY_WIDE, zeros, "1?1", &p);
    q.budget = 1;
    finds("wide: by the wild bit", q, &p, 1, 0, 65, MITONGORY_SPENT, NULL);
    q = search_for(MITONGORY_WIDE, zeros, "111", &p);
    q.budget = 1;
    finds("wide: without it", q, &p, 1, 0, 67, MITONGORY_SPENT, NULL);
}

/*
 * By skip the byte 01010101 is shown by index 8, whose bits are all fixed, and through the wild bit by the even ones below
 * it. Their places rise all the same. A call goes on where the one before it found no cell.
 */
static void byte_of_many_indices(void)
{
    static const uint32_t places[] = {0, 2, 4, 6, 8, 10, 12, 14, 16};
    struct paper p;
    struct search q = search_for(MITONGORY_SKIP, "01010101010101010101010101010101", "010101?101010101", &p);
    q.list_len = 9;
    finds("skip: a byte that many indices show", q, &p, 2, 9, 17, MITONGORY_DONE, places);
    q.list_len = 3;
    accepted("skip: three of its places", q, 0, 3, 6, MITONGORY_FULL, places);
    q.mark = 6;
    accepted("skip: the next three", q, 1, 3, 12, MITONGORY_FULL, places + 3);
    q.mark = 12;
    accepted("skip: the last three", q, 1, 3, 17, MITONGORY_DONE, places + 6);
}

/* By tail the window 0110 ends in 110, which the first three bits of ?101 agree with: the mark moves by one place. */
static void move_by_a_wild_beginning(void)
{
    static const uint32_t places[] = {1};
    struct paper p;
    struct search q = search_for(MITONGORY_TAIL, "01101", "?101", &p);
    finds("tail: ?101 in 01101", q, &p, 2, 1, 2, MITONGORY_DONE, places);
    q = search_for(MITONGORY_TAIL, "01101000", "?101", &p);
    q.budget = 1;
    finds("tail: its first step", q, &p, 1, 0, 1, MITONGORY_SPENT, NULL);
}

void wild(void)
{
    static const uint64_t steps_of_field[] = {27, 7, 0, 1, 6}, steps_of_all[] = {13, 13, 2, 1, 13};
    uint32_t method;
    for (method = MITONGORY_PLAIN; method <= MITONGORY_TAIL; method++) {
        wild_field(method, steps_of_field[method]);
        all_wild(method, steps_of_all[method]);
    }
    move_after_another_end();
    move_by_a_wild_bit();
    byte_of_many_indices();
    move_by_a_wild_beginning();
}
