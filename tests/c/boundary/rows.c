/*
 * The rows that a plain search makes, as they lie in the scratch: row i, byte h and bit j in document 01's words. A search
 * with no budget makes its tables and no step. What the scratch holds after a call is promised to no caller: this looks
 * into the library.
 */
#include <mitongory.h>

#include "bounds.h"
#include "check.h"
#include "draw.h"
#include "parts.h"
#include "search_call.h"
#include "second_run.h"

enum { ROWS = 8, MOST_BYTES = LARGEST_M / 8 + 1 };

/* Byte h of row i, or with `masks` 8 of its mask. A cell holds eight of them, the first one highest. */
static unsigned row_byte(const uint64_t *scratch, size_t masks, size_t i, size_t h)
{
    return (unsigned)(scratch[16 * (h / 8) + masks + i] >> 8 * (7 - h % 8) & 0xff);
}

/* The same in the words: bit j is that at the index 8h - i + j where it is in 0..m-1 and fixed, and the mask has a 1 there. */
static unsigned written_byte(const uint8_t *run, const uint8_t *fixed, uint64_t m, size_t i, size_t h)
{
    unsigned byte = 0;
    int64_t j, q;
    for (j = 0; j < 8; j++) {
        q = 8 * (int64_t)h - (int64_t)i + j;
        byte *= 2;
        if (q >= 0 && q < (int64_t)m)
            byte += (unsigned)(run[q / 8] & fixed[q / 8]) >> (7 - q % 8) & 1;
    }
    return byte;
}

/* All row bytes after a search with no budget, on a scratch of just the cells that are needed, on both sides. */
static void rows_of(const struct search *q)
{
    struct search_buffers b;
    size_t i, h;
    int side;
    for (side = AT_START; side < SIDES; side++) {
        int same = 1;
        check(search_on(q, (enum side)side, &b) == MITONGORY_OK, "result");
        for (i = 0; i < ROWS; i++)
            for (h = 0; h < (q->m + i + 7) / 8; h++)
                same = same && row_byte(at(&b.scratch), 0, i, h) == written_byte(q->pattern, q->fixed, q->m, i, h) &&
                       row_byte(at(&b.scratch), 8, i, h) == written_byte(q->fixed, q->fixed, q->m, i, h);
        check(same, "row bytes");
        check(stays(&b.text) && stays(&b.pattern) && stays(&b.fixed) && stays(&b.list), "other buffers");
        give_back_all(&b);
    }
}

/* Document 003's figure 1: the pattern of paper 2, row by row, and its masks. A byte that no row has is 0. */
static void figure_1(void)
{
    static const uint8_t patt[ROWS][4] = {{0xcb, 0x2c, 0xb0, 0x00}, {0x65, 0x96, 0x58, 0x00}, {0x32, 0xcb, 0x2c, 0x00},
                                          {0x19, 0x65, 0x96, 0x00}, {0x0c, 0xb2, 0xcb, 0x00}, {0x06, 0x59, 0x65, 0x80},
                                          {0x03, 0x2c, 0xb2, 0xc0}, {0x01, 0x96, 0x59, 0x60}};
    static const uint8_t mask[ROWS][4] = {{0xff, 0xff, 0xf8, 0x00}, {0x7f, 0xff, 0xfc, 0x00}, {0x3f, 0xff, 0xfe, 0x00},
                                          {0x1f, 0xff, 0xff, 0x00}, {0x0f, 0xff, 0xff, 0x80}, {0x07, 0xff, 0xff, 0xc0},
                                          {0x03, 0xff, 0xff, 0xe0}, {0x01, 0xff, 0xff, 0xf0}};
    struct search q = paper2(MITONGORY_PLAIN);
    struct search_buffers b;
    size_t i, h;
    q.budget = 0;
    about("the rows of figure 1");
    rows_of(&q);
    check(search_on(&q, AT_END, &b) == MITONGORY_OK, "result");
    for (i = 0; i < ROWS; i++)
        for (h = 0; h < 4; h++) {
            check(row_byte(at(&b.scratch), 0, i, h) == patt[i][h], "Patt");
            check(row_byte(at(&b.scratch), 8, i, h) == mask[i][h], "Mask");
        }
    give_back_all(&b);
}

/* Every length with wild bits of every kind in turn, and bits from m on that are drawn. */
static void each_length(void)
{
    uint8_t text[MOST_BYTES], pattern[MOST_BYTES], fixed[MOST_BYTES];
    struct search q = paper1(MITONGORY_PLAIN);
    uint64_t m, i;
    int way;
    about("the rows of every length");
    q.text = text, q.pattern = pattern, q.fixed = fixed, q.budget = 0, q.list_len = 0;
    for (m = 1; m <= LARGEST_M; m++)
        for (way = (int)(m % 2); way < WAYS; way += 2) {
            for (i = 0; i < MOST_BYTES; i++)
                text[i] = draw_byte(), pattern[i] = draw_byte();
            draw_fixed((enum wild)way, m, fixed);
            q.m = m, q.n = m + draw(9), q.text_len = (size_t)(q.n + 7) / 8;
            q.pattern_len = q.fixed_len = (size_t)(m + 7) / 8;
            q.scratch_len = scratch_for(MITONGORY_PLAIN, m);
            rows_of(&q);
        }
}

void rows(void)
{
    figure_1();
    each_length();
}
