/* H(B): values, refusals, the largest numbers. */
#include <mitongory.h>

#include "bounds.h"
#include "calls.h"
#include "check.h"
#include "draw.h"
#include "lend.h"
#include "naive.h"
#include "papers.h"
#include "parts.h"
#include "second_run.h"

enum { VALUES = 256 };

/* H of a pattern; as many bytes of the second run are lent as of the values. */
static void hash_wild(const char *name, const void *pattern, const void *fixed, size_t bytes, uint64_t m, uint8_t value,
                      size_t answer_len, uint32_t result, uint64_t told)
{
    struct call c = {HASH_VALUE, pattern, bytes, fixed, bytes, m, value, 0, answer_len};
    calling(name, c, result, told, NULL);
}

static void hash_value(const char *name, const void *pattern, size_t bytes, uint64_t m, uint8_t value, size_t answer_len,
                       uint32_t result, uint64_t told)
{
    hash_wild(name, pattern, all_fixed, bytes, m, value, answer_len, result, told);
}

static void hash_values(void)
{
    static const uint8_t zeros[LARGEST_M / 8 + 1];
    const uint8_t *v2 = paper2_pattern;
    hash_value("H of the paper", v2, 3, PAPER2_M, 0x65, 1, MITONGORY_OK, 2);
    hash_value("H of the paper", v2, 3, PAPER2_M, 0xcb, 1, MITONGORY_OK, 1);
    hash_value("H of the paper", v2, 3, PAPER2_M, 0x96, 5, MITONGORY_OK, 0);
    hash_value("H of 255", v2, 3, PAPER2_M, 0xff, 1, MITONGORY_OK, 19);
    hash_value("H of 0", v2, 3, PAPER2_M, 0x00, 1, MITONGORY_OK, 21);
    hash_value("H of eight bits", v2, 1, LEAST_M_HASH, 0xcb, 1, MITONGORY_OK, 0);
    hash_value("H of 2048 zeros", zeros, 256, LARGEST_M, 0xff, 1, MITONGORY_OK, LARGEST_M);
    hash_value("m = 0", v2, 3, 0, 0, 1, MITONGORY_PATTERN_LENGTH, 0);
    hash_value("m = 2049", zeros, 257, LARGEST_M + 1, 0, 1, MITONGORY_PATTERN_LENGTH, 0);
    hash_value("the largest m", v2, 3, UINT64_MAX, 0xff, 1, MITONGORY_PATTERN_LENGTH, 0);
    hash_value("one byte too few", v2, 2, 17, 0, 1, MITONGORY_PATTERN_BYTES_MISSING, 0);
    hash_value("no bytes", NULL, 0, LEAST_M_HASH - 1, 0, 1, MITONGORY_PATTERN_BYTES_MISSING, 0);
    hash_value("m = 7", v2, 3, LEAST_M_HASH - 1, 0, 1, MITONGORY_PATTERN_UNFIT, 0);
    hash_value("no answer cell", v2, 3, PAPER2_M, 0x65, 0, MITONGORY_ANSWER_CELLS_MISSING, 0);
    hash_value("no answer cell, and m = 0", v2, 3, 0, 0x65, 0, MITONGORY_ANSWER_CELLS_MISSING, 0);
}

/* 0100????00 (? is a wild bit): H is 0 for all values that begin and end with 00. */
static void hash_of_a_wild_field(void)
{
    static const uint8_t pattern[] = {0x4d, 0x00}, other[] = {0x42, 0x3f}, fixed[] = {0xf0, 0xc0}, more[] = {0xf0, 0xff};
    unsigned field;
    for (field = 0; field < 16; field++) {
        const uint8_t value = (uint8_t)(field << 2);
        hash_wild("H of the pattern's end", pattern, fixed, 2, PAPER1_M, value, 1, MITONGORY_OK, 0);
        hash_wild("H with other bits that never matter", other, more, 2, PAPER1_M, value, 1, MITONGORY_OK, 0);
        hash_value("H with no wild bit", pattern, 2, PAPER1_M, value, 1, MITONGORY_OK,
                   field == 13 ? 0 : field % 4 == 1 ? 6 : 9);
    }
    hash_wild("H of 01000000", pattern, fixed, 2, PAPER1_M, 0x40, 1, MITONGORY_OK, 2);
    hash_wild("H of 255, all wild", pattern, "\0", 2, PAPER1_M, 0xff, 3, MITONGORY_OK, 0);
}

/* 101, 3, 4, 17 and 5 in this order: everything is wrong at first, and then one thing after the other is put right. */
static void refused_hash_values(void)
{
    struct call c = {HASH_VALUE, paper2_pattern, 0, all_fixed, 0, 0, 0x65, 0, 0};
    calling("no answer cell", c, MITONGORY_ANSWER_CELLS_MISSING, 0, NULL);
    c.answer_len = 1;
    calling("then m", c, MITONGORY_PATTERN_LENGTH, 0, NULL);
    c.bits = LEAST_M_HASH - 1;
    calling("then the pattern bytes", c, MITONGORY_PATTERN_BYTES_MISSING, 0, NULL);
    c.fixed_len = 1;
    calling("also with a byte of the second run", c, MITONGORY_PATTERN_BYTES_MISSING, 0, NULL);
    c.input_len = 1, c.fixed_len = 0;
    calling("then the second run's bytes", c, MITONGORY_FIXED_BYTES_MISSING, 0, NULL);
    c.fixed_len = 1;
    calling("then the pattern's length", c, MITONGORY_PATTERN_UNFIT, 0, NULL);
    c.bits = PAPER2_M, c.input_len = PAPER2_PATTERN_BYTES, c.fixed_len = PAPER2_PATTERN_BYTES - 1;
    calling("one byte of the second run too few", c, MITONGORY_FIXED_BYTES_MISSING, 0, NULL);
    c.fixed_len++;
    calling("and then it is accepted", c, MITONGORY_OK, 2, NULL);
}

/* All values, for a drawn pattern in lent buffers, against H bit by bit. */
static void every_hash_value(struct search q, enum side side)
{
    struct lent pattern = lend(q.pattern_len, q.pattern, side, ONLY_READ);
    struct lent fixed = lend(q.fixed_len, q.fixed, side, ONLY_READ);
    unsigned value;
    for (value = 0; value < VALUES; value++) {
        uint64_t told = UINT64_MAX;
        check(mitongory_hash_value(at(&pattern), q.pattern_len, at(&fixed), q.fixed_len, q.m, (uint8_t)value, &told, 1) ==
                      MITONGORY_OK &&
                  told == least_move(&q, value, 0),
              "H");
    }
    check(stays(&pattern) && stays(&fixed), "the buffers that are read");
    give_back(&pattern);
    give_back(&fixed);
}

static void drawn_hash_values(void)
{
    static const uint64_t lengths[] = {8, 9, 10, 15, 16, 17, 21, 63, 64, 65, 72, 300, LARGEST_M - 1, LARGEST_M};
    uint8_t pattern[LARGEST_M / 8], fixed[LARGEST_M / 8];
    struct search q = paper1(MITONGORY_HASH);
    size_t i, k;
    int way;
    about("H of a drawn pattern");
    q.pattern = pattern, q.fixed = fixed;
    for (i = 0; i < sizeof lengths / sizeof *lengths; i++)
        for (way = NONE_WILD; way < WAYS; way++) {
            for (k = 0; k < sizeof pattern; k++)
                pattern[k] = (uint8_t)draw(VALUES);
            q.m = lengths[i];
            q.pattern_len = q.fixed_len = (size_t)(q.m + 7) / 8;
            draw_fixed((enum wild)way, q.m, fixed);
            every_hash_value(q, AT_START);
            change_the_rest(q.m, pattern, fixed);
            every_hash_value(q, AT_END);
        }
}

void values(void)
{
    hash_values();
    hash_of_a_wild_field();
    refused_hash_values();
    drawn_hash_values();
}
