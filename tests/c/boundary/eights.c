/* Eight bits, near the end of the text too: byte and count, every refusal, the largest numbers. */
#include <mitongory.h>

#include <string.h>

#include "bounds.h"
#include "check.h"
#include "draw.h"
#include "lend.h"
#include "papers.h"
#include "parts.h"

enum { CELLS = MITONGORY_EIGHT_CELLS, MOST_N = 70, PAST_N = 20, LAST_PLACES = 20, MORE_BYTES = 2 };

/* Makes the call on both sides. Expects the result, and of an accepted call byte and count; everything else stays. */
static void eight(const char *name, const void *text, size_t text_len, uint64_t n, uint32_t place, size_t answer_len,
                  uint32_t result, uint64_t byte, uint64_t count)
{
    const uint64_t told[CELLS] = {byte, count};
    int side;
    about(name);
    for (side = AT_START; side < SIDES; side++) {
        struct lent input = lend(text_len, text, (enum side)side, ONLY_READ);
        struct lent answer = lend(answer_len * sizeof *told, NULL, (enum side)side, WRITTEN);
        check(mitongory_eight_bits(at(&input), text_len, n, place, at(&answer), answer_len) == result, "result");
        check(holds(&answer, told, result == MITONGORY_OK ? sizeof told : 0), "answer");
        check(stays(&input), "the text");
        give_back(&input);
        give_back(&answer);
    }
}

static void shown(const char *name, const void *text, size_t text_len, uint64_t n, uint32_t place, uint64_t byte,
                  uint64_t count)
{
    eight(name, text, text_len, n, place, CELLS, MITONGORY_OK, byte, count);
}

static void refused(const char *name, const void *text, size_t text_len, uint64_t n, uint32_t place, size_t answer_len,
                    uint32_t result)
{
    eight(name, text, text_len, n, place, answer_len, result, 0, 0);
}

static void papers(void)
{
    const uint8_t *r1 = paper1_text;
    uint32_t p;
    for (p = 0; p + 8 <= PAPER1_N; p++) {
        uint64_t byte = 0;
        unsigned j;
        for (j = 0; j < 8; j++)
            byte = byte * 2 + bit(r1, p + j);
        shown("eight bits of paper 1", r1, 5, PAPER1_N, p, byte, 8);
    }
    shown("seven bits left", r1, 5, PAPER1_N, PAPER1_N - 7, 0x92, 7);
    shown("four bits left", r1, 5, PAPER1_N, PAPER1_N - 4, 0x90, 4);
    shown("no bits left", r1, 5, PAPER1_N, PAPER1_N, 0, 0);
    shown("after the last byte", r1, 5, PAPER1_N, 40, 0, 0);
    shown("a place whose end wraps at 32 bits", r1, 5, PAPER1_N, UINT32_MAX - 7, 0, 0);
    shown("the largest place", r1, 5, PAPER1_N, UINT32_MAX, 0, 0);
    shown("no bits", NULL, 0, 0, 0, 0, 0);
    eight("more answer cells", r1, 5, PAPER1_N, PAPER1_N - 8, 4, MITONGORY_OK, 0x49, 8);
}

/* 101, 1 and 2 in this order, and no other. */
static void refusals(void)
{
    const uint8_t *r1 = paper1_text;
    refused("one byte too few", r1, 1, 9, 0, CELLS, MITONGORY_TEXT_BYTES_MISSING);
    refused("one byte too few, at the largest place", r1, 1, 9, UINT32_MAX, CELLS, MITONGORY_TEXT_BYTES_MISSING);
    refused("n = 2^30 with five bytes", r1, 5, LARGEST_N, 0, CELLS, MITONGORY_TEXT_BYTES_MISSING);
    refused("n = 2^30 + 1", r1, 5, LARGEST_N + 1, 0, CELLS, MITONGORY_TEXT_TOO_LONG);
    refused("the largest n", r1, 5, UINT64_MAX, UINT32_MAX, CELLS, MITONGORY_TEXT_TOO_LONG);
    refused("no answer cell", r1, 5, PAPER1_N, 0, 0, MITONGORY_ANSWER_CELLS_MISSING);
    refused("one answer cell", r1, 5, PAPER1_N, 0, 1, MITONGORY_ANSWER_CELLS_MISSING);
    refused("one answer cell, and the largest n", r1, 5, UINT64_MAX, 0, 1, MITONGORY_ANSWER_CELLS_MISSING);
}

/*
 * Document 02's words: the count is the least of 8 and n - p, or 0 where p is n or more; bit j of the byte is the text's
 * bit p + j for j below the count, else 0.
 */
static int as_written(const uint8_t *text, uint64_t n, uint64_t p, const uint64_t *answer)
{
    const uint64_t left = p < n ? n - p : 0, count = left < 8 ? left : 8;
    uint64_t byte = 0, j;
    for (j = 0; j < 8; j++)
        byte = byte * 2 + (j < count ? bit(text, p + j) : 0);
    return answer[MITONGORY_BYTE] == byte && answer[MITONGORY_COUNT] == count;
}

static void at_place(const uint8_t *lent_text, const uint8_t *text, size_t bytes, uint64_t n, uint32_t place)
{
    const uint64_t cell = draw(1 << 24);
    uint64_t answer[CELLS + 1] = {cell, cell, cell};
    check(mitongory_eight_bits(lent_text, bytes, n, place, answer, CELLS) == MITONGORY_OK && answer[CELLS] == cell &&
              as_written(text, n, place, answer),
          "a place");
}

/* Every n from 0 to 70 with every place from 0 to n + 20 and the last ones of 32 bits. All bits from n on are ones. */
static void near_the_end(void)
{
    uint8_t text[MOST_N / 8 + 1 + MORE_BYTES];
    uint32_t n, p;
    int side;
    about("every place near the end");
    for (n = 0; n <= MOST_N; n++)
        for (side = AT_START; side < SIDES; side++) {
            const size_t bytes = (n + 7) / 8 + (size_t)draw(MORE_BYTES + 1);
            struct lent input;
            size_t i;
            for (i = 0; i < sizeof text; i++)
                text[i] = i < n / 8 ? draw_byte() : UINT8_MAX;
            if (n % 8 > 0)
                text[n / 8] = (uint8_t)(draw_byte() | UINT8_MAX >> n % 8);
            input = lend(bytes, text, (enum side)side, ONLY_READ);
            for (p = 0; p <= n + PAST_N; p++)
                at_place(at(&input), text, bytes, n, p);
            for (p = 0; p < LAST_PLACES; p++)
                at_place(at(&input), text, bytes, n, UINT32_MAX - p);
            check(stays(&input), "the text");
            give_back(&input);
        }
}

/* Two texts that agree below n, with other bits after it, are read the same; reads of eight in a row give the text back. */
static void read_whole(void)
{
    uint8_t text[MOST_N / 8 + 1], again[MOST_N / 8 + 1];
    uint64_t answer[CELLS];
    uint32_t n, p;
    size_t i;
    about("reads one after the other");
    for (n = 0; n <= MOST_N; n++) {
        for (i = 0; i < sizeof text; i++)
            text[i] = draw_byte();
        memset(again, 0, sizeof again);
        for (p = 0; p < n; p += 8) {
            check(mitongory_eight_bits(text, sizeof text, n, p, answer, CELLS) == MITONGORY_OK, "a read");
            again[p / 8] = (uint8_t)answer[MITONGORY_BYTE];
        }
        for (p = 0; p < MOST_N; p++)
            check(bit(again, p) == (p < n ? bit(text, p) : 0), "a bit of the text");
        for (p = 0; p <= n + PAST_N; p++) {
            uint64_t other[CELLS];
            check(mitongory_eight_bits(text, sizeof text, n, p, answer, CELLS) == MITONGORY_OK, "a place");
            check(mitongory_eight_bits(again, sizeof again, n, p, other, CELLS) == MITONGORY_OK, "the same place");
            check(memcmp(answer, other, sizeof answer) == 0, "with zeros after the end");
        }
    }
}

void eights(void)
{
    papers();
    refusals();
    near_the_end();
    read_whole();
}
