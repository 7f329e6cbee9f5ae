/* The largest text, lengths of 33 bits, and a total of 33 bits. */
#define _DEFAULT_SOURCE
#include <mitongory.h>
#include <string.h>
#include <sys/mman.h>

#include "bounds.h"
#include "check.h"
#include "lend.h"
#include "papers.h"
#include "parts.h"

static uint64_t scratch[MITONGORY_SCRATCH_CELLS], answer[MITONGORY_ANSWER_CELLS];
static uint32_t list[2];

/* Zeros, of which only the pages that are touched take memory. */
static void *zeros(size_t bytes, const char *otherwise)
{
    void *all = mmap(NULL, bytes, PROT_READ | PROT_WRITE, MAP_PRIVATE | MAP_ANONYMOUS | MAP_NORESERVE, -1, 0);
    if (all == MAP_FAILED)
        cannot(otherwise);
    return all;
}

static int answer_is(uint64_t occurrences, uint64_t mark)
{
    return answer[MITONGORY_OCCURRENCES] == occurrences && answer[MITONGORY_MARK] == mark &&
           answer[MITONGORY_STOP] == MITONGORY_DONE;
}

/* A search for one 1 in the largest text. */
static uint32_t search_largest(const uint8_t *text, uint32_t method, uint32_t mark)
{
    static const uint8_t one[] = {0x80};
    return mitongory_search(text, LARGEST_N / 8, LARGEST_N, one, 1, all_fixed, 1, 1, method, mark, UINT32_MAX, list, 2,
                            scratch, MITONGORY_SCRATCH_CELLS, answer, MITONGORY_ANSWER_CELLS);
}

/* A search for two ones, and for one. */
static uint32_t search_largest_for_set(const uint8_t *text, uint32_t mark)
{
    static const uint8_t patterns[] = {0xc0, 0x80};
    static const uint64_t counts[] = {2, 1};
    return mitongory_search_set(text, LARGEST_N / 8, LARGEST_N, patterns, 2, all_fixed, 2, counts, 2, mark, UINT32_MAX, list,
                                2, answer, MITONGORY_ANSWER_CELLS);
}

/* 2^30 bits, all 0 but the last: its place is the largest there is. */
static void largest_text(void)
{
    const size_t bytes = LARGEST_N / 8, page = page_size();
    const uint32_t untouched = 7;
    uint8_t *text = zeros(bytes + page, "there is no memory for a text of 2^30 bits");
    about("the largest text");
    text[bytes - 1] = 1;
    if (mprotect(text, bytes, PROT_READ) != 0 || mprotect(text + bytes, page, PROT_NONE) != 0)
        cannot("the pages of the largest text cannot be protected");
    list[0] = list[1] = untouched;
    check(search_largest(text, MITONGORY_WIDE, 0) == MITONGORY_OK, "result");
    check(answer_is(1, LARGEST_N), "answer");
    check(list[0] == LARGEST_N - 1 && list[1] == untouched, "list");
    list[0] = untouched;
    check(search_largest(text, MITONGORY_TAIL, LARGEST_N - 99) == MITONGORY_OK, "result of tail");
    check(answer[MITONGORY_STEPS] == 99 && answer_is(1, LARGEST_N), "answer of tail");
    check(list[0] == LARGEST_N - 1 && list[1] == untouched, "list of tail");
    check(search_largest(text, MITONGORY_PLAIN, LARGEST_N) == MITONGORY_OK, "from the largest mark");
    check(answer[MITONGORY_STEPS] == 0 && answer_is(0, LARGEST_N), "answer there");
    check(search_largest(text, MITONGORY_PLAIN, LARGEST_N + 1) == MITONGORY_BEYOND_END, "after it");
    list[0] = list[1] = untouched;
    check(search_largest_for_set(text, 0) == MITONGORY_OK, "result for a set");
    check(answer[MITONGORY_STEPS] == LARGEST_N && answer_is(1, LARGEST_N), "answer for a set");
    check(list[0] == LARGEST_N - 1 && list[1] == 1, "list for a set");
    check(search_largest_for_set(text, LARGEST_N) == MITONGORY_OK, "a set from the largest mark");
    check(answer[MITONGORY_STEPS] == 0 && answer_is(0, LARGEST_N), "its answer there");
    check(search_largest_for_set(text, LARGEST_N + 1) == MITONGORY_BEYOND_END, "a set after it");
    check(mitongory_eight_bits(text, bytes, LARGEST_N, LARGEST_N - 8, answer, 2) == MITONGORY_OK && answer[0] == 1 &&
              answer[1] == 8,
          "eight bits");
    check(mitongory_eight_bits(text, bytes, LARGEST_N, LARGEST_N - 7, answer, 2) == MITONGORY_OK && answer[0] == 2 &&
              answer[1] == 7,
          "seven bits before the end");
    munmap(text, bytes + page);
}

/* ---- lengths that do not fit 32 bits: cut to them each would be 0 */

static const size_t length = TWO_TO_32;

/* So many zeros that they serve as any of the buffers, one after the other. */
static void *huge;

/* Makes the front of it 0 again. */
static void clear(size_t bytes)
{
    memset(huge, 0, bytes);
}

/* The buffers of a search of paper 1. */
struct buffers {
    const uint8_t *text, *pattern, *fixed;
    uint32_t *list;
    uint64_t *scratch, *answer;
    size_t text_len, pattern_len, fixed_len, list_len, scratch_len, answer_len;
};

static struct buffers small_buffers(void)
{
    struct buffers b = {paper1_text, paper1_pattern, all_fixed, list, scratch, answer, PAPER1_TEXT_BYTES,
                        PAPER1_PATTERN_BYTES, PAPER1_PATTERN_BYTES, 2, MITONGORY_SCRATCH_CELLS, MITONGORY_ANSWER_CELLS};
    memset(answer, 0, sizeof answer);
    memset(list, 0, sizeof list);
    return b;
}

/* By hash. */
static uint32_t search_with(struct buffers b)
{
    return mitongory_search(b.text, b.text_len, PAPER1_N, b.pattern, b.pattern_len, b.fixed, b.fixed_len, PAPER1_M,
                            MITONGORY_HASH, 0, UINT32_MAX, b.list, b.list_len, b.scratch, b.scratch_len, b.answer,
                            b.answer_len);
}

static int finds(const struct buffers *b)
{
    return b->answer[MITONGORY_OCCURRENCES] == 1 && b->list[0] == PAPER1_OCCURRENCE && b->list[1] == 0;
}

static void long_searches(void)
{
    const uint64_t told[] = {5, 1, PAPER1_PLACES, MITONGORY_DONE, 0};
    struct buffers b = small_buffers();
    about("a search with a length of 33 bits");
    memcpy(huge, paper1_text, sizeof paper1_text);
    b.text = huge;
    b.text_len = length;
    check(search_with(b) == MITONGORY_OK, "text");
    check(finds(&b), "the place in that text");
    clear(sizeof paper1_text);

    memcpy(huge, paper1_pattern, sizeof paper1_pattern);
    b = small_buffers();
    b.pattern = huge;
    b.pattern_len = length;
    check(search_with(b) == MITONGORY_OK, "pattern");
    check(finds(&b), "the place of that pattern");
    clear(sizeof paper1_pattern);

    memset(huge, 0xff, sizeof paper1_pattern);
    b = small_buffers();
    b.fixed = huge;
    b.fixed_len = length;
    check(search_with(b) == MITONGORY_OK, "fixed");
    check(finds(&b), "the place by that second run");
    clear(sizeof paper1_pattern);

    b = small_buffers();
    b.list = huge;
    b.list_len = length;
    check(search_with(b) == MITONGORY_OK, "list");
    check(finds(&b), "the place in that list");
    clear(sizeof *b.list);

    b = small_buffers();
    b.scratch = huge;
    b.scratch_len = length;
    check(search_with(b) == MITONGORY_OK, "scratch");
    check(finds(&b) && b.scratch[512] == 0, "the place with that scratch");
    clear(sizeof scratch);

    b = small_buffers();
    b.answer = huge;
    b.answer_len = length;
    check(search_with(b) == MITONGORY_OK, "answer");
    check(finds(&b) && memcmp(b.answer, told, sizeof told) == 0, "what that answer holds");
    clear(sizeof answer);
}

/* For a set of its pattern alone, whose number 0 is the second cell. */
static uint32_t search_set_with(struct buffers b, const uint64_t *counts, size_t counts_len)
{
    return mitongory_search_set(b.text, b.text_len, PAPER1_N, b.pattern, b.pattern_len, b.fixed, b.fixed_len, counts,
                                counts_len, 0, UINT32_MAX, b.list, b.list_len, b.answer, b.answer_len);
}

static void long_sets(void)
{
    static const uint64_t counts[] = {PAPER1_M};
    const uint64_t told[] = {PAPER1_PLACES, 1, PAPER1_PLACES, MITONGORY_DONE, 0};
    struct buffers b = small_buffers();
    about("a set with a length of 33 bits");
    memcpy(huge, paper1_text, sizeof paper1_text);
    b.text = huge;
    b.text_len = length;
    check(search_set_with(b, counts, 1) == MITONGORY_OK && finds(&b), "text");
    clear(sizeof paper1_text);

    memcpy(huge, paper1_pattern, sizeof paper1_pattern);
    b = small_buffers();
    b.pattern = huge;
    b.pattern_len = length;
    check(search_set_with(b, counts, 1) == MITONGORY_OK && finds(&b), "patterns");
    clear(sizeof paper1_pattern);

    memset(huge, 0xff, sizeof paper1_pattern);
    b = small_buffers();
    b.fixed = huge;
    b.fixed_len = length;
    check(search_set_with(b, counts, 1) == MITONGORY_OK && finds(&b), "fixed");
    clear(sizeof paper1_pattern);

    b = small_buffers();
    check(search_set_with(b, huge, length) == MITONGORY_SET_SIZE, "counts");

    b.list = huge;
    b.list_len = length;
    check(search_set_with(b, counts, 1) == MITONGORY_OK && finds(&b) && b.list[2] == 0, "list");
    clear(2 * sizeof *b.list);

    b = small_buffers();
    b.answer = huge;
    b.answer_len = length;
    check(search_set_with(b, counts, 1) == MITONGORY_OK && finds(&b), "answer");
    check(memcmp(b.answer, told, sizeof told) == 0, "what that answer holds");
    clear(sizeof answer);
}

static void long_values(void)
{
    about("a value with a length of 33 bits");
    memcpy(huge, paper1_text, sizeof paper1_text);
    check(mitongory_eight_bits(huge, length, PAPER1_N, PAPER1_OCCURRENCE, answer, 2) == MITONGORY_OK &&
              answer[0] == paper1_pattern[0] && answer[1] == 8,
          "text of eight bits");
    clear(sizeof paper1_text);
    memcpy(huge, paper1_pattern, sizeof paper1_pattern);
    check(mitongory_hash_value(huge, length, all_fixed, PAPER1_PATTERN_BYTES, PAPER1_M, 0x34, answer, 1) == MITONGORY_OK &&
              answer[0] == 0,
          "pattern of H");
    clear(sizeof paper1_pattern);
    answer[0] = 1;
    check(mitongory_hash_value(paper1_pattern, PAPER1_PATTERN_BYTES, huge, length, PAPER1_M, 0xff, answer, 1) ==
                  MITONGORY_OK &&
              answer[0] == 0,
          "second run of H, all of it wild");
}

static void long_lists(void)
{
    static const uint8_t file[] = {3, 0, 5, 5}, one_position[] = {1, 5}, claims[] = {0x80, 0x80, 0x80, 0x80, 4, 5};
    uint32_t *cells = huge;
    uint8_t target[4] = {0};
    about("a list or a file with a length of 33 bits");
    check(mitongory_list_size(huge, length, answer, 1) == MITONGORY_LIST_NOT_RISING, "list of zeros, its size");
    check(mitongory_list_write(huge, length, target, sizeof target, answer, 1) == MITONGORY_LIST_NOT_RISING,
          "list of zeros, its file");
    check(mitongory_list_write(paper2_occurrences, PAPER2_OCCURRENCES, huge, length, answer, 1) == MITONGORY_OK &&
              answer[0] == sizeof file,
          "target");
    check(memcmp(huge, file, sizeof file) == 0 && cells[1] == 0, "what that target holds");
    check(mitongory_list_read(huge, length, list, 2, answer, 1) == MITONGORY_BYTES_LEFT_OVER, "file of three positions");
    clear(sizeof file);
    memcpy(huge, one_position, sizeof one_position);
    check(mitongory_list_read(huge, length, list, 2, answer, 1) == MITONGORY_BYTES_LEFT_OVER, "file of one position");
    clear(sizeof one_position);
    check(mitongory_list_read(one_position, sizeof one_position, cells, length, answer, 1) == MITONGORY_OK &&
              answer[0] == 1,
          "cells");
    check(cells[0] == 5 && cells[1] == 0, "what those cells hold");
    clear(sizeof *cells);
    check(mitongory_list_read(claims, sizeof claims, cells, length, answer, 1) == MITONGORY_FILE_ENDS_EARLY && cells[0] == 0,
          "a file of six bytes that claims 2^30 positions");
}

/* A key of the second paper's occurrences, and the same as a sheet. */
static void long_sittings(void)
{
    const uint32_t *key = paper2_occurrences;
    const size_t key_len = PAPER2_OCCURRENCES;
    const uint64_t count = PAPER2_OCCURRENCES, none = 0, all = length;
    uint32_t report[MITONGORY_SHEET_CELLS], *cells = huge;
    uint64_t *told = huge;
    about("a sitting with a length of 33 bits");
    check(mitongory_mark_sitting(huge, length, key, key_len, &count, 1, report, 3, answer, 3) == MITONGORY_LIST_NOT_RISING,
          "key of zeros");
    check(mitongory_mark_sitting(key, key_len, huge, length, &none, 1, report, 3, answer, 3) == MITONGORY_COUNTS_DIFFER,
          "sheets, and a count of 0");
    check(mitongory_mark_sitting(key, key_len, huge, length, &all, 1, report, 3, answer, 3) == MITONGORY_LIST_NOT_RISING,
          "sheet of zeros");
    check(mitongory_mark_sitting(key, key_len, key, 0, huge, length, report, 3, answer, 3) == MITONGORY_TOO_MANY_SHEETS,
          "counts");
    check(mitongory_mark_sitting(key, key_len, key, key_len, &count, 1, huge, length, answer, 3) == MITONGORY_OK, "report");
    check(cells[MITONGORY_RIGHT] == count && cells[MITONGORY_MISSED] == 0, "what that report holds");
    clear(sizeof report);
    check(mitongory_mark_sitting(key, key_len, key, key_len, &count, 1, report, 3, huge, length) == MITONGORY_OK, "answer");
    check(told[MITONGORY_RIGHT] == count && told[MITONGORY_MISSED] == 0, "what that answer holds");
    clear(sizeof answer);
}

/* As many positions as make 2^32 when each of 256 empty sheets misses them all. */
static void long_total(void)
{
    static const uint64_t counts[MITONGORY_SHEETS];
    static uint32_t report[MITONGORY_SHEETS * MITONGORY_SHEET_CELLS];
    const uint32_t key_len = (uint32_t)(TWO_TO_32 / MITONGORY_SHEETS), last = (MITONGORY_SHEETS - 1) * MITONGORY_SHEET_CELLS;
    uint32_t *key = huge, i;
    about("a total of 33 bits");
    for (i = 0; i < key_len; i++)
        key[i] = i;
    check(mitongory_mark_sitting(key, key_len, key, 0, counts, MITONGORY_SHEETS, report, sizeof report / sizeof *report,
                                 answer, MITONGORY_SHEET_CELLS) == MITONGORY_OK,
          "result");
    check(report[last + MITONGORY_MISSED] == key_len, "what the last sheet misses");
    check(answer[MITONGORY_RIGHT] == 0 && answer[MITONGORY_MISSED] == TWO_TO_32 && answer[MITONGORY_FALSE_POSITIVES] == 0,
          "answer");
}

static void lengths_of_33_bits(void)
{
    const size_t bytes = length * sizeof(uint64_t);
    huge = zeros(bytes, "there are no 32 GiB of addresses for lengths of 33 bits: lift the limit (ulimit -v, "
                        "vm.overcommit_memory), as these checks are never left out");
    long_searches();
    long_sets();
    long_values();
    long_lists();
    long_sittings();
    long_total();
    munmap(huge, bytes);
}

void large(void)
{
    largest_text();
    lengths_of_33_bits();
}
