/* Empty buffers may have any pointer, and buffers that are only read may be the same. */
#include <mitongory.h>

#include "check.h"
#include "lend.h"
#include "papers.h"
#include "parts.h"

static uint64_t scratch[MITONGORY_SCRATCH_CELLS], answer[MITONGORY_ANSWER_CELLS];

/* A search in which only the answer may be a buffer that is not empty. */
#define SEARCH(m, method, answer, answer_len)                                                                              \
    mitongory_search(nowhere, 0, 0, nowhere, 0, nowhere, 0, m, method, 0, 0, nowhere, 0, nowhere, 0, answer, answer_len)

/* A search for a set of no patterns or of one, in which only the answer may be a buffer that is not empty. */
#define SET(patterns, answer, answer_len)                                                                                  \
    mitongory_search_set(nowhere, 0, 0, nowhere, 0, nowhere, 0, patterns == 0 ? nowhere : &m, patterns, 0, 0, nowhere, 0,  \
                         answer, answer_len)

/* A sitting of no sheets or of an empty one, in which only the answer may be a buffer that is not empty. */
#define SITTING(sheets, answer, answer_len)                                                                                \
    mitongory_mark_sitting(nowhere, 0, nowhere, 0, sheets == 0 ? nowhere : &none, sheets, nowhere, 0, answer, answer_len)

/* Whether a search says that there is no place. */
static int nothing_is_told(void)
{
    return answer[MITONGORY_STEPS] == 0 && answer[MITONGORY_OCCURRENCES] == 0 && answer[MITONGORY_MARK] == 0 &&
           answer[MITONGORY_STOP] == MITONGORY_DONE;
}

/* Every call with every buffer empty, then all but the answer. */
static void empty_buffers(const char *name, void *nowhere)
{
    const uint64_t m = 8, none = 0;
    about(name);
    check(SEARCH(0, MITONGORY_PLAIN, nowhere, 0) == MITONGORY_ANSWER_CELLS_MISSING, "search");
    check(SEARCH(0, MITONGORY_TAIL + 1, nowhere, 0) == MITONGORY_UNKNOWN_METHOD, "search by method 5");
    check(SEARCH(0, MITONGORY_PLAIN, answer, 4) == MITONGORY_PATTERN_LENGTH, "search for no bits");
    check(SEARCH(1, MITONGORY_PLAIN, answer, 4) == MITONGORY_PATTERN_BYTES_MISSING, "search for one bit");
    check(mitongory_scratch_cells(MITONGORY_PLAIN, 0, nowhere, 0) == MITONGORY_ANSWER_CELLS_MISSING, "scratch cells");
    check(mitongory_scratch_cells(MITONGORY_TAIL + 1, 0, nowhere, 0) == MITONGORY_UNKNOWN_METHOD, "those of method 5");
    check(mitongory_search(nowhere, 0, 0, paper1_pattern, PAPER1_PATTERN_BYTES, nowhere, 0, PAPER1_M, MITONGORY_PLAIN, 0, 1,
                           nowhere, 0, nowhere, 0, answer, 4) == MITONGORY_FIXED_BYTES_MISSING,
          "search with an empty second run");
    check(mitongory_hash_value(nowhere, 0, nowhere, 0, m, 0, nowhere, 0) == MITONGORY_ANSWER_CELLS_MISSING, "hash value");
    check(mitongory_hash_value(nowhere, 0, nowhere, 0, m, 0, answer, 1) == MITONGORY_PATTERN_BYTES_MISSING,
          "hash value of no bytes");
    check(mitongory_hash_value(paper1_pattern, 1, nowhere, 0, m, 0, answer, 1) == MITONGORY_FIXED_BYTES_MISSING,
          "hash value with an empty second run");
    check(mitongory_eight_bits(nowhere, 0, 0, 0, nowhere, 0) == MITONGORY_ANSWER_CELLS_MISSING, "eight bits");
    check(mitongory_eight_bits(nowhere, 0, 0, 0, answer, 2) == MITONGORY_OK && answer[0] == 0 && answer[1] == 0,
          "eight bits of none");
    check(mitongory_list_size(nowhere, 0, nowhere, 0) == MITONGORY_ANSWER_CELLS_MISSING, "list size");
    check(mitongory_list_size(nowhere, 0, answer, 1) == MITONGORY_OK && answer[0] == 1, "size of the empty list");
    check(mitongory_list_write(nowhere, 0, nowhere, 0, nowhere, 0) == MITONGORY_ANSWER_CELLS_MISSING, "list write");
    check(mitongory_list_write(nowhere, 0, nowhere, 0, answer, 1) == MITONGORY_TARGET_TOO_SHORT, "empty list, no bytes");
    check(mitongory_list_read(nowhere, 0, nowhere, 0, nowhere, 0) == MITONGORY_ANSWER_CELLS_MISSING, "list read");
    check(mitongory_list_read(nowhere, 0, nowhere, 0, answer, 1) == MITONGORY_FILE_ENDS_EARLY, "an empty file");
    check(mitongory_list_read((const uint8_t *)"", 1, nowhere, 0, answer, 1) == MITONGORY_OK && answer[0] == 0,
          "the empty list's file");
    check(SITTING(0, nowhere, 0) == MITONGORY_ANSWER_CELLS_MISSING, "sitting");
    check(SITTING(0, answer, 3) == MITONGORY_OK && answer[MITONGORY_RIGHT] == 0 && answer[MITONGORY_MISSED] == 0 &&
              answer[MITONGORY_FALSE_POSITIVES] == 0,
          "no sheets");
    check(SITTING(1, answer, 3) == MITONGORY_TARGET_TOO_SHORT, "an empty sheet, no report");
    check(mitongory_search(nowhere, 0, 0, paper1_pattern, PAPER1_PATTERN_BYTES, all_fixed, PAPER1_PATTERN_BYTES, PAPER1_M,
                           MITONGORY_PLAIN, 0, 1, nowhere, 0, scratch, MITONGORY_SCRATCH_CELLS, answer, 4) == MITONGORY_OK,
          "an empty text and an empty list");
    check(nothing_is_told(), "the answer to them");
    check(SET(0, nowhere, 0) == MITONGORY_ANSWER_CELLS_MISSING, "set");
    check(SET(0, answer, 4) == MITONGORY_SET_SIZE, "set of no patterns");
    check(SET(1, answer, 4) == MITONGORY_PATTERN_BYTES_MISSING, "set of a pattern with no bytes");
    check(mitongory_search_set(nowhere, 0, 0, paper1_pattern, 1, nowhere, 0, &m, 1, 0, 1, nowhere, 0, answer, 4) ==
              MITONGORY_FIXED_BYTES_MISSING,
          "set with an empty second run");
    answer[MITONGORY_STOP] = MITONGORY_SPENT;
    check(mitongory_search_set(nowhere, 0, 0, paper1_pattern, 1, all_fixed, 1, &m, 1, 0, 1, nowhere, 0, answer, 4) ==
              MITONGORY_OK,
          "set in an empty text with an empty list");
    check(nothing_is_told(), "the answer to it");
}

/* The one occurrence of the second paper's pattern in itself. */
static void one_place(const uint8_t *both, const uint8_t *fixed)
{
    uint32_t list[4] = {1, 1, 1, 1};
    check(mitongory_search(both, PAPER2_PATTERN_BYTES, PAPER2_M, both, PAPER2_PATTERN_BYTES, fixed, PAPER2_PATTERN_BYTES,
                           PAPER2_M, MITONGORY_WIDE, 0, 9, list, 4, scratch, MITONGORY_SCRATCH_CELLS, answer,
                           4) == MITONGORY_OK,
          "result");
    check(answer[MITONGORY_OCCURRENCES] == 1 && list[0] == 0 && answer[MITONGORY_MARK] == 1 &&
              answer[MITONGORY_STOP] == MITONGORY_DONE,
          "answer");
}

static void same_buffer(void)
{
    const uint32_t *key = paper2_occurrences;
    const uint64_t count = PAPER2_OCCURRENCES, m = PAPER2_M;
    uint32_t list[4] = {1, 1, 1, 1};
    about("one buffer as key and sheet");
    check(mitongory_mark_sitting(key, PAPER2_OCCURRENCES, key, PAPER2_OCCURRENCES, &count, 1, list, 4, answer, 4) ==
              MITONGORY_OK,
          "result");
    check(list[MITONGORY_RIGHT] == count && list[MITONGORY_MISSED] == 0 && list[MITONGORY_FALSE_POSITIVES] == 0 &&
              list[MITONGORY_SHEET_CELLS] == 1,
          "report");
    about("one buffer as text and pattern");
    one_place(paper2_pattern, all_fixed);
    about("one buffer as text, pattern and second run");
    one_place(paper2_pattern, paper2_pattern);
    about("one buffer as text, patterns and second run of a set");
    check(mitongory_search_set(paper2_pattern, PAPER2_PATTERN_BYTES, PAPER2_M, paper2_pattern, PAPER2_PATTERN_BYTES,
                               paper2_pattern, PAPER2_PATTERN_BYTES, &m, 1, 0, 9, list, 4, answer, 4) == MITONGORY_OK,
          "result");
    check(answer[MITONGORY_OCCURRENCES] == 1 && list[0] == 0 && list[1] == 0 && answer[MITONGORY_STEPS] == 1 &&
              answer[MITONGORY_MARK] == 1 && answer[MITONGORY_STOP] == MITONGORY_DONE,
          "answer");
}

void pointers(void)
{
    struct lent none = lend(0, NULL, AT_START, ONLY_READ);
    empty_buffers("NULL with length 0", NULL);
    empty_buffers("a page that cannot be touched, with length 0", none.pages);
    empty_buffers("an odd address, with length 0", none.pages + 1);
    give_back(&none);
    same_buffer();
}
