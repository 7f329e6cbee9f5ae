/*
 * Searches the course's two papers through mitongory.h. Build and run it after `make lib` by
 *
 *     cc -Iinclude examples/find.c target/lib/libmitongory.a -o target/find && target/find
 *
 * or after `make install` by
 *
 *     cc examples/find.c $(pkg-config --cflags --libs mitongory) -o find && ./find
 */
#include <inttypes.h>
#include <mitongory.h>
#include <stdint.h>
#include <stdio.h>
#include <string.h>

#define CELLS 36

static const char *const text1 = "011001001000100110100101000101001001";
static const char *const pattern1 = "0100110100";
static const char *const wild1 = "0100????00"; /* a question mark is a wild bit */
static const char *const text2 = "110010110010110010110010110010110";
static const char *const pattern2 = "110010110010110010110";

static const char *const methods[] = {"plain", "hash", "skip", "wide", "tail"};
static const char *const stops[] = {"done", "full", "spent"};

/* Tables of a call; what they held before does not matter. */
static uint64_t scratch[MITONGORY_SCRATCH_CELLS];

/* Packs characters into bytes, the first bit leftmost: a 1 for each that is among `ones`. Returns the bit count. */
static uint64_t pack(const char *bits, const char *ones, uint8_t *bytes)
{
    size_t i;
    for (i = 0; bits[i] != '\0'; i++) {
        if (i % 8 == 0)
            bytes[i / 8] = 0;
        if (strchr(ones, bits[i]) != NULL)
            bytes[i / 8] = (uint8_t)(bytes[i / 8] | (0x80u >> (i % 8)));
    }
    return i;
}

static void print_places(const uint32_t *list, uint64_t count)
{
    uint64_t i;
    for (i = 0; i < count; i++)
        printf(" %" PRIu32, list[i]);
    printf("\n");
}

/* Says why a call was refused; the exit status. */
static int refused(const char *what, uint32_t refusal)
{
    printf("%s: refused, number %" PRIu32 ": %s\n", what, refusal, mitongory_result_text(refusal));
    return 1;
}

int main(void)
{
    static const uint8_t all_fixed[8] = {255, 255, 255, 255, 255, 255, 255, 255}; /* no bit is wild */
    uint8_t text[8] = {0}, pattern[8] = {0}, fixed[8] = {0}, file[8] = {0};
    uint32_t list[CELLS] = {0}, mark = 0, all = 0, method, result;
    uint64_t answer[MITONGORY_ANSWER_CELLS] = {0}, n, m, i;
    size_t bytes;

    /* Every method on the first paper, with cells for all occurrences. */
    n = pack(text1, "1", text);
    m = pack(pattern1, "1", pattern);
    for (method = MITONGORY_PLAIN; method <= MITONGORY_TAIL; method++) {
        result = mitongory_search(text, sizeof text, n, pattern, sizeof pattern, all_fixed, sizeof all_fixed, m, method, 0,
                                  UINT32_MAX, list, CELLS, scratch, MITONGORY_SCRATCH_CELLS, answer,
                                  MITONGORY_ANSWER_CELLS);
        if (result != MITONGORY_OK) {
            refused(methods[method], result);
            continue;
        }
        printf("%s: %s after %" PRIu64 " steps, places:", methods[method], stops[answer[MITONGORY_STOP]],
               answer[MITONGORY_STEPS]);
        print_places(list, answer[MITONGORY_OCCURRENCES]);
    }

    /* A field of the pattern is wild: it may hold anything in the text. The second run has a 1 for each fixed bit. */
    m = pack(wild1, "1", pattern);
    pack(wild1, "01", fixed);
    result = mitongory_search(text, sizeof text, n, pattern, sizeof pattern, fixed, sizeof fixed, m, MITONGORY_HASH, 0,
                              UINT32_MAX, list, CELLS, scratch, MITONGORY_SCRATCH_CELLS, answer, MITONGORY_ANSWER_CELLS);
    if (result != MITONGORY_OK)
        return refused("wild field", result);
    printf("wild field: places:");
    print_places(list, answer[MITONGORY_OCCURRENCES]);

    /* The second paper with one cell: each call goes on from the mark that the call before it left. */
    n = pack(text2, "1", text);
    m = pack(pattern2, "1", pattern);
    do {
        uint32_t cell = 0;
        result = mitongory_search(text, sizeof text, n, pattern, sizeof pattern, all_fixed, sizeof all_fixed, m,
                                  MITONGORY_HASH, mark, UINT32_MAX, &cell, 1, scratch, MITONGORY_SCRATCH_CELLS, answer,
                                  MITONGORY_ANSWER_CELLS);
        if (result != MITONGORY_OK)
            return refused("one cell", result);
        mark = (uint32_t)answer[MITONGORY_MARK];
        if (answer[MITONGORY_OCCURRENCES] == 1)
            list[all++] = cell;
        printf("one cell: place %" PRIu32 ", %s, mark %" PRIu32 "\n", cell, stops[answer[MITONGORY_STOP]], mark);
    } while (answer[MITONGORY_STOP] != MITONGORY_DONE);

    /* The places as a position list file, and read back. */
    result = mitongory_list_write(list, all, file, sizeof file, answer, 1);
    if (result != MITONGORY_OK)
        return refused("write", result);
    printf("file:");
    for (i = 0; i < answer[0]; i++)
        printf(" %02x", file[i]);
    printf("\n");
    bytes = (size_t)answer[0];
    memset(list, 0, sizeof list);
    result = mitongory_list_read(file, bytes, list, CELLS, answer, 1);
    if (result != MITONGORY_OK)
        return refused("read", result);
    printf("read back:");
    print_places(list, answer[0]);

    /* With no cells a bad file gets its fault all the same, and a good one that has positions gets CELLS_MISSING. */
    refused("the file without its last byte", mitongory_list_read(file, bytes - 1, list, 0, answer, 1));
    refused("the whole file", mitongory_list_read(file, bytes, list, 0, answer, 1));
    return 0;
}
