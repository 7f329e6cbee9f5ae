/*
 * Marks three sheets against a key through mitongory.h. The key is what a search finds: the occurrences of the course's
 * second paper. Build and run it after `make lib` by
 *
 *     cc -Iinclude examples/sitting.c target/lib/libmitongory.a -o target/sitting && target/sitting
 */
#include <inttypes.h>
#include <mitongory.h>
#include <stdio.h>

#define KEY_CELLS 13 /* one for each place: 33 - 21 + 1 */
#define SHEETS 3
#define POSITIONS 6

static const uint8_t text[] = {0xcb, 0x2c, 0xb2, 0xcb, 0x00}; /* 33 bits: 110010 five times, then 110 */
static const uint8_t pattern[] = {0xcb, 0x2c, 0xb0};          /* 21 bits: 110010 three times, then 110 */
static const uint8_t fixed[] = {255, 255, 255};               /* none of them is wild */

/* The positions of all sheets, one sheet after the other, and how many each sheet has. */
static const uint32_t sheets[POSITIONS] = {0, 6, 12, 0, 7, 12};
static const uint64_t counts[SHEETS] = {3, 3, 0};

/* Says why a call was refused; the exit status. */
static int refused(uint32_t refusal)
{
    printf("refused, number %" PRIu32 ": %s\n", refusal, mitongory_result_text(refusal));
    return 1;
}

int main(void)
{
    static uint64_t scratch[MITONGORY_SCRATCH_CELLS];
    uint32_t key[KEY_CELLS] = {0}, report[SHEETS * MITONGORY_SHEET_CELLS] = {0}, result;
    uint64_t found[MITONGORY_ANSWER_CELLS] = {0}, totals[MITONGORY_SHEET_CELLS] = {0}, i;

    result = mitongory_search(text, sizeof text, 33, pattern, sizeof pattern, fixed, sizeof fixed, 21, MITONGORY_SKIP, 0,
                              UINT32_MAX, key, KEY_CELLS, scratch, MITONGORY_SCRATCH_CELLS, found,
                              MITONGORY_ANSWER_CELLS);
    if (result != MITONGORY_OK)
        return refused(result);
    printf("key:");
    for (i = 0; i < found[MITONGORY_OCCURRENCES]; i++)
        printf(" %" PRIu32, key[i]);
    printf("\n");

    result = mitongory_mark_sitting(key, (size_t)found[MITONGORY_OCCURRENCES], sheets, POSITIONS, counts, SHEETS, report,
                                    SHEETS * MITONGORY_SHEET_CELLS, totals, MITONGORY_SHEET_CELLS);
    if (result != MITONGORY_OK)
        return refused(result);
    for (i = 0; i < SHEETS; i++) {
        const uint32_t *marks = report + i * MITONGORY_SHEET_CELLS;
        printf("sheet %" PRIu64 ": %" PRIu32 " right, %" PRIu32 " missed, %" PRIu32 " false\n", i + 1,
               marks[MITONGORY_RIGHT], marks[MITONGORY_MISSED], marks[MITONGORY_FALSE_POSITIVES]);
    }
    printf("sitting: %" PRIu64 " right, %" PRIu64 " missed, %" PRIu64 " false\n", totals[MITONGORY_RIGHT],
           totals[MITONGORY_MISSED], totals[MITONGORY_FALSE_POSITIVES]);
    return 0;
}
