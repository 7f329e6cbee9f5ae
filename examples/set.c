/*
 * Searches a line for all stop commands together, through mitongory.h. Build and run it after `make lib` by
 *
 *     cc -Iinclude examples/set.c target/lib/libmitongory.a -o target/set && target/set
 */
#include <inttypes.h>
#include <mitongory.h>
#include <stdio.h>
#include <string.h>

#define COMMANDS 3
#define PAIRS 4 /* one call lists so many; the next one goes on from its mark */

/* A question mark is a wild bit: the second command carries an address, which differs by winch. */
static const char *const line = "0011010110011010110110011111010";
static const char *const commands[COMMANDS] = {"110101", "1100????10", "1101"};

/* Sets the bits of characters that are among `ones`, the first bit leftmost, in bytes that are 0. Returns the bit count. */
static uint64_t pack(const char *bits, const char *ones, uint8_t *bytes)
{
    size_t i;
    for (i = 0; bits[i] != '\0'; i++)
        if (strchr(ones, bits[i]) != NULL)
            bytes[i / 8] = (uint8_t)(bytes[i / 8] | (0x80u >> (i % 8)));
    return i;
}

int main(void)
{
    uint8_t text[4] = {0}, patterns[4] = {0}, fixed[4] = {0};
    uint64_t counts[COMMANDS] = {0}, answer[MITONGORY_ANSWER_CELLS] = {0}, n = pack(line, "1", text), i;
    uint32_t list[2 * PAIRS] = {0}, mark = 0, result;
    size_t bytes = 0;

    /* Each command begins on the byte after the one before it, in both runs. */
    for (i = 0; i < COMMANDS; i++) {
        counts[i] = pack(commands[i], "1", patterns + bytes);
        pack(commands[i], "01", fixed + bytes);
        bytes += (size_t)(counts[i] + 7) / 8;
    }

    do {
        result = mitongory_search_set(text, sizeof text, n, patterns, bytes, fixed, bytes, counts, COMMANDS, mark, UINT32_MAX,
                                      list, 2 * PAIRS, answer, MITONGORY_ANSWER_CELLS);
        if (result != MITONGORY_OK) {
            printf("refused, number %" PRIu32 ": %s\n", result, mitongory_result_text(result));
            return 1;
        }
        for (i = 0; i < answer[MITONGORY_OCCURRENCES]; i++)
            printf("place %" PRIu32 ": command %" PRIu32 "\n", list[2 * i], list[2 * i + 1]);
        mark = (uint32_t)answer[MITONGORY_MARK];
        printf("mark %" PRIu32 "%s\n", mark, answer[MITONGORY_STOP] == MITONGORY_DONE ? ", done" : "");
    } while (answer[MITONGORY_STOP] != MITONGORY_DONE);
    return 0;
}
