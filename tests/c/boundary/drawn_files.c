/*
 * Drawn list files, good and damaged, against a reading by the words of documents 01 and 02: the whole file is judged
 * whatever the cells are, and only a good one can have too few. Each file is read with every number of cells up to one more
 * than it needs, or up to MOST_CELLS.
 */
#include <mitongory.h>

#include "bounds.h"
#include "calls.h"
#include "check.h"
#include "draw.h"
#include "parts.h"

enum { ROUNDS = 1000, MOST_POSITIONS = 6, MOST_CELLS = 8, GROUPS = 5, MOST_BYTES = (MOST_POSITIONS + 3) * GROUPS };

/* A number at the front of some bytes: its fault or 0, and the bytes that it takes. */
struct number {
    uint32_t fault;
    uint64_t value;
    size_t bytes;
};

static struct number number_at(const uint8_t *file, size_t len)
{
    struct number x = {MITONGORY_OK, 0, 0};
    uint64_t weight = 1;
    int another = 1;
    while (another && x.fault == MITONGORY_OK) {
        if (x.bytes == GROUPS) {
            x.fault = MITONGORY_NUMBER_TOO_LARGE;
        } else if (x.bytes == len) {
            x.fault = MITONGORY_FILE_ENDS_EARLY;
        } else {
            another = file[x.bytes] >= 128;
            x.value += file[x.bytes++] % 128 * weight;
            weight *= 128;
        }
    }
    if (x.fault == MITONGORY_OK && x.bytes > 1 && file[x.bytes - 1] == 0)
        x.fault = MITONGORY_NUMBER_NOT_SHORTEST;
    if (x.fault == MITONGORY_OK && x.value > (uint64_t)LARGEST_POSITION + 1)
        x.fault = MITONGORY_NUMBER_TOO_LARGE;
    return x;
}

/* The fault of a whole file, with no word of cells, or 0 and its list. The count is the file's own, or 0 where it has none. */
static uint32_t fault_of(const uint8_t *file, size_t len, uint32_t *list, uint64_t *count)
{
    struct number x = number_at(file, len);
    size_t at = x.bytes, i = 0;
    uint64_t least = 0;
    *count = x.fault == MITONGORY_OK ? x.value : 0;
    while (x.fault == MITONGORY_OK && i < *count) {
        x = number_at(file + at, len - at);
        at += x.bytes;
        if (x.fault == MITONGORY_OK && least + x.value > LARGEST_POSITION)
            x.fault = MITONGORY_NUMBER_TOO_LARGE;
        if (x.fault == MITONGORY_OK) {
            list[i++] = (uint32_t)(least + x.value);
            least += x.value + 1;
        }
    }
    if (x.fault == MITONGORY_OK && at < len)
        x.fault = MITONGORY_BYTES_LEFT_OVER;
    return x.fault;
}

static size_t put(uint8_t *file, size_t at, uint64_t x)
{
    for (; x >= 128; x /= 128)
        file[at++] = (uint8_t)(x % 128 + 128);
    file[at++] = (uint8_t)x;
    return at;
}

/* A count and so many small numbers, or large ones; the count may be another than their number. */
static size_t draw_file(uint8_t *file)
{
    const uint64_t positions = draw(MOST_POSITIONS + 1), widest = draw(2) == 0 ? 200 : (uint64_t)1 << 24;
    size_t at = 0;
    uint64_t i;
    if (draw(6) > 0)
        at = put(file, at, positions);
    else
        at = put(file, at, draw(2) == 0 ? positions + draw(4) : (uint64_t)LARGEST_POSITION + draw(3));
    for (i = 0; i < positions; i++)
        at = put(file, at, draw(12) == 0 ? (uint64_t)LARGEST_POSITION - draw(3) : draw(widest));
    return at;
}

/* A byte is replaced, the last number gets a group too many, a byte is left over, or the end is cut off. */
static size_t damage(uint8_t *file, size_t len)
{
    static const uint8_t bytes[] = {0, 1, 4, 0x7f, 0x80, 0xff};
    switch (draw(5)) {
    case 0: file[draw(len)] = bytes[draw(sizeof bytes)]; return len;
    case 1: file[len - 1] |= 128; file[len] = 0; return len + 1;
    case 2: file[len] = (uint8_t)draw(256); return len + 1;
    case 3: return (size_t)draw(len);
    default: return len;
    }
}

void drawn_files(void)
{
    static const uint32_t faults[] = {MITONGORY_FILE_ENDS_EARLY, MITONGORY_NUMBER_NOT_SHORTEST, MITONGORY_NUMBER_TOO_LARGE,
                                      MITONGORY_BYTES_LEFT_OVER, MITONGORY_CELLS_MISSING, MITONGORY_OK};
    uint64_t few_cells[MITONGORY_CELLS_MISSING + 1] = {0}, enough[MITONGORY_CELLS_MISSING + 1] = {0};
    int round;
    size_t i;
    for (round = 0; round < ROUNDS; round++) {
        uint8_t file[MOST_BYTES + 1];
        uint32_t list[MOST_BYTES + 1];
        uint64_t count, cells;
        const size_t len = damage(file, draw_file(file));
        const uint32_t fault = fault_of(file, len, list, &count);
        for (cells = 0; cells <= count + 1 && cells <= MOST_CELLS; cells++) {
            const struct call c = {LIST_READ, file, len, NULL, 0, 0, 0, (size_t)cells, 1};
            const uint32_t said = fault == MITONGORY_OK && cells < count ? (uint32_t)MITONGORY_CELLS_MISSING : fault;
            calling("a drawn file", c, said, count, list);
            if (cells < count)
                few_cells[said]++;
            else
                enough[said]++;
        }
    }
    about("files of every kind were drawn");
    for (i = 0; i + 1 < sizeof faults / sizeof *faults; i++)
        check(few_cells[faults[i]] >= 100, "with fewer cells than the count");
    for (i = 0; i < sizeof faults / sizeof *faults; i++)
        check(faults[i] == MITONGORY_CELLS_MISSING || enough[faults[i]] >= 50, "with enough cells");
}
