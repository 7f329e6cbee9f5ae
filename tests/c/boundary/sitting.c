/* Sittings: what each sheet comes to and what all of them do, every refusal and their order, and the edges. */
#include <stdlib.h>

#include "bounds.h"
#include "check.h"
#include "papers.h"
#include "parts.h"
#include "sitting_call.h"

enum { CELLS = MITONGORY_SHEET_CELLS, SHEETS = MITONGORY_SHEETS, MORE = 7 }; /* MORE: elements more than needed */

/* The second paper's occurrences as the key; on the sheets all of them, two of them and a wrong one, and none. */
static const uint32_t paper_sheets[] = {0, 6, 12, 0, 7, 12};
static const uint64_t paper_counts[] = {3, 3, 0};
static const uint32_t paper_report[] = {3, 0, 0, 2, 1, 1, 0, 3, 0};

static struct sitting paper(void)
{
    return sitting_of(paper2_occurrences, PAPER2_OCCURRENCES, paper_sheets, 6, paper_counts, 3);
}

static void small_sittings(void)
{
    static const uint32_t no_key[] = {0, 0, 3, 0, 0, 3, 0, 0, 0};
    struct sitting s = paper();
    marked("the paper", s, paper_report);
    s.report_len += MORE;
    s.answer_len += MORE;
    marked("more cells than needed", s, paper_report);
    s.key_len = 0;
    marked("an empty key", s, no_key);
    s = paper();
    for (s.answer_len = 0; s.answer_len < CELLS; s.answer_len++)
        unmarked("too few answer cells", s, MITONGORY_ANSWER_CELLS_MISSING);
    s = paper();
    for (s.report_len = 0; s.report_len < 3 * CELLS; s.report_len++)
        unmarked("too few report cells", s, MITONGORY_TARGET_TOO_SHORT);
}

/* The key is judged though there is nothing to mark. */
static void no_sheets(void)
{
    static const uint32_t falls[] = {6, 5};
    struct sitting s = sitting_of(paper2_occurrences, PAPER2_OCCURRENCES, NULL, 0, NULL, 0);
    marked("no sheets", s, NULL);
    s.report_len = MORE;
    marked("no sheets, and report cells", s, NULL);
    s.sheets = paper_sheets;
    s.sheets_len = 1;
    unmarked("no sheets, and a position", s, MITONGORY_COUNTS_DIFFER);
    marked("no sheets and no key", sitting_of(NULL, 0, NULL, 0, NULL, 0), NULL);
    unmarked("no sheets, and a key that falls", sitting_of(falls, 2, NULL, 0, NULL, 0), MITONGORY_LIST_NOT_RISING);
}

/* Sheet i has the position i alone, and the key every third one. */
static void so_many_sheets(size_t sheets)
{
    enum { THIRD = 3, KEY = SHEETS / THIRD };
    uint32_t key[KEY] = {0}, cells[SHEETS + 1] = {0}, report[(SHEETS + 1) * CELLS];
    uint64_t counts[SHEETS + 1] = {0};
    struct sitting s = sitting_of(key, KEY, cells, sheets, counts, sheets);
    uint32_t i;
    for (i = 0; i < KEY; i++)
        key[i] = i * THIRD;
    for (i = 0; i < sheets; i++) {
        const uint32_t right = i % THIRD == 0 && i < KEY * THIRD;
        cells[i] = i;
        counts[i] = 1;
        report[i * CELLS + MITONGORY_RIGHT] = right;
        report[i * CELLS + MITONGORY_MISSED] = KEY - right;
        report[i * CELLS + MITONGORY_FALSE_POSITIVES] = 1 - right;
    }
    if (sheets > SHEETS) {
        unmarked("one sheet too many", s, MITONGORY_TOO_MANY_SHEETS);
        return;
    }
    marked("so many sheets", s, report);
    if (sheets > 0) {
        s.report_len--;
        unmarked("so many sheets, one report cell too few", s, MITONGORY_TARGET_TOO_SHORT);
    }
}

/* The even numbers as the key; on the sheets all of the key, every second position of it, and none but as many others. */
static void all_half_and_none(uint32_t key_len)
{
    const uint32_t half = (key_len + 1) / 2, sheets_len = key_len + half + key_len;
    const uint64_t counts[] = {key_len, half, key_len};
    const uint32_t report[] = {key_len, 0, 0, half, key_len - half, 0, 0, key_len, key_len};
    uint32_t *key = malloc(key_len * sizeof *key), *sheets = malloc(sheets_len * sizeof *sheets), i;
    if (key == NULL || sheets == NULL)
        cannot("there is no memory for long sheets");
    for (i = 0; i < key_len; i++) {
        key[i] = sheets[i] = 2 * i;
        sheets[key_len + half + i] = 2 * i + 1;
    }
    for (i = 0; i < half; i++)
        sheets[key_len + i] = 4 * i;
    marked("all, every second and none", sitting_of(key, key_len, sheets, sheets_len, counts, 3), report);
    free(key);
    free(sheets);
}

/* ---- every key and every sheet over eight positions, the smallest and the largest among them */

enum { POSITIONS = 8 };

static unsigned ones(unsigned set)
{
    unsigned count = 0;
    for (; set != 0; set /= 2)
        count += set % 2;
    return count;
}

/* Writes the positions of a set, which has a bit for each, and returns their number. */
static size_t list_of(unsigned set, uint32_t *list)
{
    static const uint32_t positions[POSITIONS] = {0, 1, 2, 8, 63, 64, LARGEST_POSITION - 1, LARGEST_POSITION};
    size_t count = 0;
    unsigned i;
    for (i = 0; i < POSITIONS; i++) {
        if (set >> i & 1)
            list[count++] = positions[i];
    }
    return count;
}

static void every_short_list(void)
{
    uint32_t key[POSITIONS], sheets[SHEETS * POSITIONS / 2], report[SHEETS * CELLS];
    uint64_t counts[SHEETS];
    size_t sheets_len = 0;
    unsigned k, s;
    for (s = 0; s < SHEETS; s++) {
        counts[s] = list_of(s, sheets + sheets_len);
        sheets_len += (size_t)counts[s];
    }
    for (k = 0; k < SHEETS; k++) {
        for (s = 0; s < SHEETS; s++) {
            report[s * CELLS + MITONGORY_RIGHT] = ones(k & s);
            report[s * CELLS + MITONGORY_MISSED] = ones(k & ~s);
            report[s * CELLS + MITONGORY_FALSE_POSITIVES] = ones(s & ~k);
        }
        marked("every sheet over eight positions",
               sitting_of(key, list_of(k, key), sheets, sheets_len, counts, SHEETS), report);
    }
}

/* ---- refusals */

/* Counts that do not add up to the paper's six positions, or to none. */
static void counts_that_differ(void)
{
    static const uint64_t half = (uint64_t)1 << 63, all = UINT64_MAX;
    const struct {
        const char *name;
        uint64_t counts[4];
        size_t count;
    } cases[] = {{"no counts", {0}, 0},
                 {"one position left over", {3, 2, 0}, 3},
                 {"one position too few", {3, 3, 1}, 3},
                 {"one position too few at the front", {7}, 1},
                 {"a count of 33 bits", {TWO_TO_32 + 3, 3}, 2},
                 {"counts of which the 32-bit parts add up", {3, TWO_TO_32, 3}, 3},
                 {"the largest count", {all}, 1},
                 {"the largest count last", {3, 3, all}, 3},
                 {"counts that wrap to the right sum", {all, 7}, 2},
                 {"the same the other way round", {7, all}, 2},
                 {"counts that add up, and then wrap to the same sum", {6, half, half}, 3},
                 {"three counts that wrap", {half, half - 1, 7}, 3},
                 {"counts that wrap twice", {all, all, 4, 4}, 4}};
    uint64_t shares[SHEETS];
    size_t i;
    for (i = 0; i < sizeof cases / sizeof cases[0]; i++) {
        struct sitting s = paper();
        s.counts = cases[i].counts;
        s.counts_len = cases[i].count;
        s.report_len = cases[i].count * CELLS;
        unmarked(cases[i].name, s, MITONGORY_COUNTS_DIFFER);
    }
    for (i = 0; i < SHEETS; i++)
        shares[i] = half / (SHEETS / 2);
    unmarked("256 counts that wrap to 0", sitting_of(NULL, 0, NULL, 0, shares, SHEETS), MITONGORY_COUNTS_DIFFER);
}

/* A list of three that is bad: as the key, and as one of three sheets. */
static void bad_list(const char *name, uint32_t a, uint32_t b, uint32_t c)
{
    static const uint64_t counts[] = {3, 3, 3};
    const uint32_t list[] = {a, b, c};
    struct sitting s = paper();
    unsigned sheet, i;
    s.key = list;
    unmarked(name, s, MITONGORY_LIST_NOT_RISING);
    for (sheet = 0; sheet < 3; sheet++) {
        uint32_t cells[9];
        for (i = 0; i < 9; i++)
            cells[i] = i / 3 == sheet ? list[i % 3] : i;
        unmarked(name, sitting_of(paper2_occurrences, PAPER2_OCCURRENCES, cells, 9, counts, 3), MITONGORY_LIST_NOT_RISING);
    }
}

static void bad_lists(void)
{
    bad_list("the first two are the same", 6, 6, 7);
    bad_list("the last two are the same", 5, 6, 6);
    bad_list("the first two fall", 5, 4, 6);
    bad_list("the last two fall", 4, 6, 5);
    bad_list("2^30", 5, LARGEST_POSITION, LARGEST_POSITION + 1);
    bad_list("2^30 first", LARGEST_POSITION + 1, LARGEST_POSITION + 2, LARGEST_POSITION + 3);
    bad_list("the largest number", 0, 1, UINT32_MAX);
    bad_list("the largest number first", UINT32_MAX, 0, 1);
}

/* A sheet rises by itself: what is on the sheet before it does not matter. */
static void neighbours(void)
{
    static const uint32_t key[] = {6, LARGEST_POSITION}, cells[] = {0, 6, 0, 6, LARGEST_POSITION, LARGEST_POSITION};
    static const uint64_t apart[] = {2, 0, 3, 1}, over[] = {3, 2, 0, 1}, together[] = {6};
    static const uint32_t report[] = {1, 1, 1, 0, 2, 0, 2, 0, 1, 1, 1, 0};
    marked("sheets that fall from one to the next", sitting_of(key, 2, cells, 6, apart, 4), report);
    unmarked("the same positions cut elsewhere", sitting_of(key, 2, cells, 6, over, 4), MITONGORY_LIST_NOT_RISING);
    unmarked("the same positions on one sheet", sitting_of(key, 2, cells, 6, together, 1), MITONGORY_LIST_NOT_RISING);
}

/* Every choice of the five conditions: the first of them in the order of the refusals is told. */
static void order_of_refusals(void)
{
    static const uint32_t order[] = {MITONGORY_ANSWER_CELLS_MISSING, MITONGORY_TOO_MANY_SHEETS, MITONGORY_COUNTS_DIFFER,
                                     MITONGORY_LIST_NOT_RISING, MITONGORY_TARGET_TOO_SHORT};
    enum { ANSWER = 1, SHEET = 2, COUNT = 4, LIST = 8, REPORT = 16, ALL = 31 }; /* a bit for each, in that order */
    static const uint32_t falls[] = {6, 5, 12, 0, 7, 12}, large[] = {0, 6, LARGEST_POSITION + 1, 0, 7, 12};
    uint64_t counts[SHEETS + 1] = {3, 3};
    uint32_t report[SHEETS * CELLS];
    unsigned set, first, way, i;
    for (i = 0; i < SHEETS * CELLS; i++)
        report[i] = i < 6 ? paper_report[i] : i % CELLS == MITONGORY_MISSED ? PAPER2_OCCURRENCES : 0;
    for (set = 0; set <= ALL; set++) {
        const unsigned ways = set & LIST ? 4 : 1; /* of being bad: the key or a sheet, by its order or by a position */
        for (way = 0; way < ways; way++) {
            const uint32_t *bad = way % 2 == 0 ? falls : large;
            struct sitting s = sitting_of(paper2_occurrences, PAPER2_OCCURRENCES, paper_sheets, 6, counts, SHEETS);
            if (set & ANSWER)
                s.answer_len--;
            if (set & SHEET)
                s.counts_len++;
            counts[SHEETS - 1] = set & COUNT ? 1 : 0;
            if (set & LIST)
                *(way < 2 ? &s.key : &s.sheets) = bad;
            if (set & REPORT)
                s.report_len--;
            for (first = 0; set != 0 && !(set >> first & 1); first++)
                ;
            if (set == 0)
                marked("no condition holds", s, report);
            else
                unmarked("the first condition that holds", s, order[first]);
        }
    }
}

void sitting(void)
{
    static const size_t sheets[] = {0, 1, 2, SHEETS - 1, SHEETS, SHEETS + 1};
    static const uint32_t lengths[] = {1, 2, 7, 8, 9, 15, 16, 17, 1000, 1000000};
    size_t i;
    small_sittings();
    no_sheets();
    for (i = 0; i < sizeof sheets / sizeof sheets[0]; i++)
        so_many_sheets(sheets[i]);
    for (i = 0; i < sizeof lengths / sizeof lengths[0]; i++)
        all_half_and_none(lengths[i]);
    every_short_list();
    counts_that_differ();
    bad_lists();
    neighbours();
    order_of_refusals();
}
