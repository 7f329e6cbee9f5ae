// Marking a sitting in plain C, written for speed. A refusal leaves every buffer as it was, so all lists are judged before
// the first is marked. See marker.h.
#include "marker.h"

enum { LIMIT = 1 << 30, SHEETS = 256 };

static int rises(const uint32_t *list, size_t count) {
    // No early end, so that the compiler can judge several positions at once.
    int falls = 0;
    for (size_t i = 1; i < count; i++) falls |= list[i] <= list[i - 1];
    return !falls && (!count || list[count - 1] < LIMIT);
}

static size_t branching(const uint32_t *key, size_t m, const uint32_t *sheet, size_t n) {
    const uint32_t *key_end = key + m, *sheet_end = sheet + n;
    size_t right = 0;
    while (key < key_end && sheet < sheet_end) {
        if (*key == *sheet)
            right++, key++, sheet++;
        else if (*key < *sheet)
            key++;
        else
            sheet++;
    }
    return right;
}

// So many steps as the shorter rest has positions need no test for the end. A step passes one position, or two where they
// are equal. (With pointers in place of indices gcc makes branches of the two sums.)
static size_t branch_free(const uint32_t *key, size_t m, const uint32_t *sheet, size_t n) {
    size_t i = 0, j = 0, steps = 0;
    while (i < m && j < n) {
        size_t k = m - i < n - j ? m - i : n - j;
        for (steps += k; k; k--) {
            uint32_t a = key[i], b = sheet[j];
            i += a <= b;
            j += b <= a;
        }
    }
    return i + j - steps;
}

uint32_t c_mark_sitting(const uint32_t *key, size_t key_len, const uint32_t *sheets, size_t sheets_len,
                        const uint64_t *counts, size_t counts_len, uint32_t *report, size_t report_len,
                        uint64_t *totals, enum merge merge) {
    if (counts_len > SHEETS) return 15;
    uint64_t left = sheets_len; // it only falls, so no sum can wrap
    for (size_t i = 0; i < counts_len; i++) {
        if (counts[i] > left) return 16;
        left -= counts[i];
    }
    if (left) return 16;
    if (!rises(key, key_len)) return 8;
    const uint32_t *sheet = sheets;
    for (size_t i = 0; i < counts_len; sheet += counts[i++])
        if (!rises(sheet, counts[i])) return 8;
    if (report_len < 3 * counts_len) return 9;
    uint64_t all_right = 0;
    sheet = sheets;
    for (size_t i = 0; i < counts_len; i++) {
        size_t right = (merge == BRANCHING ? branching : branch_free)(key, key_len, sheet, counts[i]);
        report[3 * i] = (uint32_t)right;
        report[3 * i + 1] = (uint32_t)(key_len - right);
        report[3 * i + 2] = (uint32_t)(counts[i] - right);
        all_right += right;
        sheet += counts[i];
    }
    totals[0] = all_right;
    totals[1] = counts_len * key_len - all_right;
    totals[2] = sheets_len - all_right;
    return 0;
}
