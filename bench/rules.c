// See rules.h.
#include "rules.h"
#include "draw.h"

const char *const method_names[METHODS] = {"plain", "hash", "skip", "wide", "tail"};

int takes(int method, size_t m) {
    return method == HASH ? m >= 8 : method == SKIP ? m >= 15 : method == TAIL ? m <= 64 : 1;
}

// Whether a bit agrees with the pattern's bit j: a wild one agrees with both values.
static int agrees(const struct word *w, size_t j, int b) { return !bit_at(w->fixed, j) || bit_at(w->bits, j) == b; }

// Whether the pattern's first m bits agree with those of the text from s on.
static int hit(const uint8_t *t, const struct word *w, size_t m, size_t s) {
    for (size_t j = 0; j < m; j++)
        if (!agrees(w, j, bit_at(t, s + j))) return 0;
    return 1;
}

// The least move from d on that meets the condition for the eight bits b.
static size_t least(const struct word *w, const int *b, long d) {
    for (;; d++) {
        int ok = 1;
        for (long j = 0; j < 8; j++) {
            long k = (long)w->m - 8 - d + j;
            if (k >= 0 && !agrees(w, k, b[j])) ok = 0;
        }
        if (ok) return d;
    }
}

size_t rules_hash_value(const struct word *w, unsigned value) {
    int b[8];
    for (int j = 0; j < 8; j++) b[j] = value >> (7 - j) & 1;
    return least(w, b, 0);
}

// One step: finds to f, their number to *k; returns the next mark.
static size_t step(const uint8_t *t, size_t n, const struct word *w, int method, size_t s, size_t *f, size_t *k) {
    size_t m = w->m, end = n - m + 1, next = s + 1;
    *k = 0;
    if (method == PLAIN) {
        if (hit(t, w, m, s)) f[(*k)++] = s;
    } else if (method == HASH) {
        int b[8];
        for (int j = 0; j < 8; j++) b[j] = bit_at(t, s + m - 8 + j);
        size_t h = least(w, b, 0);
        if (h == 0) {
            if (hit(t, w, m, s)) f[(*k)++] = s;
            h = least(w, b, 1);
        }
        next = s + h;
    } else if (method == SKIP) {
        size_t b = (s + m) / 8 - 1;
        for (size_t a = s; a <= 8 * b && a < end; a++)
            if (hit(t, w, m, a)) f[(*k)++] = a;
        next = 8 * b + 1;
    } else if (method == WIDE) {
        for (size_t i = 0; i < 64 && s + i < end; i++)
            if (hit(t, w, m, s + i)) f[(*k)++] = s + i;
        size_t ws = 63 + m;
        if (s + ws >= n)
            next = end;
        else {
            size_t j = m;
            while (j && !agrees(w, j - 1, bit_at(t, s + ws))) j--;
            next = s + ws + 1 - j;
        }
    } else {
        // The greatest r below m such that the pattern's first r bits agree with the window's last r; 0 always is one.
        size_t r = m - 1;
        while (!hit(t, w, r, s + m - r)) r--;
        if (hit(t, w, m, s)) f[(*k)++] = s;
        next = s + m - r;
    }
    return next < end ? next : end;
}

void rules_search(const uint8_t *t, size_t n, const struct word *w, int method, size_t mark, size_t budget, uint32_t *list,
                  size_t cells, struct answer *out) {
    size_t end = w->m <= n ? n - w->m + 1 : 0, steps = 0, hits = 0, k;
    static size_t f[8192];
    while (mark < end && steps < budget) {
        size_t next = step(t, n, w, method, mark, f, &k);
        for (size_t i = 0; i < k; i++) {
            if (hits == cells) {
                *out = (struct answer){0, steps, hits, f[i], FULL};
                return;
            }
            list[hits++] = (uint32_t)f[i];
        }
        steps++;
        mark = next;
    }
    *out = (struct answer){0, steps, hits, mark, mark == end ? DONE : SPENT};
}

static size_t places(size_t m, size_t n) { return m <= n ? n - m + 1 : 0; }

size_t rules_places(const struct set *set, size_t n) {
    size_t most = 0;
    for (size_t p = 0; p < set->count; p++)
        if (places(set->counts[p], n) > most) most = places(set->counts[p], n);
    return most;
}

void rules_search_set(const uint8_t *t, size_t n, const struct set *set, size_t mark, size_t budget, uint32_t *list,
                      size_t cells, struct answer *out) {
    size_t end = rules_places(set, n), steps = 0, pairs = 0;
    for (; mark < end && steps < budget; steps++, mark++) {
        uint32_t found[64];
        size_t k = 0, start = 0;
        for (size_t p = 0; p < set->count; start += (set->counts[p++] + 7) / 8) {
            struct word w = {set->bits + start, set->fixed + start, set->counts[p]};
            if (mark < places(w.m, n) && hit(t, &w, w.m, mark)) found[k++] = (uint32_t)p;
        }
        if (2 * (pairs + k) > cells) {
            *out = (struct answer){0, steps, pairs, mark, FULL};
            return;
        }
        for (size_t i = 0; i < k; i++, pairs++) list[2 * pairs] = (uint32_t)mark, list[2 * pairs + 1] = found[i];
    }
    *out = (struct answer){0, steps, pairs, mark, mark == end ? DONE : SPENT};
}
