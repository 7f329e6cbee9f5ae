// Draws texts, patterns and position lists, always the same ones; and reads and sets their bits.
#ifndef DRAW_H
#define DRAW_H
#include <stddef.h>
#include <stdint.h>

uint64_t draw(void);
uint64_t below(uint64_t k);

static inline int bit_at(const uint8_t *s, size_t p) { return s[p / 8] >> (7 - p % 8) & 1; }
static inline void set_bit(uint8_t *s, size_t p, int b) {
    s[p / 8] = (uint8_t)((s[p / 8] & ~(128 >> p % 8)) | (b ? 128 >> p % 8 : 0));
}

// Characters 0 and 1 as bits.
void pack(uint8_t *s, const char *bits);

// A text of n bits, so many of a hundred of them zeros; n is a multiple of 8.
void draw_text(uint8_t *t, size_t n, unsigned zeros);

// A pattern of m bits from any place of the text.
void draw_word(uint8_t *w, size_t m, const uint8_t *t, size_t n);

// The second run of a pattern of which every bit is fixed.
extern const uint8_t every_bit[256];

// Second runs of m bits by kind; every place of a field is as likely as another. The names are those of the wild bits.
enum wild {
    WILD_NONE,
    WILD_ONE,
    WILD_FEW,
    WILD_HALF,
    WILD_MOST,
    WILD_ALL,
    WILD_FIRST,
    WILD_LAST,
    WILD_FIELD,
    WILD_NINTH,
    WILD_KINDS
};
extern const char *const wild_names[WILD_KINDS];
void draw_fixed(enum wild kind, uint8_t *fixed, size_t m);

// Texts and patterns on which little is ruled out early; n is a multiple of 8.
enum hard { HARD_ZEROS, HARD_LAST, HARD_FIRST, HARD_MIDDLE, HARD_PERIOD, HARD_KINDS };
extern const char *const hard_names[HARD_KINDS];
void draw_hard(enum hard kind, uint8_t *t, size_t n, uint8_t *w, size_t m);

// A list of so many positions with distances of 1 to the widest.
void draw_list(uint32_t *list, size_t count, uint32_t widest);
#endif
