#include "second_run.h"

#include <string.h>

#include "draw.h"
#include "papers.h"

enum { ONE_OF = 16, SHORT_FIELD = 12 };

void draw_fixed(enum wild way, uint64_t m, uint8_t *fixed)
{
    const uint64_t most = draw(2) == 0 || m < SHORT_FIELD ? m : SHORT_FIELD, field = 1 + draw(most);
    const uint64_t from = way == FIRST_WILD ? 0 : way == LAST_WILD ? m - field : draw(m - field + 1), bytes = (m + 7) / 8;
    uint64_t j;
    memset(fixed, 0, bytes);
    for (j = 0; j < 8 * bytes; j++) {
        unsigned one;
        if (j >= m)
            one = (unsigned)draw(2);
        else if (way == NONE_WILD || way == ALL_WILD)
            one = way == NONE_WILD;
        else if (way == FEW_WILD || way == MANY_WILD)
            one = (draw(ONE_OF) == 0) == (way == MANY_WILD);
        else
            one = j < from || j >= from + field;
        set_bit(fixed, j, one);
    }
}

void change_the_rest(uint64_t m, uint8_t *pattern, uint8_t *fixed)
{
    uint64_t j;
    for (j = 0; j < 8 * ((m + 7) / 8); j++) {
        const uint8_t here = (uint8_t)(0x80 >> j % 8);
        if (j >= m || bit(fixed, j) == 0)
            pattern[j / 8] ^= here;
        if (j >= m)
            fixed[j / 8] ^= here;
    }
}
