#include "draw.h"

#include <string.h>

#include "papers.h"

enum { SEED = 20240501, MOST_PERIOD = 11 };

static uint32_t state = SEED;

uint64_t draw(uint64_t below)
{
    state = state * 1664525u + 1013904223u;
    return (state >> 8) % below;
}

uint8_t draw_byte(void)
{
    return (uint8_t)(draw(3) == 0 ? draw(256) : 0x55);
}

void draw_periodic(uint8_t *bytes, size_t count)
{
    const uint64_t period = 1 + draw(MOST_PERIOD), block = draw(1 << MOST_PERIOD);
    uint64_t i;
    memset(bytes, 0, count);
    for (i = 0; i < 8 * (uint64_t)count; i++)
        set_bit(bytes, i, ((block >> i % period) & 1u) ^ (draw(40) == 0));
}
