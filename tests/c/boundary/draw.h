/* A small generator with a fixed seed, so that every run draws the same. */
#ifndef DRAW_H
#define DRAW_H

#include <stddef.h>
#include <stdint.h>

/* A number below `below`, which is at most 2^24. */
uint64_t draw(uint64_t below);

/* One time in three any byte, else one whose bits alternate. */
uint8_t draw_byte(void);

/* Bits that repeat, now and then with a wrong one. */
void draw_periodic(uint8_t *bytes, size_t count);

#endif
