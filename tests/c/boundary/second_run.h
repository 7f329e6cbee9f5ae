/* Second runs of a pattern with wild bits in many ways, drawn. */
#ifndef SECOND_RUN_H
#define SECOND_RUN_H

#include <stdint.h>

/* Which bits are wild: none, about one of 16, all but about one of 16, all, or a field at an end or between the ends. */
enum wild { NONE_WILD, FEW_WILD, MANY_WILD, ALL_WILD, FIRST_WILD, FIELD_WILD, LAST_WILD, WAYS };

/* The bytes that m bits take. Bits from m on are drawn: they never matter. */
void draw_fixed(enum wild way, uint64_t m, uint8_t *fixed);

/*
 * Another pattern that agrees with the same texts, by changing what never matters: the values at the wild bits, and in
 * both runs the bits from m on, as far as the bytes that m bits take.
 */
void change_the_rest(uint64_t m, uint8_t *pattern, uint8_t *fixed);

#endif
