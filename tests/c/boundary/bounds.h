/* The limits of document 01, by names. */
#ifndef BOUNDS_H
#define BOUNDS_H

#include <stdint.h>

#define LARGEST_N ((uint64_t)1 << 30)
#define LARGEST_M 2048
#define LEAST_M_HASH 8
#define LEAST_M_SKIP 15
#define MOST_M_TAIL 64
#define LARGEST_POSITION (((uint32_t)1 << 30) - 1)
#define TWO_TO_32 ((uint64_t)1 << 32)

#endif
