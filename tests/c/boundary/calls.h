/* The four calls with one answer cell and buffers: each is made on both sides, with all that is expected of it. */
#ifndef CALLS_H
#define CALLS_H

#include <stddef.h>
#include <stdint.h>

enum function { HASH_VALUE, LIST_SIZE, LIST_WRITE, LIST_READ };

struct call {
    enum function function;
    const void *input; /* the buffer that is only read */
    size_t input_len;  /* in elements, as the other lengths */
    const void *fixed; /* HASH_VALUE: one more that is only read */
    size_t fixed_len;
    uint64_t bits;     /* HASH_VALUE: m */
    uint32_t number;   /* HASH_VALUE: the value */
    size_t output_len; /* of the buffer that LIST_WRITE and LIST_READ write */
    size_t answer_len;
};

/*
 * Expects the result, and that an accepted call answers `told`, which is also the number of elements that it writes:
 * they are `front`. Everything else stays.
 */
void calling(const char *name, struct call c, uint32_t result, uint64_t told, const void *front);

#endif
