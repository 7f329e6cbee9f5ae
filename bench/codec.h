// The C yardstick of the position list file: the same rules as the library's writer and reader, refusals included.
#ifndef CODEC_H
#define CODEC_H
#include <stddef.h>
#include <stdint.h>

// The file of a list: 0 and its byte count, or refusal 8 or 9, which leaves the target.
uint32_t c_list_write(const uint32_t *list, size_t count, uint8_t *target, size_t len, uint64_t *bytes);

// The list of a file: 0 and its count, or refusal 10 to 14, which leaves the cells.
uint32_t c_list_read(const uint8_t *file, size_t len, uint32_t *cells, size_t count, uint64_t *positions);
#endif
