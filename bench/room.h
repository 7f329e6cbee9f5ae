// Room between two pages that cannot be touched. A buffer of len bytes lies at its end or, for front, at its start, so
// that a read or a write beside the buffer ends the program.
#ifndef ROOM_H
#define ROOM_H
#include <stdint.h>
#include <stdlib.h>
#include <sys/mman.h>

enum { PAGE = 4096, ROOM = 64 * PAGE };

static inline uint8_t *room(void) {
    uint8_t *p = mmap(0, ROOM + 2 * PAGE, PROT_NONE, MAP_PRIVATE | MAP_ANONYMOUS, -1, 0);
    if (p == MAP_FAILED || mprotect(p + PAGE, ROOM, PROT_READ | PROT_WRITE)) exit(2);
    return p + PAGE;
}

static inline void *lent(uint8_t *at, size_t len, int front) { return front ? at : at + ROOM - len; }
#endif
