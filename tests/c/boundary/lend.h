/*
 * Buffers that end just before, or start just after, a page that can be neither read nor written, so that a call that
 * leaves its buffers ends the program by a signal. Buffers that a call only reads lie in pages that cannot be written.
 * Buffers that it writes come with other content. The rest of their pages is filled and compared too.
 */
#ifndef LEND_H
#define LEND_H

#include <stddef.h>
#include <stdint.h>

enum side { AT_START, AT_END, SIDES };
enum access { ONLY_READ, WRITTEN };

struct lent {
    uint8_t *pages;  /* the first page, which cannot be touched */
    size_t middle;   /* bytes between that page and the last one */
    size_t start;    /* where the buffer starts between them */
    uint8_t *before; /* a copy of the middle, as it was lent */
};

size_t page_size(void);

/* A buffer of so many bytes; its content is `from`, or other bytes where that is NULL. */
struct lent lend(size_t bytes, const void *from, enum side side, enum access access);

void *at(const struct lent *b);

/* Whether the buffer is `front` (so many bytes) and after that as it was, and all around it is as it was. */
int holds(const struct lent *b, const void *front, size_t bytes);

/* Whether the buffer after so many bytes, and all around it, is as it was. */
int stays_after(const struct lent *b, size_t bytes);

/* Whether all of the buffer, and all around it, is as it was. */
int stays(const struct lent *b);

void give_back(struct lent *b);

#endif
