#define _DEFAULT_SOURCE
#include "lend.h"

#include <stdlib.h>
#include <string.h>
#include <sys/mman.h>
#include <unistd.h>

#include "check.h"

size_t page_size(void)
{
    return (size_t)sysconf(_SC_PAGESIZE);
}

/* Other content for each byte of a buffer, so that a store that should not be made is seen. */
static uint8_t other_content(size_t i)
{
    return (uint8_t)(0xa5 ^ (i * 29));
}

static uint8_t *middle_of(const struct lent *b)
{
    return b->pages + page_size();
}

struct lent lend(size_t bytes, const void *from, enum side side, enum access access)
{
    const size_t page = page_size();
    struct lent b;
    size_t i;
    b.middle = bytes == 0 ? page : (bytes + page - 1) / page * page;
    b.start = side == AT_START ? 0 : b.middle - bytes;
    b.pages = mmap(NULL, b.middle + 2 * page, PROT_READ | PROT_WRITE, MAP_PRIVATE | MAP_ANONYMOUS, -1, 0);
    b.before = malloc(b.middle);
    if (b.pages == MAP_FAILED || b.before == NULL)
        cannot("there is no memory for a buffer");
    for (i = 0; i < b.middle; i++)
        middle_of(&b)[i] = other_content(i);
    if (from != NULL && bytes > 0)
        memcpy(at(&b), from, bytes);
    memcpy(b.before, middle_of(&b), b.middle);
    if (mprotect(b.pages, page, PROT_NONE) != 0 || mprotect(middle_of(&b) + b.middle, page, PROT_NONE) != 0 ||
        (access == ONLY_READ && mprotect(middle_of(&b), b.middle, PROT_READ) != 0))
        cannot("the pages around a buffer cannot be protected");
    return b;
}

void *at(const struct lent *b)
{
    return middle_of(b) + b->start;
}

int stays_after(const struct lent *b, size_t bytes)
{
    const uint8_t *now = middle_of(b);
    size_t after = b->start + bytes;
    return memcmp(now, b->before, b->start) == 0 && memcmp(now + after, b->before + after, b->middle - after) == 0;
}

int holds(const struct lent *b, const void *front, size_t bytes)
{
    return (bytes == 0 || memcmp(at(b), front, bytes) == 0) && stays_after(b, bytes);
}

int stays(const struct lent *b)
{
    return stays_after(b, 0);
}

void give_back(struct lent *b)
{
    munmap(b->pages, b->middle + 2 * page_size());
    free(b->before);
}
