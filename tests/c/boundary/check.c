#include "check.h"

#include <stdio.h>
#include <stdlib.h>

#define MOST_MESSAGES 20

static unsigned long checks, failures;
static const char *subject = "";

void about(const char *name)
{
    subject = name;
}

void check(int good, const char *part)
{
    checks++;
    if (good)
        return;
    failures++;
    if (failures <= MOST_MESSAGES)
        fprintf(stderr, "boundary: %s: %s\n", subject, part);
}

void cannot(const char *why)
{
    fprintf(stderr, "boundary: %s\n", why);
    exit(1);
}

int end_of_checks(void)
{
    if (failures > 0) {
        fprintf(stderr, "boundary: %lu of %lu checks failed\n", failures, checks);
        return 1;
    }
    printf("%lu checks\n", checks);
    return 0;
}
