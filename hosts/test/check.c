/* Counts what holds, and tells what does not and where. */
#include "test.h"

struct score score;

static char place[256];

void now_at(const char *what, unsigned long number)
{
    snprintf(place, sizeof place, "%s %lu", what, number);
}

void expect(bool holds, const char *what)
{
    if (holds) {
        score.passed++;
    } else {
        score.failed++;
        printf("failed: %s: %s\n", place, what);
    }
}
