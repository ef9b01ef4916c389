/* How a program ends where something is not as it should be. */
#ifndef BENCH_FAIL_H
#define BENCH_FAIL_H

#include <stdio.h>
#include <stdlib.h>

_Noreturn static inline void fail(const char *what, const char *which)
{
    fprintf(stderr, "%s: %s\n", which, what);
    exit(EXIT_FAILURE);
}

#endif
