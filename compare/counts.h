/* How often something came about in a test: what never did was not tested. */
#ifndef COUNTS_H
#define COUNTS_H

#include <stdbool.h>
#include <stdio.h>

/* Prints the counts; whether all of them are above 0. */
static inline bool show_counts(const char *what, const unsigned long *counts, int n)
{
    bool all = true;
    printf("%s", what);
    for (int i = 0; i < n; i++) {
        printf(" %lu", counts[i]);
        all = all && counts[i] > 0;
    }
    return all;
}

#endif
