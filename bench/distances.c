/* Times the library that bench/distances.sh makes: distances [RUNS]. A time is the processor's, the least of RUNS (5), without that of making
   the design and the words. */
#include <stdint.h>
#include <stdio.h>
#include <stdlib.h>
#include <time.h>

enum { MADE_ONLY, ALL_DISTANCES, ALL_OUTS, TASKS };

/* An allocator takes no bytes, so C passes nothing for it. */
uint64_t distances(uint32_t kind, uint32_t task);

static double seconds(void) {
    struct timespec now;
    clock_gettime(CLOCK_PROCESS_CPUTIME_ID, &now);
    return now.tv_sec + now.tv_nsec / 1e9;
}

int main(int count, char **words) {
    static const char *kinds[] = {"reads of one register", "cells named by constants", "cells named by fields"};
    int runs = count > 1 ? atoi(words[1]) : 5;
    printf("%-24s %8s %9s %8s %9s\n", "lines", "dist", "sum", "out", "sum");
    for (uint32_t kind = 0; kind < 3; kind++) {
        double least[TASKS] = {1e9, 1e9, 1e9};
        unsigned long long sums[TASKS];
        for (int run = 0; run < runs; run++)
            for (uint32_t task = 0; task < TASKS; task++) {
                double start = seconds();
                sums[task] = distances(kind, task);
                double took = seconds() - start;
                least[task] = took < least[task] ? took : least[task];
            }
        printf("%-24s %8.3f %9llu %8.3f %9llu\n", kinds[kind], least[ALL_DISTANCES] - least[MADE_ONLY], sums[ALL_DISTANCES],
               least[ALL_OUTS] - least[MADE_ONLY], sums[ALL_OUTS]);
    }
    return 0;
}
