/* Times the library that bench/assembling.sh makes: assembling [RUNS]. A time is the processor's, the least of RUNS (5), with that of
   making the design and the text. */
#include <stdint.h>
#include <stdio.h>
#include <stdlib.h>
#include <time.h>

/* An allocator takes no bytes, so C passes nothing for it. */
uint32_t assembling(uint32_t kind, uint64_t count);

static double seconds(void) {
    struct timespec now;
    clock_gettime(CLOCK_PROCESS_CPUTIME_ID, &now);
    return now.tv_sec + now.tv_nsec / 1e9;
}

int main(int count, char **words) {
    static const char *kinds[] = {"reads of one register", "cells named by constants"};
    static const uint64_t lines[] = {60000, 30000, 15000};
    int runs = count > 1 ? atoi(words[1]) : 5;
    printf("%-24s %8s %8s %9s\n", "instructions", "lines", "words", "seconds");
    for (uint32_t kind = 0; kind < 2; kind++)
        for (int size = 0; size < 3; size++) {
            double least = 1e9;
            uint32_t placed = 0;
            for (int run = 0; run < runs; run++) {
                double start = seconds();
                placed = assembling(kind, lines[size]);
                double took = seconds() - start;
                least = took < least ? took : least;
            }
            printf("%-24s %8llu %8u %9.3f\n", kinds[kind], (unsigned long long)lines[size], placed, least);
        }
    return 0;
}
