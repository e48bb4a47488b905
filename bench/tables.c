/* Times the library that bench/tables.sh makes: tables [RUNS]. A time is the processor's, the least of RUNS (5), that of slots and of selections
   without that of the paths before them, and all without that of making the design. */
#include <stdint.h>
#include <stdio.h>
#include <stdlib.h>
#include <time.h>

enum { MADE_ONLY, PATHS, SLOTS, SELECTIONS, TASKS };

/* An allocator takes no bytes, so C passes nothing for it. */
uint64_t tables(uint32_t instrs, uint32_t task);

static double seconds(void) {
    struct timespec now;
    clock_gettime(CLOCK_PROCESS_CPUTIME_ID, &now);
    return now.tv_sec + now.tv_nsec / 1e9;
}

int main(int count, char **words) {
    int runs = count > 1 ? atoi(words[1]) : 5;
    printf("%12s %8s %8s %8s %10s %11s %8s\n", "instructions", "uses", "paths", "slots", "selections", "choices", "all");
    for (uint32_t instrs = 32; instrs <= 256; instrs *= 2) {
        double least[TASKS] = {1e9, 1e9, 1e9, 1e9};
        unsigned long long found[TASKS];
        for (int run = 0; run < runs; run++)
            for (uint32_t task = 0; task < TASKS; task++) {
                double start = seconds();
                found[task] = tables(instrs, task);
                double took = seconds() - start;
                least[task] = took < least[task] ? took : least[task];
            }
        double paths = least[PATHS] - least[MADE_ONLY], slots = least[SLOTS] - least[PATHS], selections = least[SELECTIONS] - least[PATHS];
        printf("%12u %8llu %8.3f %8.3f %10.3f %11llu %8.3f\n", instrs, found[PATHS], paths, slots, selections, found[SELECTIONS], paths + slots + selections);
    }
    return 0;
}
