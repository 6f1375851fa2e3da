/* What a load costs in a bare loop over so many pages of 4096 bytes, behind an array of their
   addresses, as the pages are gone through by a step: each load waits for the one before it, since
   the next page is found with what was loaded. Prints the least of several runs, in nanoseconds.
   usage: jumps PAGES STEP LOADS RUNS */
#include <stdio.h>
#include <stdlib.h>
#include <string.h>
#include <time.h>

enum { PAGE = 4096 };

static double now(void)
{
    struct timespec time;
    clock_gettime(CLOCK_PROCESS_CPUTIME_ID, &time);
    return time.tv_sec * 1e9 + time.tv_nsec;
}

static void *room(size_t bytes)
{
    void *made = malloc(bytes);
    if (!made)
        exit(2);
    return memset(made, 0, bytes);
}

int main(int count, char **words)
{
    if (count != 5)
        return 1;
    long pages = atol(words[1]), step = atol(words[2]) % pages;
    long loads = atol(words[3]), runs = atol(words[4]);
    unsigned char **addresses = room(pages * sizeof *addresses);
    for (long it = 0; it < pages; it++)
        addresses[it] = room(PAGE);
    double least = 0;
    for (long run = 0; run < runs; run++) {
        long page = 0;
        double start = now();
        for (long it = 0; it < loads; it++) {
            page += step + addresses[page][it % 509 * 8];
            if (page >= pages)
                page -= pages;
        }
        /* The last page is used, so that no load is left out. */
        double taken = (now() - start + (page < 0)) / loads;
        if (run == 0 || taken < least)
            least = taken;
    }
    printf("%.3f\n", least);
    return 0;
}
