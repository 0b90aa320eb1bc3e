/* Times whole solves by the proved library: solves N FILE... prints, a sheet a line, its name, the number of the answer,
   its trials, and the median and least of N times in microseconds. A clock that ticks every ten nanoseconds cannot tell
   a short solve from one a hundredth longer, so such a time is that of several solves, divided by their number. */
#include <stdint.h>
#include <stdio.h>
#include <stdlib.h>
#include <string.h>
#include <time.h>

#include "../include/desk.h"
#include "files.h"

enum { NODES = 64, LINKS = 128, RECORD = 800, SCRATCH = 4096, LONGEST = 65536, SHORT = 10 };

static double microseconds(void)
{
    struct timespec t;
    clock_gettime(CLOCK_MONOTONIC, &t);
    return t.tv_sec * 1e6 + t.tv_nsec * 1e-3;
}

static int by_size(const void *a, const void *b)
{
    double x = *(const double *)a, y = *(const double *)b;
    return (x > y) - (x < y);
}

static void measure(const char *name, const uint8_t *sheet, size_t length, int n)
{
    static double heads[NODES], demands[NODES], flows[LINKS], scratch[SCRATCH], totals[3];
    static uint8_t statuses[LINKS], record[RECORD];
    static uint64_t counts[5];
    double *times = malloc(n * sizeof *times);
    if (times == NULL)
        exit(1);
    int together = 1;
    for (int i = -n / 10 - 1; i < n; i++) {
        double began = microseconds();
        for (int k = 0; k < together; k++)
            desk_solve(sheet, length, heads, NODES, demands, NODES, flows, LINKS, statuses, LINKS, record, RECORD, scratch,
                       SCRATCH, counts, totals);
        double took = (microseconds() - began) / together;
        if (i >= 0)
            times[i] = took;
        else if (i == -1 && took < SHORT)
            together = (int)(SHORT / took) + 1;
    }
    qsort(times, n, sizeof *times, by_size);
    printf("%s %d %d %.3f %.3f\n", name, (int)counts[0], (int)counts[2], times[n / 2], times[0]);
    free(times);
}

int main(int count, char **words)
{
    static uint8_t sheet[LONGEST];
    int n = count > 2 ? atoi(words[1]) : 0;
    if (n < 1) {
        fprintf(stderr, "usage: solves N FILE...\n");
        return 2;
    }
    for (int i = 2; i < count; i++) {
        long length = bytes_of(words[i], sheet, sizeof sheet);
        if (length < 0)
            return 1;
        measure(name_of(words[i]), sheet, (size_t)length, n);
    }
    return 0;
}
