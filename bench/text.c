/* Times the reading of EPANET texts by the proved library: text SECONDS FILE... Each text is read for so many seconds, once
   at least. Prints, a text a line: its name, its bytes, what is told of it (number, place, nodes, links, bytes of the
   sheet and of the names), how often it was read, and the least time in microseconds. It is the processor's
   time, since some texts take so long that other work on the machine would be in every one of them. */
#include <stdint.h>
#include <stdio.h>
#include <stdlib.h>
#include <string.h>
#include <time.h>

#include "../include/desk.h"
#include "files.h"

enum { TEXT = 1 << 21, SHEET = 73263, NAMES = 49152 };

static uint8_t text[TEXT], sheet[SHEET], names[NAMES];

static double microseconds(void)
{
    struct timespec t;
    clock_gettime(CLOCK_PROCESS_CPUTIME_ID, &t);
    return t.tv_sec * 1e6 + t.tv_nsec * 1e-3;
}

static void measure(const char *name, size_t length, double seconds)
{
    uint64_t told[6];
    double least = 0.0, started = microseconds();
    int times = 0;
    while (times == 0 || microseconds() - started < seconds * 1e6) {
        double began = microseconds();
        desk_text(text, length, sheet, SHEET, names, NAMES, told);
        double took = microseconds() - began;
        if (times == 0 || took < least)
            least = took;
        times++;
    }
    printf("%s %zu", name, length);
    for (int i = 0; i < 6; i++)
        printf(" %d", (int)told[i]);
    printf(" %d %.3f\n", times, least);
    fflush(stdout);
}

int main(int count, char **words)
{
    double seconds = count > 2 ? atof(words[1]) : 0.0;
    if (!(seconds > 0.0)) {
        fprintf(stderr, "usage: text SECONDS FILE...\n");
        return 2;
    }
    for (int i = 2; i < count; i++) {
        long length = bytes_of(words[i], text, sizeof text);
        if (length < 0)
            return 1;
        measure(name_of(words[i]), (size_t)length, seconds);
    }
    return 0;
}
