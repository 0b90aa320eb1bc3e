/* Times an evening of 32 rows in one call against 32 single solves by the proved library: evening N FILE... Row r asks for
   1/2 + r/32 of what the sheet asks. Prints, a sheet a line: its name, its nodes and links, how many rows were solved, the
   trials of all rows, and the least of N times in microseconds: one call; 32 solves of sheets that have their demands
   already; 32 solves with the writing of the demands into the sheet. An evening takes so long that other work on the
   machine is in most of the times, but not in the least. What they came to must be the same to the last byte. */
#include <stdint.h>
#include <stdio.h>
#include <stdlib.h>
#include <string.h>
#include <time.h>

#include "../include/desk.h"
#include "files.h"

enum { ROWS = 32, NODES = 64, LINKS = 128, RECORD = 800, SCRATCH = 4096, LONGEST = 9199 };

struct results {
    double heads[ROWS * NODES], demands[ROWS * NODES], flows[ROWS * LINKS], totals[ROWS * 3];
    uint64_t counts[ROWS * 5];
    uint8_t statuses[ROWS * LINKS], record[ROWS * RECORD];
};

static uint8_t sheet[LONGEST], sheets[ROWS][LONGEST], one_sheet[LONGEST];
static double table[ROWS * NODES], scratch[SCRATCH];
static size_t length, first, nodes, links, record;
static struct results together, apart;

static double microseconds(void)
{
    struct timespec t;
    clock_gettime(CLOCK_MONOTONIC, &t);
    return t.tv_sec * 1e6 + t.tv_nsec * 1e-3;
}

static void put_row(uint8_t *into, size_t r)
{
    for (size_t i = 0; i < nodes; i++)
        memcpy(into + first + 45 * i + 12, table + r * nodes + i, 8);
}

static void make(void)
{
    first = sheet[29] == 'P' ? 47 : 29;
    nodes = links = 0;
    for (size_t at = first; at < length; at += sheet[at] == 'N' ? 45 : 49)
        *(sheet[at] == 'N' ? &nodes : &links) += 1;
    record = 4 * (size_t)(sheet[26] | sheet[27] << 8);
    for (size_t r = 0; r < ROWS; r++) {
        for (size_t i = 0; i < nodes; i++) {
            double asked;
            memcpy(&asked, sheet + first + 45 * i + 12, 8);
            table[r * nodes + i] = asked * (0.5 + r / 32.0);
        }
        memcpy(sheets[r], sheet, length);
        put_row(sheets[r], r);
    }
}

static void in_one_call(void)
{
    struct results *t = &together;
    uint64_t called[2];
    desk_evening(sheet, length, ROWS, table, ROWS * nodes, t->heads, ROWS * nodes, t->demands, ROWS * nodes, t->flows,
                 ROWS * links, t->statuses, ROWS * links, t->record, ROWS * record, scratch, SCRATCH, t->counts, ROWS * 5,
                 t->totals, ROWS * 3, called);
    if (called[0] != 0) {
        fprintf(stderr, "evening: refused, number %d, place %d\n", (int)called[0], (int)called[1]);
        exit(1);
    }
}

static void solve_row(const uint8_t *with_demands, size_t r)
{
    struct results *a = &apart;
    desk_solve(with_demands, length, a->heads + r * nodes, nodes, a->demands + r * nodes, nodes, a->flows + r * links, links,
               a->statuses + r * links, links, a->record + r * record, record, scratch, SCRATCH, a->counts + r * 5,
               a->totals + r * 3);
}

static void one_by_one(void)
{
    for (size_t r = 0; r < ROWS; r++)
        solve_row(sheets[r], r);
}

static void written_and_solved(void)
{
    memcpy(one_sheet, sheet, length);
    for (size_t r = 0; r < ROWS; r++) {
        put_row(one_sheet, r);
        solve_row(one_sheet, r);
    }
}

static void (*const ways[])(void) = {in_one_call, one_by_one, written_and_solved};
enum { WAYS = sizeof ways / sizeof *ways };

static void measure(const char *name, int n)
{
    double least[WAYS];
    int solved = 0, trials = 0;
    memset(&together, 0, sizeof together);
    memset(&apart, 0, sizeof apart);
    /* in turns, the first ones untimed */
    for (int i = -n / 10 - 1; i < n; i++)
        for (int way = 0; way < WAYS; way++) {
            double began = microseconds();
            ways[way]();
            double took = microseconds() - began;
            if (i <= 0 || took < least[way])
                least[way] = took;
        }
    if (memcmp(&together, &apart, sizeof apart) != 0) {
        fprintf(stderr, "evening: %s: the rows differ from single solves\n", name);
        exit(1);
    }
    for (size_t r = 0; r < ROWS; r++) {
        solved += together.counts[r * 5] == 0;
        trials += (int)together.counts[r * 5 + 2];
    }
    printf("%s %d %d %d %d", name, (int)nodes, (int)links, solved, trials);
    for (int way = 0; way < WAYS; way++)
        printf(" %.3f", least[way]);
    printf("\n");
}

int main(int count, char **words)
{
    int n = count > 2 ? atoi(words[1]) : 0;
    if (n < 1) {
        fprintf(stderr, "usage: evening N FILE...\n");
        return 2;
    }
    for (int i = 2; i < count; i++) {
        long read = bytes_of(words[i], sheet, sizeof sheet);
        if (read < 0)
            return 1;
        length = (size_t)read;
        make();
        measure(name_of(words[i]), n);
    }
    return 0;
}
