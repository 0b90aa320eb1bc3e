/* Solves a sheet through include/desk.h and asks whether its answer may be sold, then lends each buffer one entry too short and shows that the solve is
   refused and that nothing lent has changed: solve SHEET. */
#include <stdint.h>
#include <stdio.h>
#include <string.h>

#include "desk.h"

enum { HEADS, DEMANDS, FLOWS, STATUSES, RECORD, SCRATCH, BUFFERS };

/* enough for every good sheet */
static const size_t most[BUFFERS] = {64, 64, 128, 128, 800, 4096};
static const size_t entry[BUFFERS] = {8, 8, 8, 1, 1, 8};

struct room {
    double heads[64], demands[64], flows[128], scratch[4096];
    uint8_t statuses[128], record[800];
};

static uint8_t sheet[65536];

/* every buffer holds a pattern, so that a change shows */
static void fill(struct room *r)
{
    memset(r, 0x5a, sizeof *r);
}

/* the limits that the desk takes: lowest pressure 0 ft, heads within 0.1 ft, flows within 0.001 cfs */
static void solve(struct room *r, size_t length, const size_t size[BUFFERS], uint64_t counts[5], double totals[3],
                  uint64_t verdict[2])
{
    desk_verdict(sheet, length, 0.0, 0.1, 0.001, r->heads, size[HEADS], r->demands, size[DEMANDS], r->flows, size[FLOWS],
                 r->statuses, size[STATUSES], r->record, size[RECORD], r->scratch, size[SCRATCH], counts, totals, verdict);
}

/* one entry less than the sheet needs of a buffer: 5 at its place, and the pattern is still there */
static int refused_when_short(size_t length, const size_t needs[BUFFERS])
{
    static struct room lent, before;
    for (int place = 0; place < BUFFERS; place++) {
        size_t size[BUFFERS];
        uint64_t counts[5], verdict[2];
        double totals[3];
        if (needs[place] == 0)
            continue;
        memcpy(size, most, sizeof size);
        size[place] = needs[place] - 1;
        fill(&lent);
        fill(&before);
        solve(&lent, length, size, counts, totals, verdict);
        if (counts[0] != 5 || counts[1] != (uint64_t)place || verdict[0] != 1 || verdict[1] != 5 ||
            memcmp(&lent, &before, sizeof lent) != 0) {
            printf("buffer %d short: number %d, place %d, or something changed\n", place, (int)counts[0], (int)counts[1]);
            return 0;
        }
    }
    printf("each buffer one entry short: refused with 5 at its place, nothing changed\n");
    return 1;
}

/* past the entries that the sheet has, the pattern is still there */
static int later_entries_stay(const struct room *r, const size_t needs[BUFFERS], uint64_t trials)
{
    static struct room before;
    const void *now[BUFFERS] = {r->heads, r->demands, r->flows, r->statuses, r->record, r->scratch};
    fill(&before);
    const void *then[BUFFERS] = {before.heads, before.demands, before.flows, before.statuses, before.record, before.scratch};
    for (int place = 0; place < BUFFERS; place++) {
        size_t from = entry[place] * (place == RECORD ? 4 * trials : needs[place]);
        size_t to = entry[place] * most[place];
        if (memcmp((const char *)now[place] + from, (const char *)then[place] + from, to - from) != 0) {
            printf("buffer %d: an entry past the sheet's has changed\n", place);
            return 0;
        }
    }
    printf("entries past the sheet's own stay as they were\n");
    return 1;
}

int main(int count, char **words)
{
    static struct room lent;
    uint64_t counts[5], verdict[2];
    double totals[3];
    FILE *file = count == 2 ? fopen(words[1], "rb") : NULL;
    if (file == NULL) {
        fprintf(stderr, "usage: solve SHEET\n");
        return 2;
    }
    size_t length = fread(sheet, 1, sizeof sheet, file), nodes = 0, links = 0;
    fclose(file);
    fill(&lent);
    solve(&lent, length, most, counts, totals, verdict);
    printf("number %d, place %d, %d trials, %d freed, %d grounded\n", (int)counts[0], (int)counts[1], (int)counts[2],
           (int)counts[3], (int)counts[4]);
    printf("verdict %d, place %d: %s\n", (int)verdict[0], (int)verdict[1],
           verdict[0] == 0 ? "it may be sold" : "it must not be sold");
    if (counts[0] != 0)
        return 0;
    for (size_t at = sheet[29] == 'P' ? 47 : 29; at < length; at += sheet[at] == 'N' ? 45 : 49)
        *(sheet[at] == 'N' ? &nodes : &links) += 1;
    for (size_t i = 0; i < nodes; i++)
        printf("node %d: head %.4f ft, demand %.4f cfs\n", (int)i, lent.heads[i], lent.demands[i]);
    const size_t needs[BUFFERS] = {nodes, nodes, links, links, 4 * (size_t)(sheet[26] | sheet[27] << 8), 4096};
    int good = later_entries_stay(&lent, needs, counts[2]) & refused_when_short(length, needs);
    return good ? 0 : 1;
}
