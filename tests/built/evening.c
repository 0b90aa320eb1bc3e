/* Evenings through include/desk.h against single solves: evening < EVENINGS, in the form that the program `evening` takes.

   Every buffer holds a pattern and has room behind its lent length. What a call must leave is worked out by desk_solve, row
   by row, each in its part of a second set of buffers with the same pattern; both sets must then be the same to the last
   byte, what was not lent and what no row reaches among it. Buffers are lent just long enough, then longer. All this twice,
   the second time by desk_evening_verdict against desk_verdict.

   Of a call that is not refused others follow, each with nothing lent changed: scratch an entry short (5 at 5), no rows, 33
   rows (14 at 0 and 1), the table and each result buffer an entry short (14 at 2), and several of these at once, of which
   the first in this order counts. Prints for each evening the number and place told, then `same`, or what differs. */
#include <stdint.h>
#include <stdio.h>
#include <stdlib.h>
#include <string.h>

#include "desk.h"

enum { TABLE, HEADS, DEMANDS, FLOWS, STATUSES, RECORD, COUNTS, TOTALS, SCRATCH, BUFFERS };
enum { ROWS = 32, NODES = 64, LINKS = 128, WIDEST = 7, ENTRIES = 4096, GUARD = 40 };

static const char *const names[BUFFERS] = {"table",  "heads",  "demands", "flows",  "statuses",
                                           "record", "counts", "totals",  "scratch"};

struct room {
    double heads[ROWS * NODES + GUARD], demands[ROWS * NODES + GUARD], flows[ROWS * LINKS + GUARD], totals[ROWS * 3 + GUARD],
        scratch[4096 + GUARD];
    uint64_t counts[ROWS * WIDEST + GUARD];
    uint8_t statuses[ROWS * LINKS + GUARD], record[ROWS * 800 + GUARD];
};

static uint8_t sheet[65536], row_sheet[65536];
static double table[ENTRIES];
static size_t length, rows, entries;
static size_t first, nodes, links, record;
/* how many counts a row has: 7 where it is judged */
static size_t wide;
static struct room lent, right;

static void fill(struct room *r)
{
    memset(r, 0x5a, sizeof *r);
}

/* an empty buffer has no start */
#define LEND(start, place) (size[place] ? (start) : NULL), size[place]

static void call(size_t asked, const size_t size[BUFFERS], uint64_t told[2])
{
    told[0] = told[1] = 99;
    if (wide == 5)
        desk_evening(sheet, length, asked, LEND(table, TABLE), LEND(lent.heads, HEADS), LEND(lent.demands, DEMANDS),
                     LEND(lent.flows, FLOWS), LEND(lent.statuses, STATUSES), LEND(lent.record, RECORD), LEND(lent.scratch, SCRATCH),
                     LEND(lent.counts, COUNTS), LEND(lent.totals, TOTALS), told);
    else
        desk_evening_verdict(sheet, length, 0.0, 0.1, 0.001, asked, LEND(table, TABLE), LEND(lent.heads, HEADS),
                             LEND(lent.demands, DEMANDS), LEND(lent.flows, FLOWS), LEND(lent.statuses, STATUSES),
                             LEND(lent.record, RECORD), LEND(lent.scratch, SCRATCH), LEND(lent.counts, COUNTS),
                             LEND(lent.totals, TOTALS), told);
}

/* the records of a good sheet */
static void measure(void)
{
    first = sheet[29] == 'P' ? 47 : 29;
    nodes = links = 0;
    for (size_t at = first; at < length; at += sheet[at] == 'N' ? 45 : 49)
        *(sheet[at] == 'N' ? &nodes : &links) += 1;
    record = 4 * (size_t)(sheet[26] | sheet[27] << 8);
}

static void needs(size_t size[BUFFERS])
{
    const size_t found[BUFFERS] = {rows * nodes, rows * nodes, rows * nodes, rows * links, rows * links, rows * record,
                                   rows * wide, rows * 3, 4096};
    memcpy(size, found, sizeof found);
}

/* each row alone, with its demands in the sheet and the part of each buffer that is its own */
static void single_solves(size_t scratch)
{
    memcpy(row_sheet, sheet, length);
    for (size_t r = 0; r < rows; r++) {
        for (size_t i = 0; i < nodes; i++)
            memcpy(row_sheet + first + 45 * i + 12, table + r * nodes + i, 8);
        double *heads = right.heads + r * nodes, *demands = right.demands + r * nodes, *flows = right.flows + r * links;
        uint8_t *statuses = right.statuses + r * links, *entry = right.record + r * record;
        uint64_t *counts = right.counts + r * wide;
        double *totals = right.totals + r * 3;
        if (wide == 5)
            desk_solve(row_sheet, length, heads, nodes, demands, nodes, flows, links, statuses, links, entry, record, right.scratch,
                       scratch, counts, totals);
        else
            desk_verdict(row_sheet, length, 0.0, 0.1, 0.001, heads, nodes, demands, nodes, flows, links, statuses, links, entry,
                         record, right.scratch, scratch, counts, totals, counts + 5);
    }
}

/* which buffer is not as it must be, or null */
static const char *changed(void)
{
    const void *now[] = {lent.heads, lent.demands, lent.flows, lent.statuses, lent.record, lent.counts, lent.totals, lent.scratch};
    const void *then[] = {right.heads, right.demands, right.flows, right.statuses, right.record, right.counts, right.totals,
                          right.scratch};
    const size_t bytes[] = {sizeof lent.heads, sizeof lent.demands, sizeof lent.flows, sizeof lent.statuses, sizeof lent.record,
                            sizeof lent.counts, sizeof lent.totals, sizeof lent.scratch};
    for (int k = 0; k + 1 < BUFFERS; k++)
        if (memcmp(now[k], then[k], bytes[k]) != 0)
            return names[k + 1];
    return NULL;
}

/* a call that must tell this and leave what `right` has */
static void expect(const char *when, size_t asked, const size_t size[BUFFERS], uint64_t number, uint64_t place)
{
    static double table_before[ENTRIES];
    static uint8_t sheet_before[65536];
    uint64_t told[2];
    memcpy(table_before, table, sizeof table);
    memcpy(sheet_before, sheet, sizeof sheet);
    call(asked, size, told);
    const char *buffer = changed();
    if (memcmp(table_before, table, sizeof table) != 0)
        buffer = "table";
    if (memcmp(sheet_before, sheet, sizeof sheet) != 0)
        buffer = "sheet";
    if (told[0] != number || told[1] != place || buffer != NULL) {
        printf(" differs %s: told %d %d, not %d %d; changed %s\n", when, (int)told[0], (int)told[1], (int)number, (int)place,
               buffer ? buffer : "nothing else");
        exit(1);
    }
}

static void expect_refused(const char *when, size_t asked, const size_t size[BUFFERS], uint64_t number, uint64_t place)
{
    fill(&lent);
    fill(&right);
    expect(when, asked, size, number, place);
}

static void refusals(void)
{
    size_t enough[BUFFERS], size[BUFFERS];
    needs(enough);
    memcpy(size, enough, sizeof size);
    expect_refused("no rows", 0, size, 14, 0);
    expect_refused("33 rows", ROWS + 1, size, 14, 1);
    expect_refused("very many rows", SIZE_MAX, size, 14, 1);
    for (int place = TABLE; place < SCRATCH; place++)
        if (enough[place] > 0) {
            memcpy(size, enough, sizeof size);
            size[place] -= 1;
            expect_refused(names[place], rows, size, 14, 2);
            size[place] = 0;
            expect_refused(names[place], rows, size, 14, 2);
            /* 14 at 0 and at 1 come before it */
            expect_refused(names[place], 0, size, 14, 0);
            expect_refused(names[place], ROWS + 1, size, 14, 1);
            size[SCRATCH] = 4095;
            expect_refused(names[place], rows, size, 5, 5);
        }
    memcpy(size, enough, sizeof size);
    for (size[SCRATCH] = 0; size[SCRATCH] < 4096; size[SCRATCH] += 4095) {
        expect_refused("scratch", rows, size, 5, 5);
        expect_refused("scratch and no rows", 0, size, 5, 5);
        expect_refused("scratch and 33 rows", ROWS + 1, size, 5, 5);
    }
    memset(size, 0, sizeof size);
    expect_refused("nothing lent", rows, size, 5, 5);
    /* a sheet that is not good comes before all of them */
    sheet[0] ^= 1;
    expect_refused("a bad sheet and nothing lent", rows, size, 1, 0);
    expect_refused("a bad sheet and no rows", 0, size, 1, 0);
    expect_refused("a bad sheet", rows, enough, 1, 0);
    sheet[0] ^= 1;
}

static void solved(void)
{
    size_t size[BUFFERS];
    needs(size);
    for (int longer = 0; longer < 2; longer++) {
        fill(&lent);
        fill(&right);
        single_solves(size[SCRATCH]);
        expect(longer ? "longer buffers" : "buffers just long enough", rows, size, 0, 0);
        for (int place = TABLE; place < BUFFERS; place++)
            size[place] += place == TABLE ? (entries > size[TABLE]) : GUARD;
    }
    refusals();
}

static uint32_t number(void)
{
    uint8_t b[4];
    if (fread(b, 1, 4, stdin) != 4)
        exit(feof(stdin) ? 0 : 2);
    return b[0] | b[1] << 8 | b[2] << 16 | (uint32_t)b[3] << 24;
}

int main(void)
{
    for (;;) {
        size_t size[BUFFERS] = {0, ROWS * NODES, ROWS * NODES, ROWS * LINKS, ROWS * LINKS, ROWS * 800, ROWS * WIDEST, ROWS * 3, 4096};
        rows = number();
        length = number();
        if (length > sizeof sheet || fread(sheet, 1, length, stdin) != length)
            return 2;
        entries = number();
        if (entries > ENTRIES || fread(table, 8, entries, stdin) != entries)
            return 2;
        size[TABLE] = entries;
        for (wide = 5; wide <= WIDEST; wide += 2) {
            uint64_t told[2];
            fill(&lent);
            call(rows, size, told);
            if (wide == 5)
                printf("%d %d", (int)told[0], (int)told[1]);
            if (told[0] == 0) {
                measure();
                solved();
            } else {
                expect_refused("again", rows, size, told[0], told[1]);
            }
        }
        printf(" same\n");
        fflush(stdout);
    }
}
