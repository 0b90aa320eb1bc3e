/* An evening of four turns through include/desk.h, solved in one call: evening SHEET. In each turn every fourth junction
   draws four times what the sheet asks of it, and the others nothing. Prints a line a turn, then makes two calls that are
   refused and shows that nothing lent has changed. */
#include <stdint.h>
#include <stdio.h>
#include <string.h>

#include "desk.h"

enum { TURNS = 4, NODES = 64, LINKS = 128, RECORD = 800, COUNTS = 5, TOTALS = 3, SCRATCH = 4096 };

/* enough for four turns of every good sheet; a turn's entries stand right behind those of the turn before, so that the
   heads of turn t begin at t times the sheet's nodes */
struct room {
    double heads[TURNS * NODES], demands[TURNS * NODES], flows[TURNS * LINKS], scratch[SCRATCH], totals[TURNS * TOTALS];
    uint64_t counts[TURNS * COUNTS];
    uint8_t statuses[TURNS * LINKS], record[TURNS * RECORD];
};

static uint8_t sheet[65536];
/* how many nodes it has, and where the first of their records stands */
static size_t length, nodes, first;
static double table[TURNS * NODES];

static void solve(struct room *r, size_t heads_length, size_t scratch_length, uint64_t called[2])
{
    desk_evening(sheet, length, TURNS, table, TURNS * nodes, r->heads, heads_length, r->demands, TURNS * NODES, r->flows,
                 TURNS * LINKS, r->statuses, TURNS * LINKS, r->record, TURNS * RECORD, r->scratch, scratch_length, r->counts,
                 TURNS * COUNTS, r->totals, TURNS * TOTALS, called);
}

static int is_junction(size_t i)
{
    return sheet[first + 45 * i + 2] == 0;
}

/* the number that stands so many bytes from the beginning of a node's record: 4 the elevation, 12 the demand */
static double field(size_t i, size_t at)
{
    double x;
    memcpy(&x, sheet + first + 45 * i + at, sizeof x);
    return x;
}

/* a row a turn, an entry a node; water that comes in stays */
static void fill_table(void)
{
    for (size_t i = 0; i < nodes; i++) {
        double asked = field(i, 12);
        int draws = is_junction(i) && asked > 0.0;
        for (size_t turn = 0; turn < TURNS; turn++)
            table[turn * nodes + i] = !draws ? asked : i % TURNS == turn ? TURNS * asked : 0.0;
    }
}

static void print_turn(const struct room *r, size_t turn)
{
    const uint64_t *counts = r->counts + turn * COUNTS;
    const double *heads = r->heads + turn * nodes, *totals = r->totals + turn * TOTALS;
    double least = 0.0;
    int node = -1;
    for (size_t i = 0; i < nodes; i++)
        if (is_junction(i) && (node < 0 || heads[i] - field(i, 4) < least)) {
            least = heads[i] - field(i, 4);
            node = (int)i;
        }
    printf("%4d  %6d  %5d  %6d  %5d  %8d", (int)turn, (int)counts[0], (int)counts[1], (int)counts[2], (int)counts[3],
           (int)counts[4]);
    if (counts[0] == 0 && node >= 0)
        printf("  %10.4f  %17.4f  %4d", totals[0], least, node);
    printf("\n");
}

/* a call with so much of the heads and of the scratch: refused, and every byte lent is as it was */
static int refused(const char *what, size_t heads_length, size_t scratch_length)
{
    static struct room lent, before;
    uint64_t called[2];
    memset(&lent, 0x5a, sizeof lent);
    memset(&before, 0x5a, sizeof before);
    solve(&lent, heads_length, scratch_length, called);
    int same = memcmp(&lent, &before, sizeof lent) == 0;
    printf("%s: number %d, place %d, %s\n", what, (int)called[0], (int)called[1], same ? "nothing changed" : "something changed");
    return same && called[0] != 0;
}

int main(int count, char **words)
{
    static struct room lent;
    uint64_t called[2];
    FILE *file = count == 2 ? fopen(words[1], "rb") : NULL;
    if (file == NULL) {
        fprintf(stderr, "usage: evening SHEET\n");
        return 2;
    }
    length = fread(sheet, 1, sizeof sheet, file);
    fclose(file);
    /* whether the sheet is good the call says */
    first = sheet[29] == 'P' ? 47 : 29;
    while (nodes < NODES && first + 45 * (nodes + 1) <= length && sheet[first + 45 * nodes] == 'N')
        nodes++;
    fill_table();
    solve(&lent, TURNS * NODES, SCRATCH, called);
    if (called[0] != 0) {
        printf("refused: number %d, place %d\n", (int)called[0], (int)called[1]);
        return 0;
    }
    printf("turn  number  place  trials  freed  grounded  demand cfs  least pressure ft  node\n");
    for (size_t turn = 0; turn < TURNS; turn++)
        print_turn(&lent, turn);
    int good = refused("scratch one entry short", TURNS * NODES, SCRATCH - 1) &
               refused("heads one entry short", TURNS * nodes - 1, SCRATCH);
    return good ? 0 : 1;
}
