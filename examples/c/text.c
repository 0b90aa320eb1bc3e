/* Reads an EPANET input text through include/desk.h, solves the sheet that it makes and prints the head of each node by its
   name; then lends each of the two buffers one byte too short and shows that the text is refused and nothing lent has
   changed: text FILE. */
#include <stdint.h>
#include <stdio.h>
#include <string.h>

#include "desk.h"

enum { SHEET = 73263, NAMES = 49152 };
enum { NUMBER, PLACE, NODES, LINKS, BYTES, NAMED, COUNTS };

/* enough for the sheet and the names of every text */
struct room {
    uint8_t sheet[SHEET], names[NAMES];
};

static uint8_t text[1 << 20];
static size_t length;

/* the name that begins there, up to its newline; gives where the next one begins */
static const uint8_t *print_name(const uint8_t *name)
{
    while (*name != '\n')
        putchar(*name++);
    return name + 1;
}

static void print_heads(const struct room *r, const uint64_t told[COUNTS])
{
    static double heads[64], demands[64], flows[128], scratch[4096];
    static uint8_t statuses[128], record[800];
    uint64_t counts[5];
    double totals[3];
    const uint8_t *name = r->names;
    desk_solve(r->sheet, told[BYTES], heads, 64, demands, 64, flows, 128, statuses, 128, record, 800, scratch, 4096, counts,
               totals);
    printf("solved: number %d, place %d, %d trials\n", (int)counts[0], (int)counts[1], (int)counts[2]);
    for (size_t i = 0; counts[0] == 0 && i < told[NODES]; i++) {
        name = print_name(name);
        printf(": head %.4f ft\n", heads[i]);
    }
}

/* a call with so much of the two buffers: refused with 5 at 6, and every byte lent is as it was */
static int refused(size_t sheet_length, size_t names_length)
{
    static struct room lent, before;
    uint64_t told[COUNTS];
    memset(&lent, 0x5a, sizeof lent);
    memset(&before, 0x5a, sizeof before);
    desk_text(text, length, lent.sheet, sheet_length, lent.names, names_length, told);
    return told[NUMBER] == 5 && told[PLACE] == 6 && memcmp(&lent, &before, sizeof lent) == 0;
}

int main(int count, char **words)
{
    static struct room lent;
    uint64_t told[COUNTS];
    FILE *file = count == 2 ? fopen(words[1], "rb") : NULL;
    if (file == NULL) {
        fprintf(stderr, "usage: text FILE\n");
        return 2;
    }
    length = fread(text, 1, sizeof text, file);
    fclose(file);
    desk_text(text, length, lent.sheet, SHEET, lent.names, NAMES, told);
    if (told[NUMBER] != 0) {
        printf("refused: number %d, line %d\n", (int)told[NUMBER], (int)told[PLACE]);
        return 0;
    }
    printf("%d nodes, %d links, a sheet of %d bytes, names of %d\n", (int)told[NODES], (int)told[LINKS], (int)told[BYTES],
           (int)told[NAMED]);
    print_heads(&lent, told);
    int good = refused(told[BYTES] - 1, NAMES) && (told[NAMED] == 0 || refused(SHEET, told[NAMED] - 1));
    printf("each buffer one byte short: %s\n", good ? "refused with 5 at 6, nothing changed" : "something is wrong");
    return good ? 0 : 1;
}
