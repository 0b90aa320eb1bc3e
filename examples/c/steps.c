/* Takes the solve of a sheet one trial at a time through include/desk.h and draws a line after each: the trial, its
   entry, and by how much a head and a flow changed at most. With `ask` it waits after each line for one from the
   person, and stops where that begins with q or the input ends: steps SHEET [ask]. */
#include <math.h>
#include <stdint.h>
#include <stdio.h>
#include <string.h>

#include "desk.h"

struct room {
    double heads[64], demands[64], flows[128], scratch[4096];
    uint8_t statuses[128], record[800];
};

static uint8_t sheet[65536];
static size_t length;

static void trial(desk_state *state, struct room *r, size_t record_length, uint64_t told[6])
{
    desk_trial_state(sheet, length, state, r->heads, 64, r->demands, 64, r->flows, 128, r->statuses, 128, r->record,
                     record_length, r->scratch, 4096, told);
}

static double worst(const double *before, const double *after, size_t count)
{
    double most = 0.0;
    for (size_t i = 0; i < count; i++)
        if (fabs(after[i] - before[i]) > most)
            most = fabs(after[i] - before[i]);
    return most;
}

/* the trial that was just taken: the last of the record's entries so far */
static void draw(const desk_state *before, const desk_state *after, const struct room *r, uint64_t trials)
{
    const uint8_t *entry = r->record + 4 * (trials - 1);
    printf("trial %d: %c%c %d, heads changed by at most %.4f ft, flows by %.6f cfs\n", (int)trials, entry[0], entry[1],
           entry[2] | entry[3] << 8, worst(before->heads, after->heads, 64), worst(before->flows, after->flows, 128));
    fflush(stdout);
}

static int goes_on(void)
{
    char line[80];
    return fgets(line, sizeof line, stdin) != NULL && line[0] != 'q';
}

/* a trial that is not the one to go by: nothing may change */
static int nothing_changes(desk_state *state, struct room *r, size_t record_length, uint64_t told[6])
{
    static desk_state state_before;
    static struct room before;
    memcpy(&state_before, state, sizeof state_before);
    memcpy(&before, r, sizeof before);
    trial(state, r, record_length, told);
    return memcmp(&state_before, state, sizeof state_before) == 0 && memcmp(&before, r, sizeof before) == 0;
}

static int told_again(desk_state *state, struct room *r, const uint64_t told[6])
{
    uint64_t again[6];
    int same = nothing_changes(state, r, sizeof r->record, again) && memcmp(told, again, sizeof again) == 0;
    printf("one trial more: %s\n", same ? "told again, nothing changed" : "something changed");
    return same;
}

int main(int count, char **words)
{
    static desk_state state, before;
    static struct room lent;
    uint64_t told[6];
    int ask = count == 3 && strcmp(words[2], "ask") == 0;
    FILE *file = count == 2 || ask ? fopen(words[1], "rb") : NULL;
    if (file == NULL) {
        fprintf(stderr, "usage: steps SHEET [ask]\n");
        return 2;
    }
    length = fread(sheet, 1, sizeof sheet, file);
    fclose(file);
    memset(&lent, 0x5a, sizeof lent);
    desk_start_state(sheet, length, &state, told);
    if (told[0] == 0) {
        int stays = nothing_changes(&state, &lent, 0, told);
        printf("a record too short: told %d, number %d, place %d, %s\n", (int)told[0], (int)told[1], (int)told[2],
               stays ? "nothing changed" : "something changed");
        told[0] = 0;
    }
    while (told[0] == 0) {
        memcpy(&before, &state, sizeof before);
        trial(&state, &lent, sizeof lent.record, told);
        if (told[0] == 2)
            break;
        draw(&before, &state, &lent, told[3]);
        if (told[0] == 0 && ask && !goes_on()) {
            printf("stopped after %d trials, before an answer\n", (int)told[3]);
            return 0;
        }
    }
    printf("number %d, place %d, %d trials, %d freed, %d grounded\n", (int)told[1], (int)told[2], (int)told[3],
           (int)told[4], (int)told[5]);
    if (told[0] == 1 && told[1] == 0)
        printf("demand %.4f cfs, supply %.4f cfs\n", state.sums[2], state.sums[3]);
    return told_again(&state, &lent, told) ? 0 : 1;
}
