/* How much stack a call needs, and calls from several threads at once: stack SHEET... TEXT...

   Each call runs in a thread whose stack is painted before; what is below the caller's frame and no longer painted was
   used. Prints `FILE FUNCTION BYTES` for each file and function (all take any bytes), the evenings with two rows, then
   `threads same` if eight threads that call one at the same time, some dozen times each, all get the answers that one gets
   alone: the first file is solved, and the last one is read as a text. */
#include <pthread.h>
#include <stdio.h>
#include <stdlib.h>
#include <string.h>

#include "desk.h"

#define STACK (1 << 20)
#define PAINT 0xA5
#define THREADS 8
#define ROUNDS 40
#define ROWS 2

enum { SOLVE, VERDICT, EVENING, EVENING_VERDICT, TEXT, CALLS };
static const char *const names[CALLS] = {"desk_solve", "desk_verdict", "desk_evening", "desk_evening_verdict", "desk_text"};

struct room {
    double table[ROWS * 64], heads[ROWS * 64], demands[ROWS * 64], flows[ROWS * 128], scratch[4096], totals[ROWS * 3];
    uint8_t statuses[ROWS * 128], record[ROWS * 800];
    uint64_t counts[ROWS * 7], told[2];
    uint8_t sheet[73263], names[49152];
};

struct job {
    uint8_t given[1 << 18];
    size_t length;
    int what, times;
    /* where the caller's frame is, as a number */
    uintptr_t base;
    struct room room;
};

static void call(struct job *job)
{
    struct room *r = &job->room;
    if (job->what == VERDICT)
        desk_verdict(job->given, job->length, 0.0, 0.1, 0.001, r->heads, 64, r->demands, 64, r->flows, 128, r->statuses, 128,
                     r->record, 800, r->scratch, 4096, r->counts, r->totals, r->told);
    else if (job->what == EVENING)
        desk_evening(job->given, job->length, ROWS, r->table, ROWS * 64, r->heads, ROWS * 64, r->demands, ROWS * 64, r->flows,
                     ROWS * 128, r->statuses, ROWS * 128, r->record, ROWS * 800, r->scratch, 4096, r->counts, ROWS * 5, r->totals,
                     ROWS * 3, r->told);
    else if (job->what == EVENING_VERDICT)
        desk_evening_verdict(job->given, job->length, 0.0, 0.1, 0.001, ROWS, r->table, ROWS * 64, r->heads, ROWS * 64, r->demands,
                             ROWS * 64, r->flows, ROWS * 128, r->statuses, ROWS * 128, r->record, ROWS * 800, r->scratch, 4096,
                             r->counts, ROWS * 7, r->totals, ROWS * 3, r->told);
    else if (job->what == TEXT)
        desk_text(job->given, job->length, r->sheet, sizeof r->sheet, r->names, sizeof r->names, r->counts);
    else
        desk_solve(job->given, job->length, r->heads, 64, r->demands, 64, r->flows, 128, r->statuses, 128,
                   r->record, 800, r->scratch, 4096, r->counts, r->totals);
}

static void *run(void *given)
{
    struct job *job = given;
    uint8_t here;
    job->base = (uintptr_t)&here;
    for (int i = 0; i < job->times; i++)
        call(job);
    return NULL;
}

static void fail(const char *what)
{
    fprintf(stderr, "stack: %s\n", what);
    exit(2);
}

static void read_file(const char *path, struct job *job)
{
    FILE *file = fopen(path, "rb");
    if (!file)
        fail("a file cannot be read");
    job->length = fread(job->given, 1, sizeof job->given, file);
    fclose(file);
}

/* The bytes that a call used below its caller's frame. */
static size_t used(struct job *job)
{
    uint8_t *stack = aligned_alloc(4096, STACK), *lowest = stack;
    pthread_attr_t attributes;
    pthread_t thread;
    memset(stack, PAINT, STACK);
    pthread_attr_init(&attributes);
    if (pthread_attr_setstack(&attributes, stack, STACK) || pthread_create(&thread, &attributes, run, job))
        fail("no thread");
    pthread_join(thread, NULL);
    while (*lowest == PAINT)
        lowest++;
    size_t found = (size_t)(job->base - (uintptr_t)lowest);
    free(stack);
    return found;
}

static int same_in_threads(const char *path, int what)
{
    static struct job alone, jobs[THREADS];
    pthread_t threads[THREADS];
    memset(&alone, 0, sizeof alone);
    read_file(path, &alone);
    alone.what = what;
    alone.times = 1;
    for (int i = 0; i < THREADS; i++) {
        jobs[i] = alone;
        jobs[i].times = ROUNDS;
    }
    run(&alone);
    for (int i = 0; i < THREADS; i++)
        if (pthread_create(&threads[i], NULL, run, &jobs[i]))
            fail("no thread");
    int same = 1;
    for (int i = 0; i < THREADS; i++) {
        pthread_join(threads[i], NULL);
        same &= !memcmp(&jobs[i].room, &alone.room, sizeof alone.room);
    }
    return same;
}

int main(int count, char **paths)
{
    static struct job job;
    int same = count > 1;
    for (int i = 1; i < count; i++)
        for (int what = 0; what < CALLS; what++) {
            memset(&job, 0, sizeof job);
            read_file(paths[i], &job);
            job.times = 1;
            job.what = what;
            printf("%s %s %zu\n", paths[i], names[what], used(&job));
        }
    for (int what = VERDICT; what < CALLS; what++)
        same = same && same_in_threads(paths[what == TEXT ? count - 1 : 1], what);
    printf("threads %s\n", same ? "same" : "differ");
    return 0;
}
