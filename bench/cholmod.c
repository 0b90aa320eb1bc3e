/* Times crates linear and substitution against CHOLMOD on one system: cholmod N < SYSTEM, a line of `oracle --systems`.
   Prints the unknowns, the entries of A below the diagonal, and for the proved library, for CHOLMOD in natural and in
   AMD order the medians of N runs in microseconds: of analysing (none for the proved one), factoring, solving. */
#include <math.h>
#include <stdint.h>
#include <stdio.h>
#include <stdlib.h>
#include <string.h>
#include <suitesparse/cholmod.h>
#include <time.h>

/* The proved library, through crate linear_bench. A slice is its start and its length. */
size_t linear_bench_factor(double *a, size_t length, size_t n);
void linear_bench_substitute(const double *l, size_t l_length, size_t n, double *x, size_t x_length);

enum { STRIDE = 64, SIZE = STRIDE * STRIDE, PROVED = 0, WAYS = 3, STEPS = 3 };

static double given[SIZE], right[STRIDE], found[WAYS][STRIDE];
static double *times[WAYS][STEPS];

static double microseconds(void)
{
    struct timespec t;
    clock_gettime(CLOCK_MONOTONIC, &t);
    return t.tv_sec * 1e6 + t.tv_nsec * 1e-3;
}

static void fail(const char *why)
{
    fprintf(stderr, "bench/cholmod: %s\n", why);
    exit(1);
}

static double number(void)
{
    uint64_t bits;
    double x;
    if (scanf("%16lx", &bits) != 1)
        fail("a number is lacking");
    memcpy(&x, &bits, sizeof x);
    return x;
}

/* A by columns, as the proved library takes it. */
static size_t read_system(void)
{
    size_t n;
    if (scanf("%zu", &n) != 1 || n > STRIDE)
        fail("no system of at most 64 unknowns");
    for (size_t r = 0; r < n; r++)
        for (size_t c = 0; c <= r; c++)
            given[STRIDE * c + r] = number();
    for (size_t r = 0; r < n; r++)
        right[r] = number();
    return n;
}

/* The entries that are not zero, and the diagonal. */
static cholmod_sparse *sparse_of(size_t n, cholmod_common *common)
{
    cholmod_sparse *a = cholmod_allocate_sparse(n, n, n * (n + 1) / 2, 1, 1, -1, CHOLMOD_REAL, common);
    int *starts = a->p, *rows = a->i, filled = 0;
    double *values = a->x;
    for (size_t c = 0; c < n; c++) {
        starts[c] = filled;
        for (size_t r = c; r < n; r++)
            if (r == c || given[STRIDE * c + r] != 0) {
                rows[filled] = r;
                values[filled++] = given[STRIDE * c + r];
            }
    }
    starts[n] = filled;
    return a;
}

static void prove(size_t n, int i)
{
    static double matrix[SIZE];
    memcpy(matrix, given, sizeof given);
    memcpy(found[PROVED], right, sizeof right);
    double began = microseconds();
    if (linear_bench_factor(matrix, SIZE, n) != n)
        fail("the factorization stopped");
    double factored = microseconds();
    linear_bench_substitute(matrix, SIZE, n, found[PROVED], STRIDE);
    times[PROVED][2][i] = microseconds() - factored;
    times[PROVED][1][i] = factored - began;
    times[PROVED][0][i] = 0;
}

/* LL^T column by column, with no blocks: the one that CHOLMOD takes by itself for systems so small. */
static void order(cholmod_common *common, int way)
{
    cholmod_start(common);
    common->supernodal = CHOLMOD_SIMPLICIAL;
    common->final_ll = 1;
    common->nmethods = 1;
    common->method[0].ordering = way == 1 ? CHOLMOD_NATURAL : CHOLMOD_AMD;
    common->postorder = way != 1;
}

static void compare(size_t n, int way, cholmod_common *common, cholmod_sparse *a, cholmod_dense *b, int i)
{
    static cholmod_dense *x[WAYS], *y[WAYS], *e[WAYS];
    double began = microseconds();
    cholmod_factor *l = cholmod_analyze(a, common);
    double analysed = microseconds();
    cholmod_factorize(a, l, common);
    double factored = microseconds();
    cholmod_solve2(CHOLMOD_A, l, b, NULL, &x[way], NULL, &y[way], &e[way], common);
    times[way][2][i] = microseconds() - factored;
    times[way][1][i] = factored - analysed;
    times[way][0][i] = analysed - began;
    if (common->status != CHOLMOD_OK)
        fail("CHOLMOD gave up");
    memcpy(found[way], x[way]->x, n * sizeof(double));
    cholmod_free_factor(&l, common);
}

static int by_size(const void *a, const void *b)
{
    double x = *(const double *)a, y = *(const double *)b;
    return (x > y) - (x < y);
}

/* Two ways round otherwise; a solution that is no solution would be far off. */
static void agree(size_t n)
{
    double largest = 0;
    for (size_t r = 0; r < n; r++)
        largest = fmax(largest, fabs(found[PROVED][r]));
    for (int way = 1; way < WAYS; way++)
        for (size_t r = 0; r < n; r++)
            if (!(fabs(found[way][r] - found[PROVED][r]) <= 1e-6 * largest))
                fail("the solutions differ");
}

int main(int count, char **words)
{
    int runs = count > 1 ? atoi(words[1]) : 0;
    if (runs < 1)
        fail("usage: cholmod N < SYSTEM");
    size_t n = read_system(), below = 0;
    for (int way = 0; way < WAYS; way++)
        for (int step = 0; step < STEPS; step++)
            times[way][step] = malloc(runs * sizeof(double));
    cholmod_common common[WAYS];
    cholmod_sparse *a[WAYS];
    cholmod_dense *b[WAYS];
    for (int way = 1; way < WAYS; way++) {
        order(&common[way], way);
        a[way] = sparse_of(n, &common[way]);
        b[way] = cholmod_zeros(n, 1, CHOLMOD_REAL, &common[way]);
        memcpy(b[way]->x, right, n * sizeof(double));
    }
    for (int i = 0; i < runs; i++) {
        prove(n, i);
        for (int way = 1; way < WAYS; way++)
            compare(n, way, &common[way], a[way], b[way], i);
    }
    agree(n);
    for (size_t c = 0; c < n; c++)
        for (size_t r = c + 1; r < n; r++)
            below += given[STRIDE * c + r] != 0;
    printf("%zu %zu", n, below);
    for (int way = 0; way < WAYS; way++)
        for (int step = 0; step < STEPS; step++) {
            qsort(times[way][step], runs, sizeof(double), by_size);
            printf(" %.3f", times[way][step][runs / 2]);
        }
    printf("\n");
    return 0;
}
