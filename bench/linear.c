/* Times crates linear and substitution against the same algorithm in C on the processor at hand. Each time is the
   median of many runs, each on a matrix of its own, the variants taking turns. */
#include <math.h>
#include <stddef.h>
#include <stdint.h>
#include <stdio.h>
#include <stdlib.h>
#include <string.h>
#include <time.h>

/* The proved library, through crate linear_bench. A slice is its start and its length. */
size_t linear_bench_factor(double *a, size_t length, size_t n);
void linear_bench_substitute(const double *l, size_t l_length, size_t n, double *x, size_t x_length);

enum { STRIDE = 64, SIZE = STRIDE * STRIDE, RUNS = 4001, VARIANTS = 2 };

/* the root is the processor's own */
__attribute__((noinline)) size_t c_factor(double *a, size_t n)
{
    for (size_t c = 0; c < n; c++) {
        double *column = a + STRIDE * c;
        for (size_t k = 0; k < c; k++) {
            double f = a[STRIDE * k + c];
            for (size_t r = c; r < n; r++)
                column[r] -= a[STRIDE * k + r] * f;
        }
        if (!(0 < column[c]))
            return c;
        double d = sqrt(column[c]);
        column[c] = d;
        for (size_t r = c + 1; r < n; r++)
            column[r] /= d;
    }
    return n;
}

static size_t proved_factor(double *a, size_t n)
{
    return linear_bench_factor(a, SIZE, n);
}

__attribute__((noinline)) void c_substitute(const double *l, size_t n, double *x)
{
    for (size_t k = 0; k < n; k++) {
        double y = x[k] / l[STRIDE * k + k];
        x[k] = y;
        for (size_t r = k + 1; r < n; r++)
            x[r] -= l[STRIDE * k + r] * y;
    }
    for (size_t r = n; r-- > 0;) {
        double s = x[r];
        for (size_t k = r + 1; k < n; k++)
            s -= l[STRIDE * r + k] * x[k];
        x[r] = s / l[STRIDE * r + r];
    }
}

static void proved_substitute(const double *l, size_t n, double *x)
{
    linear_bench_substitute(l, SIZE, n, x, STRIDE);
}

static size_t (*const factors[VARIANTS])(double *, size_t) = {proved_factor, c_factor};
static void (*const substitutes[VARIANTS])(const double *, size_t, double *) = {proved_substitute, c_substitute};

static double given[SIZE], given_right[STRIDE], matrix[VARIANTS][SIZE], right[VARIANTS][STRIDE];
static double factor_times[VARIANTS][RUNS], substitute_times[VARIANTS][RUNS];

static double random_part(void)
{
    static uint64_t state = 88172645463325252ull;
    state ^= state << 13;
    state ^= state >> 7;
    state ^= state << 17;
    return (double)(state >> 11) / 9007199254740992.0;
}

/* A heavy diagonal, so that every pivot is above zero. */
static void fill(size_t n)
{
    memset(given, 0, sizeof given);
    for (size_t c = 0; c < n; c++) {
        given_right[c] = random_part();
        for (size_t r = c; r < n; r++)
            given[STRIDE * c + r] = (r == c ? (double)n : 0) + random_part();
    }
}

static double microseconds(void)
{
    struct timespec t;
    clock_gettime(CLOCK_MONOTONIC, &t);
    return t.tv_sec * 1e6 + t.tv_nsec * 1e-3;
}

static void run(size_t v, size_t n, size_t i)
{
    memcpy(matrix[v], given, sizeof given);
    memcpy(right[v], given_right, sizeof given_right);
    double start = microseconds();
    size_t passed = factors[v](matrix[v], n);
    double factored = microseconds();
    substitutes[v](matrix[v], n, right[v]);
    substitute_times[v][i] = microseconds() - factored;
    factor_times[v][i] = factored - start;
    if (passed != n || memcmp(matrix[v], matrix[0], sizeof given) || memcmp(right[v], right[0], n * sizeof *given_right)) {
        fprintf(stderr, "%zu unknowns: the variants differ\n", n);
        exit(1);
    }
}

static int by_size(const void *a, const void *b)
{
    double x = *(const double *)a, y = *(const double *)b;
    return (x > y) - (x < y);
}

static double median(double *times)
{
    qsort(times, RUNS, sizeof *times, by_size);
    return times[RUNS / 2];
}

int main(void)
{
    static const size_t sizes[] = {16, 32, 64};
    for (size_t s = 0; s < sizeof sizes / sizeof *sizes; s++) {
        size_t n = sizes[s];
        for (size_t i = 0; i < RUNS; i++) {
            fill(n);
            for (size_t v = 0; v < VARIANTS; v++)
                run(v, n, i);
        }
        double proved = median(factor_times[0]), c = median(factor_times[1]);
        printf("%zu unknowns, factor: proved %.2f us, C %.2f us, ratio %.2f\n", n, proved, c, proved / c);
        proved = median(substitute_times[0]), c = median(substitute_times[1]);
        printf("%zu unknowns, substitute: proved %.2f us, C %.2f us, ratio %.2f\n", n, proved, c, proved / c);
    }
    return 0;
}
