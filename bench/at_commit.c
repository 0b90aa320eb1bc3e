/* desk_solve over the solve as bench/at_commit.py compiles it, whose slices are passed as an address and a length in memory. */
#include <stddef.h>
#include <stdint.h>

#include "../include/desk.h"

struct slice {
    const void *first;
    size_t length;
};

void solve_at_commit(const struct slice *sheet, const struct slice *heads, const struct slice *demands,
                     const struct slice *flows, const struct slice *statuses, const struct slice *record,
                     const struct slice *scratch, uint64_t *counts, double *totals);

void desk_solve(const uint8_t *sheet, size_t sheet_length, double *heads, size_t heads_length, double *demands,
                size_t demands_length, double *flows, size_t flows_length, uint8_t *statuses, size_t statuses_length,
                uint8_t *record, size_t record_length, double *scratch, size_t scratch_length, uint64_t counts[5],
                double totals[3])
{
    struct slice s = {sheet, sheet_length}, h = {heads, heads_length}, d = {demands, demands_length},
                 f = {flows, flows_length}, c = {statuses, statuses_length}, r = {record, record_length},
                 m = {scratch, scratch_length};
    solve_at_commit(&s, &h, &d, &f, &c, &r, &m, counts, totals);
}
