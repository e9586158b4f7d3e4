/*
 * Repeated sparse products over ranks, as a solver makes them: the route of the columns is found once, and then each product asks for the
 * elements of x that the rank's columns name, and for no other ones.
 */
#include "spread.h"

#include <string.h>

enum { ROWS = 20000, ENTRIES = 5, ROUNDS = 20, KEPT = 1023 };

static int32_t column(uint64_t entry) { return (int32_t)((entry / ENTRIES + noise(entry) % 300) % ROWS); }
static int32_t value(uint64_t entry) { return (int32_t)(noise(entry + 77) % 19) - 9; }

static void multiply_alone(int32_t *x) {
    int32_t *y = memory(ROWS, sizeof *y);
    for (int round = 0; round < ROUNDS; round++) {
        for (uint64_t row = 0; row < ROWS; row++) {
            int32_t sum = 0;
            for (uint64_t k = row * ENTRIES; k < (row + 1) * ENTRIES; k++) sum += value(k) * x[column(k)];
            y[row] = sum & KEPT;
        }
        memcpy(x, y, ROWS * sizeof *x);
    }
    free(y);
}

int main(int words, char **word) {
    const int rank = begin(&words, &word);
    uint64_t from;
    size_t n;
    must(cvl_even_share(ranks, ROWS, &from, &n));
    const size_t entries = n * ENTRIES;
    int32_t *lengths = memory(n, sizeof *lengths), *columns = memory(entries, sizeof *columns),
            *values = memory(entries, sizeof *values);
    int32_t *x = memory(n, sizeof *x), *y = memory(n, sizeof *y), *kept = memory(n, sizeof *kept);
    for (size_t k = 0; k < entries; k++) columns[k] = column(from * ENTRIES + k), values[k] = value(from * ENTRIES + k);
    for (size_t k = 0; k < n; k++) lengths[k] = ENTRIES, x[k] = (int32_t)((from + k) & KEPT), kept[k] = KEPT;

    CvlRankSegments *rows;
    CvlRoute *route;
    must(cvl_rank_segments_new(ranks, (CvlLengths){lengths, n}, 0, &rows));
    must(cvl_route_new(ranks, columns, entries, n, &route));
    for (int round = 0; round < ROUNDS; round++) {
        must(cvl_route_sparse_product(route, rows, values, entries, x, n, y, n));
        must(cvl_and_wuz_mpi(ranks, y, kept, x, n));
    }

    int is_right = 1;
    int32_t *whole = whole_on(rank, x, n, ROWS), *wanted = memory(ROWS, sizeof *wanted);
    for (size_t k = 0; k < ROWS; k++) wanted[k] = (int32_t)(k & KEPT);
    multiply_alone(wanted);
    if (rank == 0) is_right = memcmp(whole, wanted, ROWS * sizeof *wanted) == 0;
    if (rank == 0) printf("products: %d of %d rows, %s\n", ROUNDS, ROWS, is_right ? "as by one thread" : "WRONG");
    cvl_route_free(route), cvl_rank_segments_free(rows);
    free(lengths), free(columns), free(values), free(x), free(y), free(kept), free(whole), free(wanted);
    return end(is_right);
}
