/* Counts the walks of ten steps from vertex 0 of a ring of 1,000,000 vertices: a sparse matrix times a vector, again and again, over ranks. */
#include <mpi.h>
#include <stdio.h>
#include <stdlib.h>

#include "cvl_mpi.h"

enum { VERTICES = 1000000, STEPS = 10 };

/* Every rank gets the same status; at a fault this ends them all. */
static void must(CvlStatus status) {
    if (status.number == CVL_DONE) return;
    fprintf(stderr, "%s at %lld\n", cvl_fault_name(status.number), (long long)status.place);
    MPI_Abort(MPI_COMM_WORLD, 1);
}

static int32_t *zeros(size_t n) {
    int32_t *const found = calloc(n + 1, sizeof *found);
    if (found == NULL) MPI_Abort(MPI_COMM_WORLD, 1);
    return found;
}

int main(int words, char **word) {
    int rank;
    CvlRanks *ranks;
    MPI_Init(&words, &word);
    MPI_Comm_rank(MPI_COMM_WORLD, &rank);
    must(cvl_ranks_new(MPI_COMM_WORLD, &ranks));

    /* this rank has n vertices, the first of which is number `from`; the row of each has an entry 1 for either neighbour */
    uint64_t from;
    size_t n;
    must(cvl_even_share(ranks, VERTICES, &from, &n));
    int32_t *lengths = zeros(n), *columns = zeros(2 * n), *values = zeros(2 * n), *x = zeros(n), *y = zeros(n);
    for (size_t k = 0; k < n; k++) {
        const uint64_t vertex = from + k;
        lengths[k] = 2;
        columns[2 * k] = (int32_t)((vertex + VERTICES - 1) % VERTICES), columns[2 * k + 1] = (int32_t)((vertex + 1) % VERTICES);
        values[2 * k] = values[2 * k + 1] = 1;
        x[k] = vertex == 0;
    }

    /* the route says which rank has each column's element of x; once found, it serves every product */
    CvlRankSegments *rows;
    CvlRoute *route;
    must(cvl_rank_segments_new(ranks, (CvlLengths){lengths, n}, false, &rows));
    must(cvl_route_new(ranks, columns, 2 * n, n, &route));
    for (int step = 0; step < STEPS; step++) {
        int32_t *const last = x;
        must(cvl_route_sparse_product(route, rows, values, 2 * n, x, n, y, n));
        x = y, y = last;
    }

    int32_t walks, closed;
    must(cvl_add_ruz_mpi(ranks, x, n, &walks));
    must(cvl_ext_vuz_mpi(ranks, x, n, 0, &closed));
    if (rank == 0) printf("%d walks of %d steps, of which %d end where they began\n", walks, STEPS, closed);

    cvl_route_free(route);
    cvl_rank_segments_free(rows);
    cvl_ranks_free(ranks);
    free(lengths), free(columns), free(values), free(x), free(y);
    MPI_Finalize();
    return 0;
}
