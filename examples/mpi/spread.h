/* spread.h: what the examples share: the ranks, a rank's even share of places, numbers made of places, and a check of what a call answers. */
#ifndef SPREAD_H
#define SPREAD_H

#include <mpi.h>

#include "cvl_mpi.h"

#include <stdio.h>
#include <stdlib.h>

static CvlRanks *ranks;

static inline void must(CvlStatus status) {
    if (status.number == CVL_DONE) return;
    fprintf(stderr, "%s at %lld\n", cvl_fault_name(status.number), (long long)status.place);
    MPI_Abort(MPI_COMM_WORLD, 1);
}

static inline void *memory(size_t number, size_t size) {
    void *const found = calloc(number + 1, size);
    if (found == NULL) MPI_Abort(MPI_COMM_WORLD, 1);
    return found;
}

static inline int begin(int *words, char ***word) {
    int rank;
    MPI_Init(words, word);
    must(cvl_ranks_new(MPI_COMM_WORLD, &ranks));
    MPI_Comm_rank(MPI_COMM_WORLD, &rank);
    return rank;
}

static inline int end(int is_right) {
    cvl_ranks_free(ranks);
    MPI_Finalize();
    return is_right ? EXIT_SUCCESS : EXIT_FAILURE;
}

/* The whole of a vector on rank 0, to be compared with what one thread makes. */
static inline int32_t *whole_on(int rank, const int32_t *own, size_t own_len, size_t total) {
    int32_t *const whole = memory(total, sizeof *whole);
    must(cvl_spread_ints(ranks, own, own_len, whole, rank == 0 ? total : 0));
    return whole;
}

/* A number made of its place. */
static inline uint32_t noise(uint64_t place) {
    uint64_t z = (place + 1) * UINT64_C(0x9E3779B97F4A7C15);
    z = (z ^ z >> 30) * UINT64_C(0xBF58476D1CE4E5B9);
    z = (z ^ z >> 27) * UINT64_C(0x94D049BB133111EB);
    return (uint32_t)(z >> 32);
}

#endif
