/*
 * The running sums of a vector that is spread over ranks, three elements on each, and three of them looked up by their places in the
 * whole. The third place is 2, or the number on the command line: one that is no place is the same fault on every rank.
 */
#include <cvl_mpi.h>
#include <stdio.h>
#include <stdlib.h>

int main(int words, char **word) {
    int rank, level;
    MPI_Init_thread(&words, &word, MPI_THREAD_FUNNELED, &level); /* only this thread uses MPI */
    MPI_Comm_rank(MPI_COMM_WORLD, &rank);
    const int32_t mine[] = {1, 2, 3}, at[] = {0, 1, words > 1 ? atoi(word[1]) : 2};
    int32_t before[3], found[3];
    CvlRanks *ranks;
    CvlStatus status = cvl_ranks_new(MPI_COMM_WORLD, &ranks);
    if (status.number == CVL_DONE) status = cvl_add_suz_mpi(ranks, mine, before, 3);
    if (status.number == CVL_DONE) status = cvl_bck_puz_mpi(ranks, before, 3, at, found, 3);
    if (status.number == CVL_DONE) {
        printf("rank %d: %d %d %d\n", rank, before[0], before[1], before[2]);
    } else {
        printf("rank %d: fault %u %s at %lld\n", rank, status.number, cvl_fault_name(status.number), (long long)status.place);
    }
    cvl_ranks_free(ranks);
    MPI_Finalize();
    return status.number == CVL_DONE ? EXIT_SUCCESS : EXIT_FAILURE;
}
