/* The ranks of a communicator. */
#include "ranks.h"

/* Whether there is a communicator of one group of ranks, and MPI has begun and goes on. */
static bool is_communicator(MPI_Comm comm) {
    int begun = 0, ended = 0, between = 0;
    MPI_Initialized(&begun);
    MPI_Finalized(&ended);
    if (!begun || ended || comm == MPI_COMM_NULL) return 0;
    return MPI_Comm_test_inter(comm, &between) == MPI_SUCCESS && !between;
}

/* What a rank can do about ranks: nothing without a place for them, or without memory. The least of the ranks' is that of all. */
typedef enum Can { NO_PLACE, NO_MEMORY, ALL } Can;

static Can can_all(MPI_Comm comm, Can mine) {
    int said = (int)mine, all = 0;
    MPI_Allreduce(&said, &all, 1, MPI_INT, MPI_MIN, comm);
    return (Can)all;
}

/* The ranks without what MPI keeps for them, or nothing if there is no memory. */
static CvlRanks *ranks_of(int size) {
    CvlRanks *const ranks = malloc(sizeof *ranks);
    if (ranks == NULL) return NULL;
    ranks->offsets = malloc(((size_t)size + 1) * sizeof *ranks->offsets);
    ranks->sends = malloc(4 * (size_t)size * sizeof *ranks->sends);
    if (ranks->offsets != NULL && ranks->sends != NULL) return ranks;
    free(ranks->offsets), free(ranks->sends), free(ranks);
    return NULL;
}

static void make(CvlRanks *ranks, MPI_Comm comm) {
    MPI_Comm_dup(comm, &ranks->comm);
    MPI_Comm_set_errhandler(ranks->comm, MPI_ERRORS_ARE_FATAL);
    MPI_Comm_rank(ranks->comm, &ranks->rank);
    MPI_Comm_size(ranks->comm, &ranks->size);
    MPI_Comm_split(ranks->comm, 0, ranks->size - ranks->rank, &ranks->back);
    ranks->send_from = ranks->sends + ranks->size;
    ranks->receives = ranks->send_from + ranks->size;
    ranks->receive_from = ranks->receives + ranks->size;
    MPI_Type_contiguous((int)sizeof(CvlFold), MPI_BYTE, &ranks->fold);
    MPI_Type_contiguous(16, MPI_BYTE, &ranks->vote);
    MPI_Type_commit(&ranks->fold);
    MPI_Type_commit(&ranks->vote);
    MPI_Op_create(cvl_fold_before, 0, &ranks->before);
    MPI_Op_create(cvl_fold_after, 0, &ranks->after);
    MPI_Op_create(cvl_fold_votes, 0, &ranks->agree);
}

CvlStatus cvl_ranks_new(MPI_Comm comm, CvlRanks **made) {
    int size = 0;
    if (made != NULL) *made = NULL;
    if (!is_communicator(comm)) return cvl_status(CVL_NO_DESCRIPTOR, -1);
    MPI_Comm_size(comm, &size);
    CvlRanks *const ranks = ranks_of(size);
    const Can can = can_all(comm, made == NULL ? NO_PLACE : ranks == NULL ? NO_MEMORY : ALL);
    if (can != ALL) {
        if (ranks != NULL) free(ranks->offsets), free(ranks->sends), free(ranks);
        return cvl_status(can == NO_PLACE ? CVL_NO_DESCRIPTOR : CVL_NO_RESOURCES, -1);
    }
    make(ranks, comm);
    *made = ranks;
    return cvl_done();
}

CvlStatus cvl_ranks_of_fortran(MPI_Fint comm, CvlRanks **made) {
    int begun = 0, ended = 0;
    if (made != NULL) *made = NULL;
    MPI_Initialized(&begun);
    MPI_Finalized(&ended);
    if (!begun || ended) return cvl_status(CVL_NO_DESCRIPTOR, -1);
    return cvl_ranks_new(MPI_Comm_f2c(comm), made);
}

void cvl_ranks_free(CvlRanks *ranks) {
    if (ranks == NULL) return;
    if (cvl_are_ranks(ranks)) {
        MPI_Op_free(&ranks->before);
        MPI_Op_free(&ranks->after);
        MPI_Op_free(&ranks->agree);
        MPI_Type_free(&ranks->fold);
        MPI_Type_free(&ranks->vote);
        MPI_Comm_free(&ranks->back);
        MPI_Comm_free(&ranks->comm);
    }
    free(ranks->offsets), free(ranks->sends), free(ranks);
}
