/* What ranks take of MPI, which they give back when they are freed: communicators, types and operators, counted by its profiling interface. */
#include "test.h"

static int communicators, types, operators;

int MPI_Comm_dup(MPI_Comm comm, MPI_Comm *made) {
    communicators++;
    return PMPI_Comm_dup(comm, made);
}

int MPI_Comm_split(MPI_Comm comm, int color, int key, MPI_Comm *made) {
    communicators++;
    return PMPI_Comm_split(comm, color, key, made);
}

int MPI_Comm_free(MPI_Comm *comm) {
    communicators--;
    return PMPI_Comm_free(comm);
}

int MPI_Type_contiguous(int count, MPI_Datatype of, MPI_Datatype *made) {
    types++;
    return PMPI_Type_contiguous(count, of, made);
}

int MPI_Type_free(MPI_Datatype *type) {
    types--;
    return PMPI_Type_free(type);
}

int MPI_Op_create(MPI_User_function *function, int commutes, MPI_Op *made) {
    operators++;
    return PMPI_Op_create(function, commutes, made);
}

int MPI_Op_free(MPI_Op *op) {
    operators--;
    return PMPI_Op_free(op);
}

void try_given_back(void) {
    const int before[] = {communicators, types, operators};
    CvlRanks *made = NULL;
    check("ranks that are freed", is(cvl_ranks_new(MPI_COMM_WORLD, &made), CVL_DONE, -1));
    check("they take something of MPI", communicators > before[0] && types > before[1] && operators > before[2]);
    cvl_ranks_free(made);
    check("communicators are given back", communicators == before[0]);
    check("types are", types == before[1]);
    check("operators are", operators == before[2]);
}
