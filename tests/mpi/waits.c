/*
 * Collectives whose ranks sleep while they wait if there are more of them than processors, by MPI's profiling interface: link it with a program
 * over an MPI whose ranks keep their processors while they wait, as MPICH's do. Then no rank waits for the slices of time of those that wait for it.
 */
#include <mpi.h>

#include <stdlib.h>
#include <time.h>
#include <unistd.h>

/* Whether ranks of this machine, which MPICH counts in a variable, outnumber its processors. */
static int are_too_many(void) {
    static int found = -1;
    if (found < 0) {
        const char *const here = getenv("MPI_LOCALNRANKS");
        int ranks;
        PMPI_Comm_size(MPI_COMM_WORLD, &ranks);
        found = (here == NULL ? ranks : atoi(here)) > sysconf(_SC_NPROCESSORS_ONLN);
    }
    return found;
}

/* Waits, and sleeps for some ten microseconds between looks. */
static int sleep_until_done(int begun, MPI_Request *request) {
    const struct timespec moment = {0, 1000};
    int done = 0;
    while (begun == MPI_SUCCESS && !done) {
        begun = PMPI_Test(request, &done, MPI_STATUS_IGNORE);
        if (!done) nanosleep(&moment, NULL);
    }
    return begun;
}

#define COLLECTIVE(name, begin, parameters, ...)                                                                            \
    int MPI_##name parameters {                                                                                             \
        MPI_Request request;                                                                                                \
        return are_too_many() ? sleep_until_done(PMPI_##begin(__VA_ARGS__, &request), &request) : PMPI_##name(__VA_ARGS__); \
    }

COLLECTIVE(Barrier, Ibarrier, (MPI_Comm comm), comm)
COLLECTIVE(Bcast, Ibcast, (void *buffer, int count, MPI_Datatype type, int root, MPI_Comm comm), buffer, count, type, root, comm)
COLLECTIVE(
    Allreduce, Iallreduce, (const void *from, void *to, int count, MPI_Datatype type, MPI_Op op, MPI_Comm comm), from, to, count,
    type, op, comm)
COLLECTIVE(
    Reduce_scatter, Ireduce_scatter, (const void *from, void *to, const int *counts, MPI_Datatype type, MPI_Op op, MPI_Comm comm),
    from, to, counts, type, op, comm)
COLLECTIVE(
    Exscan, Iexscan, (const void *from, void *to, int count, MPI_Datatype type, MPI_Op op, MPI_Comm comm), from, to, count, type,
    op, comm)
COLLECTIVE(
    Allgather, Iallgather,
    (const void *from, int count, MPI_Datatype type, void *to, int each, MPI_Datatype to_type, MPI_Comm comm), from, count, type,
    to, each, to_type, comm)
COLLECTIVE(
    Allgatherv, Iallgatherv,
    (const void *from, int count, MPI_Datatype type, void *to, const int *counts, const int *starts, MPI_Datatype to_type,
     MPI_Comm comm),
    from, count, type, to, counts, starts, to_type, comm)
COLLECTIVE(
    Alltoall, Ialltoall,
    (const void *from, int count, MPI_Datatype type, void *to, int each, MPI_Datatype to_type, MPI_Comm comm), from, count, type,
    to, each, to_type, comm)
COLLECTIVE(
    Alltoallv, Ialltoallv,
    (const void *from, const int *counts, const int *starts, MPI_Datatype type, void *to, const int *to_counts,
     const int *to_starts, MPI_Datatype to_type, MPI_Comm comm),
    from, counts, starts, type, to, to_counts, to_starts, to_type, comm)
