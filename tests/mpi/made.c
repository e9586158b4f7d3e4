/* made.c: null descriptors, routes and places for these, pieces at fault, pieces that change, and refused memory. */
#include "refused.h"
#include "test.h"

void try_none(void) {
    const int32_t a[2] = {1, 2};
    int32_t out[2] = {9, 9};
    CvlRanks *made = NULL;
    CvlRankSegments *segments = NULL;
    CvlRoute *route = NULL;
    const CvlLengths lengths = {a, 2};
    const MPI_Fint null = MPI_Comm_c2f(MPI_COMM_NULL);
    check("no communicator has no ranks", is(cvl_ranks_new(MPI_COMM_NULL, &made), CVL_NO_DESCRIPTOR, -1) && made == NULL);
    check("nor has Fortran's", is(cvl_ranks_of_fortran(null, &made), CVL_NO_DESCRIPTOR, -1) && made == NULL);
    check("no ranks make no call", is(cvl_add_suz_mpi(NULL, a, out, 2), CVL_NO_DESCRIPTOR, -1));
    check("no ranks make no descriptor", is(cvl_rank_segments_new(NULL, lengths, 0, &segments), CVL_NO_DESCRIPTOR, -1));
    check("no ranks make no route", is(cvl_route_new(NULL, a, 2, 2, &route), CVL_NO_DESCRIPTOR, -1));
    check("no route leads nowhere", is(cvl_route_back_int(NULL, a, 2, out, 2), CVL_NO_DESCRIPTOR, -1));
    check("without ranks nothing is written", is_filled(out, 2, 9));
    cvl_ranks_free(NULL), cvl_rank_segments_free(NULL), cvl_route_free(NULL);
    check("no descriptor has no segments", cvl_rank_segments_starts(NULL) == 0 && cvl_rank_segments_all(NULL) == 0);
}

/* The last rank has no place for what is made, or an argument at fault: where others have one, what stood there is gone. */
void try_no_place(void) {
    const int last = rank == size - 1;
    const int32_t a[2] = {1, last ? -1 : 2}, index[2] = {0, 0};
    const CvlLengths bad = {a, 2}, good = {index, 2};
    CvlRanks *made = ranks;
    CvlRankSegments *segments = NULL, *stood;
    CvlRoute *route = NULL;
    char *text = (char *)a;
    size_t text_len;
    check(
        "no place for ranks",
        is(cvl_ranks_new(MPI_COMM_WORLD, last ? NULL : &made), CVL_NO_DESCRIPTOR, -1) && (last || made == NULL));
    const MPI_Fint world = MPI_Comm_c2f(MPI_COMM_WORLD);
    check("nor for Fortran's", is(cvl_ranks_of_fortran(world, last ? NULL : &made), CVL_NO_DESCRIPTOR, -1));
    check("a descriptor", is(cvl_rank_segments_new(ranks, good, 0, &segments), CVL_DONE, -1));
    stood = segments;
    check(
        "no place for one",
        is(cvl_rank_segments_new(ranks, good, 0, last ? NULL : &segments), CVL_NO_DESCRIPTOR, -1) && (last || segments == NULL));
    segments = stood;
    check(
        "one at fault",
        is(cvl_rank_segments_new(ranks, bad, 0, &segments), CVL_NEGATIVE_LENGTH, 2 * size - 1) && segments == NULL);
    check("no place for a route", is(cvl_route_new(ranks, index, 2, 1, last ? NULL : &route), CVL_NO_DESCRIPTOR, -1));
    check("no memory is lost", is(cvl_route_new(ranks, index, 2, 1, &route), CVL_DONE, -1));
    cvl_route_free(route);
    check("a route at fault", is(cvl_route_new(ranks, a, 2, 0, &route), CVL_INDEX_OUT_OF_RANGE, 0) && route == NULL);
    check("a text at fault", is(cvl_rank_text_read(ranks, "no/such/file", &text, &text_len), CVL_BAD_INPUT, -1) && text == NULL);
    cvl_rank_segments_free(stood);
}

/* One rank has no descriptor, or one of other ranks: all ranks get 101. */
void try_other_descriptors(void) {
    int32_t a[3] = {1, 2, 3}, out[3] = {9, 9, 9};
    const int32_t length[] = {3};
    const CvlLengths lengths = {length, 1};
    CvlRanks *others = NULL;
    CvlRankSegments *segments = NULL, *other = NULL;
    check("other ranks", is(cvl_ranks_new(MPI_COMM_WORLD, &others), CVL_DONE, -1));
    check("a descriptor", is(cvl_rank_segments_new(ranks, lengths, 0, &segments), CVL_DONE, -1));
    check("another", is(cvl_rank_segments_new(others, lengths, 0, &other), CVL_DONE, -1));
    check(
        "one rank without a descriptor",
        is(cvl_add_sez_mpi(ranks, a, rank == size - 1 ? NULL : segments, out, 3), CVL_NO_DESCRIPTOR, -1));
    check("one with that of others", is(cvl_add_sez_mpi(ranks, a, rank == 0 ? other : segments, out, 3), CVL_NO_DESCRIPTOR, -1));
    check("nothing is written without", is_filled(out, 3, 9));
    check(
        "with its own",
        is(cvl_add_sez_mpi(ranks, a, segments, out, 3), CVL_DONE, -1) && out[0] == 0 && out[1] == 1 && out[2] == 3);
    check(
        "as many as ranks",
        cvl_rank_segments_all(segments) == (uint64_t)size && cvl_rank_segments_first(segments) == (uint64_t)rank);
    cvl_rank_segments_free(segments), cvl_rank_segments_free(other), cvl_ranks_free(others);
}

void try_bad_pieces(void) {
    CvlRankSegments *segments = NULL;
    const int32_t one[] = {1}, longest[] = {INT32_MAX};
    const CvlLengths pieces = {one, 1}, long_pieces = {longest, 1};
    check("a first piece goes on from none", is(cvl_rank_segments_new(ranks, pieces, 1, &segments), CVL_LENGTH_MISMATCH, -1));
    if (size < 2) return;
    check("a segment that is too long", is(cvl_rank_segments_new(ranks, long_pieces, rank > 0, &segments), CVL_TOO_LONG, -1));
    check("a whole that is longer", is(cvl_rank_segments_new(ranks, long_pieces, 0, &segments), CVL_DONE, -1));
    cvl_rank_segments_free(segments);
}

/* The array of the lengths is the caller's again once the descriptor is made. Each rank but the first goes on from the one before it. */
void try_changed_pieces(void) {
    int32_t lengths[] = {2, 3, 1}, a[6], index[6], out[6], sums[3] = {9, 9, 9};
    const int32_t before = rank > 0, behind = rank + 1 < size ? 2 : 0, last = rank + 1 < size ? 2 : 0;
    const int32_t turned[6] = {1, 0, 2, 1, 0, last};
    CvlRankSegments *segments = NULL;
    check("pieces that go on", is(cvl_rank_segments_new(ranks, (CvlLengths){lengths, 3}, rank > 0, &segments), CVL_DONE, -1));
    lengths[0] = 3000000, lengths[1] = -7, lengths[2] = INT32_MAX;
    for (int32_t k = 0; k < 6; k++) a[k] = 10 * rank + k, index[k] = turned[k];
    check("a permute", is(cvl_smp_pez_mpi(ranks, a, index, segments, out, 6), CVL_DONE, -1));
    check(
        "of the pieces as they were",
        out[2] == a[4] && out[3] == a[3] && out[4] == a[2] &&
            (rank == 0 ? out[0] == a[1] : out[0] == a[0] && out[1] == a[0] - 5));
    check("back", is(cvl_bck_pez_mpi(ranks, a, 6, index, segments, segments, out, 6), CVL_DONE, -1) && out[2] == a[4]);
    check("a sort", is(cvl_seg_sort_mpi(ranks, a, 6, segments, out, 6), CVL_DONE, -1) && memcmp(a, out, sizeof a) == 0);
    check("sums", is(cvl_add_rez_mpi(ranks, a, 6, segments, sums), CVL_DONE, -1) && sums[rank > 0 ? 0 : 1] == a[2] + a[3] + a[4]);
    check("the same sums where the lengths stood", is(cvl_add_rez_mpi(ranks, a, 6, segments, lengths), CVL_DONE, -1));
    check(
        "as many as start here",
        memcmp(sums, lengths, (size_t)(3 - before) * sizeof *sums) == 0 &&
            sums[2 - before] == a[5] + (behind > 0 ? 2 * a[5] + 11 : 0));
    cvl_rank_segments_free(segments);
}

/* ---- memory that is refused ---- */

/* What is made and freed, without a place where it stands: whether it was made. */
static CvlStatus some_ranks(int *made) {
    CvlRanks *found;
    const CvlStatus status = cvl_ranks_new(MPI_COMM_WORLD, &found);
    *made = found != NULL;
    cvl_ranks_free(found);
    return status;
}

static CvlStatus some_segments(int *made) {
    const int32_t lengths[] = {2, 0, 1};
    CvlRankSegments *found;
    const CvlStatus status = cvl_rank_segments_new(ranks, (CvlLengths){lengths, 3}, rank > 0, &found);
    *made = found != NULL;
    cvl_rank_segments_free(found);
    return status;
}

static CvlStatus some_route(int *made) {
    const int32_t index[] = {0, size - 1};
    CvlRoute *found;
    const CvlStatus status = cvl_route_new(ranks, index, 2, 1, &found);
    *made = found != NULL;
    cvl_route_free(found);
    return status;
}

/* One rank gets no memory at one of its requests in turn: nothing is made on any, and what was taken is given back. */
static void try_refused(const char *what, CvlStatus (*make)(int *made)) {
    for (long k = 0, more = 1; more && k < 60; k++) {
        const long before = blocks;
        int made = 9;
        /* what MPI itself asks for is not refused: it is not linked with this program */
        asked = 0, refused = 0, refuse_at = rank == size - 1 ? k : -1;
        const CvlStatus status = make(&made);
        refuse_at = -1;
        more = any_rank(refused);
        check(what, more ? is(status, CVL_NO_RESOURCES, -1) && !made : is(status, CVL_DONE, -1) && made);
        check("its memory is given back", blocks == before);
    }
}

void try_all_refused(void) {
    try_refused("ranks without memory", some_ranks);
    try_refused("a descriptor without memory", some_segments);
    try_refused("a route without memory", some_route);
}
