/*
 * test.c: calls over ranks that the differential test leaves out, each file what its head says. Here stand communicators that are none, a few
 * of the ranks, ranks with threads, and calls before MPI begins and after it has ended. Every rank checks its status. Values are worked by
 * hand, or those of the plain call on the whole.
 */
#include "test.h"

CvlRanks *ranks;
int rank, size;
static int failed;

void check(const char *what, int is_so) {
    if (is_so) return;
    fprintf(stderr, "rank %d of %d: %s\n", rank, size, what);
    failed = 1;
}

int any_rank(int mine) {
    int all = 0;
    MPI_Allreduce(&mine, &all, 1, MPI_INT, MPI_MAX, MPI_COMM_WORLD);
    return all;
}

/* ---- ranks ---- */

/* A call of a few of the ranks, whose numbers are others than those of the program. */
static void try_some_ranks(void) {
    MPI_Comm some;
    CvlRanks *few = NULL;
    int32_t one = 0;
    const int32_t a[] = {rank};
    MPI_Comm_split(MPI_COMM_WORLD, rank % 2, -rank, &some);
    check("some ranks", is(cvl_ranks_new(some, &few), CVL_DONE, -1));
    check("their reduce", is(cvl_max_ruz_mpi(few, a, 1, &one), CVL_DONE, -1) && one == (size - 1 - rank) / 2 * 2 + rank);
    cvl_ranks_free(few);
    MPI_Comm_free(&some);
}

/* Two groups of ranks that a communicator joins are no ranks. */
static void try_two_groups(void) {
    MPI_Comm own, both;
    CvlRanks *made = NULL;
    if (size < 2) return;
    MPI_Comm_split(MPI_COMM_WORLD, rank == 0, rank, &own);
    MPI_Intercomm_create(own, 0, MPI_COMM_WORLD, rank == 0 ? 1 : 0, 1, &both);
    check("two groups", is(cvl_ranks_new(both, &made), CVL_NO_DESCRIPTOR, -1) && made == NULL);
    MPI_Comm_free(&both);
    MPI_Comm_free(&own);
}

/* Each rank has threads of the library, of which none but this one makes calls of MPI. */
static void try_threads(int level) {
    enum { EACH = 400000 };
    int32_t *const a = malloc(EACH * sizeof *a), *const out = malloc(EACH * sizeof *out);
    int32_t total = 0, wrong = 0;
    check("MPI with threads", level >= MPI_THREAD_FUNNELED && a != NULL && out != NULL && cvl_set_threads(3) == 0);
    if (any_rank(a == NULL || out == NULL)) return;
    for (size_t k = 0; k < EACH; k++) a[k] = (int32_t)(k % 7) - 3;
    check("a scan by threads", is(cvl_add_suz_mpi(ranks, a, out, EACH), CVL_DONE, -1));
    check("a sum by threads", is(cvl_tot_ruz_mpi(ranks, a, EACH, &total), CVL_DONE, -1));
    int32_t before = total / size * rank;
    for (size_t k = 0; k < EACH; k++) {
        wrong += out[k] != before;
        before += a[k];
    }
    check("each place", wrong == 0 && before == total / size * (rank + 1));
    check("one thread again", cvl_set_threads(1) == 0);
    free(a), free(out);
}

/* ---- before MPI begins, and after it has ended ---- */

static void try_without_mpi(const char *what) {
    CvlRanks *made = NULL;
    check(what, is(cvl_ranks_new(MPI_COMM_WORLD, &made), CVL_NO_DESCRIPTOR, -1) && made == NULL);
    check(what, is(cvl_ranks_of_fortran(0, &made), CVL_NO_DESCRIPTOR, -1) && made == NULL);
}

static void try_after_the_end(CvlRankSegments *segments, CvlRoute *route) {
    int32_t a[1] = {0}, out[1] = {9};
    char text[4] = "1", *read = NULL;
    bool goes_on;
    size_t count = 9, n = 9;
    uint64_t from = 9, total = 9;
    CvlRankSegments *other = NULL;
    CvlRoute *another = NULL;
    const CvlLengths pieces = {a, 1};
    try_without_mpi("no ranks after the end");
    check("no scan", is(cvl_add_suz_mpi(ranks, a, out, 1), CVL_NO_DESCRIPTOR, -1));
    check("none by segments", is(cvl_add_sez_mpi(ranks, a, segments, out, 1), CVL_NO_DESCRIPTOR, -1));
    check("no descriptor", is(cvl_rank_segments_new(ranks, pieces, 0, &other), CVL_NO_DESCRIPTOR, -1) && other == NULL);
    check("no route", is(cvl_route_new(ranks, a, 1, 1, &another), CVL_NO_DESCRIPTOR, -1) && another == NULL);
    check("none back", is(cvl_route_back_int(route, a, 1, out, 1), CVL_NO_DESCRIPTOR, -1));
    check("no permute", is(cvl_route_permute_int(route, a, 1, out, 1), CVL_NO_DESCRIPTOR, -1));
    check("no product", is(cvl_route_sparse_product(route, segments, a, 1, a, 1, out, 1), CVL_NO_DESCRIPTOR, -1));
    check("no spread", is(cvl_spread_ints(ranks, a, 1, out, 1), CVL_NO_DESCRIPTOR, -1));
    check(
        "no share",
        is(cvl_share(ranks, 1, &from, &total), CVL_NO_DESCRIPTOR, -1) &&
            is(cvl_even_share(ranks, 1, &from, &n), CVL_NO_DESCRIPTOR, -1));
    check("no integers of a text", is(cvl_read_ints_mpi(ranks, text, 1, out, 1, &count), CVL_NO_DESCRIPTOR, -1));
    check("no text", is(cvl_write_ints_mpi(ranks, a, 1, text, 4, &count), CVL_NO_DESCRIPTOR, -1) && text[0] == '1');
    check("no lists", is(cvl_seg_read_ints_mpi(ranks, text, 1, out, 1, &count, a, 1, &n, &goes_on), CVL_NO_DESCRIPTOR, -1));
    check("no text of lists", is(cvl_seg_write_ints_mpi(ranks, a, 1, segments, text, 4, &count), CVL_NO_DESCRIPTOR, -1));
    check("no file", is(cvl_rank_text_read(ranks, "over_ranks_text", &read, &count), CVL_NO_DESCRIPTOR, -1) && read == NULL);
    check("none written", is(cvl_rank_text_write(ranks, "over_ranks_text", text, 1), CVL_NO_DESCRIPTOR, -1));
    check("nothing is written after the end", out[0] == 9 && count == 9 && n == 9 && from == 9 && total == 9);
}

int main(int words, char **word) {
    CvlRankSegments *segments = NULL;
    CvlRoute *route = NULL;
    static const int32_t length[] = {1};
    const int32_t *const index = &(int32_t){0};
    int level = 0;
    try_without_mpi("no ranks before MPI begins");
    MPI_Init_thread(&words, &word, MPI_THREAD_FUNNELED, &level);
    MPI_Comm_rank(MPI_COMM_WORLD, &rank);
    MPI_Comm_size(MPI_COMM_WORLD, &size);
    check("ranks", is(cvl_ranks_new(MPI_COMM_WORLD, &ranks), CVL_DONE, -1));
    try_none();
    try_no_place();
    try_other_descriptors();
    try_bad_pieces();
    try_changed_pieces();
    try_overlaps();
    try_differences();
    try_counts();
    try_other_calls();
    try_routes();
    try_spreads();
    try_few();
    try_texts();
    try_long_texts();
    try_long_vectors();
    try_given_back();
    try_threads(level);
    try_all_refused();
    try_some_ranks();
    try_two_groups();
    check("segments to the end", is(cvl_rank_segments_new(ranks, (CvlLengths){length, 1}, 0, &segments), CVL_DONE, -1));
    check("a route to the end", is(cvl_route_new(ranks, index, 1, 1, &route), CVL_DONE, -1));
    failed = any_rank(failed);
    if (rank == 0 && !failed) printf("calls over %d ranks: all as they should be\n", size);
    MPI_Finalize();
    try_after_the_end(segments, route);
    cvl_rank_segments_free(segments), cvl_route_free(route), cvl_ranks_free(ranks);
    return failed ? EXIT_FAILURE : EXIT_SUCCESS;
}
