/*
 * Calls over 2 ranks on vectors that are longer than 2,147,483,647 elements: their places need more than 32 bits, and calls of which a place
 * or a count has 32 bits are 13 TooLong. Almost all elements are pages of zeros that take no memory, since these calls only read them.
 *
 *     long            in a few seconds
 *     long --write    also scans in place, and packs, of 2,200,000,000 booleans, in 3 GB
 */
#define _DEFAULT_SOURCE
#include <sys/mman.h>

#include "test.h"

#define TOTAL UINT64_C(2200000000)
#define SEGMENT UINT64_C(2000000000)

CvlRanks *ranks;
int rank, size;
static int failed;
static uint64_t from;
static size_t n;

void check(const char *what, int is_so) {
    if (is_so) return;
    fprintf(stderr, "rank %d of %d: %s\n", rank, size, what);
    failed = 1;
}

int any_rank(int mine) {
    int all = 0;
    MPI_Allreduce(&mine, &all, 1, MPI_INT, MPI_MAX, MPI_COMM_WORLD);
    return all;
}

/* ---- what only reads ---- */

/* This rank's part of a vector of zeros, in which a page takes memory once it is written. */
static void *zeros(size_t bytes) {
    void *const found = mmap(NULL, n * bytes, PROT_READ | PROT_WRITE, MAP_PRIVATE | MAP_ANONYMOUS | MAP_NORESERVE, -1, 0);
    if (found == MAP_FAILED) MPI_Abort(MPI_COMM_WORLD, 2);
    return found;
}

/* Flags of which three are true: the last one of the first rank, and two of the second, whose places in the whole are past 2^31. */
static void try_flags(void) {
    bool *const flags = zeros(1), one = 0, kept[4] = {0};
    size_t count = 9;
    uint64_t first = 9, total = 9;
    if (rank == 0) flags[n - 1] = 1;
    if (rank == size - 1) flags[n - 1] = flags[n - 2] = 1;
    check("a reduce", is(cvl_xor_rub_mpi(ranks, flags, n, &one), CVL_DONE, -1) && one);
    check(
        "a pack",
        is(cvl_pck_lub_mpi(ranks, flags, flags, n, kept, 4, &count), CVL_DONE, -1) && count == (rank == 0 ? 1 : 2) &&
            kept[count - 1]);
    check("a share", is(cvl_share(ranks, n, &first, &total), CVL_DONE, -1) && first == from && total == TOTAL);
    one = 0;
    check("a far element", is(cvl_ext_vub_mpi(ranks, flags, n, (int64_t)TOTAL - 1, &one), CVL_DONE, -1) && one);
    check("its neighbour's", is(cvl_ext_vub_mpi(ranks, flags, n, (int64_t)TOTAL - 3, &one), CVL_DONE, -1) && !one);
    check("no element", is(cvl_ext_vub_mpi(ranks, flags, n, (int64_t)TOTAL, &one), CVL_INDEX_OUT_OF_RANGE, 0) && !one);
    munmap(flags, n);
}

/* The pieces of a segment that crosses ranks, and of one behind it. */
static CvlRankSegments *segments_of(void) {
    int32_t lengths[2];
    size_t pieces = 0;
    CvlRankSegments *segments = NULL;
    const uint64_t to = from + n;
    if (from < SEGMENT) lengths[pieces++] = (int32_t)((to < SEGMENT ? to : SEGMENT) - from);
    if (to > SEGMENT) lengths[pieces++] = (int32_t)(to - (from > SEGMENT ? from : SEGMENT));
    check(
        "a descriptor",
        is(cvl_rank_segments_new(ranks, (CvlLengths){lengths, pieces}, from > 0 && from != SEGMENT, &segments), CVL_DONE, -1));
    return segments;
}

static void try_segments(void) {
    bool *const flags = zeros(1), any[1] = {0};
    int32_t places[1] = {9}, counts[1] = {9};
    CvlRankSegments *const segments = segments_of();
    if (rank == 1) flags[0] = flags[n - 1] = 1;
    check("a reduce of segments", is(cvl_ior_reb_mpi(ranks, flags, n, segments, any), CVL_DONE, -1) && any[0]);
    check("counts of segments", is(cvl_cnt_leb_mpi(ranks, flags, n, segments, counts), CVL_DONE, -1) && counts[0] == 1);
    check("first true flags", is(cvl_seg_first_true_mpi(ranks, flags, n, segments, places, 1), CVL_DONE, -1));
    check("their places in a segment", places[0] == (rank == 0 ? (int32_t)n : (int32_t)(TOTAL - SEGMENT - 1)));
    cvl_rank_segments_free(segments);
    munmap(flags, n);
}

/* A sum that overflows behind 2^31 places. */
static void try_far_fault(void) {
    int32_t *const a = zeros(sizeof *a), *const out = zeros(sizeof *out);
    if (rank == 1) a[n - 30] = INT32_MAX, a[n - 20] = 1;
    check(
        "a place of more than 32 bits",
        is(cvl_tot_suz_mpi(ranks, a, out, n), CVL_OVERFLOW, (int64_t)TOTAL - 19) && out[n - 1] == 0);
    munmap(a, n * sizeof *a), munmap(out, n * sizeof *out);
}

/* ---- what is too long ---- */

static int32_t *ints, *room;
static bool *flags, *flags_room, one_flag;
static int32_t one_int, few[2];
static size_t told;

static CvlStatus a_count(void) { return cvl_cnt_lub_mpi(ranks, flags, n, &one_int); }
static CvlStatus a_first_place(void) { return cvl_first_true_mpi(ranks, flags, n, &one_int); }
static CvlStatus an_order(void) { return cvl_order_mpi(ranks, ints, n, room, n); }
static CvlStatus a_rank(void) { return cvl_rank_mpi(ranks, ints, n, room, n); }
static CvlStatus lengths_told(void) { return cvl_mke_fov_mpi(ranks, (CvlLengths){ints, n}, &told); }
static CvlStatus copies(void) { return cvl_dis_vub_mpi(ranks, 1, (int64_t)n, flags_room, n); }
static CvlStatus a_back_permute(void) { return cvl_bck_pub_mpi(ranks, flags, 2, ints, flags_room, n); }
static CvlStatus back_from_it(void) { return cvl_bck_pub_mpi(ranks, flags, n, few, flags_room, 2); }
static CvlStatus a_permute(void) { return cvl_smp_pub_mpi(ranks, flags, ints, flags_room, n); }
static CvlStatus a_permute_into_it(void) { return cvl_def_pub_mpi(ranks, flags, few, 2, flags, flags_room, n); }
static CvlStatus senders(void) { return cvl_first_senders_mpi(ranks, ints, n, few, 2); }
static CvlStatus joins(void) { return cvl_combine_permute_bool_mpi(ranks, CVL_IOR, flags, n, ints, n, flags_room, 2); }
static CvlStatus runs(void) { return cvl_run_lengths_bool_mpi(ranks, flags, n, few, 2, &told); }
static CvlStatus starts_of_runs(void) { return cvl_run_starts_bool_mpi(ranks, flags, n, few, 2, &told); }
static CvlStatus counts(void) { return cvl_counts_mpi(ranks, ints, n, few, 2); }
static CvlStatus a_route(void) {
    CvlRoute *route;
    return cvl_route_new(ranks, few, 2, n, &route);
}

/* One rank's own part is too long: no element of it is read. */
static const size_t past = (size_t)INT32_MAX + 1;
static CvlStatus a_spread(void) { return cvl_spread_ints(ranks, rank == 1 ? NULL : few, rank == 1 ? past : 2, room, 2); }
static CvlStatus a_spread_into_it(void) {
    return cvl_spread_bools(ranks, flags, 2, rank == 1 ? NULL : flags_room, rank == 1 ? past : 2);
}
static CvlStatus a_scan(void) {
    return cvl_add_suz_mpi(ranks, rank == 1 ? NULL : few, rank == 1 ? NULL : room, rank == 1 ? past : 2);
}

static const struct Long {
    const char *name;
    CvlStatus (*call)(void);
} long_ones[] = {
    {"a count", a_count},
    {"a first place", a_first_place},
    {"an order", an_order},
    {"a rank", a_rank},
    {"lengths", lengths_told},
    {"copies", copies},
    {"a back permute", a_back_permute},
    {"back from it", back_from_it},
    {"a permute", a_permute},
    {"a permute into it", a_permute_into_it},
    {"first senders", senders},
    {"joins", joins},
    {"runs", runs},
    {"starts of runs", starts_of_runs},
    {"counts", counts},
    {"a route", a_route},
    {"a spread", a_spread},
    {"a spread into it", a_spread_into_it},
    {"a scan", a_scan}};

static void try_too_long(void) {
    ints = zeros(sizeof *ints), room = zeros(sizeof *room), flags = zeros(1), flags_room = zeros(1);
    for (size_t k = 0; k < sizeof long_ones / sizeof *long_ones; k++)
        check(long_ones[k].name, is(long_ones[k].call(), CVL_TOO_LONG, -1));
    check(
        "where they are too long nothing is written",
        one_int == 0 && few[0] == 0 && room[0] == 0 && !flags_room[0] && !one_flag && told == 0);
    munmap(ints, n * sizeof *ints), munmap(room, n * sizeof *room), munmap(flags, n), munmap(flags_room, n);
}

/* ---- what writes: every third place is true, and of the places before one, a third are ---- */

static bool of_third(uint64_t place) { return place % 3 == 0; }
static uint64_t trues_before(uint64_t place) { return (place + 2) / 3; }

static void fill_flags(bool *a) {
    for (size_t k = 0; k < n; k++) a[k] = of_third(from + k);
}

static void try_scans(bool *a) {
    CvlRankSegments *const segments = segments_of();
    size_t wrong = 0;
    fill_flags(a);
    check("a scan", is(cvl_xor_sub_mpi(ranks, a, a, n), CVL_DONE, -1));
    for (size_t k = 0; k < n; k++) wrong += a[k] != (trues_before(from + k) & 1);
    fill_flags(a);
    check("a scan of segments", is(cvl_xor_seb_mpi(ranks, a, segments, a, n), CVL_DONE, -1));
    for (size_t k = 0; k < n; k++) {
        const uint64_t place = from + k, start = place < SEGMENT ? 0 : SEGMENT;
        wrong += a[k] != ((trues_before(place) - trues_before(start)) & 1);
    }
    check("each place of a scan", wrong == 0);
    cvl_rank_segments_free(segments);
}

static void try_pack(bool *a) {
    const size_t trues = (size_t)(trues_before(from + n) - trues_before(from));
    bool *const out = malloc(trues + 1);
    size_t kept = 0, wrong = 0;
    uint64_t first = 0, total = 0;
    if (out == NULL) MPI_Abort(MPI_COMM_WORLD, 2);
    fill_flags(a);
    check("a long pack", is(cvl_pck_lub_mpi(ranks, a, a, n, out, trues, &kept), CVL_DONE, -1) && kept == trues);
    for (size_t k = 0; k < trues; k++) wrong += !out[k];
    check("each place of a pack", wrong == 0);
    check(
        "its share",
        is(cvl_share(ranks, kept, &first, &total), CVL_DONE, -1) && first == trues_before(from) && total == trues_before(TOTAL));
    free(out);
}

static void try_writes(void) {
    bool *const a = zeros(1);
    try_scans(a);
    try_pack(a);
    munmap(a, n);
}

int main(int words, char **word) {
    MPI_Init(&words, &word);
    MPI_Comm_rank(MPI_COMM_WORLD, &rank);
    MPI_Comm_size(MPI_COMM_WORLD, &size);
    if (size != 2 || cvl_ranks_new(MPI_COMM_WORLD, &ranks).number != CVL_DONE) MPI_Abort(MPI_COMM_WORLD, 2);
    if (cvl_even_share(ranks, TOTAL, &from, &n).number != CVL_DONE) MPI_Abort(MPI_COMM_WORLD, 2);
    try_flags();
    try_segments();
    try_far_fault();
    try_too_long();
    if (words > 1) try_writes();
    const int any_failed = any_rank(failed);
    if (rank == 0 && !any_failed) printf("%llu elements over %d ranks: all as they should be\n", (unsigned long long)TOTAL, size);
    cvl_ranks_free(ranks);
    MPI_Finalize();
    return any_failed;
}
