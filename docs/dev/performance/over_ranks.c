/*
 * How long calls take on vectors of so many elements in all, in milliseconds, the least of some rounds behind one that is not measured: over ranks
 * of MPI, by the slowest of them; or, where there is one rank and a number of threads, the same calls of the plain library by its threads.
 *
 *     mpirun -np RANKS over_ranks ROUNDS ELEMENTS             a power of two
 *     mpirun -np 1 over_ranks ROUNDS ELEMENTS THREADS
 *
 * Rooms were written before. Segments have 1,000 elements and cross ranks; a permute at random is one of all places, and a product takes the
 * elements of x that it names. A matrix has 1,024 columns. What is called plain is a scan
 * and a checked permute at random as shortly as MPI has them: elements are put into the order of their owners, exchanged at once, and written
 * with a bit for each place. docs/dev/performance/over_ranks builds and runs it.
 */
#include <mpi.h>

#include <stdio.h>
#include <stdlib.h>
#include <string.h>

#include "cvl_mpi.h"

enum { SEGMENT = 1000, KEYS = 65536, COLUMNS = 1024 };

static CvlRanks *ranks;
static CvlRankSegments *segments;
static CvlRoute *route;
static CvlLengths cut;
static size_t n, kept, own_keys, trues, all_rows, own_rows;
static uint64_t total, from;
static int rank, size;
static int32_t *a, *b, *in_order, *at_random, *keys, *starts, *out, *sums, one;
static bool *flags;

/* A permute of the places below a power of two. */
static int32_t shuffled(uint64_t place) {
    uint64_t k = place * UINT64_C(0x9E3779B97F4A7C15) & (total - 1);
    k ^= k >> 11;
    return (int32_t)(k * UINT64_C(0xD1B54A32D192ED03) & (total - 1));
}

static void *memory(size_t number, size_t bytes) {
    void *const found = malloc((number + 1) * bytes);
    if (found == NULL) MPI_Abort(MPI_COMM_WORLD, 1);
    memset(found, 1, (number + 1) * bytes);
    return found;
}

#define STARTING cvl_rank_segments_starts(segments)

/* The pieces of segments that lie in this rank's range, and slices of the source, each as long as its segment. */
static void cut_segments(void) {
    const uint64_t first = from / SEGMENT, last = n == 0 ? first : (from + n - 1) / SEGMENT;
    const size_t pieces = n == 0 ? 0 : (size_t)(last - first + 1);
    int32_t *lengths = memory(pieces, sizeof *lengths);
    starts = memory(pieces, sizeof *starts);
    for (size_t p = 0; p < pieces; p++) {
        const uint64_t start = (first + p) * SEGMENT, end = start + SEGMENT;
        lengths[p] = (int32_t)((end < from + n ? end : from + n) - (start > from ? start : from));
        starts[p] = (int32_t)((uint64_t)shuffled(start) % (total - SEGMENT + 1));
    }
    cut.lengths = lengths, cut.segments = pieces;
    if (cvl_rank_segments_new(ranks, cut, from % SEGMENT != 0, &segments).number != CVL_DONE) MPI_Abort(MPI_COMM_WORLD, 1);
    own_rows = STARTING;
}

/* ---- the calls: over ranks, and by the threads of the plain library ---- */

/* clang-format off */
#define CALLS(X)                                                                                                                                 \
    X(add_wuz, "add_wuz", cvl_add_wuz_mpi(ranks, a, b, out, n), cvl_add_wuz(a, b, out, n))                                                       \
    X(div_wuz, "div_wuz", cvl_div_wuz_mpi(ranks, a, b, out, n), cvl_div_wuz(a, b, out, n))                                                       \
    X(add_suz, "add_suz", cvl_add_suz_mpi(ranks, a, out, n), cvl_add_suz(a, out, n))                                                             \
    X(add_ruz, "add_ruz", cvl_add_ruz_mpi(ranks, a, n, &one), cvl_add_ruz(a, n, &one))                                                           \
    X(tot_suz, "tot_suz", cvl_tot_suz_mpi(ranks, b, out, n), cvl_tot_suz(b, out, n))                                                             \
    X(cnt_lub, "cnt_lub", cvl_cnt_lub_mpi(ranks, flags, n, &one), cvl_cnt_lub(flags, n, &one))                                                   \
    X(add_sez, "add_sez, of 1,000", cvl_add_sez_mpi(ranks, a, segments, out, n), cvl_add_sez(a, cut, out, n))                                    \
    X(add_rez, "add_rez, of 1,000", cvl_add_rez_mpi(ranks, a, n, segments, out), cvl_add_rez(a, n, cut, out))                                    \
    X(dis_vez, "dis_vez, of 1,000", cvl_dis_vez_mpi(ranks, a, segments, out, n), cvl_dis_vez(a, cut, out, n))                                    \
    X(pck_luz, "pck_luz, of a half", cvl_pck_luz_mpi(ranks, a, flags, n, out, n, &kept), cvl_pck_luz(a, flags, n, out, n, &kept))                \
    X(bck_order, "bck_puz, in order", cvl_bck_puz_mpi(ranks, a, n, in_order, out, n), cvl_bck_puz(a, n, in_order, out, n))                       \
    X(bck_random, "bck_puz, at random", cvl_bck_puz_mpi(ranks, a, n, at_random, out, n), cvl_bck_puz(a, n, at_random, out, n))                   \
    X(smp_order, "smp_puz, in order", cvl_smp_puz_mpi(ranks, a, in_order, out, n), cvl_smp_puz(a, in_order, out, n))                             \
    X(smp_random, "smp_puz, at random", cvl_smp_puz_mpi(ranks, a, at_random, out, n), cvl_smp_puz(a, at_random, out, n))                         \
    X(senders, "cvl_first_senders, at random", cvl_first_senders_mpi(ranks, at_random, n, out, n), cvl_first_senders(at_random, n, out, n))      \
    X(gather, "cvl_gather_segments_int, of 1,000", cvl_gather_segments_int_mpi(ranks, a, n, starts, STARTING, segments, out, n),                 \
        cvl_gather_segments_int(a, n, starts, cut.segments, cut, out, n))                                                                        \
    X(combine, "cvl_combine_permute_int, 65,536 keys", cvl_combine_permute_int_mpi(ranks, CVL_ADD, a, n, keys, n, sums, own_keys),               \
        cvl_combine_permute_int(CVL_ADD, a, n, keys, n, sums, own_keys))                                                                         \
    X(merge, "cvl_merge_by_flags_int", cvl_merge_by_flags_int_mpi(ranks, flags, n, a, trues, b, n - trues, out, n),                              \
        cvl_merge_by_flags_int(flags, n, a, trues, b, n - trues, out, n))                                                                        \
    X(transpose, "cvl_transpose_int, of 1,024 columns", cvl_transpose_int_mpi(ranks, a, n, all_rows, COLUMNS, out, n),                           \
        cvl_transpose_int(a, n, all_rows, COLUMNS, out, n))                                                                                      \
    X(product, "cvl_sparse_product, at random", cvl_sparse_product_mpi(ranks, segments, at_random, n, b, n, a, n, out, own_rows),                \
        cvl_sparse_product(cut, at_random, n, b, n, a, n, out, own_rows))                                                                        \
    X(seg_sort, "cvl_seg_sort, of 1,000", cvl_seg_sort_mpi(ranks, a, n, segments, out, n), cvl_seg_sort(a, n, cut, out, n))                      \
    X(sort, "cvl_sort", cvl_sort_mpi(ranks, a, n, out, n), cvl_sort(a, n, out, n))                                                               \
    X(order, "cvl_order", cvl_order_mpi(ranks, a, n, out, n), cvl_order(a, n, out, n))
/* clang-format on */

#define DEFINED(id, name, over, plain)                \
    static CvlStatus over_##id(void) { return over; } \
    static CvlStatus plain_##id(void) { return plain; }
CALLS(DEFINED)

typedef CvlStatus Call(void);
typedef struct Row {
    const char *name;
    Call *over, *plain;
} Row;
#define ROW(id, name, over, plain) {name, over_##id, plain_##id},
static const Row rows[] = {CALLS(ROW)};

static CvlStatus back_by_route(void) { return cvl_route_back_int(route, a, n, out, n); }
static CvlStatus permute_by_route(void) { return cvl_route_permute_int(route, a, n, out, n); }

/* ---- as shortly as MPI has it ---- */

typedef struct Pair {
    int32_t place, element;
} Pair;

static CvlStatus plain_scan(void) {
    const CvlStatus done = {CVL_DONE, -1};
    uint32_t sum = 0, before = 0;
    for (size_t k = 0; k < n; k++) sum += (uint32_t)a[k];
    MPI_Exscan(&sum, &before, 1, MPI_UINT32_T, MPI_SUM, MPI_COMM_WORLD);
    if (rank == 0) before = 0;
    for (size_t k = 0; k < n; k++) {
        const uint32_t element = (uint32_t)a[k];
        out[k] = (int32_t)before;
        before += element;
    }
    return done;
}

/* Writes the pairs that a rank got; whether no place was written before. */
static bool write_pairs(const Pair *got, size_t count, uint64_t *marks) {
    uint64_t twice = 0;
    for (size_t k = 0; k < count; k++) {
        const size_t place = (size_t)got[k].place - (size_t)from;
        twice |= marks[place / 64] >> (place % 64) & 1;
        marks[place / 64] |= UINT64_C(1) << (place % 64);
        out[place] = got[k].element;
    }
    return twice == 0;
}

/* The rank that has a place of a vector that is spread evenly: the first ranks have one more element if there is a rest. */
static size_t owner_of(uint64_t place) {
    const uint64_t each = total / (uint64_t)size, more = total % (uint64_t)size;
    return (size_t)(place < more * (each + 1) ? place / (each + 1) : (place - more) / each);
}

static CvlStatus plain_permute(void) {
    CvlStatus status = {CVL_DONE, -1};
    const size_t words = n / 64 + 1;
    int *counts = calloc(4 * (size_t)size + 2, sizeof *counts), *first = counts + size, *got_counts = first + size + 1,
        *got_first = got_counts + size;
    int *next = calloc((size_t)size, sizeof *next);
    Pair *sent = malloc((n + 1) * sizeof *sent), *got = malloc((n + 1) * sizeof *got);
    uint64_t *marks = calloc(words, sizeof *marks);
    if (!counts || !next || !sent || !got || !marks) MPI_Abort(MPI_COMM_WORLD, 1);
    for (size_t k = 0; k < n; k++) counts[owner_of((uint64_t)at_random[k])]++;
    for (int r = 0; r < size; r++) next[r] = first[r], first[r + 1] = first[r] + counts[r];
    for (size_t k = 0; k < n; k++) sent[next[owner_of((uint64_t)at_random[k])]++] = (Pair){at_random[k], a[k]};
    MPI_Alltoall(counts, 1, MPI_INT, got_counts, 1, MPI_INT, MPI_COMM_WORLD);
    for (int r = 0; r < size; r++) got_first[r + 1] = got_first[r] + got_counts[r];
    MPI_Alltoallv(sent, counts, first, MPI_INT64_T, got, got_counts, got_first, MPI_INT64_T, MPI_COMM_WORLD);
    int once = write_pairs(got, (size_t)got_first[size], marks), all = 0;
    MPI_Allreduce(&once, &all, 1, MPI_INT, MPI_MIN, MPI_COMM_WORLD);
    if (!all) status.number = CVL_INDEX_REPEATED;
    free(counts), free(next), free(sent), free(got), free(marks);
    return status;
}

/* ---- time ---- */

static void measure(int rounds, const char *name, Call *call) {
    double least = 1e9;
    for (int round = 0; round <= rounds; round++) {
        MPI_Barrier(MPI_COMM_WORLD);
        const double start = MPI_Wtime();
        if (call().number != CVL_DONE) MPI_Abort(MPI_COMM_WORLD, 1);
        double own = MPI_Wtime() - start, all = 0;
        MPI_Allreduce(&own, &all, 1, MPI_DOUBLE, MPI_MAX, MPI_COMM_WORLD);
        if (round > 0 && all < least) least = all;
    }
    if (rank == 0) printf("%s: %.2f\n", name, least * 1e3);
    fflush(stdout);
}

static void fill(void) {
    a = memory(n, sizeof *a), b = memory(n, sizeof *b), out = memory(n, sizeof *out), keys = memory(n, sizeof *keys);
    in_order = memory(n, sizeof *in_order), at_random = memory(n, sizeof *at_random), flags = memory(n, sizeof *flags);
    for (size_t k = 0; k < n; k++) {
        const uint64_t place = from + k;
        a[k] = shuffled(place), b[k] = (int32_t)(place % 7) - 3 == 0 ? 1 : (int32_t)(place % 7) - 3;
        in_order[k] = (int32_t)place, at_random[k] = shuffled(place), keys[k] = a[k] % KEYS, flags[k] = (a[k] & 1) != 0;
        trues += flags[k];
    }
    all_rows = (size_t)(total / COLUMNS);
}

static int measure_all(int rounds, long threads) {
    const size_t count = sizeof rows / sizeof *rows;
    if (threads > 0) {
        if (cvl_set_threads((size_t)threads) != 0) return 1;
        for (size_t k = 0; k < count; k++) measure(rounds, rows[k].name, rows[k].plain);
        return 0;
    }
    for (size_t k = 0; k < count; k++) measure(rounds, rows[k].name, rows[k].over);
    if (cvl_route_new(ranks, at_random, n, n, &route).number != CVL_DONE) return 1;
    measure(rounds, "bck_puz, at random, by a route", back_by_route),
        measure(rounds, "smp_puz, at random, by a route", permute_by_route);
    measure(rounds, "a plain scan", plain_scan), measure(rounds, "a plain permute, at random", plain_permute);
    cvl_route_free(route);
    return 0;
}

int main(int words, char **word) {
    uint64_t none;
    MPI_Init(&words, &word);
    MPI_Comm_rank(MPI_COMM_WORLD, &rank);
    MPI_Comm_size(MPI_COMM_WORLD, &size);
    const int rounds = words > 1 ? atoi(word[1]) : 3;
    total = words > 2 ? strtoull(word[2], NULL, 10) : 4194304;
    if (cvl_ranks_new(MPI_COMM_WORLD, &ranks).number != CVL_DONE || cvl_even_share(ranks, total, &from, &n).number != CVL_DONE)
        return 1;
    if (cvl_even_share(ranks, KEYS, &none, &own_keys).number != CVL_DONE) return 1;
    fill();
    sums = memory(own_keys, sizeof *sums);
    cut_segments();
    const int ended = measure_all(rounds, words > 3 ? atol(word[3]) : 0);
    cvl_rank_segments_free(segments), cvl_ranks_free(ranks);
    MPI_Finalize();
    return ended;
}
