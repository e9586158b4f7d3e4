/*
 * How many collectives each kind of call over ranks makes, and how many bytes a rank hands in, by MPI's profiling interface. Each rank has
 * 1,000 elements; a permute sends each to a place at random.
 *
 *     mpirun -np 4 messages            each kind of collective
 *     mpirun -np 4 messages --sums     all of them: a line is a call, its collectives and its bytes
 */
#include <mpi.h>

#include <stdio.h>
#include <stdlib.h>
#include <string.h>

#include "cvl_mpi.h"

/* every third flag is true */
enum { N = 1000, TRUES = (N + 2) / 3 };

typedef enum Kind { ALLREDUCE, REDUCE_SCATTER, EXSCAN, ALLGATHER, ALLTOALL, ALLTOALLV, KINDS } Kind;
static const char *const kinds[] = {"Allreduce", "Reduce_scatter", "Exscan", "Allgather", "Alltoall", "Alltoallv"};
static long calls[KINDS], bytes[KINDS];

static void count(Kind kind, int number, MPI_Datatype type, int ranks) {
    int size;
    PMPI_Type_size(type, &size);
    calls[kind]++, bytes[kind] += (long)number * size * ranks;
}

int MPI_Allreduce(const void *from, void *to, int number, MPI_Datatype type, MPI_Op op, MPI_Comm comm) {
    count(ALLREDUCE, number, type, 1);
    return PMPI_Allreduce(from, to, number, type, op, comm);
}

int MPI_Reduce_scatter(const void *from, void *to, const int *numbers, MPI_Datatype type, MPI_Op op, MPI_Comm comm) {
    int size, all = 0;
    PMPI_Comm_size(comm, &size);
    for (int r = 0; r < size; r++) all += numbers[r];
    count(REDUCE_SCATTER, all, type, 1);
    return PMPI_Reduce_scatter(from, to, numbers, type, op, comm);
}

int MPI_Exscan(const void *from, void *to, int number, MPI_Datatype type, MPI_Op op, MPI_Comm comm) {
    count(EXSCAN, number, type, 1);
    return PMPI_Exscan(from, to, number, type, op, comm);
}

int MPI_Allgather(const void *from, int number, MPI_Datatype type, void *to, int to_number, MPI_Datatype to_type, MPI_Comm comm) {
    count(ALLGATHER, number, type, 1);
    return PMPI_Allgather(from, number, type, to, to_number, to_type, comm);
}

int MPI_Alltoall(const void *from, int number, MPI_Datatype type, void *to, int to_number, MPI_Datatype to_type, MPI_Comm comm) {
    int size;
    PMPI_Comm_size(comm, &size);
    count(ALLTOALL, number, type, size);
    return PMPI_Alltoall(from, number, type, to, to_number, to_type, comm);
}

int MPI_Alltoallv(
    const void *from, const int *numbers, const int *starts, MPI_Datatype type, void *to, const int *to_numbers,
    const int *to_starts, MPI_Datatype to_type, MPI_Comm comm) {
    int size, all = 0;
    PMPI_Comm_size(comm, &size);
    for (int r = 0; r < size; r++) all += numbers[r];
    count(ALLTOALLV, all, type, 1);
    return PMPI_Alltoallv(from, numbers, starts, type, to, to_numbers, to_starts, to_type, comm);
}

static int rank, size, summed;

static CvlRanks *ranks;
static CvlRankSegments *segments;
static CvlLengths pieces;
static int32_t a[N], b[N], index_of[N], in_segment[N], out[N], twice[2 * N], one;
static bool flags[N];
static size_t kept, starting;

static void begin(void) { memset(calls, 0, sizeof calls), memset(bytes, 0, sizeof bytes); }

static void tell(const char *name, CvlStatus status) {
    if (status.number != CVL_DONE) printf("%s: fault %u\n", name, status.number);
    if (rank == 0) {
        long all_calls = 0, all_bytes = 0;
        for (int k = 0; k < KINDS; k++) all_calls += calls[k], all_bytes += bytes[k];
        printf("%-28s", name);
        if (summed) printf(" %ld %ld", all_calls, all_bytes);
        for (int k = 0; k < KINDS; k++) {
            if (calls[k] && !summed) printf(" %s %ld (%ld)", kinds[k], calls[k], bytes[k]);
        }
        printf("\n");
    }
    begin();
}

/* The places of each segment from its last to its first, where segments cross ranks in their middle. */
static void turn_segments(const int32_t *lengths) {
    for (int32_t p = 0, from = 0; p < 3; from += lengths[p++]) {
        const int32_t before = p == 0 && rank > 0 ? lengths[2] : 0, behind = p == 2 && rank + 1 < size ? lengths[0] : 0;
        const int32_t last = before + lengths[p] + behind - 1;
        for (int32_t k = 0; k < lengths[p]; k++) in_segment[from + k] = last - before - k;
    }
}

/* Places, packs and single elements. */
static void tell_flat(void) {
    static int32_t selected[N];
    size_t total;
    for (int32_t k = 0; k < N; k += 3) selected[k] = size * TRUES - 1 - (rank * TRUES + k / 3);
    tell("select_int", cvl_sel_wuz_mpi(ranks, flags, a, b, out, N));
    tell("dis_vuz", cvl_dis_vuz_mpi(ranks, 5, N, out, N));
    tell("mke_fov", cvl_mke_fov_mpi(ranks, pieces, &total));
    tell("sel_puz", cvl_sel_puz_mpi(ranks, a, selected, flags, N, out, TRUES));
    tell("def_puz", cvl_def_puz_mpi(ranks, a, index_of, N, b, out, N));
    tell("select_first_senders", cvl_select_first_senders_mpi(ranks, index_of, N, flags, N, out, N));
    tell("spread_ints", cvl_spread_ints(ranks, a, rank == 0 ? N : N - 1, out, rank + 1 == size ? N : N - 1));
}

/* Into four places of each rank. */
static void tell_few(void) {
    static int32_t few[N];
    for (int32_t k = 0; k < N; k++) few[k] = k % (4 * size);
    tell("combine_permute_int into few", cvl_combine_permute_int_mpi(ranks, CVL_ADD, a, N, few, N, out, 4));
    tell("counts into few", cvl_counts_mpi(ranks, few, N, out, 4));
}

static void tell_by_segments(void) {
    static int32_t none[3];
    tell("ind_lez", cvl_ind_lez_mpi(ranks, a, b, segments, out, N));
    tell("ext_vez", cvl_ext_vez_mpi(ranks, a, N, none, segments, out));
    tell("rep_vez", cvl_rep_vez_mpi(ranks, a, none, b, segments, out, N));
    tell("pck_lez", cvl_pck_lez_mpi(ranks, a, flags, N, segments, out, N, &kept));
    tell("pck_fov", cvl_pck_fov_mpi(ranks, flags, N, segments, out));
    tell("smp_pez", cvl_smp_pez_mpi(ranks, a, in_segment, segments, out, N));
    tell("bck_pez", cvl_bck_pez_mpi(ranks, a, N, in_segment, segments, segments, out, N));
    tell("def_pez", cvl_def_pez_mpi(ranks, a, in_segment, N, b, segments, segments, out, N));
    tell("seg_first_senders", cvl_seg_first_senders_mpi(ranks, in_segment, N, segments, segments, out, N));
    tell(
        "seg_combine_permute_int",
        cvl_seg_combine_permute_int_mpi(ranks, CVL_ADD, a, N, in_segment, N, segments, segments, out, N));
    tell("seg_counts", cvl_seg_counts_mpi(ranks, in_segment, N, segments, segments, out, N));
    tell("seg_order", cvl_seg_order_mpi(ranks, in_segment, N, segments, out, N));
    tell("seg_rank", cvl_seg_rank_mpi(ranks, in_segment, N, segments, out, N));
}

/* Each segment has half of its flags true, so that two vectors of as many pieces are merged. */
static void tell_merge_by_segments(const int32_t *lengths) {
    static bool half[N];
    int32_t halves[3];
    CvlRankSegments *sides;
    for (size_t k = 0; k < N; k++) half[k] = k % 2 == 0;
    for (size_t p = 0; p < 3; p++) halves[p] = lengths[p] / 2;
    if (cvl_rank_segments_new(ranks, (CvlLengths){halves, 3}, rank > 0, &sides).number != CVL_DONE) MPI_Abort(MPI_COMM_WORLD, 1);
    begin();
    tell(
        "seg_merge_by_flags_int",
        cvl_seg_merge_by_flags_int_mpi(ranks, half, N, a, N / 2, b, N / 2, segments, sides, sides, out, N));
    cvl_rank_segments_free(sides);
}

static void tell_texts(void) {
    static char text[64 * N];
    size_t length = 0;
    tell("write_ints", cvl_write_ints_mpi(ranks, a, N, text, sizeof text, &length));
    for (size_t k = 0; k < length; k++) text[k] = text[k] == '[' || text[k] == ']' ? ' ' : text[k];
    tell("read_ints", cvl_read_ints_mpi(ranks, text, length, out, N, &kept));
    tell("seg_write_ints", cvl_seg_write_ints_mpi(ranks, a, N, segments, text, sizeof text, &length));
}

int main(int words, char **word) {
    static int64_t sums[N];
    static char text[64];
    int32_t lengths[6], starts[3];
    size_t lists;
    bool goes_on;
    CvlRoute *route;
    MPI_Init(&words, &word);
    MPI_Comm_rank(MPI_COMM_WORLD, &rank);
    MPI_Comm_size(MPI_COMM_WORLD, &size);
    summed = words > 1;
    tell("ranks", cvl_ranks_new(MPI_COMM_WORLD, &ranks));
    const int64_t total = (int64_t)N * size;
    for (int64_t k = 0; k < N; k++) {
        a[k] = (int32_t)k, b[k] = 1, flags[k] = k % 3 == 0;
        index_of[k] = (int32_t)(((int64_t)rank * N + k) * 7 % total);
    }
    lengths[0] = N / 4, lengths[1] = N / 2, lengths[2] = N / 4;
    pieces = (CvlLengths){lengths, 3};
    turn_segments(lengths);
    /* one list of all ranks */
    const size_t text_len = (size_t)sprintf(text, "%s 1 2 3 %s", rank == 0 ? "[ [" : "", rank + 1 == size ? "] ]" : "");
    begin();
    tell("segments", cvl_rank_segments_new(ranks, pieces, rank > 0, &segments));
    starting = cvl_rank_segments_starts(segments);
    tell("add_wuz", cvl_add_wuz_mpi(ranks, a, b, out, N));
    tell("div_wuz", cvl_div_wuz_mpi(ranks, a, b, out, N));
    tell("add_ruz", cvl_add_ruz_mpi(ranks, a, N, &one));
    tell("add_suz", cvl_add_suz_mpi(ranks, a, out, N));
    tell("tot_ruz", cvl_tot_ruz_mpi(ranks, b, N, &one));
    tell("tot_suz", cvl_tot_suz_mpi(ranks, b, out, N));
    tell("cnt_lub", cvl_cnt_lub_mpi(ranks, flags, N, &one));
    tell("pck_luz", cvl_pck_luz_mpi(ranks, a, flags, N, out, N, &kept));
    tell("ext_vuz", cvl_ext_vuz_mpi(ranks, a, N, 5, &one));
    tell("rep_vuz", cvl_rep_vuz_mpi(ranks, a, 5, 9, out, N));
    tell("ind_luz", cvl_ind_luz_mpi(ranks, 0, 1, N, out, N));
    tell("add_sez", cvl_add_sez_mpi(ranks, a, segments, out, N));
    tell("add_rez", cvl_add_rez_mpi(ranks, a, N, segments, out));
    tell("tot_sez", cvl_tot_sez_mpi(ranks, b, segments, out, N));
    tell("tot_rez", cvl_tot_rez_mpi(ranks, b, N, segments, out));
    tell("cnt_leb", cvl_cnt_leb_mpi(ranks, flags, N, segments, out));
    tell("dis_vez", cvl_dis_vez_mpi(ranks, a, segments, out, N));
    tell("smp_puz", cvl_smp_puz_mpi(ranks, a, index_of, out, N));
    tell("bck_puz", cvl_bck_puz_mpi(ranks, a, N, index_of, out, N));
    tell("first_senders", cvl_first_senders_mpi(ranks, index_of, N, out, N));
    tell("combine_permute_int", cvl_combine_permute_int_mpi(ranks, CVL_ADD, a, N, index_of, N, out, N));
    tell("counts", cvl_counts_mpi(ranks, index_of, N, out, N));
    tell_few();
    tell("sort", cvl_sort_mpi(ranks, index_of, N, out, N));
    tell("order", cvl_order_mpi(ranks, index_of, N, out, N));
    tell("rank", cvl_rank_mpi(ranks, index_of, N, out, N));
    tell("seg_sort", cvl_seg_sort_mpi(ranks, index_of, N, segments, out, N));
    /* slices of the next rank */
    for (size_t k = 0; k < starting; k++) starts[k] = (rank + 1) % size * N;
    tell("gather_segments_int", cvl_gather_segments_int_mpi(ranks, a, N, starts, starting, segments, out, N));
    tell("merge_by_flags_int", cvl_merge_by_flags_int_mpi(ranks, flags, N, a, TRUES, b, N - TRUES, out, N));
    tell("append_segments_int", cvl_append_segments_int_mpi(ranks, a, N, b, N, segments, segments, twice, 2 * N));
    tell("transpose_int", cvl_transpose_int_mpi(ranks, a, N, (size_t)size * 10, N / 10, out, N));
    tell("first_true", cvl_first_true_mpi(ranks, flags, N, &one));
    tell("seg_first_true", cvl_seg_first_true_mpi(ranks, flags, N, segments, out, starting));
    tell("seg_exact_sums", cvl_seg_exact_sums_mpi(ranks, b, N, segments, sums, starting));
    tell("seg_read_ints", cvl_seg_read_ints_mpi(ranks, text, text_len, out, N, &kept, lengths + 3, 3, &lists, &goes_on));
    tell_flat(), tell_by_segments(), tell_merge_by_segments(lengths), tell_texts();
    tell("a route", cvl_route_new(ranks, index_of, N, N, &route));
    tell("back by a route", cvl_route_back_int(route, a, N, out, N));
    tell("permute by a route", cvl_route_permute_int(route, a, N, out, N));
    tell("checked_sparse_product", cvl_checked_sparse_product_mpi(ranks, segments, index_of, N, b, N, b, N, out, starting));
    tell("sparse_product", cvl_sparse_product_mpi(ranks, segments, index_of, N, a, N, b, N, out, starting));
    tell("product by a route", cvl_route_sparse_product(route, segments, a, N, b, N, out, starting));
    cvl_route_free(route), cvl_rank_segments_free(segments), cvl_ranks_free(ranks);
    MPI_Finalize();
    return 0;
}
