/* mistakes.c: arrays that overlap, ranks that ask for different things, and counts of the whole. */
#include "test.h"

/* ---- arrays that overlap, and calls in place ---- */

void try_overlaps(void) {
    int32_t a[MOST], b[MOST], out[MOST];
    const size_t n = own_count(rank);
    fill(a), fill(b);
    memset(out, 0, sizeof out);
    const CvlStatus wrong = cvl_smp_puz_mpi(ranks, a, b, rank == size - 1 ? a : out, n);
    check("one rank's arrays overlap", is(wrong, CVL_OVERLAP, -1) && is_filled(out, n, 0));
    check("in place", is(cvl_add_suz_mpi(ranks, a, a, n), CVL_DONE, -1));
    int32_t before = 0;
    for (int64_t p = 0; p < own_from(rank) + (int64_t)n; p++) {
        if (p >= own_from(rank)) check("a scan in place", a[p - own_from(rank)] == before);
        before += of_place(p);
    }
    fill(a);
    check("both in place", is(cvl_add_wuz_mpi(ranks, a, a, a, n), CVL_DONE, -1) && a[0] == 2 * b[0]);
    fill(a);
    for (size_t k = 0; k < n; k++) b[k] = own_from(rank) + (int64_t)k == 1 ? 0 : 1;
    const CvlStatus divided = cvl_div_wuz_mpi(ranks, a, b, a, n);
    if (size > 1) check("a fault in place", is(divided, CVL_DIVIDE_BY_ZERO, 1) && a[0] == of_place(own_from(rank)));
}

/* ---- ranks that differ ---- */

void try_differences(void) {
    int32_t a[MOST], out[MOST], one = 9;
    const size_t n = own_count(rank);
    fill(a);
    memset(out, 0, sizeof out);
    if (size < 2) return;
    const int odd = rank == 1;
    check("other operators", is(cvl_int_scan_mpi(ranks, odd ? CVL_MAX : CVL_ADD, a, n, out, n), CVL_UNKNOWN_CALL, -1));
    check(
        "other families", is(odd ? cvl_add_suz_mpi(ranks, a, out, n) : cvl_tot_ruz_mpi(ranks, a, n, &one), CVL_UNKNOWN_CALL, -1));
#ifdef CVL_COMPARE_CALLS
    check(
        "other families from the first word on",
        is(odd ? cvl_tot_suz_mpi(ranks, a, out, n) : cvl_smp_puz_mpi(ranks, a, a, out, n), CVL_UNKNOWN_CALL, -1));
#endif
    check("other values", is(cvl_dis_vuz_mpi(ranks, odd ? 4 : 5, (int64_t)n, out, n), CVL_UNKNOWN_CALL, -1));
    check("other strides", is(cvl_ind_luz_mpi(ranks, 0, odd ? 2 : 1, (int64_t)n, out, n), CVL_UNKNOWN_CALL, -1));
    check("other places", is(cvl_ext_vuz_mpi(ranks, a, n, odd, &one), CVL_UNKNOWN_CALL, -1));
    check("other lengths", is(cvl_int2_mpi(ranks, CVL_ADD, a, n, a, odd ? n - 1 : n, out, n), CVL_LENGTH_MISMATCH, -1));
    check("a length below 0", is(cvl_dis_vuz_mpi(ranks, 5, odd ? -1 : (int64_t)n, out, n), CVL_NEGATIVE_LENGTH, -1));
    check("a whole that is too long", is(cvl_dis_vuz_mpi(ranks, 5, INT32_MAX, out, INT32_MAX), CVL_TOO_LONG, -1));
    const CvlStatus both = cvl_dis_vuz_mpi(ranks, 5, odd ? INT64_C(1) << 31 : (int64_t)n, out, odd ? n : n - 1);
    check("a length that is too long before one that does not fit", is(both, CVL_TOO_LONG, -1));
    check("where ranks differ nothing is written", is_filled(out, n, 0) && one == 9);
}

/* A count is that of the rank's own part. The count of the whole is 7 on all ranks, and nothing is written behind a room. */
void try_counts(void) {
    int32_t out[2 * MOST];
    bool flags[2 * MOST];
    memset(out, 0, sizeof out), memset(flags, 0, sizeof flags);
    const size_t n = own_count(rank);
    const int64_t whole = own_from(size);
    const uint32_t number = size > 1 ? CVL_LENGTH_MISMATCH : CVL_DONE;
    check("copies of the whole", is(cvl_dis_vuz_mpi(ranks, 5, whole, out, n), number, -1));
    check("flags of the whole", is(cvl_dis_vub_mpi(ranks, 1, whole, flags, n), number, -1));
    check("numbers of the whole", is(cvl_ind_luz_mpi(ranks, 3, 2, whole, out, n), number, -1));
    for (size_t k = size > 1 ? 0 : n; k < 2 * MOST; k++) check("nothing is written by them", out[k] == 0 && !flags[k]);
    check("own copies", is(cvl_dis_vuz_mpi(ranks, 5, (int64_t)n, out, n), CVL_DONE, -1) && is_filled(out, n, 5));
    check("own flags", is(cvl_dis_vub_mpi(ranks, 1, (int64_t)n, flags, n), CVL_DONE, -1) && flags[n - 1] && !flags[n]);
    check("own numbers", is(cvl_ind_luz_mpi(ranks, 3, 2, (int64_t)n, out, n), CVL_DONE, -1));
    for (size_t k = 0; k < n; k++) check("the number of a place", out[k] == 3 + 2 * (int32_t)(own_from(rank) + (int64_t)k));
    check("nothing behind them", out[n] == 0);
}

/* Calls that tell one another something before they agree on a status: one rank makes each of them, and the others the one behind it. */
#ifdef CVL_COMPARE_CALLS
static int32_t some_ints[2] = {1, 0}, some_room[4];
static bool some_bools[2], goes;
static char some_text[64] = "1";
static size_t some_count, some_pieces;

static CvlStatus a_share(void) {
    uint64_t from, total;
    return cvl_share(ranks, 2, &from, &total);
}
static CvlStatus a_descriptor(void) {
    CvlRankSegments *segments;
    return cvl_rank_segments_new(ranks, (CvlLengths){some_ints, 2}, 0, &segments);
}
static CvlStatus a_route(void) {
    CvlRoute *route;
    return cvl_route_new(ranks, some_ints, 2, 2, &route);
}
static CvlStatus a_file_read(void) {
    char *text;
    return cvl_rank_text_read(ranks, "no_such_file", &text, &some_count);
}
static CvlStatus a_file_written(void) { return cvl_rank_text_write(ranks, "no_such_file", some_text, 1); }
static CvlStatus ints_read(void) { return cvl_read_ints_mpi(ranks, some_text, 1, some_room, 4, &some_count); }
static CvlStatus ints_written(void) { return cvl_write_ints_mpi(ranks, some_ints, 2, some_text + 8, 56, &some_count); }
static CvlStatus bools_written(void) { return cvl_write_bools_mpi(ranks, some_bools, 2, some_text + 8, 56, &some_count); }
static CvlStatus a_nest_read(void) {
    return cvl_seg_read_ints_mpi(ranks, some_text, 1, some_room, 2, &some_count, some_room + 2, 2, &some_pieces, &goes);
}
static CvlStatus a_spread(void) { return cvl_spread_ints(ranks, some_ints, 2, some_room, 2); }
static CvlStatus a_checked_sum(void) { return cvl_tot_ruz_mpi(ranks, some_ints, 2, some_room); }
static CvlStatus a_sort(void) { return cvl_sort_mpi(ranks, some_ints, 2, some_room, 2); }

void try_other_calls(void) {
    static CvlStatus (*const calls[])(void) = {a_share,      a_descriptor,  a_route,     a_file_read, a_file_written, ints_read,
                                               ints_written, bools_written, a_nest_read, a_spread,    a_checked_sum,  a_sort};
    const size_t count = sizeof calls / sizeof *calls;
    for (size_t k = 0; k < count && size > 1; k++) {
        check("another call", is(calls[rank == 1 ? k : (k + 1) % count](), CVL_UNKNOWN_CALL, -1));
    }
    check("by other calls nothing is written", is_filled(some_room, 4, 0) && some_count == 0 && some_text[8] == 0);
}
#else
void try_other_calls(void) {}
#endif
