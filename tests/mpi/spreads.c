/* spreads.c: vectors that are spread otherwise, and some that have fewer elements than there are ranks. */
#include "test.h"

void try_spreads(void) {
    int32_t a[MOST], even[MOST], back[MOST];
    unsigned char flags[MOST], even_flags[MOST];
    uint64_t from = 99, first = 99, total = 0;
    size_t count = 99;
    const size_t n = own_count(rank);
    fill(a);
    check(
        "a share",
        is(cvl_share(ranks, n, &first, &total), CVL_DONE, -1) && first == (uint64_t)own_from(rank) &&
            total == (uint64_t)own_from(size));
    check(
        "an even share",
        is(cvl_even_share(ranks, total, &from, &count), CVL_DONE, -1) &&
            (count == total / (uint64_t)size || count == total / (uint64_t)size + 1));
    check("spread evenly", is(cvl_spread_ints(ranks, a, n, even, count), CVL_DONE, -1));
    for (size_t k = 0; k < count; k++) check("the element of its place", even[k] == of_place((int64_t)(from + k)));
    check("and back", is(cvl_spread_ints(ranks, even, count, back, n), CVL_DONE, -1) && memcmp(a, back, n * sizeof *a) == 0);
    for (size_t k = 0; k < n; k++) flags[k] = a[k] > 2 ? (unsigned char)(255 - k) : 0;
    check("booleans of any bytes", is(cvl_spread_bools(ranks, (const bool *)flags, n, (bool *)even_flags, count), CVL_DONE, -1));
    for (size_t k = 0; k < count; k++) check("the boolean of its place", even_flags[k] == (of_place((int64_t)(from + k)) > 2));
    check("not as many", is(cvl_spread_ints(ranks, a, n, back, rank == 0 ? n - 1 : n), CVL_LENGTH_MISMATCH, -1));
    check("into itself", is(cvl_spread_ints(ranks, a, n, rank == size - 1 ? a : back, n), CVL_OVERLAP, -1));
    const size_t all = rank == 0 ? (size_t)total : 0;
    check("all to one rank", is(cvl_spread_ints(ranks, a, n, back, all), CVL_DONE, -1));
    for (size_t k = 0; k < all; k++) check("the whole", back[k] == of_place((int64_t)k));
}

/* ---- fewer elements than ranks ---- */

/* A vector of so few elements, 0, 1 and so on, of which the first ranks have one each; the arrays of the others are null. */
static void try_few_elements(int few) {
    const int has = rank < few, last = few - 1 - rank;
    const size_t n = has ? 1 : 0;
    int32_t a = rank, index = last, length = 1, first = 9, count = 9;
    int32_t *const own = has ? &a : NULL, *const to = has ? &index : NULL, *const out = has ? &first : NULL;
    CvlRankSegments *segments = NULL;
    CvlRoute *route = NULL;
    const CvlLengths pieces = {has ? &length : NULL, n};
    check("a scan of few", is(cvl_add_suz_mpi(ranks, own, out, n), CVL_DONE, -1) && (!has || first == rank * (rank - 1) / 2));
    check("a sum of few", is(cvl_tot_ruz_mpi(ranks, own, n, &count), CVL_DONE, -1) && count == few * (few - 1) / 2);
    check("a permute of few", is(cvl_smp_puz_mpi(ranks, own, to, out, n), CVL_DONE, -1) && (!has || first == last));
    check("a sort of few", is(cvl_sort_mpi(ranks, to, n, out, n), CVL_DONE, -1) && (!has || first == rank));
    check("an order of few", is(cvl_order_mpi(ranks, to, n, out, n), CVL_DONE, -1) && (!has || first == last));
    check(
        "a transpose of few",
        is(cvl_transpose_int_mpi(ranks, own, n, (size_t)few, 1, out, n), CVL_DONE, -1) && (!has || first == rank));
    check("a spread of few", is(cvl_spread_ints(ranks, own, n, out, n), CVL_DONE, -1) && (!has || first == rank));
    check("a route of few", is(cvl_route_new(ranks, to, n, n, &route), CVL_DONE, -1));
    check("back by it", is(cvl_route_back_int(route, own, n, out, n), CVL_DONE, -1) && (!has || first == last));
    check(
        "segments of few",
        is(cvl_rank_segments_new(ranks, pieces, 0, &segments), CVL_DONE, -1) && cvl_rank_segments_all(segments) == (uint64_t)few);
    check("their sums", is(cvl_add_rez_mpi(ranks, own, n, segments, out), CVL_DONE, -1) && (!has || first == rank));
    cvl_route_free(route), cvl_rank_segments_free(segments);
}

/* The text of so few elements, read by ranks of which the last one has all of it, and the others none. */
static void try_text_of_few(int few) {
    char text[64] = "";
    int32_t a = rank, back[MOST];
    size_t length = 0, count = 9;
    check(
        "a text of few",
        is(cvl_write_ints_mpi(ranks, rank < few ? &a : NULL, rank < few, text, sizeof text, &length), CVL_DONE, -1));
    check("brackets alone", few > 0 || length == (size_t)(rank == 0) + (size_t)(rank == size - 1));
    length = 0;
    for (int k = 0; k < few && rank == size - 1; k++) length += (size_t)sprintf(text + length, "%d ", k);
    check(
        "read by one",
        is(cvl_read_ints_mpi(ranks, length > 0 ? text : NULL, length, length > 0 ? back : NULL, length > 0 ? MOST : 0, &count),
           CVL_DONE, -1));
    check("as many as there are", count == (rank == size - 1 ? (size_t)few : 0));
    for (size_t k = 0; k < count; k++) check("each of them", back[k] == (int32_t)k);
}

void try_few(void) {
    for (int few = 0; few < 3 && few <= size; few++) try_few_elements(few), try_text_of_few(few);
}
