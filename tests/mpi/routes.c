/* routes.c: routes beside the calls without them, and products by them. */
#include "test.h"

/* A permute of the whole: place p goes to (p * step + 1) % total. */
static int32_t goes_to(int64_t p, int64_t total, int64_t step) { return (int32_t)((p * step + 1) % total); }

static int64_t step_for(int64_t total) {
    for (int64_t step = 5; step > 1; step--) {
        if (total % step != 0) return step;
    }
    return 1;
}

static void try_route_both_ways(const int32_t *index, size_t n) {
    int32_t a[MOST], by_route[MOST], plain[MOST];
    bool flags[MOST], by_route_flags[MOST], plain_flags[MOST];
    CvlRoute *route = NULL;
    fill(a);
    /* a flag is a byte, and true if it is not 0 */
    for (size_t k = 0; k < n; k++) ((unsigned char *)flags)[k] = a[k] > 3 ? (unsigned char)(2 + k) : 0;
    check("a route", is(cvl_route_new(ranks, index, n, n, &route), CVL_DONE, -1));
    for (int times = 0; times < 2; times++) {
        check(
            "back",
            is(cvl_route_back_int(route, a, n, by_route, n), CVL_DONE, -1) &&
                is(cvl_bck_puz_mpi(ranks, a, n, index, plain, n), CVL_DONE, -1));
        check("as without a route", memcmp(by_route, plain, n * sizeof *plain) == 0);
        check(
            "permute",
            is(cvl_route_permute_int(route, a, n, by_route, n), CVL_DONE, -1) &&
                is(cvl_smp_puz_mpi(ranks, a, index, plain, n), CVL_DONE, -1));
        check("as without one", memcmp(by_route, plain, n * sizeof *plain) == 0);
        check(
            "booleans back",
            is(cvl_route_back_bool(route, flags, n, by_route_flags, n), CVL_DONE, -1) &&
                is(cvl_bck_pub_mpi(ranks, flags, n, index, plain_flags, n), CVL_DONE, -1) &&
                memcmp(by_route_flags, plain_flags, n) == 0);
        check(
            "booleans",
            is(cvl_route_permute_bool(route, flags, n, by_route_flags, n), CVL_DONE, -1) &&
                is(cvl_smp_pub_mpi(ranks, flags, index, plain_flags, n), CVL_DONE, -1) &&
                memcmp(by_route_flags, plain_flags, n) == 0);
    }
    check("back again", is(cvl_route_back_int(route, a, n, by_route, n), CVL_DONE, -1));
    for (size_t k = 0; k < n; k++) check("the element asked for", by_route[k] == of_place(index[k]));
    memset(by_route, 0, sizeof by_route);
    check(
        "one rank's array is too short",
        is(cvl_route_back_int(route, a, rank == 0 ? n - 1 : n, by_route, n), CVL_LENGTH_MISMATCH, -1));
    check(
        "one rank's arrays overlap", is(cvl_route_permute_int(route, a, n, rank == size - 1 ? a : by_route, n), CVL_OVERLAP, -1));
    check("then nothing is written", is_filled(by_route, n, 0) && a[0] == of_place(own_from(rank)));
    cvl_route_free(route);
}

/* A repeated index, and one that is no place. */
static void try_bad_routes(int32_t *index, int64_t total, size_t n) {
    int32_t a[MOST], out[MOST] = {0};
    CvlRoute *route = NULL;
    const int64_t last = total - 1, from = own_from(rank);
    const int has_last = last >= from && last < from + (int64_t)n;
    if (total < 2) return;
    fill(a);
    const int32_t kept = index[n - 1];
    if (has_last) index[n - 1] = goes_to(0, total, step_for(total));
    check("a route of a repeated index", is(cvl_route_new(ranks, index, n, n, &route), CVL_DONE, -1));
    check("no permute", is(cvl_route_permute_int(route, a, n, out, n), CVL_INDEX_REPEATED, last) && is_filled(out, n, 0));
    check("but back", is(cvl_route_back_int(route, a, n, out, n), CVL_DONE, -1));
    cvl_route_free(route);
    if (has_last) index[n - 1] = kept;
    /* a rank that asks for an element twice asks its owner once */
    const int twice = size > 1 ? 1 : 0;
    int32_t *const second = rank == twice && n > 1 ? &index[1] : NULL, other = second == NULL ? 0 : *second;
    if (second != NULL) *second = index[0];
    memset(out, 0, sizeof out);
    if (any_rank(second != NULL)) {
        check("a route of an index repeated in one rank", is(cvl_route_new(ranks, index, n, n, &route), CVL_DONE, -1));
        check(
            "no permute by it",
            is(cvl_route_permute_int(route, a, n, out, n), CVL_INDEX_REPEATED, own_from(twice) + 1) && is_filled(out, n, 0));
        cvl_route_free(route);
    }
    if (second != NULL) *second = other;
    if (has_last) index[n - 1] = (int32_t)total;
    check(
        "no route of an index out of range",
        is(cvl_route_new(ranks, index, n, n, &route), CVL_INDEX_OUT_OF_RANGE, last) && route == NULL);
    if (has_last) index[n - 1] = kept;
}

/* Sources whose places an index cannot name: of 2^30 booleans in each rank, none of which is read. */
static void try_long_sources(const int32_t *index, size_t n) {
    const size_t each = (size_t)1 << 30;
    const bool *const source = malloc(each);
    bool out[MOST] = {0};
    CvlRoute *route = NULL;
    if (size < 2 || any_rank(source == NULL)) {
        free((void *)source);
        return;
    }
    check(
        "back from a whole that is too long",
        is(cvl_bck_pub_mpi(ranks, source, each, index, out, n), CVL_TOO_LONG, -1) && !out[0]);
    check("no route to it", is(cvl_route_new(ranks, index, n, each, &route), CVL_TOO_LONG, -1) && route == NULL);
    free((void *)source);
}

/* Each rank has one row of two entries and the beginning of one that goes on in the next rank. */
static void try_products(int64_t total, size_t n) {
    const int32_t pieces[] = {1, 2, 1};
    const int first = rank == 0;
    const CvlLengths lengths = {first ? pieces + 1 : pieces, first ? 2 : 3};
    const size_t entries = first ? 3 : 4;
    int32_t columns[4], values[4], x[MOST], plain[2], by_route[2];
    CvlRankSegments *rows = NULL;
    CvlRoute *route = NULL;
    for (size_t k = 0; k < entries; k++)
        columns[k] = (int32_t)((rank * 3 + (int)k * 2) % total), values[k] = (int32_t)k + rank - 2;
    fill(x);
    check("rows", is(cvl_rank_segments_new(ranks, lengths, !first, &rows), CVL_DONE, -1));
    check("a route of columns", is(cvl_route_new(ranks, columns, entries, n, &route), CVL_DONE, -1));
    check("a product", is(cvl_sparse_product_mpi(ranks, rows, columns, entries, values, entries, x, n, plain, 2), CVL_DONE, -1));
    check("by a route", is(cvl_route_sparse_product(route, rows, values, entries, x, n, by_route, 2), CVL_DONE, -1));
    check("the same product", memcmp(plain, by_route, sizeof plain) == 0);
    check(
        "checked",
        is(cvl_route_checked_sparse_product(route, rows, values, entries, x, n, by_route, 2), CVL_DONE, -1) &&
            memcmp(plain, by_route, sizeof plain) == 0);
    int32_t whole = values[first ? 0 : 1] * of_place(columns[first ? 0 : 1]) +
        values[first ? 1 : 2] * of_place(columns[first ? 1 : 2]);
    check("a whole row", plain[0] == whole);
    by_route[0] = by_route[1] = 9;
    check(
        "no rows",
        is(cvl_route_sparse_product(route, rank == 0 ? NULL : rows, values, entries, x, n, by_route, 2), CVL_NO_DESCRIPTOR, -1));
    check(
        "a room that is too short",
        is(cvl_route_sparse_product(route, rows, values, entries, x, n, by_route, rank == 0 ? 1 : 2), CVL_LENGTH_MISMATCH, -1));
    check("the room as before", is_filled(by_route, 2, 9));
    cvl_route_free(route), cvl_rank_segments_free(rows);
}

void try_routes(void) {
    int32_t index[MOST];
    const size_t n = own_count(rank);
    const int64_t total = own_from(size), step = step_for(total);
    for (size_t k = 0; k < n; k++) index[k] = goes_to(own_from(rank) + (int64_t)k, total, step);
    try_route_both_ways(index, n);
    try_bad_routes(index, total, n);
    try_long_sources(index, n);
    try_products(total, n);
}
