/*
 * Vectors that are longer than what calls over ranks work on at once: sums that overflow behind a block, indices far apart in windows of
 * 2^18 places, and counts that an exchange cannot hold.
 */
#include "ranks.h"
#include "test.h"

/* ---- sums in blocks of 4,096 elements ---- */

/* Each rank has so many; each element is 1 but one, up to which they add up to 2^31 - 1. */
static void try_overflow(int in_rank, size_t at) {
    enum { EACH = 10000 };
    int32_t *const a = malloc(EACH * sizeof *a), *const out = malloc(EACH * sizeof *out);
    check("memory for blocks", a != NULL && out != NULL);
    if (any_rank(a == NULL || out == NULL)) return;
    const int64_t place = (int64_t)in_rank * EACH + (int64_t)at;
    for (size_t k = 0; k < EACH; k++) a[k] = 1, out[k] = 9;
    if (rank == in_rank) a[at] = (int32_t)(INT32_MAX - place);
    check(
        "sums up to 32 bits",
        is(cvl_tot_suz_mpi(
               ranks, a, out,
               rank < in_rank        ? EACH
                   : rank == in_rank ? at + 2
                                     : 0),
           CVL_DONE, -1));
    check("the last of them", rank != in_rank || (out[at] == (int32_t)place && out[at + 1] == INT32_MAX));
    memset(out, 0, EACH * sizeof *out);
    /* a place of a scan has the sum of what stands before it */
    check("the first sum that overflows", is(cvl_tot_suz_mpi(ranks, a, out, EACH), CVL_OVERFLOW, place + 2));
    for (size_t k = 0; k < EACH; k++) check("no sum is written", out[k] == 0);
    free(a), free(out);
}

static void try_overflows(void) {
    static const size_t places[] = {10, 4095, 4096, 4097, 8191, 9997};
    for (size_t k = 0; k < sizeof places / sizeof *places; k++) try_overflow(0, places[k]), try_overflow(size - 1, places[k]);
}

/* ---- indices that lie far apart ---- */

static int32_t far_place(int64_t k, int64_t total) { return (int32_t)(((uint64_t)k * 40503 * 65537 + 11) % (uint64_t)total); }

/* A few indices into windows of 2^18 places, some of them named twice, by a call and by a route. */
static void try_far_places(void) {
    enum { EACH = 1 << 18, FEW = 100 };
    int32_t *const a = malloc(EACH * sizeof *a), index[FEW], out[FEW];
    bool *const flags = malloc(EACH), flags_out[FEW];
    CvlRoute *route = NULL;
    check("memory for far places", a != NULL && flags != NULL);
    if (any_rank(a == NULL || flags == NULL)) return;
    for (int32_t k = 0; k < EACH; k++) a[k] = rank * EACH + k, ((unsigned char *)flags)[k] = k % 3 == 0 ? 4 : 0;
    for (int64_t k = 0; k < FEW; k++) index[k] = far_place(k / 2 + rank, (int64_t)size * EACH);
    check(
        "far elements",
        is(cvl_bck_puz_mpi(ranks, a, EACH, index, out, FEW), CVL_DONE, -1) && memcmp(index, out, sizeof out) == 0);
    check("far flags", is(cvl_bck_pub_mpi(ranks, flags, EACH, index, flags_out, FEW), CVL_DONE, -1));
    for (int k = 0; k < FEW; k++) check("the flag of its place", ((unsigned char *)flags_out)[k] == (index[k] % EACH % 3 == 0));
    check("a far route", is(cvl_route_new(ranks, index, FEW, EACH, &route), CVL_DONE, -1));
    memset(out, 0, sizeof out);
    check(
        "far elements by it",
        is(cvl_route_back_int(route, a, EACH, out, FEW), CVL_DONE, -1) && memcmp(index, out, sizeof out) == 0);
    cvl_route_free(route);
    free(a), free(flags);
}

/* ---- what an exchange holds ---- */

/* Each rank gets so many from the first one, and so many from the last one; 100 on a rank that sends or gets more than 2^31 - 1. */
static void try_exchange(int from_first, int from_last, int is_held) {
    CvlCall c = {.ranks = ranks, .status = cvl_done()};
    uint64_t all = 0;
    for (int r = 0; r < size; r++) ranks->sends[r] = (rank == 0 ? from_first : 0) + (rank == size - 1 ? from_last : 0);
    const size_t received = cvl_exchange_counts(&c);
    for (int r = 0; r < size; r++) all += (uint64_t)ranks->receives[r];
    check("what a rank gets is told", all == (uint64_t)from_first + (uint64_t)from_last);
    check("as many as an exchange holds", !is_held || (is(c.status, CVL_DONE, -1) && received == all));
    check("more than that", is_held || (is(c.status, CVL_NO_RESOURCES, -1) && received == 0));
}

static void try_exchanges(void) {
    const int most = INT32_MAX / size;
    try_exchange(most - 1, 1, 1);
    if (size < 2) return;
    /* the first rank sends too many, or each gets too many */
    try_exchange(most + 1, 0, rank > 0);
    try_exchange(INT32_MAX, 1, 0);
}

void try_long_vectors(void) {
    try_overflows();
    try_far_places();
    try_exchanges();
}
