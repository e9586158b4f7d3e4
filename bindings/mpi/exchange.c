/* Which rank has a place, and the elements that ranks send one another. */
#include "ranks.h"
#include "shares.h"

uint64_t cvl_offsets(CvlRanks *ranks, uint64_t number) {
    MPI_Allgather(&number, 1, MPI_UINT64_T, ranks->offsets + 1, 1, MPI_UINT64_T, ranks->comm);
    ranks->offsets[0] = 0;
    for (int r = 0; r < ranks->size; r++) ranks->offsets[r + 1] += ranks->offsets[r];
    return ranks->offsets[ranks->size];
}

int cvl_owner(const CvlRanks *ranks, uint64_t place) { return cvl_owner_of(ranks->offsets, ranks->size, place); }

/* Whether counts add up to what an exchange can hold: its places have 32 bits. */
static bool is_held(const int *counts, int size) {
    uint64_t all = 0;
    for (int r = 0; r < size; r++) all += (uint64_t)counts[r];
    return all <= INT32_MAX;
}

size_t cvl_exchange_counts(CvlCall *c) {
    CvlRanks *const ranks = c->ranks;
    MPI_Alltoall(ranks->sends, 1, MPI_INT, ranks->receives, 1, MPI_INT, ranks->comm);
    if (!is_held(ranks->sends, ranks->size) || !is_held(ranks->receives, ranks->size)) {
        cvl_say(c, cvl_status(CVL_NO_RESOURCES, -1));
        return 0;
    }
    cvl_lay_out(ranks->sends, ranks->send_from, ranks->size);
    return cvl_lay_out(ranks->receives, ranks->receive_from, ranks->size);
}

static MPI_Datatype type_of(size_t size) { return size == sizeof(bool) ? MPI_UINT8_T : MPI_INT32_T; }

void cvl_send(CvlRanks *ranks, const void *from, void *to, size_t size) {
    const MPI_Datatype type = type_of(size);
    MPI_Alltoallv(from, ranks->sends, ranks->send_from, type, to, ranks->receives, ranks->receive_from, type, ranks->comm);
}

void cvl_send_back(CvlRanks *ranks, const void *from, void *to, size_t size) {
    const MPI_Datatype type = type_of(size);
    MPI_Alltoallv(from, ranks->receives, ranks->receive_from, type, to, ranks->sends, ranks->send_from, type, ranks->comm);
}

/* ---- vectors that are spread otherwise ---- */

/* How many elements of the own range each rank has in its range. */
static void shares(const CvlRanks *ranks, const uint64_t *offsets, uint64_t from, uint64_t to, int *counts) {
    for (int r = 0; r < ranks->size; r++) counts[r] = (int)cvl_common(from, to, offsets[r], offsets[r + 1]);
}

bool cvl_send_spread(CvlRanks *ranks, const void *a, size_t a_len, void *out, size_t out_len, size_t size) {
    const uint64_t to_from = (uint64_t)cvl_before(ranks, cvl_fold(CVL_JOIN_COUNTS, 0, 0, (int64_t)out_len, 0)).low;
    const uint64_t total = cvl_offsets(ranks, a_len), from = ranks->offsets[ranks->rank];
    shares(ranks, ranks->offsets, to_from, to_from + out_len, ranks->receives);
    if (cvl_offsets(ranks, out_len) != total) return 0;
    shares(ranks, ranks->offsets, from, from + a_len, ranks->sends);
    cvl_lay_out(ranks->sends, ranks->send_from, ranks->size);
    cvl_lay_out(ranks->receives, ranks->receive_from, ranks->size);
    cvl_send(ranks, a, out, size);
    return 1;
}

static CvlStatus spread(CvlRanks *ranks, const void *a, size_t a_len, void *out, size_t out_len, size_t size) {
    CvlStatus status = cvl_done();
    bool short_room = 0;
    uint64_t total;
    if (!cvl_are_ranks(ranks)) return cvl_status(CVL_NO_DESCRIPTOR, -1);
    if (cvl_meet(a, a_len, size, out, out_len, size)) status = cvl_overlap();
    else if (a_len > CVL_MOST_ELEMENTS || out_len > CVL_MOST_ELEMENTS) status = cvl_status(CVL_TOO_LONG, -1);
    status = cvl_agreed(ranks, status, CVL_CALL_SPREAD + (uint32_t)size, a_len, UINT64_MAX, &short_room, &total);
    if (status.number != CVL_DONE) return status;
    return cvl_send_spread(ranks, a, a_len, out, out_len, size) ? status : cvl_status(CVL_LENGTH_MISMATCH, -1);
}

CvlStatus cvl_spread_ints(CvlRanks *ranks, const int32_t *a, size_t a_len, int32_t *out, size_t out_len) {
    return spread(ranks, a, a_len, out, out_len, sizeof *a);
}

/* Bytes are sent as they are, and made 0 and 1 where they arrive. */
CvlStatus cvl_spread_bools(CvlRanks *ranks, const bool *a, size_t a_len, bool *out, size_t out_len) {
    const CvlStatus status = spread(ranks, a, a_len, out, out_len, sizeof *a);
    if (status.number == CVL_DONE) cvl_make_flags(out, out_len);
    return status;
}

CvlStatus cvl_even_share(CvlRanks *ranks, uint64_t total, uint64_t *from, size_t *count) {
    if (!cvl_are_ranks(ranks)) return cvl_status(CVL_NO_DESCRIPTOR, -1);
    const uint64_t size = (uint64_t)ranks->size, rank = (uint64_t)ranks->rank;
    *from = cvl_even_start(total, size, rank);
    *count = (size_t)(cvl_even_start(total, size, rank + 1) - *from);
    return cvl_done();
}

CvlStatus cvl_share(CvlRanks *ranks, size_t count, uint64_t *from, uint64_t *total) {
    if (!cvl_are_ranks(ranks)) return cvl_status(CVL_NO_DESCRIPTOR, -1);
    if (!cvl_is_one_call(ranks, CVL_CALL_SHARE)) return cvl_status(CVL_UNKNOWN_CALL, -1);
    *total = cvl_offsets(ranks, count);
    *from = ranks->offsets[ranks->rank];
    return cvl_done();
}
