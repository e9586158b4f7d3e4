/*
 * Combining permutes and counts of whole vectors over ranks. If there are few places, each rank combines its own elements into all of them,
 * and what the ranks have of a place is combined by the rank that has it. Else elements go to the ranks of their places.
 */
#include "permutes.h"

/* Whether there are no more places than a rank has indices, on average: then ranks send one another less than by their elements. */
static bool are_few(const CvlCall *c, uint64_t places) { return places <= c->total / (uint64_t)c->ranks->size; }

/* ---- a rank's own elements, into all places ---- */

/* What a rank has of a place, which has 64 bits if it adds up. */
static size_t own_size(const CvlCall *c) { return cvl_adds_up(c) ? sizeof(int64_t) : cvl_room_size(c); }

/* What changes nothing that it is combined with, at all places. */
static CvlStatus fill_with_units(const CvlCall *c, void *own, size_t places) {
    int32_t number = 0;
    bool flag = 0;
    CvlStatus status = cvl_done();
    memset(own, 0, places * own_size(c));
    if (!(c->family->row.operators)) return status;
    if (cvl_has_bools(c)) {
        status = cvl_bool_reduce(c->op, NULL, 0, &flag);
        return status.number == CVL_DONE ? cvl_dis_vub(flag, (int64_t)places, own) : status;
    }
    status = cvl_int_reduce(c->op, NULL, 0, &number);
    return status.number == CVL_DONE ? cvl_dis_vuz(number, (int64_t)places, own) : status;
}

static CvlStatus combine_own(const CvlCall *c, void *own, size_t places) {
    const CvlStatus status = fill_with_units(c, own, places);
    return status.number == CVL_DONE ? cvl_combine_plainly(c, c->in[CVL_AS_A], c->in[CVL_AS_INDEX], own, places, cvl_adds_up(c))
                                     : status;
}

/* ---- what the ranks have of a place ---- */

static MPI_Datatype type_of(const CvlCall *c) {
    if (cvl_adds_up(c)) return MPI_INT64_T;
    if (cvl_has_bools(c)) return MPI_UINT8_T;
    return c->op == CVL_MIN || c->op == CVL_MAX ? MPI_INT32_T : MPI_UINT32_T;
}

/* Sums and products wrap, as those of unsigned numbers do. */
static MPI_Op op_of(const CvlCall *c) {
    switch (c->op) {
    case CVL_MUL: return MPI_PROD;
    case CVL_MIN: return MPI_MIN;
    case CVL_MAX: return MPI_MAX;
    case CVL_AND: return MPI_BAND;
    case CVL_IOR: return MPI_BOR;
    case CVL_XOR: return MPI_BXOR;
    default: return MPI_SUM;
    }
}

/* Combines what all ranks have, of each place in the rank that has it. */
static void combine_ranks(const CvlCall *c, const void *own, void *all) {
    CvlRanks *const ranks = c->ranks;
    for (int r = 0; r < ranks->size; r++) ranks->receives[r] = (int)(ranks->offsets[r + 1] - ranks->offsets[r]);
    MPI_Reduce_scatter(own, all, ranks->receives, type_of(c), op_of(c), ranks->comm);
}

/* ---- what stands in the room ---- */

static CvlStatus add_to_sums(const int64_t *room, const int64_t *all, int64_t *out, size_t n) {
    for (size_t k = 0; k < n; k++) out[k] = room[k] + all[k];
    return cvl_done();
}

static CvlStatus add_to_ints(const int32_t *room, const int64_t *all, int32_t *out, size_t n) {
    for (size_t k = 0; k < n; k++) {
        const int64_t sum = room[k] + all[k];
        if (sum < INT32_MIN || sum > INT32_MAX) return cvl_status(CVL_OVERFLOW, (int64_t)k);
        out[k] = (int32_t)sum;
    }
    return cvl_done();
}

/* Combines what the rank's room holds with what all ranks have of its places, aside. */
static CvlStatus combine_with_room(const CvlCall *c, const void *all) {
    const CvlSlot out = c->in[CVL_AS_OUT];
    const size_t n = out.number;
    if (cvl_has_sums(c)) return add_to_sums(out.at, all, c->aside, n);
    if (cvl_adds_up(c)) return add_to_ints(out.at, all, c->aside, n);
    if (n > 0) memcpy(c->aside, cvl_has(c, CVL_AS_A) ? out.at : all, n * cvl_room_size(c));
    if (!cvl_has(c, CVL_AS_A)) return cvl_done();
    if (!cvl_has_bools(c)) return cvl_int2(c->op, c->aside, n, all, n, c->aside, n);
    cvl_make_flags(c->aside, n);
    return cvl_bool2(c->op, c->aside, n, all, n, c->aside, n);
}

/* ---- the call ---- */

/* Once each rank has memory, and the sums in its room may grow. */
static void combine_few(CvlCall *c, void *own, void *all, size_t places) {
    const size_t n = c->in[CVL_AS_INDEX].number, room = c->in[CVL_AS_OUT].number;
    if (!cvl_agree(c, n) || !cvl_may_grow(c)) return;
    cvl_say(c, combine_own(c, own, places));
    if (!cvl_agree(c, n)) return;
    combine_ranks(c, own, all);
    cvl_say(c, combine_with_room(c, all));
    if (cvl_agree(c, room)) cvl_move_in(c);
}

CvlStatus cvl_combine_whole_over_ranks(CvlCall *c) {
    const size_t n = c->in[CVL_AS_INDEX].number, room = c->in[CVL_AS_OUT].number;
    const uint64_t places = cvl_offsets(c->ranks, room);
    if (places > CVL_MOST_ELEMENTS) cvl_say(c, cvl_status(CVL_TOO_LONG, -1));
    if (!cvl_agree(c, n)) return c->status;
    if (!are_few(c, places)) return cvl_combine_over_ranks(c);
    cvl_clean(c);
    cvl_set_aside(c);
    void *const own = c->status.number == CVL_DONE ? cvl_take(c, places, own_size(c)) : NULL;
    void *const all = c->status.number == CVL_DONE ? cvl_take(c, room, own_size(c)) : NULL;
    combine_few(c, own, all, places);
    free(own), free(all);
    return c->status;
}
