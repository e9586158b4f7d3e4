/* What ranks join: reduces, sums and counts of their parts, and the first of their faults. */
#include "joins.h"
#include "ranks.h"

CvlFold cvl_fold(CvlJoin join, uint32_t op, int64_t high, int64_t low, bool starts) {
    const CvlFold fold = {high, low, (uint32_t)join, op, starts, 0};
    return fold;
}

/* ---- two values ---- */

static CvlStatus join_ints(uint32_t op, const int32_t *numbers, size_t count, int64_t *joined) {
    int32_t number = 0;
    const CvlStatus status = cvl_int_reduce(op, numbers, count, &number);
    *joined = number;
    return status;
}

static CvlStatus join_bools(uint32_t op, const bool *flags, size_t count, int64_t *joined) {
    bool flag = 0;
    const CvlStatus status = cvl_bool_reduce(op, flags, count, &flag);
    *joined = flag;
    return status;
}

/* Joins the numbers of two folds. */
static void join_pairs(CvlPair join(CvlPair, CvlPair), CvlFold first, CvlFold second, CvlFold *joined) {
    const CvlPair before = {first.high, first.low}, behind = {second.high, second.low}, both = join(before, behind);
    joined->high = both.high, joined->low = both.low;
}

/* Where an automaton of at most eight states ends that begins in each of them, a byte a state. */
static int64_t joined_states(uint64_t first, uint64_t second) {
    uint64_t joined = 0;
    for (unsigned state = 0; state < 8; state++) joined |= (second >> 8 * (first >> 8 * state & 7) & 0xff) << 8 * state;
    return (int64_t)joined;
}

/* Joins two values, without looking whether a segment starts in one. An operator that is none of the family joins nothing. */
static CvlFold joined_values(CvlFold first, CvlFold second) {
    CvlFold joined = first;
    CvlStatus status = cvl_done();
    const int32_t numbers[2] = {(int32_t)first.low, (int32_t)second.low};
    const bool flags[2] = {first.low != 0, second.low != 0};
    switch ((CvlJoin)first.join) {
    case CVL_JOIN_INTS: status = join_ints(first.op, numbers, 2, &joined.low); break;
    case CVL_JOIN_BOOLS: status = join_bools(first.op, flags, 2, &joined.low); break;
    case CVL_JOIN_EXACT: join_pairs(cvl_added_exactly, first, second, &joined); break;
    case CVL_JOIN_WIDE: join_pairs(cvl_added_wide, first, second, &joined); break;
    case CVL_JOIN_COUNTS: joined.high += second.high, joined.low += second.low; break;
    case CVL_JOIN_PLACES: join_pairs(cvl_first_place, first, second, &joined); break;
    case CVL_JOIN_STATES: joined.low = joined_states((uint64_t)first.low, (uint64_t)second.low); break;
    case CVL_JOIN_FIRST: break;
    }
    return status.number == CVL_DONE ? joined : first;
}

CvlFold cvl_joined(CvlFold first, CvlFold second) { return joined_values(first, second); }

CvlFold cvl_nothing(CvlJoin join, uint32_t op) {
    CvlFold fold = cvl_fold(join, op, 0, 0, 0);
    CvlStatus status = cvl_done();
    if (join == CVL_JOIN_INTS) status = join_ints(op, NULL, 0, &fold.low);
    if (join == CVL_JOIN_BOOLS) status = join_bools(op, NULL, 0, &fold.low);
    if (join == CVL_JOIN_PLACES) fold.low = -1;
    if (join == CVL_JOIN_STATES) fold.low = INT64_C(0x0706050403020100);
    if (status.number != CVL_DONE) fold.low = 0;
    return fold;
}

/* ---- the functions of MPI's operators, whose first argument is the ranks before ---- */

/* What stands before a place: since the last start. */
void cvl_fold_before(void *in, void *inout, int *count, MPI_Datatype *type) {
    const CvlFold *const first = in;
    CvlFold *const second = inout;
    (void)type;
    for (int k = 0; k < *count; k++) {
        if (second[k].starts) continue;
        second[k] = joined_values(first[k], second[k]);
        second[k].starts = first[k].starts;
    }
}

/* What stands behind a place: up to the next start. The ranks come from the last to the first. */
void cvl_fold_after(void *in, void *inout, int *count, MPI_Datatype *type) {
    const CvlFold *const behind = in;
    CvlFold *const mine = inout;
    (void)type;
    for (int k = 0; k < *count; k++) {
        if (mine[k].starts) continue;
        mine[k] = joined_values(mine[k], behind[k]);
        mine[k].starts = behind[k].starts;
    }
}

CvlFold cvl_before(CvlRanks *ranks, CvlFold mine) {
    CvlFold before = cvl_nothing((CvlJoin)mine.join, mine.op), found = before;
    MPI_Exscan(&mine, &found, 1, ranks->fold, ranks->before, ranks->comm);
    return ranks->rank == 0 ? before : found;
}

CvlFold cvl_after(CvlRanks *ranks, CvlFold mine) {
    CvlFold after = cvl_nothing((CvlJoin)mine.join, mine.op), found = after;
    MPI_Exscan(&mine, &found, 1, ranks->fold, ranks->after, ranks->back);
    return ranks->rank == ranks->size - 1 ? after : found;
}

CvlFold cvl_all(CvlRanks *ranks, CvlFold mine) {
    CvlFold all = mine;
    mine.starts = 0;
    MPI_Allreduce(&mine, &all, 1, ranks->fold, ranks->before, ranks->comm);
    return all;
}
