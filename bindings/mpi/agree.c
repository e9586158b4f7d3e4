/*
 * How ranks agree on one status, by one collective of 16 bytes. Each rank sends how many elements it has, which call it makes, and its
 * first fault with its place and its turn: the order in which the plain call looks for faults. If two neighbours have faults, the one of
 * the earlier turn is kept, of the same turn that of the rank before, with its place counted from the start of both.
 */
#include "joins.h"
#include "ranks.h"

/* The turn of a fault, in the order in which a call looks for them. */
typedef enum CvlTurn {
    CVL_TURN_DESCRIPTOR,
    CVL_TURN_OVERLAP,
    CVL_TURN_UNKNOWN,
    CVL_TURN_LENGTHS,
    CVL_TURN_LONG,
    CVL_TURN_MISMATCH,
    CVL_TURN_ROOM,
    CVL_TURN_MEMORY,
    CVL_TURN_ELEMENTS,
    CVL_TURN_NONE
} CvlTurn;

static CvlTurn turn_of(CvlStatus status, bool short_room) {
    switch (status.number) {
    case CVL_DONE: return CVL_TURN_NONE;
    case CVL_NO_DESCRIPTOR: return CVL_TURN_DESCRIPTOR;
    case CVL_OVERLAP: return CVL_TURN_OVERLAP;
    case CVL_UNKNOWN_CALL: return CVL_TURN_UNKNOWN;
    case CVL_NEGATIVE_LENGTH: return CVL_TURN_LENGTHS;
    case CVL_TOO_LONG: return CVL_TURN_LONG;
    case CVL_LENGTH_MISMATCH: return short_room ? CVL_TURN_ROOM : CVL_TURN_MISMATCH;
    case CVL_NO_RESOURCES: return CVL_TURN_MEMORY;
    default: return CVL_TURN_ELEMENTS;
    }
}

static CvlVote vote_of(CvlStatus status, bool short_room, uint32_t call, uint64_t number) {
    const uint64_t place = status.place < 0 ? CVL_NO_PLACE : (uint64_t)status.place, turn = (uint64_t)turn_of(status, short_room);
    const CvlVote vote = {number * CVL_VOTE_CALLS + call, turn * CVL_VOTE_TURNS + status.number * CVL_VOTE_PLACES + place};
    return vote;
}

void cvl_fold_votes(void *in, void *inout, int *count, MPI_Datatype *type) {
    const CvlVote *const first = in;
    CvlVote *const second = inout;
    (void)type;
    for (int k = 0; k < *count; k++) second[k] = cvl_joined_votes(first[k], second[k]);
}

CvlStatus cvl_agreed(
    CvlRanks *ranks, CvlStatus status, uint32_t call, uint64_t number, uint64_t most, bool *short_room, uint64_t *total) {
    const CvlVote mine = vote_of(status, *short_room, call, number);
    CvlVote all;
    MPI_Allreduce(&mine, &all, 1, ranks->vote, ranks->agree, ranks->comm);
    const CvlTurn turn = (CvlTurn)(all.fault / CVL_VOTE_TURNS);
    const uint64_t place = all.fault % CVL_VOTE_PLACES;
    *short_room = turn == CVL_TURN_ROOM;
    *total = all.elements / CVL_VOTE_CALLS;
    if (all.elements % CVL_VOTE_CALLS == CVL_OTHER_CALL && turn > CVL_TURN_UNKNOWN) return cvl_status(CVL_UNKNOWN_CALL, -1);
    if (*total > most && turn > CVL_TURN_LONG) return cvl_status(CVL_TOO_LONG, -1);
    if (turn == CVL_TURN_NONE) return cvl_done();
    return cvl_status((uint32_t)(all.fault % CVL_VOTE_TURNS / CVL_VOTE_PLACES), place == CVL_NO_PLACE ? -1 : (int64_t)place);
}

/* The call and its operator, as 16 bits. */
static uint32_t call_of(const CvlCall *c) { return (uint32_t)c->family->call << 8 | (c->op & 0xff); }

bool cvl_agree(CvlCall *c, uint64_t number) {
    const uint64_t most = c->family->named ? CVL_MOST_ELEMENTS : UINT64_MAX;
    c->status = cvl_agreed(c->ranks, c->status, call_of(c), number, most, &c->short_room, &c->total);
    return c->status.number == CVL_DONE;
}

bool cvl_agree_on_numbers(CvlCall *c) {
    const CvlAs kinds[] = {CVL_AS_VALUE, CVL_AS_STRIDE, CVL_AS_PLACE};
    int64_t mine[6], all[6];
    for (size_t k = 0; k < 3; k++) {
        const int64_t number = (int64_t)c->in[kinds[k]].number;
        mine[2 * k] = number, mine[2 * k + 1] = -1 - number;
    }
    MPI_Allreduce(mine, all, 6, MPI_INT64_T, MPI_MAX, c->ranks->comm);
    for (size_t k = 0; k < 3; k++) {
        if (all[2 * k] != -1 - all[2 * k + 1]) cvl_say(c, cvl_status(CVL_UNKNOWN_CALL, -1));
    }
    return c->status.number == CVL_DONE;
}
