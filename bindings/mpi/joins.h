/*
 * joins.h: how what two ranks have found is joined: the votes by which ranks agree on a status, and sums, counts and places of a fold. It is
 * arithmetic of calls over ranks, without MPI.
 */
#ifndef CVL_MPI_JOINS_H
#define CVL_MPI_JOINS_H

#include "shares.h"

/* ---- votes ---- */

/*
 * How many elements some ranks have, the call that they make, and the first of their faults. `elements` has 48 bits of elements and 16 of the
 * call; `fault` 8 of the fault's turn, the order in which the plain call looks for faults, 8 of its number and 48 of its place, or all of these
 * set if it has none.
 */
typedef struct CvlVote {
    uint64_t elements, fault;
} CvlVote;

#define CVL_VOTE_CALLS UINT64_C(0x10000)
#define CVL_OTHER_CALL UINT64_C(0xffff)
#define CVL_VOTE_PLACES UINT64_C(0x1000000000000)
#define CVL_NO_PLACE (CVL_VOTE_PLACES - 1)
#define CVL_VOTE_TURNS UINT64_C(0x100000000000000)

/*@ logic integer elements_in(CvlVote v) = v.elements / CVL_VOTE_CALLS;
    logic integer call_in(CvlVote v) = v.elements % CVL_VOTE_CALLS;
    logic integer turn_in(CvlVote v) = v.fault / CVL_VOTE_TURNS;
    logic integer fault_in(CvlVote v) = v.fault / CVL_VOTE_PLACES;
    logic integer place_in(CvlVote v) = v.fault % CVL_VOTE_PLACES; */

/*
 * The vote of ranks and of those behind them. If both have a fault, that of the earlier turn is kept, and of the same turn that of the ranks
 * before; a place is counted from the start of both.
 */
/*@ requires elements_in(first) + elements_in(second) < CVL_VOTE_PLACES;
    requires place_in(second) == CVL_NO_PLACE || place_in(second) + elements_in(first) < CVL_NO_PLACE;
    assigns \nothing;
    ensures elements_in(\result) == elements_in(first) + elements_in(second);
    ensures call_in(\result) == (call_in(first) == call_in(second) ? call_in(first) : CVL_OTHER_CALL);
    ensures turn_in(first) <= turn_in(second) ==> \result.fault == first.fault;
    ensures turn_in(first) > turn_in(second) ==> fault_in(\result) == fault_in(second);
    ensures turn_in(first) > turn_in(second) ==>
      place_in(\result) == (place_in(second) == CVL_NO_PLACE ? CVL_NO_PLACE : place_in(second) + elements_in(first)); */
static inline CvlVote cvl_joined_votes(CvlVote first, CvlVote second) {
    const uint64_t before = first.elements / CVL_VOTE_CALLS, call = first.elements % CVL_VOTE_CALLS;
    const uint64_t both = call == second.elements % CVL_VOTE_CALLS ? call : CVL_OTHER_CALL;
    const uint64_t elements = before + second.elements / CVL_VOTE_CALLS;
    /*@ assert 0 <= both < CVL_VOTE_CALLS && elements * CVL_VOTE_CALLS + both <= SIZE_MAX; */
    /*@ assert (elements * CVL_VOTE_CALLS + both) % CVL_VOTE_CALLS == both; */
    CvlVote joined = {elements * CVL_VOTE_CALLS + both, first.fault};
    if (first.fault / CVL_VOTE_TURNS <= second.fault / CVL_VOTE_TURNS) return joined;
    joined.fault = second.fault;
    if (second.fault % CVL_VOTE_PLACES != CVL_NO_PLACE) joined.fault += before;
    return joined;
}

/* ---- folds ---- */

/* Two numbers of a fold. */
typedef struct CvlPair {
    int64_t high, low;
} CvlPair;

/* Adds `low` exactly; `high` says whether 64 bits are too few, or were before. */
/*@ assigns \nothing;
    ensures \result.high == 0 <==> first.high == 0 && second.high == 0 && INT64_MIN <= first.low + second.low <= INT64_MAX;
    ensures \result.low == (\result.high == 0 ? first.low + second.low : 0); */
static inline CvlPair cvl_added_exactly(CvlPair first, CvlPair second) {
    CvlPair joined = {1, 0};
    if (first.high != 0 || second.high != 0 || cvl_is_past(first.low, second.low)) return joined;
    joined.high = 0, joined.low = first.low + second.low;
    return joined;
}

/* Adds numbers of 96 bits, each of so many times 2^32 and the rest. */
/*@ logic integer wide_of(CvlPair p) = p.high * 0x100000000 + p.low; */
/*@ requires 0 <= first.low < 0x100000000 && 0 <= second.low < 0x100000000;
    requires INT64_MIN <= first.high + second.high < INT64_MAX;
    assigns \nothing;
    ensures wide_of(\result) == wide_of(first) + wide_of(second) && 0 <= \result.low < 0x100000000; */
static inline CvlPair cvl_added_wide(CvlPair first, CvlPair second) {
    const int64_t low = first.low + second.low;
    const CvlPair joined = {first.high + second.high + low / 0x100000000, low % 0x100000000};
    return joined;
}

/* The elements of both, and the place of the first of some among them, or -1. */
/*@ requires 0 <= first.high && 0 <= second.high && first.high + second.high <= INT64_MAX && second.low <= second.high;
    assigns \nothing;
    ensures \result.high == first.high + second.high;
    ensures \result.low == (first.low >= 0 ? first.low : second.low < 0 ? -1 : first.high + second.low); */
static inline CvlPair cvl_first_place(CvlPair first, CvlPair second) {
    const int64_t behind = second.low < 0 ? -1 : first.high + second.low;
    const CvlPair joined = {first.high + second.high, first.low >= 0 ? first.low : behind};
    return joined;
}

#endif
