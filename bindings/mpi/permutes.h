/* permutes.h: what calls by an index share: where the indices of a rank lead. */
#ifndef CVL_MPI_PERMUTES_H
#define CVL_MPI_PERMUTES_H

#include "bins.h"

/*
 * Segments of two descriptors are as many, and a whole vector of a call by an index is no longer than a vector may be; else it is a fault.
 */
CVL_HIDDEN void cvl_look_at_targets(CvlCall *c);

/* Takes memory for where the indices of the rank lead. */
CVL_HIDDEN void cvl_take_targets(CvlCall *c, CvlTargets *targets);

/*
 * Finds where they lead, and all ranks agree whether it is found. An index without segments leads to any of the `places`; that of a select,
 * to a place of what it keeps.
 */
CVL_HIDDEN bool cvl_find_targets(CvlCall *c, CvlTargets *targets, uint64_t places, bool is_select);

/* Where the segment of the other descriptor with each piece's number starts in the whole, and how many places it has. All ranks agree. */
CVL_HIDDEN void cvl_fetch_segments(CvlCall *c, CvlTargets *targets);

/* ---- what is combined: permutes.c ---- */

/* Whether a family has an operand that is this to it. */
CVL_HIDDEN bool cvl_has(const CvlCall *c, CvlAs as);

/* Whether elements are added to the room without wrapping: to sums of 64 bits, or to integers that have to fit 32 bits at the end. */
static inline bool cvl_adds_up(const CvlCall *c) { return (c->family->row.is & CVL_ADDS) != 0; }
static inline bool cvl_has_sums(const CvlCall *c) { return cvl_adds_up(c) && cvl_room_size(c) == sizeof(int64_t); }

/* Whether the sums that stand in the rooms of all ranks may grow. All ranks agree. */
CVL_HIDDEN bool cvl_may_grow(CvlCall *c);

/* Combines elements with a room of this rank, of sums of 64 bits or of what the family's has; or counts the indices. */
CVL_HIDDEN CvlStatus
cvl_combine_plainly(const CvlCall *c, CvlSlot a, CvlSlot index, void *room, size_t room_len, bool is_of_sums);

/* ---- indices that go on from one place to the next: in_runs.c ---- */

/* Finds how many runs the places of the rank have. The ranks agree whether runs pay for all of them, whose indices are all right. */
CVL_HIDDEN bool cvl_are_in_runs(CvlCall *c, bool right, const int32_t *places, size_t n, size_t *runs);

/* Writes the elements of the source at these places into the room. */
CVL_HIDDEN void cvl_back_in_runs(CvlCall *c, const int32_t *places, size_t n, size_t runs);

/* ---- which ranks ask which for what: routes.c ---- */

/* The first index that is no place of so many, or -1. */
CVL_HIDDEN int64_t cvl_first_outside(const int32_t *index, size_t index_len, uint64_t places);

struct CvlRoute {
    CvlRanks *ranks;
    size_t source_len, index_len; /* of this rank's parts */
    size_t asks, answers;         /* how many elements it asks other ranks for, each once, and how many they ask it for */
    int *counts;                  /* as ranks->sends and the three behind it */
    const int32_t *places;        /* of each index, its place in the whole, until the route has settled */
    int32_t *slots;               /* of each index, which of the elements asked for is its own: in the order of bins until then */
    CvlBins bins;
    int32_t *answered; /* the places of its part that other ranks ask for */
    void *sent, *got;  /* elements */
    CvlStatus permute; /* what a simple permute by the index answers */
};

/*
 * Finds which ranks have the elements at places of a vector of which this rank has `source_len`. All ranks agree whether there is memory,
 * and on 10 at the first bad index.
 */
CVL_HIDDEN bool cvl_make_route(
    CvlCall *c, CvlRoute *route, const int32_t *places, size_t places_len, size_t source_len, int64_t bad);

/* Fetches elements into route->got, each once. */
CVL_HIDDEN CvlStatus cvl_fetch(CvlRoute *route, const void *source, size_t size);

/* Writes what was fetched for each index, by a route that serves once; what a bin asked for stays in a cache. */
CVL_HIDDEN void cvl_write_once(CvlRoute *route, void *out, size_t size);

/* Puts the slots into the order of the indices, in memory that the route takes over, for a route that serves more than once. */
CVL_HIDDEN void cvl_settle_route(CvlRoute *route, int32_t *slots);

CVL_HIDDEN void cvl_clear_route(CvlRoute *route);

#endif
