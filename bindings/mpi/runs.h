/* runs.h: runs of elements that one rank has, which pieces of segments take or go to. */
#ifndef CVL_MPI_RUNS_H
#define CVL_MPI_RUNS_H

#include "ranks.h"

/* Pieces that stand one behind another in this rank, of a vector that others have: how many elements each has, and where it begins there. */
typedef struct CvlPieces {
    size_t count;
    const int32_t *lengths;
    const uint64_t *places;
} CvlPieces;

typedef struct CvlRun {
    size_t piece, left; /* the piece that it is of, and how many elements of it come behind */
    uint64_t place;     /* in the whole, of which ranks->offsets says where each rank's part begins */
    int owner;
    size_t count;
} CvlRun;

/* The next run of these pieces; answers whether there is one. */
static inline bool cvl_next_run(const CvlRanks *ranks, const CvlPieces *pieces, CvlRun *run) {
    run->place += run->count;
    while (run->left == 0) {
        if (run->piece == pieces->count) return 0;
        run->place = pieces->places[run->piece], run->left = (size_t)pieces->lengths[run->piece++];
    }
    run->owner = cvl_owner(ranks, run->place);
    const uint64_t there = ranks->offsets[run->owner + 1] - run->place;
    run->count = run->left < there ? run->left : (size_t)there;
    run->left -= run->count;
    return 1;
}

/* Writes pieces of the source into the room; ranks->offsets say where each rank's part of the source begins. All ranks agree on a fault. */
CVL_HIDDEN void cvl_fetch_pieces(CvlCall *c, const CvlPieces *pieces);

#endif
