/* sorts.h: what orders, ranks and sorts over ranks share with the cuts of their sorted pieces. */
#ifndef CVL_MPI_SORTS_H
#define CVL_MPI_SORTS_H

#include "ranks.h"

/* What is sorted with elements of other ranks: a rank's piece of a segment that crosses ranks, or of a vector without segments. */
typedef struct CvlPiece {
    int64_t segment;
    uint64_t before;    /* how many elements of the segment stand in ranks before */
    size_t from, count; /* the piece, in the rank's elements */
    size_t at;          /* and in the sorted pieces */
    size_t to, room;    /* the rank's part of the sorted segment */
    uint64_t room_before;
} CvlPiece;

/* What goes on where a rank's part begins: a segment, or -1; how many of its elements stand before; and whether one starts in the rank. */
typedef struct CvlBegin {
    int64_t segment;
    uint64_t before, starts;
} CvlBegin;

typedef struct CvlSorting {
    CvlRanks *ranks;
    CvlPiece piece[2];
    int pieces;
    size_t open;             /* how many elements the pieces have, */
    size_t received;         /* and how many the rank has of the sorted segments */
    int32_t *keys, *order;   /* of the pieces, sorted: the keys, and which element has each */
    int32_t *got_keys, *got; /* the same of what the rank is sent */
    CvlBegin *begins;        /* of each rank, as all that follows */
    int64_t *low, *high, *middle;
    uint64_t *own, *all, *before, *cut; /* how many elements of a piece go before where a rank begins */
} CvlSorting;

/* Finds the cuts of the sorted pieces; all ranks do. */
CVL_HIDDEN void cvl_find_cuts(CvlSorting *s);

/* How many elements of the pieces go to each rank: ranks->sends. They stand in the order of the ranks. */
CVL_HIDDEN void cvl_count_sends(CvlSorting *s);

#endif
