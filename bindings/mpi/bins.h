/*
 * bins.h: elements in the order of the places that they go to, or come from, as far as a cache needs it. A bin is a range of one rank's
 * places that is short enough to stay in a cache. Elements are put in the order of the bins, and those of a bin keep their order, so that
 * two elements of the same place keep theirs.
 */
#ifndef CVL_MPI_BINS_H
#define CVL_MPI_BINS_H

#include "ranks.h"

typedef struct CvlBin {
    uint32_t next;  /* how many elements it has; then where its next one stands */
    uint32_t start; /* its first place */
    uint32_t part;  /* where the part of its rank begins */
    int rank;
} CvlBin;

/* Places are cut into windows of 2^shift, and a window into bins where ranks begin. */
typedef struct CvlBins {
    int shift;
    size_t count;
    CvlBin *bin;     /* behind the last one stands one that starts behind all places */
    uint32_t *first; /* of each window, the bin of its first place */
} CvlBins;

/* Takes memory for bins of a vector, whose parts begin where ranks->offsets say, and which has at most 2147483647 places; they are empty. */
CVL_HIDDEN void cvl_take_bins(CvlCall *c, CvlBins *bins);

/* From how many elements each bin has, finds where its first one stands. */
CVL_HIDDEN void cvl_start_bins(CvlBins *bins);

/* Goes back to the first element of each bin, from behind the last ones. */
CVL_HIDDEN void cvl_restart_bins(CvlBins *bins);

CVL_HIDDEN void cvl_free_bins(CvlBins *bins);

/* The bin of a place of the vector. */
static inline CvlBin *cvl_bin_of(const CvlBins *bins, int32_t place) {
    CvlBin *bin = &bins->bin[bins->first[(uint32_t)place >> bins->shift]];
    while ((uint32_t)place >= bin[1].start) bin++;
    return bin;
}

#endif
