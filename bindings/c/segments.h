/* segments.h: descriptors, as the functions that take one see them. */
#ifndef CVL_SEGMENTS_H
#define CVL_SEGMENTS_H

#include "internal.h"

/* Whether there is a descriptor. */
static inline bool cvl_is_made(const CvlSegments *segments) { return segments != NULL && segments->some; }

static inline CvlLengths cvl_lengths_of(const CvlSegments *segments) {
    const CvlLengths lengths = {segments->lengths, segments->segments};
    return lengths;
}

/* The first fault of offsets: there are too many, there is none or the first is not 0, or one is less than the one before it. */
CVL_HIDDEN CvlStatus cvl_offsets_told(const int32_t *offsets, size_t offsets_len);

/* The lengths of the rows between offsets, which the caller frees; or null if the offsets have a fault, or there is no memory. */
CVL_HIDDEN int32_t *cvl_lengths_between(const int32_t *offsets, size_t offsets_len);

#endif
