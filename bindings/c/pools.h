/* pools.h: how the pools of the library run parts; they are known to run each. */
#ifndef CVL_POOLS_H
#define CVL_POOLS_H

#include "internal.h"

CVL_HIDDEN void cvl_run_alone(void *state, CvlPart part, void *work, size_t parts);
CVL_HIDDEN void cvl_run_posix(void *state, CvlPart part, void *work, size_t parts);

/* Threads, so many with the one that calls, each started when a call needs it; or null if there is no memory. */
CVL_HIDDEN CvlThreads *cvl_threads_made(size_t threads);

#endif
