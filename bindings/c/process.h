/* process.h: which process this is. */
#ifndef CVL_PROCESS_H
#define CVL_PROCESS_H

#include "internal.h"

/* Run when the library is loaded, where the compiler can say so. */
#if defined(__GNUC__)
#define CVL_AT_LOAD __attribute__((constructor))
#else
#define CVL_AT_LOAD
#endif

/* How many bits of what cvl_process answers are 0. */
enum { CVL_PROCESS_FROM = 16 };

/*
 * Which process this is, by its number and by how many forks it comes from, since in different namespaces processes share numbers. After
 * _Fork or clone, which run no handlers, by the number alone.
 */
CVL_HIDDEN uint64_t cvl_process(void);

/* Has the child of each fork counted. */
CVL_HIDDEN CVL_AT_LOAD void cvl_watch_forks(void);

#endif
