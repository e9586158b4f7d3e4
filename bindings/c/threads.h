/*
 * threads.h: the threads of the process. cvl_call in driver.h takes them for a long call of a family that can be cut into
 * parts. Neither cvl_alone nor cvl_on takes them, and nothing that a part calls does.
 */
#ifndef CVL_THREADS_H
#define CVL_THREADS_H

#include "internal.h"

/* From how many elements on a call is cut, and how many each part has at least. A build for tests has others. */
#ifndef CVL_LEAST_SHARED
#define CVL_LEAST_SHARED 262144
#endif
#ifndef CVL_LEAST_EACH
#define CVL_LEAST_EACH 131072
#endif

/* The same for the bytes of a text that is read, and for the elements whose text is written. */
#ifndef CVL_LEAST_READ
#define CVL_LEAST_READ 131072
#endif
#ifndef CVL_LEAST_READ_EACH
#define CVL_LEAST_READ_EACH 32768
#endif
#ifndef CVL_LEAST_WRITTEN
#define CVL_LEAST_WRITTEN 32768
#endif
#ifndef CVL_LEAST_WRITTEN_EACH
#define CVL_LEAST_WRITTEN_EACH 16384
#endif

/*
 * Takes the threads of the process for one call, and answers a pool of them; or null if there is one thread, in the child of a fork, and
 * while another call or cvl_set_threads has them. It waits for nobody.
 */
CVL_HIDDEN const CvlPool *cvl_take_threads(void);

/* Gives them back, and returns what the call answers. */
CVL_HIDDEN CvlStatus cvl_give_threads(CvlStatus status);

#endif
