/*
 * cvl_openmp.h: a pool of OpenMP's threads for the calls of cvl_parallel.h. Compile the file that includes it with -fopenmp.
 *
 *     const CvlPool pool = cvl_pool_openmp();
 *     status = cvl_add_wuz_on(&pool, a, b, out, n);
 *
 * In a parallel region a call is one part.
 */
#ifndef CVL_OPENMP_H
#define CVL_OPENMP_H

#include "cvl_parallel.h"

#include <omp.h>

static inline void cvl_run_openmp(void *state, CvlPart part, void *work, size_t parts) {
    const int count = (int)parts;
    (void)state;
#pragma omp parallel for num_threads(count) schedule(static, 1)
    for (int k = 0; k < count; k++) part(work, (size_t)k);
}

/* A pool of OpenMP's threads, with a part for each. */
static inline CvlPool cvl_pool_openmp(void) {
    CvlPool pool;
    pool.parts = omp_in_parallel() ? 1 : (size_t)omp_get_max_threads();
    pool.run = cvl_run_openmp;
    pool.state = NULL;
    return pool;
}

#endif
