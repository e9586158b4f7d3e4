/*
 * Memory that is refused: request number `refuse_at` from 0, and none while it is negative; and how many blocks are kept, so that a test sees
 * whether a call gives all of its own back. The program is linked with --wrap of these functions, so that MPI's own requests do not count.
 */
#ifndef CVL_TESTS_REFUSED_H
#define CVL_TESTS_REFUSED_H

#include <stddef.h>

static long refuse_at = -1, asked, blocks;
static int refused;

static int is_refused(void) {
    if (refuse_at < 0 || asked++ != refuse_at) return 0;
    refused = 1;
    return 1;
}

void *__real_malloc(size_t bytes);
void *__wrap_malloc(size_t bytes);
void *__wrap_malloc(size_t bytes) {
    void *const found = is_refused() ? NULL : __real_malloc(bytes);
    blocks += found != NULL;
    return found;
}

void *__real_realloc(void *at, size_t bytes);
void *__wrap_realloc(void *at, size_t bytes);
void *__wrap_realloc(void *at, size_t bytes) {
    void *const found = __real_realloc(at, bytes);
    blocks += at == NULL && found != NULL;
    return found;
}

void __real_free(void *at);
void __wrap_free(void *at);
void __wrap_free(void *at) {
    blocks -= at != NULL;
    __real_free(at);
}

#endif
