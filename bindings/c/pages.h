/*
 * pages.h: memory in large pages, for what is written once and read once. The first write to a page is a fault, and with small pages these
 * faults take as long as the work. If you include this, define _DEFAULT_SOURCE before all headers.
 */
#ifndef CVL_PAGES_H
#define CVL_PAGES_H

#include <stdint.h>
#include <stdlib.h>
#include <sys/mman.h>

/* From so many bytes on large pages pay; and the bytes of a small one. */
enum { CVL_LONG = 1 << 22, CVL_PAGE = 4096 };

/* Like malloc; of a long block it asks the system for large pages. */
static inline void *cvl_in_large_pages(size_t bytes) {
    char *const found = malloc(bytes);
#ifdef MADV_HUGEPAGE
    if (found != NULL && bytes >= CVL_LONG) {
        char *const from = found + (CVL_PAGE - (uintptr_t)found % CVL_PAGE);
        (void)madvise(from, (size_t)(found + bytes - from), MADV_HUGEPAGE);
    }
#endif
    return found;
}

#endif
