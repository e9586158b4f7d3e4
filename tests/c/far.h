/*
 * far.h: arrays that are as long as may be, or longer, in little memory. A program defines _GNU_SOURCE before it includes this.
 */
#ifndef FAR_H
#define FAR_H

#include <stdlib.h>
#include <sys/mman.h>
#include <unistd.h>

/* So many zeros, of which the system has those that nobody wrote at hand. */
static inline void *far_zeros(size_t count, size_t size) {
    void *found = mmap(NULL, count * size, PROT_READ | PROT_WRITE, MAP_PRIVATE | MAP_ANONYMOUS | MAP_NORESERVE, -1, 0);
    if (found == MAP_FAILED) abort();
    return found;
}

/*
 * So many bytes that are one piece of memory, mapped as often as it takes: what is written shows in each piece. Behind them is as
 * much memory that nobody may touch.
 */
static inline unsigned char *far_pieces(size_t bytes, size_t piece) {
    const int file = memfd_create("piece", 0);
    unsigned char *const found = (unsigned char *)far_zeros(bytes + piece, 1);
    if (file < 0 || ftruncate(file, (off_t)piece) != 0 || mprotect(found, bytes + piece, PROT_NONE) != 0) abort();
    for (size_t from = 0; from < bytes; from += piece) {
        if (mmap(found + from, piece, PROT_READ | PROT_WRITE, MAP_SHARED | MAP_FIXED, file, 0) == MAP_FAILED) abort();
    }
    close(file);
    return found;
}

#endif
