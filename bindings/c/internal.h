/*
 * internal.h: what the compiled C of the library shares. A call goes from its function through the driver (driver.h), which checks what the
 * proved exports cannot see, to an export of crates/cvl_c under its name here, as cvl_proved_int2.
 */
#ifndef CVL_INTERNAL_H
#define CVL_INTERNAL_H

/* Here a boolean is a byte of any value, since a bool may be read only as 0 and 1. */
#include <stdbool.h>
#undef bool
#define bool unsigned char

#include "cvl.h"
#include "cvl_parallel.h"

#include <stdlib.h>
#include <string.h>

/* Not for other objects, where the compiler can say so. */
#if defined(__GNUC__)
#define CVL_HIDDEN __attribute__((visibility("hidden")))
#else
#define CVL_HIDDEN
#endif

/*@ assigns \nothing;
    ensures \result.number == number && \result.place == place; */
static inline CvlStatus cvl_status(uint32_t number, int64_t place) {
    const CvlStatus status = {number, place};
    return status;
}

/*@ assigns \nothing;
    ensures \result.number == CVL_DONE; */
static inline CvlStatus cvl_done(void) { return cvl_status(CVL_DONE, -1); }

/*@ assigns \nothing;
    ensures \result.number == CVL_OVERLAP; */
static inline CvlStatus cvl_overlap(void) { return cvl_status(CVL_OVERLAP, -1); }

/* Whether two arrays, with so many elements of these sizes, have memory in common. No sum of an address and a size is built. */
/*@ requires a_size > 0 && b_size > 0;
    assigns \nothing;
    ensures a_len == 0 || b_len == 0 ==> !\result;
    behavior both_end:
      assumes (uintptr_t)a + a_len * a_size <= UINTPTR_MAX + 1 && (uintptr_t)b + b_len * b_size <= UINTPTR_MAX + 1;
      ensures \result <==> in_common((uintptr_t)a, a_len * a_size, (uintptr_t)b, b_len * b_size); */
static inline bool cvl_meet(const void *a, size_t a_len, size_t a_size, const void *b, size_t b_len, size_t b_size) {
    const uintptr_t from_a = (uintptr_t)a, from_b = (uintptr_t)b;
    return a_len != 0 && b_len != 0 && ((from_a - from_b) / b_size < b_len || (from_b - from_a) / a_size < a_len);
}
#define CVL_MEET(a, a_len, b, b_len) cvl_meet(a, a_len, sizeof *(a), b, b_len, sizeof *(b))

/* A place or a count of 32 bits; else a place that no vector has, and a count that is out of range. */
/*@ assigns \nothing;
    ensures 0 <= place <= INT32_MAX ? \result == place : \result == -1; */
static inline int32_t cvl_place_of(int64_t place) { return place < 0 || place > INT32_MAX ? -1 : (int32_t)place; }
/*@ assigns \nothing;
    ensures \result == (0 <= count ? count : 0); */
static inline size_t cvl_room_of(int64_t count) { return count < 0 ? 0 : (size_t)count; }

/* A key beside its place, as the proved steps of orders read and write them. */
typedef struct CvlPlaced {
    int32_t key, place;
} CvlPlaced;

/* Whether a matrix has so many elements. */
/*@ assigns \nothing; */
static inline bool cvl_is_matrix(size_t elements, size_t rows, size_t columns) {
    return rows == 0 || columns == 0 ? elements == 0 : elements % rows == 0 && elements / rows == columns;
}

/* Whether a text has more words than may be read at once; brackets do not count if the text is nested. */
CVL_HIDDEN bool cvl_many_words(const char *text, size_t text_len, bool nested);

#endif
