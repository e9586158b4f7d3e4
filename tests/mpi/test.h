/* test.h: what the files of the test share: the ranks, checks of what calls answer, and a vector over the ranks. */
#ifndef CVL_TESTS_TEST_H
#define CVL_TESTS_TEST_H

#include <mpi.h>

#include <stdio.h>
#include <stdlib.h>
#include <string.h>

#include "cvl_mpi.h"

enum { MOST = 64 };

extern CvlRanks *ranks;
extern int rank, size;

/* Reports what is not so. */
void check(const char *what, int is_so);

/* Whether any rank says so; all of them ask. */
int any_rank(int mine);

static inline int is(CvlStatus status, uint32_t number, int64_t place) {
    return status.number == number && status.place == place;
}

/* Place p has p * 7 % 23 - 5; rank r has r % 3 + 1 elements, from a place on. */
static inline int32_t of_place(int64_t p) { return (int32_t)(p * 7 % 23) - 5; }
static inline size_t own_count(int r) { return (size_t)(r % 3) + 1; }

static inline int64_t own_from(int r) {
    int64_t from = 0;
    for (int q = 0; q < r; q++) from += (int64_t)own_count(q);
    return from;
}

/* Fills a vector with the elements of this rank. */
static inline void fill(int32_t *a) {
    for (size_t k = 0; k < own_count(rank); k++) a[k] = of_place(own_from(rank) + (int64_t)k);
}

static inline int is_filled(const int32_t *out, size_t n, int32_t with) {
    for (size_t k = 0; k < n; k++) {
        if (out[k] != with) return 0;
    }
    return 1;
}

/* ---- the other files ---- */

/* made.c */
void try_none(void);
void try_no_place(void);
void try_other_descriptors(void);
void try_bad_pieces(void);
void try_changed_pieces(void);
void try_all_refused(void);

/* mistakes.c */
void try_overlaps(void);
void try_differences(void);
void try_counts(void);
void try_other_calls(void);

void try_routes(void); /* routes.c */

/* spreads.c */
void try_spreads(void);
void try_few(void);

/* texts.c */
void try_texts(void);
void try_long_texts(void);

void try_long_vectors(void); /* blocks.c */
void try_given_back(void);   /* given_back.c */

#endif
