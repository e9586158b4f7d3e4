/* Back permutes whose indices mostly go on from one place to the next: a rank asks for runs of places, as slices do, and not for places. */
#include "permutes.h"
#include "runs.h"

/* How many elements a run has at least, on average, if runs pay. A build for tests has another number. */
#ifndef CVL_LEAST_RUN
#define CVL_LEAST_RUN 16
#endif

/* So many indices are looked at before another look whether runs may pay. */
enum { CVL_LOOKED_AT = 4096 };

/* How many of the indices do not go on from the one before them. */
static size_t count_starts(const int32_t *index, size_t n) {
    size_t starts = 0;
    for (size_t k = 1; k < n; k++) starts += index[k] - 1 != index[k - 1];
    return starts;
}

/* How many runs the indices have, or more than pay. */
static size_t count_runs(const int32_t *index, size_t n) {
    size_t runs = 1;
    for (size_t k = 0; k < n && runs <= n / CVL_LEAST_RUN; k += CVL_LOOKED_AT) {
        const size_t rest = n - k;
        runs += count_starts(index + k, rest > CVL_LOOKED_AT ? CVL_LOOKED_AT + 1 : rest);
    }
    return runs;
}

bool cvl_are_in_runs(CvlCall *c, bool right, const int32_t *places, size_t n, size_t *runs) {
    *runs = right && n > 0 ? count_runs(places, n) : 0;
    const bool pays = right && *runs <= n / CVL_LEAST_RUN;
    return cvl_all(c->ranks, cvl_fold(CVL_JOIN_COUNTS, 0, 0, !pays, 0)).low == 0;
}

static void find_runs(const int32_t *places, size_t n, int32_t *lengths, uint64_t *starts) {
    size_t run = 0, from = 0;
    for (size_t k = 1; k <= n; k++) {
        if (k < n && places[k] - 1 == places[k - 1]) continue;
        lengths[run] = (int32_t)(k - from), starts[run++] = (uint64_t)places[from];
        from = k;
    }
}

void cvl_back_in_runs(CvlCall *c, const int32_t *places, size_t n, size_t runs) {
    int32_t *const lengths = cvl_take(c, runs, sizeof *lengths);
    uint64_t *const starts = cvl_take(c, runs, sizeof *starts);
    if (c->status.number == CVL_DONE) find_runs(places, n, lengths, starts);
    cvl_offsets(c->ranks, c->in[CVL_AS_A].number);
    if (cvl_agree(c, n)) {
        const CvlPieces pieces = {runs, lengths, starts};
        cvl_fetch_pieces(c, &pieces);
        if (c->status.number == CVL_DONE && cvl_has_bools(c)) cvl_make_flags(cvl_room(c), n);
    }
    free(lengths), free(starts);
}
