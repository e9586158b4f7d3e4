/*
 * Runs of equal neighbours over ranks. A rank leaves out the elements at its front that go on a run of ranks before, and has the runs that
 * begin in it; the last of these may go on over any number of ranks behind.
 */
#include "ranks.h"

/* The runs that begin in this rank. */
typedef struct OwnRuns {
    size_t front; /* the elements that go on a run of ranks before */
    size_t head;  /* where the first segment starts that starts in the rank, or the end */
    size_t begin; /* how many runs begin before it, */
    size_t count; /* and in all */
} OwnRuns;

/* The value of an element. */
static int64_t element(const CvlCall *c, size_t place) {
    const void *const a = c->in[CVL_AS_A].at;
    return cvl_has_bools(c) ? ((const bool *)a)[place] != 0 : ((const int32_t *)a)[place];
}

/* The last element of the ranks before, and whether they have one. */
static CvlFold element_before(CvlCall *c) {
    const size_t n = c->in[CVL_AS_A].number;
    const bool some = c->status.number == CVL_DONE && n > 0;
    return cvl_before(c->ranks, cvl_fold(CVL_JOIN_FIRST, 0, 0, some ? element(c, n - 1) : 0, some));
}

/* ---- the plain calls on what the rank has ---- */

/* The lengths of the runs of elements of one segment, into as much room, and how many they are. */
static void lengths_of(CvlCall *c, size_t from, size_t to, int32_t *out, size_t room, size_t *count) {
    const void *const a = c->in[CVL_AS_A].at;
    if (from == to || c->status.number != CVL_DONE) return;
    const CvlStatus status = cvl_has_bools(c) ? cvl_run_lengths_bool((const bool *)a + from, to - from, out, room, count)
                                              : cvl_run_lengths_int((const int32_t *)a + from, to - from, out, room, count);
    if (room > 0) cvl_say(c, status);
}

static CvlLengths starting(const CvlRankSegments *s) {
    const CvlLengths lengths = {s->goes_on ? s->lengths + 1 : s->lengths, s->starts};
    return lengths;
}

/* The same of the segments that start in the rank. */
static void lengths_in(CvlCall *c, size_t head, int32_t *out, size_t room, size_t *count) {
    const CvlSlot a = c->in[CVL_AS_A];
    if (head == a.number || c->status.number != CVL_DONE) return;
    const CvlLengths lengths = starting(c->segments);
    const size_t n = a.number - head;
    const CvlStatus status = cvl_has_bools(c)
        ? cvl_seg_run_lengths_bool((const bool *)a.at + head, n, lengths, out, room, count)
        : cvl_seg_run_lengths_int((const int32_t *)a.at + head, n, lengths, out, room, count);
    if (room > 0) cvl_say(c, status);
}

/* ---- what begins in the rank ---- */

/* Finds where runs begin: an element is of the run before it if it is as the one before it, and of the same segment. */
static OwnRuns own_runs(CvlCall *c) {
    const CvlFold before = element_before(c);
    const CvlRankSegments *const s = c->segments;
    OwnRuns own = {0, 0, 0, 0};
    if (c->status.number != CVL_DONE) return own;
    own.head = c->family->held ? cvl_head_of(s) : c->in[CVL_AS_A].number;
    const bool may_go_on = c->family->held ? s->head_before > 0 : before.starts != 0;
    while (may_go_on && own.front < own.head && element(c, own.front) == before.low) own.front++;
    lengths_of(c, own.front, own.head, NULL, 0, &own.begin);
    return own;
}

/* Counts the runs that begin in the rank, has the ranks agree, and tells how many they are. Then writes their lengths, as far as it has them. */
static bool write_own(CvlCall *c, OwnRuns *own) {
    const CvlSlot out = c->in[CVL_AS_OUT];
    size_t rest = 0;
    *own = own_runs(c);
    if (c->status.number == CVL_DONE) lengths_in(c, own->head, NULL, 0, &rest);
    own->count = own->begin + rest;
    if (c->status.number == CVL_DONE && own->count > out.number) {
        c->status = cvl_status(CVL_LENGTH_MISMATCH, -1);
        c->short_room = 1;
    }
    const bool agree = cvl_agree(c, c->in[CVL_AS_A].number);
    if (agree || c->short_room) *(size_t *)c->in[CVL_AS_TOLD].at = own->count;
    if (!agree) return 0;
    /* a room that is long enough for all elements spares a pass */
    lengths_of(c, own->front, own->head, (int32_t *)out.at, out.number, &own->begin);
    lengths_in(c, own->head, (int32_t *)out.at + own->begin, out.number - own->begin, &rest);
    return 1;
}

/* ---- the ways ---- */

CvlStatus cvl_run_lengths_over_ranks(CvlCall *c) {
    OwnRuns own;
    if (!write_own(c, &own)) return c->status;
    const CvlFold behind = cvl_after(c->ranks, cvl_fold(CVL_JOIN_COUNTS, 0, 0, (int64_t)own.front, own.count > 0));
    if (own.count > 0) ((int32_t *)c->in[CVL_AS_OUT].at)[own.count - 1] += (int32_t)behind.low;
    return c->status;
}

/* A run begins behind those before it: its start is the scan of their lengths. */
CvlStatus cvl_run_starts_over_ranks(CvlCall *c) {
    OwnRuns own;
    if (!write_own(c, &own)) return c->status;
    const CvlFold before = cvl_before(c->ranks, cvl_fold(CVL_JOIN_COUNTS, 0, 0, (int64_t)c->in[CVL_AS_A].number, 0));
    int32_t *const out = (int32_t *)c->in[CVL_AS_OUT].at;
    cvl_say(c, cvl_int_scan_after(CVL_ADD, (int32_t)(before.low + (int64_t)own.front), out, own.count, out, own.count));
    return c->status;
}

/* The runs of a segment are those that begin in its pieces. */
CvlStatus cvl_run_counts_over_ranks(CvlCall *c) {
    const CvlSlot a = c->in[CVL_AS_A], out = c->in[CVL_AS_OUT];
    const OwnRuns own = own_runs(c);
    if (!cvl_agree(c, a.number)) return c->status;
    const size_t starts = c->segments->starts, n = a.number - own.head;
    int32_t *const counts = (int32_t *)out.at;
    if (cvl_has_bools(c))
        cvl_say(c, cvl_seg_run_counts_bool((const bool *)a.at + own.head, n, starting(c->segments), counts, starts));
    else cvl_say(c, cvl_seg_run_counts_int((const int32_t *)a.at + own.head, n, starting(c->segments), counts, starts));
    const CvlFold behind = cvl_after(c->ranks, cvl_fold(CVL_JOIN_COUNTS, 0, 0, (int64_t)own.begin, starts > 0));
    if (starts > 0) counts[starts - 1] += (int32_t)behind.low;
    return c->status;
}
