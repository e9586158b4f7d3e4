/*
 * Merges by flags over ranks: the two vectors are spread as each rank's flags take them, and merged there by the plain family. By segments
 * they are merged as a whole, once each segment has as many true and false flags as its two sides have elements.
 */
#include "permutes.h"

/* What a rank's flags take of the two vectors. */
typedef struct Sides {
    size_t trues, falses;
    void *when_true, *when_false;
} Sides;

/* Counts the flags; it is a fault if the vectors have not as many elements in all. */
static Sides count_sides(CvlCall *c) {
    const size_t n = c->in[CVL_AS_FLAGS].number;
    int32_t count = 0;
    if (c->status.number == CVL_DONE) cvl_say(c, cvl_count(c->in[CVL_AS_FLAGS].at, n, &count));
    const Sides sides = {(size_t)count, c->status.number == CVL_DONE ? n - (size_t)count : 0, NULL, NULL};
    const int64_t more = (int64_t)c->in[CVL_AS_A].number - (int64_t)sides.trues,
                  fewer = (int64_t)c->in[CVL_AS_B].number - (int64_t)sides.falses;
    const CvlFold all = cvl_all(c->ranks, cvl_fold(CVL_JOIN_COUNTS, 0, more, fewer, 0));
    if (all.high != 0 || all.low != 0) cvl_say(c, cvl_status(CVL_LENGTH_MISMATCH, -1));
    return sides;
}

static void take_sides(CvlCall *c, Sides *sides) {
    const size_t size = cvl_room_size(c);
    cvl_clean(c);
    if (c->status.number == CVL_DONE) sides->when_true = cvl_take(c, sides->trues, size);
    if (c->status.number == CVL_DONE) sides->when_false = cvl_take(c, sides->falses, size);
}

static void merge(CvlCall *c, const Sides *sides) {
    const size_t size = cvl_room_size(c);
    const CvlSlot flags = c->in[CVL_AS_FLAGS], out = c->in[CVL_AS_OUT];
    cvl_send_spread(c->ranks, c->in[CVL_AS_A].at, c->in[CVL_AS_A].number, sides->when_true, sides->trues, size);
    cvl_send_spread(c->ranks, c->in[CVL_AS_B].at, c->in[CVL_AS_B].number, sides->when_false, sides->falses, size);
    if (cvl_has_bools(c)) {
        cvl_say(
            c,
            cvl_merge_by_flags_bool(
                flags.at, flags.number, sides->when_true, sides->trues, sides->when_false, sides->falses, (bool *)out.at,
                out.number));
    } else {
        cvl_say(
            c,
            cvl_merge_by_flags_int(
                flags.at, flags.number, sides->when_true, sides->trues, sides->when_false, sides->falses, (int32_t *)out.at,
                out.number));
    }
}

CvlStatus cvl_merge_over_ranks(CvlCall *c) {
    Sides sides = count_sides(c);
    take_sides(c, &sides);
    if (cvl_agree(c, c->in[CVL_AS_FLAGS].number)) merge(c, &sides);
    free(sides.when_true), free(sides.when_false);
    return c->status;
}

/* ---- by segments ---- */

/* How many flags of each piece are true; for the last segment that starts in the rank, those in later ranks too. */
static void count_trues(CvlCall *c, int64_t *trues) {
    const CvlRankSegments *const s = c->segments;
    const bool *flags = c->in[CVL_AS_FLAGS].at;
    for (size_t p = 0; p < s->pieces; p++) {
        trues[p] = 0;
        for (int32_t k = 0; k < s->lengths[p]; k++) trues[p] += *flags++ != 0;
    }
    const CvlFold after = cvl_after(c->ranks, cvl_fold(CVL_JOIN_COUNTS, 0, 0, s->goes_on ? trues[0] : 0, s->starts > 0));
    if (s->starts > 0) trues[s->pieces - 1] += after.low;
}

/* The first segment that starts in the rank and has other counts than its two sides, or -1. */
static int64_t first_miscount(
    const CvlRankSegments *s, const int64_t *trues, const int64_t *when_true, const int64_t *when_false) {
    const size_t skipped = s->goes_on;
    for (size_t k = 0; k < s->starts; k++) {
        const size_t p = k + skipped;
        const int64_t length = (int64_t)s->lengths[p] + (k + 1 == s->starts ? (int64_t)s->last_after : 0);
        if (trues[p] != when_true[p] || length - trues[p] != when_false[p]) return (int64_t)k;
    }
    return -1;
}

/* How many elements another descriptor's segments have, as many as go on or start in the rank. */
static int64_t *lengths_of(CvlCall *c, const CvlRankSegments *other) {
    CvlTargets targets = {0};
    const CvlRankSegments *const kept = c->other;
    c->other = other;
    cvl_take_targets(c, &targets);
    cvl_fetch_segments(c, &targets);
    c->other = kept;
    free(targets.starts);
    return targets.places;
}

/* Whether each segment has as many flags as its sides have elements; all ranks agree on the first that has not. */
static bool do_counts_agree(CvlCall *c) {
    int64_t *const trues = cvl_take(c, c->segments->pieces, sizeof *trues), *when_true = NULL, *when_false = NULL;
    if (cvl_agree(c, 0)) when_true = lengths_of(c, c->other);
    if (c->status.number == CVL_DONE) when_false = lengths_of(c, c->third);
    bool agree = c->status.number == CVL_DONE;
    if (agree) {
        count_trues(c, trues);
        const int64_t bad = first_miscount(c->segments, trues, when_true, when_false);
        if (bad >= 0) cvl_say(c, cvl_status(CVL_LENGTH_MISMATCH, bad));
        agree = cvl_agree(c, c->segments->starts);
    }
    free(trues), free(when_true), free(when_false);
    return agree;
}

/* As many true flags in all as when_true has elements, and so on, follows from the counts of the segments. */
CvlStatus cvl_seg_merge_over_ranks(CvlCall *c) {
    const size_t n = c->in[CVL_AS_FLAGS].number;
    Sides sides = {0};
    int32_t count = 0;
    cvl_look_at_targets(c);
    if (c->status.number == CVL_DONE) cvl_say(c, cvl_count(c->in[CVL_AS_FLAGS].at, n, &count));
    sides.trues = (size_t)count, sides.falses = c->status.number == CVL_DONE ? n - (size_t)count : 0;
    if (cvl_agree(c, n)) {
        take_sides(c, &sides);
        if (cvl_agree(c, n) && do_counts_agree(c)) merge(c, &sides);
    }
    free(sides.when_true), free(sides.when_false);
    return c->status;
}
