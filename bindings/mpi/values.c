/* Values over ranks that no operator of the table joins: first true flags, and sums of segments in 64 bits. */
#include "ranks.h"

/* How many flags there are, and the place of the first true one, or -1. */
static CvlFold first_of(CvlCall *c, const bool *flags, size_t count, bool starts) {
    int32_t place = -1;
    if (c->status.number == CVL_DONE) cvl_say(c, cvl_first_true(flags, count, &place));
    return cvl_fold(CVL_JOIN_PLACES, 0, (int64_t)count, place, starts);
}

CvlStatus cvl_first_true_over_ranks(CvlCall *c) {
    const CvlSlot flags = c->in[CVL_AS_FLAGS];
    cvl_clean(c);
    const CvlFold mine = first_of(c, c->in[CVL_AS_FLAGS].at, flags.number, 0);
    if (cvl_agree(c, flags.number)) *(int32_t *)cvl_room(c) = (int32_t)cvl_all(c->ranks, mine).low;
    return c->status;
}

/* ---- by segments: the rank of a segment's start joins what it and later ranks have ---- */

/* The elements of the rank's head, how many segments but the last start in it, and where the last one begins. */
typedef struct Shape {
    size_t head, whole, last;
    CvlLengths lengths; /* of the segments that start in the rank, but for the last */
} Shape;

static Shape shape_of(const CvlCall *c, size_t elements) {
    Shape shape = {0};
    const CvlRankSegments *const s = c->segments;
    if (c->status.number != CVL_DONE) return shape;
    shape.head = cvl_head_of(s);
    shape.whole = s->starts > 0 ? s->starts - 1 : 0;
    shape.last = s->starts > 0 ? elements - (size_t)s->lengths[s->pieces - 1] : elements;
    shape.lengths.lengths = s->goes_on ? s->lengths + 1 : s->lengths, shape.lengths.segments = shape.whole;
    return shape;
}

CvlStatus cvl_seg_first_true_over_ranks(CvlCall *c) {
    const size_t n = c->in[CVL_AS_FLAGS].number;
    cvl_clean(c);
    const bool *const flags = c->in[CVL_AS_FLAGS].at;
    const Shape shape = shape_of(c, n);
    const bool starts = c->status.number == CVL_DONE && c->segments->starts > 0;
    const CvlFold head = first_of(c, flags, shape.head, starts);
    CvlFold last = first_of(c, n == 0 ? flags : flags + shape.last, n - shape.last, 1);
    if (!cvl_agree(c, c->in[CVL_AS_OUT].number)) return c->status;
    last = cvl_joined(last, cvl_after(c->ranks, head));
    if (!starts) return c->status;
    int32_t *const out = cvl_room(c);
    cvl_say(c, cvl_seg_first_true(n == 0 ? flags : flags + shape.head, shape.last - shape.head, shape.lengths, out, shape.whole));
    out[shape.whole] = (int32_t)last.low;
    return c->status;
}

/* A segment is no longer than a vector may be, so its sum has 64 bits. */
static CvlFold sum_of(CvlCall *c, const int32_t *a, size_t count, bool starts) {
    CvlFold fold = cvl_nothing(CVL_JOIN_EXACT, 0);
    if (c->status.number == CVL_DONE) cvl_say(c, cvl_exact_sum(a, count, &fold.low));
    fold.starts = starts;
    return fold;
}

CvlStatus cvl_seg_exact_sums_over_ranks(CvlCall *c) {
    const int32_t *const a = c->in[CVL_AS_A].at;
    const size_t n = c->in[CVL_AS_A].number;
    const Shape shape = shape_of(c, n);
    const bool starts = c->status.number == CVL_DONE && c->segments->starts > 0;
    const CvlFold head = sum_of(c, a, shape.head, starts);
    CvlFold last = sum_of(c, n == 0 ? a : a + shape.last, n - shape.last, 1);
    if (!cvl_agree(c, c->in[CVL_AS_OUT].number)) return c->status;
    last = cvl_joined(last, cvl_after(c->ranks, head));
    if (!starts) return c->status;
    int64_t *const out = cvl_room(c);
    cvl_say(c, cvl_seg_exact_sums(n == 0 ? a : a + shape.head, shape.last - shape.head, shape.lengths, out, shape.whole));
    out[shape.whole] = last.low;
    return c->status;
}
