/* Segments over ranks: what a rank knows of the pieces in its range, and of the segments that go on from it and to it. */
#include "ranks.h"

/* The fault of this rank's lengths, and their total. */
static CvlStatus look(CvlLengths pieces, size_t *total) {
    *total = 0;
    const CvlStatus status = cvl_make_descriptor(pieces, total);
    if (status.number != CVL_DONE) *total = 0;
    return status;
}

/* Where this rank's range begins, and how much of its first and last segment stands in other ranks. */
static void place_among_ranks(CvlRankSegments *s) {
    const int64_t total = (int64_t)s->total, head = (int64_t)cvl_head_of(s),
                  last = s->pieces > 0 ? (int64_t)s->lengths[s->pieces - 1] : 0;
    const bool starts = s->starts > 0;
    const CvlFold counts = cvl_fold(CVL_JOIN_COUNTS, 0, total, (int64_t)s->starts, 0);
    const CvlFold before = cvl_before(s->ranks, counts), all = cvl_all(s->ranks, counts);
    s->offset = (uint64_t)before.high, s->first = (uint64_t)before.low;
    s->all = (uint64_t)all.high, s->segments = (uint64_t)all.low;
    s->head_before = (uint64_t)cvl_before(s->ranks, cvl_fold(CVL_JOIN_COUNTS, 0, 0, starts ? last : total, starts)).low;
    s->last_after = (uint64_t)cvl_after(s->ranks, cvl_fold(CVL_JOIN_COUNTS, 0, 0, head, starts)).low;
}

/* Whether a segment is longer than a vector may be. */
static bool is_too_long(const CvlRankSegments *s) {
    if (s->pieces == 0) return 0;
    const size_t last = s->pieces - 1;
    const uint64_t head = s->goes_on ? s->head_before : 0;
    if (last == 0) return head + (uint64_t)s->lengths[0] + s->last_after > CVL_MOST_ELEMENTS;
    return head + (uint64_t)s->lengths[0] > CVL_MOST_ELEMENTS || (uint64_t)s->lengths[last] + s->last_after > CVL_MOST_ELEMENTS;
}

/* The faults that other ranks have a part in: a piece that goes on from no segment, and a segment that is too long. */
static CvlStatus told(const CvlRankSegments *s, CvlStatus status) {
    if (status.number == CVL_NEGATIVE_LENGTH) {
        status.place += (int64_t)s->first - (s->goes_on ? 1 : 0);
        return status;
    }
    if (status.number != CVL_DONE) return status;
    if (is_too_long(s)) return cvl_status(CVL_TOO_LONG, -1);
    if (s->goes_on && s->first == 0) return cvl_status(CVL_LENGTH_MISMATCH, -1);
    return status;
}

/* The descriptor with its own copy of the lengths, or nothing if there is no memory. */
static CvlRankSegments *kept(const CvlRankSegments *s) {
    CvlRankSegments *const found = malloc(sizeof *found + s->pieces * sizeof *found->copied);
    if (found == NULL) return NULL;
    *found = *s;
    if (s->pieces > 0) memcpy(found->copied, s->lengths, s->pieces * sizeof *found->copied);
    found->lengths = found->copied;
    return found;
}

CvlStatus cvl_rank_segments_new(CvlRanks *ranks, CvlLengths pieces, bool goes_on, CvlRankSegments **made) {
    CvlRankSegments s = {0}, *own = NULL;
    bool short_room = 0;
    uint64_t none;
    if (made != NULL) *made = NULL;
    if (!cvl_are_ranks(ranks)) return cvl_status(CVL_NO_DESCRIPTOR, -1);
    if (!cvl_is_one_call(ranks, CVL_CALL_SEGMENTS)) return cvl_status(CVL_UNKNOWN_CALL, -1);
    CvlStatus status = look(pieces, &s.total);
    s.ranks = ranks, s.lengths = pieces.lengths, s.pieces = pieces.segments;
    s.goes_on = goes_on && pieces.segments > 0;
    s.starts = pieces.segments - (s.goes_on ? 1 : 0);
    place_among_ranks(&s);
    status = made == NULL ? cvl_status(CVL_NO_DESCRIPTOR, -1) : told(&s, status);
    if (status.number == CVL_DONE) own = kept(&s);
    if (status.number == CVL_DONE && own == NULL) status = cvl_status(CVL_NO_RESOURCES, -1);
    status = cvl_agreed(ranks, status, CVL_CALL_SEGMENTS, 0, UINT64_MAX, &short_room, &none);
    if (status.number == CVL_DONE) *made = own;
    else free(own);
    return status;
}

void cvl_rank_segments_free(CvlRankSegments *segments) { free(segments); }

size_t cvl_rank_segments_starts(const CvlRankSegments *segments) { return segments == NULL ? 0 : segments->starts; }

uint64_t cvl_rank_segments_first(const CvlRankSegments *segments) { return segments == NULL ? 0 : segments->first; }

uint64_t cvl_rank_segments_all(const CvlRankSegments *segments) { return segments == NULL ? 0 : segments->segments; }
