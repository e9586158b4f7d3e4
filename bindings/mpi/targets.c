/* Where the indices of a rank lead: which places of the whole the segment of each index has. */
#include "permutes.h"

void cvl_look_at_targets(CvlCall *c) {
    if (c->status.number != CVL_DONE || c->segments == NULL) return;
    const CvlRankSegments *const s = c->segments, *const other = c->other == NULL ? s : c->other;
    const bool longer = s->all > CVL_MOST_ELEMENTS || s->segments > CVL_MOST_ELEMENTS || other->all > CVL_MOST_ELEMENTS;
    if (longer) cvl_say(c, cvl_status(CVL_TOO_LONG, -1));
    const bool fewer = c->third != NULL && c->third->segments != c->segments->segments;
    if (fewer || (c->other != NULL && c->other->segments != c->segments->segments))
        cvl_say(c, cvl_status(CVL_LENGTH_MISMATCH, -1));
}

/* How many pieces of indices the rank has. */
static size_t pieces_of(const CvlCall *c) {
    if (c->segments == NULL) return 1;
    return c->by_segment ? c->segments->starts : c->segments->pieces;
}

void cvl_take_targets(CvlCall *c, CvlTargets *targets) {
    if (c->status.number != CVL_DONE) return;
    targets->starts = cvl_take(c, pieces_of(c), sizeof *targets->starts);
    targets->places = cvl_take(c, pieces_of(c), sizeof *targets->places);
}

/* ---- the segments themselves ---- */

/* Where the segments of the rank's pieces start in the whole, and how many places they have. */
static void own_segments(const CvlRankSegments *s, size_t from, int64_t *starts, int64_t *places) {
    int64_t start = (int64_t)s->offset;
    for (size_t p = 0; p < s->pieces; p++) {
        const int64_t before = p == 0 && s->goes_on ? (int64_t)s->head_before : 0,
                      after = p + 1 == s->pieces ? (int64_t)s->last_after : 0;
        if (p >= from) starts[p - from] = start - before, places[p - from] = before + s->lengths[p] + after;
        start += s->lengths[p];
    }
}

/* ---- what a select keeps ---- */

/* How many flags of each piece are true. */
static void count_trues(const CvlCall *c, int64_t *trues) {
    const bool *flags = c->in[CVL_AS_FLAGS].at;
    for (size_t p = 0; p < c->segments->pieces; p++) {
        trues[p] = 0;
        for (int32_t k = 0; k < c->segments->lengths[p]; k++) trues[p] += *flags++ != 0;
    }
}

/* The segments of what is kept stand one behind another. */
static void kept_segments(CvlCall *c, int64_t *starts, int64_t *places) {
    const CvlRankSegments *const s = c->segments;
    const bool some = s->starts > 0;
    int64_t all = 0;
    count_trues(c, places);
    for (size_t p = 0; p < s->pieces; p++) all += places[p];
    const int64_t head = s->goes_on ? places[0] : 0, last = s->pieces > 0 ? places[s->pieces - 1] : 0;
    int64_t start = cvl_before(c->ranks, cvl_fold(CVL_JOIN_COUNTS, 0, 0, all, 0)).low;
    const int64_t before = cvl_before(c->ranks, cvl_fold(CVL_JOIN_COUNTS, 0, 0, some ? last : all, some)).low;
    const int64_t after = cvl_after(c->ranks, cvl_fold(CVL_JOIN_COUNTS, 0, 0, head, some)).low;
    for (size_t p = 0; p < s->pieces; p++) {
        const int64_t own = places[p], earlier = p == 0 && s->goes_on ? before : 0;
        starts[p] = start - earlier;
        places[p] = earlier + own + (p + 1 == s->pieces ? after : 0);
        start += own;
    }
}

/* ---- the segments of another descriptor by their numbers, which other ranks may have ---- */

/* What the rank sends of the segments that start in it, and the numbers of those that it asks for. */
typedef struct Asked {
    int64_t *wide;            /* starts and places, one after another */
    int32_t *starts, *places; /* the same */
    int32_t *numbers, *slots;
} Asked;

static void take_asked(CvlCall *c, Asked *a) {
    const size_t starts = c->other->starts;
    a->wide = cvl_take(c, starts, 2 * sizeof *a->wide);
    a->starts = cvl_take(c, starts, sizeof *a->starts);
    a->places = cvl_take(c, starts, sizeof *a->places);
    a->numbers = cvl_take(c, c->segments->pieces, sizeof *a->numbers);
    a->slots = cvl_take(c, c->segments->pieces, sizeof *a->slots);
}

static void fill_asked(const CvlCall *c, Asked *a) {
    const size_t starts = c->other->starts;
    const uint64_t first = c->segments->first - (c->segments->goes_on ? 1 : 0);
    own_segments(c->other, c->other->goes_on ? 1 : 0, a->wide, a->wide + starts);
    for (size_t k = 0; k < starts; k++) a->starts[k] = (int32_t)a->wide[k], a->places[k] = (int32_t)a->wide[starts + k];
    for (size_t p = 0; p < c->segments->pieces; p++) a->numbers[p] = (int32_t)(first + p);
}

static CvlStatus fetch_into(CvlRoute *route, const int32_t *told, int64_t *found) {
    const CvlStatus status = cvl_fetch(route, told, sizeof *told);
    for (size_t p = 0; p < route->index_len; p++) found[p] = ((const int32_t *)route->got)[route->slots[p]];
    return status;
}

void cvl_fetch_segments(CvlCall *c, CvlTargets *targets) {
    CvlRoute route = {0};
    Asked a = {0};
    take_asked(c, &a);
    if (cvl_agree(c, 0)) {
        fill_asked(c, &a);
        if (cvl_make_route(c, &route, a.numbers, c->segments->pieces, c->other->starts, -1)) {
            cvl_settle_route(&route, a.slots);
            a.slots = NULL;
            cvl_say(c, fetch_into(&route, a.starts, targets->starts));
            cvl_say(c, fetch_into(&route, a.places, targets->places));
        }
    }
    cvl_clear_route(&route);
    free(a.wide), free(a.starts), free(a.places), free(a.numbers), free(a.slots);
}

bool cvl_find_targets(CvlCall *c, CvlTargets *targets, uint64_t places, bool is_select) {
    const CvlRankSegments *const s = c->segments;
    targets->pieces = pieces_of(c);
    if (s == NULL) {
        const uint64_t before =
            (uint64_t)cvl_before(c->ranks, cvl_fold(CVL_JOIN_COUNTS, 0, 0, (int64_t)c->in[CVL_AS_INDEX].number, 0)).low;
        targets->own_length = (int32_t)c->in[CVL_AS_INDEX].number;
        targets->lengths = &targets->own_length;
        targets->starts[0] = 0, targets->places[0] = (int64_t)places;
        targets->first_place = (int64_t)before;
        return 1;
    }
    targets->lengths = c->by_segment ? NULL : s->lengths;
    targets->first_place = s->goes_on ? (int64_t)s->head_before : 0;
    if (is_select) kept_segments(c, targets->starts, targets->places);
    else if (c->other != NULL) cvl_fetch_segments(c, targets);
    else own_segments(s, c->by_segment && s->goes_on ? 1 : 0, targets->starts, targets->places);
    return c->status.number == CVL_DONE;
}
