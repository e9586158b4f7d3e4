/*
 * Which ranks ask which for what: back permutes over ranks, and routes, which keep it for an index. Each rank asks once for each element
 * that it needs, in the order of the places, so that those who answer read their parts from the front to the back. It puts its indices into
 * the order of bins for that, and what it gets back into the order of the indices.
 */
#include "permutes.h"

/* ---- the places that are asked for, each once ---- */

/* 32 places, which of them are asked for, and how many are before them. */
typedef struct Word {
    uint32_t bits, before;
} Word;

static uint32_t ones(uint32_t bits) {
    bits -= bits >> 1 & 0x55555555u;
    bits = (bits & 0x33333333u) + (bits >> 2 & 0x33333333u);
    return ((bits + (bits >> 4)) & 0x0f0f0f0fu) * 0x01010101u >> 24;
}

/* The places of a bin that are asked for: in the whole, and each one's slot once it is found. */
typedef struct Named {
    int32_t *places;
    size_t count;
} Named;

/* Marks the places, writes those that are marked in order, as places of their rank, and answers how many are asked for with those before. */
static uint32_t unique_by_marks(Word *words, const CvlBin *bin, Named named, int32_t *asked, uint32_t before) {
    const uint32_t lowest = bin->start, count = (bin[1].start - lowest + 31) / 32;
    uint32_t all = before;
    memset(words, 0, count * sizeof *words);
    for (size_t k = 0; k < named.count; k++) {
        const uint32_t at = (uint32_t)named.places[k] - lowest;
        words[at / 32].bits |= UINT32_C(1) << at % 32;
    }
    for (uint32_t w = 0; w < count; w++) {
        words[w].before = all;
        for (uint32_t bits = words[w].bits; bits != 0; bits &= bits - 1) {
            const uint32_t low = bits & (~bits + 1);
            asked[all++] = (int32_t)(lowest - bin->part + w * 32 + ones(low - 1));
        }
    }
    for (size_t k = 0; k < named.count; k++) {
        const uint32_t at = (uint32_t)named.places[k] - lowest;
        named.places[k] = (int32_t)(words[at / 32].before + ones(words[at / 32].bits & ((UINT32_C(1) << at % 32) - 1)));
    }
    return all;
}

static int compare(const void *a, const void *b) {
    const int32_t first = *(const int32_t *)a, second = *(const int32_t *)b;
    return (first > second) - (first < second);
}

/* The same by sorting, if the places lie far apart. */
static uint32_t unique_by_sorting(const CvlBin *bin, Named named, int32_t *asked, uint32_t before) {
    uint32_t all = before;
    memcpy(asked + before, named.places, named.count * sizeof *asked);
    qsort(asked + before, named.count, sizeof *asked, compare);
    for (size_t k = before; k < before + named.count; k++) {
        if (all == before || asked[all - 1] != asked[k]) asked[all++] = asked[k];
    }
    for (size_t k = 0; k < named.count; k++) {
        const int32_t *const found = bsearch(&named.places[k], asked + before, all - before, sizeof *asked, compare);
        named.places[k] = (int32_t)(found - asked);
    }
    for (uint32_t k = before; k < all; k++) asked[k] = (int32_t)((uint32_t)asked[k] - bin->part);
    return all;
}

/* Puts places into the order of their bins. */
static void put_in_bins(CvlBins *bins, const int32_t *places, size_t n, int32_t *to) {
    for (size_t k = 0; k < n; k++) cvl_bin_of(bins, places[k])->next++;
    cvl_start_bins(bins);
    for (size_t k = 0; k < n; k++) to[cvl_bin_of(bins, places[k])->next++] = places[k];
}

/* Finds the places that are asked for, how many of each rank, and which of them is each index's. */
static void find_asked(CvlCall *c, CvlRoute *route, int32_t *asked) {
    const CvlBin *const bin = route->bins.bin;
    int *const sends = c->ranks->sends;
    uint32_t all = 0;
    Word *const words = cvl_take(c, ((size_t)1 << route->bins.shift) / 32 + 1, sizeof *words);
    memset(sends, 0, (size_t)c->ranks->size * sizeof *sends);
    if (words == NULL) return;
    put_in_bins(&route->bins, route->places, route->index_len, route->slots);
    for (size_t b = 0, from = 0; b < route->bins.count; from = bin[b++].next) {
        const Named named = {route->slots + from, bin[b].next - from};
        const uint32_t before = all;
        if (named.count == 0) continue;
        const bool far = (bin[b + 1].start - bin[b].start) / 128 > named.count;
        all = far ? unique_by_sorting(&bin[b], named, asked, before) : unique_by_marks(words, &bin[b], named, asked, before);
        sends[bin[b].rank] += (int)(all - before);
    }
    route->asks = all;
    cvl_restart_bins(&route->bins);
    free(words);
}

/* ---- a route ---- */

void cvl_clear_route(CvlRoute *route) {
    free(route->counts), free(route->slots), free(route->answered), free(route->sent), free(route->got);
    cvl_free_bins(&route->bins);
}

bool cvl_make_route(CvlCall *c, CvlRoute *route, const int32_t *places, size_t places_len, size_t source_len, int64_t bad) {
    CvlRanks *const ranks = c->ranks;
    const size_t bytes = 4 * (size_t)ranks->size * sizeof(int);
    int32_t *const asked = c->status.number == CVL_DONE ? cvl_take(c, places_len, sizeof *asked) : NULL;
    route->ranks = ranks, route->source_len = source_len, route->index_len = places_len, route->places = places;
    cvl_offsets(ranks, source_len);
    if (c->status.number == CVL_DONE) route->slots = cvl_take(c, places_len, sizeof *route->slots);
    if (c->status.number == CVL_DONE) route->counts = cvl_take(c, 4 * (size_t)ranks->size, sizeof(int));
    cvl_take_bins(c, &route->bins);
    if (bad >= 0) cvl_say(c, cvl_status(CVL_INDEX_OUT_OF_RANGE, bad));
    if (c->status.number == CVL_DONE) find_asked(c, route, asked);
    bool done = cvl_agree(c, places_len);
    if (done) {
        route->answers = cvl_exchange_counts(c);
        memcpy(route->counts, ranks->sends, bytes);
        if (c->status.number == CVL_DONE) route->answered = cvl_take(c, route->answers, sizeof(int32_t));
        if (c->status.number == CVL_DONE) route->sent = cvl_take(c, route->answers, sizeof(int32_t));
        if (c->status.number == CVL_DONE) route->got = cvl_take(c, route->asks, sizeof(int32_t));
        done = cvl_agree(c, places_len);
    }
    if (done) cvl_send(ranks, asked, route->answered, sizeof(int32_t));
    free(asked);
    return done;
}

/* Sends what others ask this rank for; or, back, what goes to those that it asks. */
static void answer(CvlRoute *route, const void *from, void *to, size_t size, bool back) {
    const int n = route->ranks->size, *const asks = route->counts, *const answers = asks + 2 * n;
    const MPI_Datatype type = size == sizeof(bool) ? MPI_UINT8_T : MPI_INT32_T;
    const int *const out = back ? asks : answers, *const in = back ? answers : asks;
    MPI_Alltoallv(from, out, out + n, type, to, in, in + n, type, route->ranks->comm);
}

CvlStatus cvl_fetch(CvlRoute *route, const void *source, size_t size) {
    CvlStatus status = cvl_done();
    if (size == sizeof(bool)) {
        for (size_t k = 0; k < route->answers; k++) ((bool *)route->sent)[k] = ((const bool *)source)[route->answered[k]] != 0;
    } else {
        status = cvl_back_permute_int(source, route->source_len, route->answered, route->answers, route->sent, route->answers);
    }
    answer(route, route->sent, route->got, size, 0);
    return status;
}

void cvl_write_once(CvlRoute *route, void *out, size_t size) {
    const size_t n = route->index_len;
    const bool is_bool = size == sizeof(bool);
    int32_t *const in_bins = route->slots;
    for (size_t k = 0; k < n; k++)
        in_bins[k] = is_bool ? ((const bool *)route->got)[in_bins[k]] : ((const int32_t *)route->got)[in_bins[k]];
    for (size_t k = 0; k < n; k++) {
        const int32_t element = in_bins[cvl_bin_of(&route->bins, route->places[k])->next++];
        if (is_bool) ((bool *)out)[k] = element != 0;
        else ((int32_t *)out)[k] = element;
    }
}

void cvl_settle_route(CvlRoute *route, int32_t *slots) {
    for (size_t k = 0; k < route->index_len; k++) slots[k] = route->slots[cvl_bin_of(&route->bins, route->places[k])->next++];
    free(route->slots);
    route->slots = slots, route->places = NULL;
}

/* Writes what was fetched where it was asked for, by a route that has settled. */
static CvlStatus write_fetched(const CvlRoute *route, void *out, size_t size) {
    const size_t n = route->index_len;
    if (size != sizeof(bool)) return cvl_back_permute_int(route->got, route->asks, route->slots, n, out, n);
    for (size_t k = 0; k < n; k++) ((bool *)out)[k] = ((const bool *)route->got)[route->slots[k]];
    return cvl_done();
}

/* ---- back permutes ---- */

int64_t cvl_first_outside(const int32_t *index, size_t index_len, uint64_t places) {
    for (size_t k = 0; k < index_len; k++) {
        if (index[k] < 0 || (uint64_t)index[k] >= places) return (int64_t)k;
    }
    return -1;
}

/* The place of each index, and the first index that is out of range, or -1. */
static int64_t find_places(const int32_t *index, const CvlTargets *targets, int32_t *places) {
    size_t k = 0;
    for (size_t p = 0; p < targets->pieces; p++) {
        for (const size_t to = k + cvl_indices_of(targets, p); k < to; k++) {
            if (index[k] < 0 || index[k] >= targets->places[p]) return (int64_t)k;
            places[k] = (int32_t)(targets->starts[p] + index[k]);
        }
    }
    return -1;
}

CvlStatus cvl_back_over_ranks(CvlCall *c) {
    const CvlSlot index = c->in[CVL_AS_INDEX], source = c->in[CVL_AS_A];
    const size_t size = cvl_room_size(c);
    CvlTargets targets = {0};
    CvlRoute route = {0};
    int32_t *places = NULL;
    const uint64_t total = cvl_offsets(c->ranks, source.number);
    if (total > CVL_MOST_ELEMENTS) cvl_say(c, cvl_status(CVL_TOO_LONG, -1));
    cvl_look_at_targets(c);
    /* without segments an index is the place */
    if (c->status.number == CVL_DONE && c->segments != NULL) places = cvl_take(c, index.number, sizeof *places);
    cvl_take_targets(c, &targets);
    if (cvl_agree(c, index.number) && cvl_find_targets(c, &targets, total, 0)) {
        const int64_t bad = places == NULL ? cvl_first_outside(index.at, index.number, total)
                                           : find_places(index.at, &targets, places);
        const int32_t *const all = places == NULL ? index.at : places;
        size_t runs;
        if (cvl_are_in_runs(c, bad < 0, all, index.number, &runs)) {
            cvl_back_in_runs(c, all, index.number, runs);
        } else if (cvl_make_route(c, &route, all, index.number, source.number, bad)) {
            cvl_say(c, cvl_fetch(&route, source.at, size));
            cvl_write_once(&route, cvl_room(c), size);
        }
    }
    free(places), free(targets.starts), free(targets.places);
    cvl_clear_route(&route);
    return c->status;
}

CvlStatus cvl_seg_extract_over_ranks(CvlCall *c) {
    c->by_segment = 1;
    return cvl_back_over_ranks(c);
}

/* ---- the program's own routes ---- */

static const CvlRankRow route_family = {.call = CVL_CALL_ROUTE >> 8, .named = 1};

static CvlCall call_of(CvlRanks *ranks) {
    CvlCall c;
    memset(&c, 0, sizeof c);
    c.ranks = ranks, c.family = &route_family, c.status = cvl_done();
    return c;
}

/* Whether no place of the rank is asked for twice. */
static bool is_each_once(CvlCall *c, const CvlRoute *route) {
    bool *const seen = cvl_take(c, route->source_len, sizeof *seen), once = 1;
    if (seen == NULL) return 0;
    memset(seen, 0, route->source_len);
    for (size_t k = 0; k < route->answers; k++) {
        if (seen[route->answered[k]]) once = 0;
        seen[route->answered[k]] = 1;
    }
    free(seen);
    return once;
}

/* The status of a simple permute by the index. If an index is repeated, a permute of the indices finds the first. */
static void look_at_permute(CvlCall *c, CvlRoute *route, const int32_t *index) {
    const bool once = route->asks == route->index_len && is_each_once(c, route);
    const int64_t more = (int64_t)route->index_len - (int64_t)route->source_len;
    const CvlFold all = cvl_all(c->ranks, cvl_fold(CVL_JOIN_COUNTS, 0, !once, more, 0));
    route->permute = all.low != 0 ? cvl_status(CVL_LENGTH_MISMATCH, -1) : cvl_done();
    if (!cvl_agree(c, 0) || all.low != 0 || all.high == 0) return;
    int32_t *const room = cvl_take(c, route->source_len, sizeof *room);
    if (cvl_agree(c, 0))
        route->permute = cvl_permute_int_mpi(c->ranks, index, route->index_len, index, route->index_len, room, route->source_len);
    if (route->permute.number == CVL_NO_RESOURCES) cvl_say(c, route->permute);
    free(room);
}

CvlStatus cvl_route_new(CvlRanks *ranks, const int32_t *index, size_t index_len, size_t source_len, CvlRoute **made) {
    if (made != NULL) *made = NULL;
    if (!cvl_are_ranks(ranks)) return cvl_status(CVL_NO_DESCRIPTOR, -1);
    if (!cvl_is_one_call(ranks, CVL_CALL_ROUTE)) return cvl_status(CVL_UNKNOWN_CALL, -1);
    CvlCall c = call_of(ranks);
    const uint64_t total = cvl_offsets(ranks, source_len);
    if (made == NULL) cvl_say(&c, cvl_status(CVL_NO_DESCRIPTOR, -1));
    if (index_len > CVL_MOST_ELEMENTS || total > CVL_MOST_ELEMENTS) cvl_say(&c, cvl_status(CVL_TOO_LONG, -1));
    CvlRoute *const route = cvl_take(&c, 1, sizeof *route);
    int32_t *slots = c.status.number == CVL_DONE ? cvl_take(&c, index_len, sizeof *slots) : NULL;
    if (route != NULL) memset(route, 0, sizeof *route);
    if (cvl_agree(&c, index_len) &&
        cvl_make_route(&c, route, index, index_len, source_len, cvl_first_outside(index, index_len, total))) {
        cvl_settle_route(route, slots);
        slots = NULL;
        look_at_permute(&c, route, index);
    }
    free(slots);
    if (c.status.number == CVL_DONE) *made = route;
    else cvl_route_free(route);
    return c.status;
}

void cvl_route_free(CvlRoute *route) {
    if (route == NULL) return;
    cvl_clear_route(route);
    free(route);
}

/* Whether all ranks have arrays of these lengths that are apart. */
static CvlStatus agree_on_route(CvlRoute *route, uint32_t op, bool apart, bool fits) {
    CvlCall c = call_of(route->ranks);
    c.op = op;
    if (!apart) cvl_say(&c, cvl_overlap());
    if (!fits) cvl_say(&c, cvl_status(CVL_LENGTH_MISMATCH, -1));
    cvl_agree(&c, 0);
    return c.status;
}

static CvlStatus back_by(CvlRoute *route, const void *source, size_t source_len, void *out, size_t out_len, size_t size) {
    if (route == NULL || !cvl_are_ranks(route->ranks)) return cvl_status(CVL_NO_DESCRIPTOR, -1);
    const bool apart = !cvl_meet(source, source_len, size, out, out_len, size),
               fits = source_len == route->source_len && out_len == route->index_len;
    CvlStatus status = agree_on_route(route, (uint32_t)size, apart, fits);
    if (status.number != CVL_DONE) return status;
    status = cvl_fetch(route, source, size);
    return status.number == CVL_DONE ? write_fetched(route, out, size) : status;
}

CvlStatus cvl_route_back_int(CvlRoute *route, const int32_t *source, size_t source_len, int32_t *out, size_t out_len) {
    return back_by(route, source, source_len, out, out_len, sizeof *source);
}

CvlStatus cvl_route_back_bool(CvlRoute *route, const bool *source, size_t source_len, bool *out, size_t out_len) {
    return back_by(route, source, source_len, out, out_len, sizeof *source);
}

/* Each element goes to the rank that has its place. */
static void send_elements(CvlRoute *route, const void *source, void *out, size_t size) {
    for (size_t k = 0; k < route->index_len; k++) {
        if (size == sizeof(bool)) ((bool *)route->got)[route->slots[k]] = ((const bool *)source)[k] != 0;
        else ((int32_t *)route->got)[route->slots[k]] = ((const int32_t *)source)[k];
    }
    answer(route, route->got, route->sent, size, 1);
    for (size_t k = 0; k < route->answers; k++) {
        if (size == sizeof(bool)) ((bool *)out)[route->answered[k]] = ((const bool *)route->sent)[k];
        else ((int32_t *)out)[route->answered[k]] = ((const int32_t *)route->sent)[k];
    }
}

static CvlStatus permute_by(CvlRoute *route, const void *source, size_t source_len, void *out, size_t out_len, size_t size) {
    if (route == NULL || !cvl_are_ranks(route->ranks)) return cvl_status(CVL_NO_DESCRIPTOR, -1);
    const bool apart = !cvl_meet(source, source_len, size, out, out_len, size),
               fits = source_len == route->index_len && out_len == route->source_len;
    const CvlStatus status = agree_on_route(route, 16 + (uint32_t)size, apart, fits);
    if (status.number != CVL_DONE || route->permute.number != CVL_DONE)
        return status.number != CVL_DONE ? status : route->permute;
    send_elements(route, source, out, size);
    return status;
}

CvlStatus cvl_route_permute_int(CvlRoute *route, const int32_t *source, size_t source_len, int32_t *out, size_t out_len) {
    return permute_by(route, source, source_len, out, out_len, sizeof *source);
}

CvlStatus cvl_route_permute_bool(CvlRoute *route, const bool *source, size_t source_len, bool *out, size_t out_len) {
    return permute_by(route, source, source_len, out, out_len, sizeof *source);
}
