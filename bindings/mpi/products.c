/*
 * Sparse products over ranks: each rank asks once for each element of the vector that its columns name, multiplies its entries by the plain
 * family, and joins rows that cross ranks as a segmented reduce does.
 */
#include "permutes.h"
#include "shares.h"

/* The entries of a rank, with what its columns name in `x`. */
typedef struct Entries {
    const CvlRankSegments *rows;
    const int32_t *values, *slots, *x;
    size_t count, x_len;
    int32_t *sums; /* of each piece of a row */
} Entries;

/* ---- sums that wrap ---- */

static void multiply(CvlCall *c, const Entries *e) {
    const CvlLengths rows = {e->rows->lengths, e->rows->pieces};
    const bool goes_on = e->rows->goes_on, starts = e->rows->starts > 0;
    int32_t *const out = cvl_room(c);
    if (c->status.number == CVL_DONE)
        cvl_say(c, cvl_sparse_product(rows, e->slots, e->count, e->values, e->count, e->x, e->x_len, e->sums, rows.segments));
    const int64_t head = goes_on && c->status.number == CVL_DONE ? e->sums[0] : 0;
    const CvlFold after = cvl_after(c->ranks, cvl_fold(CVL_JOIN_INTS, CVL_ADD, 0, head, starts));
    if (!cvl_agree(c, e->rows->starts) || !starts) return;
    memcpy(out, e->sums + goes_on, e->rows->starts * sizeof *out);
    CvlFold last = after;
    last.low = out[e->rows->starts - 1];
    out[e->rows->starts - 1] = (int32_t)cvl_joined(last, after).low;
}

/* ---- exact sums ---- */

/* The exact sum of entries: neither the sum of their products' low words nor that of the high ones is past 64 bits. */
static CvlFold exact_product(const Entries *e, size_t from, size_t to, bool starts) {
    int64_t all = 0, high;
    uint64_t low = 0;
    for (size_t k = from; k < to; k++) {
        low += (uint64_t)cvl_low_of_product(e->values[k], e->x[e->slots[k]], &high);
        all += high;
    }
    return cvl_fold(CVL_JOIN_WIDE, 0, all + (int64_t)(low >> 32), (int64_t)(low & 0xffffffffu), starts);
}

/* Whether a sum fits 32 bits, and the sum. */
static bool fits(CvlFold sum, int32_t *number) {
    if ((sum.high != 0 || sum.low > INT32_MAX) && (sum.high != -1 || sum.low <= INT32_MAX)) return 0;
    *number = (int32_t)(sum.high == 0 ? sum.low : sum.low - INT64_C(0x100000000));
    return 1;
}

/* The rows that start in the rank: all but the last by the plain family, the last joined with what later ranks have of it. */
static void multiply_starting(CvlCall *c, const Entries *e, CvlFold after) {
    const size_t starts = e->rows->starts, head = cvl_head_of(e->rows),
                 last = e->count - (size_t)e->rows->lengths[e->rows->pieces - 1];
    const CvlLengths rows = {e->rows->goes_on ? e->rows->lengths + 1 : e->rows->lengths, starts - 1};
    const size_t n = last - head;
    cvl_say(c, cvl_checked_sparse_product(rows, e->slots + head, n, e->values + head, n, e->x, e->x_len, e->sums, starts - 1));
    const CvlFold sum = cvl_joined(exact_product(e, last, e->count, 1), after);
    if (!fits(sum, &e->sums[starts - 1])) cvl_say(c, cvl_status(CVL_OVERFLOW, (int64_t)starts - 1));
}

static void multiply_checked(CvlCall *c, const Entries *e) {
    const size_t starts = e->rows->starts;
    const CvlFold after = cvl_after(c->ranks, exact_product(e, 0, cvl_head_of(e->rows), starts > 0));
    if (c->status.number == CVL_DONE && starts > 0) multiply_starting(c, e, after);
    if (cvl_agree(c, starts) && starts > 0) memcpy(cvl_room(c), e->sums, starts * sizeof *e->sums);
}

/* ---- the calls ---- */

/* Whether the family's sums never wrap. */
static bool is_checked(const CvlCall *c) { return c->family->checked; }

/* Multiplies entries with elements of x that were fetched. */
static void multiply_fetched(CvlCall *c, const int32_t *slots, const int32_t *x, size_t x_len) {
    const CvlSlot values = c->in[CVL_AS_A];
    Entries e = {c->segments, values.at, slots, x, values.number, x_len, NULL};
    e.sums = cvl_take(c, c->segments->pieces, sizeof *e.sums);
    if (is_checked(c)) multiply_checked(c, &e);
    else multiply(c, &e);
    free(e.sums);
}

CvlStatus cvl_product_over_ranks(CvlCall *c) {
    const CvlSlot columns = c->in[CVL_AS_INDEX], x = c->in[CVL_AS_B];
    CvlRoute route = {0};
    const uint64_t x_len = cvl_offsets(c->ranks, x.number);
    if (x_len > CVL_MOST_ELEMENTS) cvl_say(c, cvl_status(CVL_TOO_LONG, -1));
    int32_t *const own = c->status.number == CVL_DONE ? cvl_take(c, columns.number, sizeof *own) : NULL;
    if (cvl_agree(c, columns.number)) {
        const int64_t bad = cvl_first_outside(columns.at, columns.number, x_len);
        if (cvl_make_route(c, &route, columns.at, columns.number, x.number, bad)) {
            cvl_say(c, cvl_fetch(&route, x.at, sizeof(int32_t)));
            /* then each entry has an element of its own */
            cvl_write_once(&route, own, sizeof(int32_t));
            for (size_t k = 0; k < columns.number; k++) route.slots[k] = (int32_t)k;
            multiply_fetched(c, route.slots, own, columns.number);
        }
    }
    free(own);
    cvl_clear_route(&route);
    return c->status;
}

/* ---- rows that come by their offsets ---- */

/* The lengths between the offsets of this rank's rows, which are whole. */
static int32_t *lengths_of(CvlCall *c, CvlSlot offsets, size_t entries) {
    const size_t rows = offsets.number == 0 ? 0 : offsets.number - 1;
    const int32_t *const at = offsets.at;
    if (c->status.number != CVL_DONE) return NULL;
    int32_t *const lengths = cvl_take(c, rows, sizeof *lengths);
    if (lengths == NULL) return NULL;
    CvlSegments between;
    cvl_say(c, cvl_segments_from_offsets(at, offsets.number, lengths, rows, &between));
    if (c->status.number == CVL_DONE && (size_t)at[rows] != entries) cvl_say(c, cvl_status(CVL_LENGTH_MISMATCH, -1));
    return lengths;
}

CvlStatus cvl_rows_over_ranks(CvlCall *c) {
    const CvlSlot offsets = c->in[CVL_AS_OFFSETS];
    const size_t rows = offsets.number == 0 ? 0 : offsets.number - 1;
    CvlRankSegments *segments = NULL;
    if (rows != c->in[CVL_AS_OUT].number) cvl_say(c, cvl_status(CVL_LENGTH_MISMATCH, -1));
    int32_t *const lengths = lengths_of(c, offsets, c->in[CVL_AS_INDEX].number);
    if (cvl_agree(c, rows)) {
        const CvlLengths pieces = {lengths, rows};
        cvl_say(c, cvl_rank_segments_new(c->ranks, pieces, 0, &segments));
    }
    c->segments = segments;
    if (c->status.number == CVL_DONE) cvl_product_over_ranks(c);
    cvl_rank_segments_free(segments);
    free(lengths);
    return c->status;
}

/* ---- by a route for the columns ---- */

static const CvlRankRow route_family = {.call = (CVL_CALL_ROUTE >> 8) + 1},
                        checked_route_family = {.call = (CVL_CALL_ROUTE >> 8) + 2, .checked = 1};

/* The faults that a plain call reports first. */
static void look(CvlCall *c, const CvlRoute *route) {
    const CvlSlot values = c->in[CVL_AS_A], x = c->in[CVL_AS_B], out = c->in[CVL_AS_OUT];
    const CvlRankSegments *const rows = c->segments;
    const size_t size = sizeof(int32_t);
    if (rows == NULL || rows->ranks != c->ranks) {
        cvl_say(c, cvl_status(CVL_NO_DESCRIPTOR, -1));
        return;
    }
    const bool meets = cvl_meet(out.at, out.number, size, values.at, values.number, size) ||
        cvl_meet(out.at, out.number, size, x.at, x.number, size);
    if (meets) cvl_say(c, cvl_overlap());
    const bool fits = values.number == route->index_len && values.number == rows->total && x.number == route->source_len &&
        out.number == rows->starts;
    if (!fits) cvl_say(c, cvl_status(CVL_LENGTH_MISMATCH, -1));
}

static CvlStatus product_by(
    CvlRoute *route, const CvlRankRow *family, const CvlRankSegments *rows, CvlSlot values, CvlSlot x, CvlSlot out) {
    CvlCall c;
    if (route == NULL || !cvl_are_ranks(route->ranks)) return cvl_status(CVL_NO_DESCRIPTOR, -1);
    memset(&c, 0, sizeof c);
    c.ranks = route->ranks, c.family = family, c.status = cvl_done(), c.segments = rows;
    c.in[CVL_AS_A] = values, c.in[CVL_AS_B] = x, c.in[CVL_AS_OUT] = out;
    look(&c, route);
    if (!cvl_agree(&c, values.number)) return c.status;
    cvl_say(&c, cvl_fetch(route, x.at, sizeof(int32_t)));
    multiply_fetched(&c, route->slots, route->got, route->asks);
    return c.status;
}

CvlStatus cvl_route_sparse_product(
    CvlRoute *route, const CvlRankSegments *rows, const int32_t *values, size_t values_len, const int32_t *x, size_t x_len,
    int32_t *out, size_t out_len) {
    const CvlSlot entries = {values, values_len}, vector = {x, x_len}, room = {out, out_len};
    return product_by(route, &route_family, rows, entries, vector, room);
}

CvlStatus cvl_route_checked_sparse_product(
    CvlRoute *route, const CvlRankSegments *rows, const int32_t *values, size_t values_len, const int32_t *x, size_t x_len,
    int32_t *out, size_t out_len) {
    const CvlSlot entries = {values, values_len}, vector = {x, x_len}, room = {out, out_len};
    return product_by(route, &checked_route_family, rows, entries, vector, room);
}
