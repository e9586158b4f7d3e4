/* Whole vectors over ranks: place by place, reduces and scans, sums that never wrap, counts, packs, and single elements. */
#include "ranks.h"

enum { CVL_BLOCK = 4096 };

/* How many places this rank has of what the call goes by. */
static uint64_t own_number(const CvlCall *c) {
    const CvlRow *const row = &c->family->row;
    return row->is & CVL_COUNTED ? c->in[CVL_AS_COUNT].number : c->s[row->cut].number;
}

/* How many places ranks before this one have. */
static uint64_t places_before(CvlCall *c, uint64_t number) {
    return (uint64_t)cvl_before(c->ranks, cvl_fold(CVL_JOIN_COUNTS, 0, 0, (int64_t)number, 0)).low;
}

/* ---- place by place ---- */

static bool may_be_refused(const CvlCall *c) { return c->family->asks || (c->op < 32 && (c->family->row.faulty >> c->op & 1)); }

/* The number of a progression at the first place of this rank. */
static void start_index(CvlCall *c) {
    const CvlRow *const row = &c->family->row;
    const uint64_t before = places_before(c, own_number(c));
    for (size_t k = 0; k < row->operands; k++) {
        if (row->operand[k].as == CVL_AS_VALUE) c->s[k].number += (size_t)before * c->in[CVL_AS_STRIDE].number;
    }
}

/* A value and a stride are the same in all ranks. */
static bool do_numbers_agree(CvlCall *c) {
    if (!(c->family->row.is & CVL_COUNTED)) return 1;
    if (!cvl_agree_on_numbers(c)) return 0;
    start_index(c);
    return 1;
}

CvlStatus cvl_places_over_ranks(CvlCall *c) {
    if (may_be_refused(c)) {
        cvl_set_aside(c);
        cvl_make_own(c);
        if (cvl_agree(c, own_number(c))) cvl_move_in(c);
        return c->status;
    }
    if (cvl_agree(c, own_number(c)) && do_numbers_agree(c)) cvl_make_own(c);
    return c->status;
}

/* ---- reduces and scans ---- */

CvlFold cvl_own_reduce(CvlCall *c, CvlSlot a) {
    CvlFold fold = cvl_nothing(cvl_has_bools(c) ? CVL_JOIN_BOOLS : CVL_JOIN_INTS, c->op);
    if (c->status.number != CVL_DONE) return fold;
    if (cvl_has_bools(c)) {
        bool flag = 0;
        cvl_say(c, cvl_bool_reduce(c->op, a.at, a.number, &flag));
        fold.low = flag;
    } else {
        int32_t number = 0;
        cvl_say(c, cvl_int_reduce(c->op, a.at, a.number, &number));
        fold.low = number;
    }
    return fold;
}

CvlStatus cvl_reduce_over_ranks(CvlCall *c) {
    const CvlFold mine = cvl_own_reduce(c, c->in[CVL_AS_A]);
    if (!cvl_agree(c, own_number(c))) return c->status;
    const CvlFold all = cvl_all(c->ranks, mine);
    if (cvl_has_bools(c)) *(bool *)cvl_room(c) = all.low != 0;
    else *(int32_t *)cvl_room(c) = (int32_t)all.low;
    return c->status;
}

/* Scans this rank's elements after what stands before them. */
static void scan_after(CvlCall *c, int64_t before) {
    const CvlSlot a = c->in[CVL_AS_A];
    if (cvl_has_bools(c)) cvl_say(c, cvl_bool_scan_after(c->op, before != 0, a.at, a.number, cvl_room(c), a.number));
    else cvl_say(c, cvl_int_scan_after(c->op, (int32_t)before, a.at, a.number, cvl_room(c), a.number));
}

CvlStatus cvl_scan_over_ranks(CvlCall *c) {
    cvl_clean(c);
    const CvlFold mine = cvl_own_reduce(c, c->in[CVL_AS_A]);
    if (cvl_agree(c, own_number(c))) scan_after(c, cvl_before(c->ranks, mine).low);
    return c->status;
}

/* ---- sums that never wrap ---- */

static CvlFold own_sum(CvlCall *c) {
    const CvlSlot a = c->in[CVL_AS_A];
    CvlFold fold = cvl_nothing(CVL_JOIN_EXACT, 0);
    if (c->status.number == CVL_DONE) cvl_say(c, cvl_exact_sum(a.at, a.number, &fold.low));
    return fold;
}

static bool fits(CvlFold sum) { return sum.high == 0 && sum.low >= INT32_MIN && sum.low <= INT32_MAX; }

CvlStatus cvl_checked_reduce_over_ranks(CvlCall *c) {
    const CvlFold mine = own_sum(c);
    if (!cvl_agree(c, own_number(c))) return c->status;
    const CvlFold all = cvl_all(c->ranks, mine);
    if (!fits(all)) return cvl_status(CVL_OVERFLOW, 0);
    *(int32_t *)cvl_room(c) = (int32_t)all.low;
    return c->status;
}

/* Looks for the first place whose sum does not fit, a block at a time. */
static void look_at_sums(CvlCall *c, CvlFold before) {
    int32_t sums[CVL_BLOCK];
    const int32_t *const a = c->in[CVL_AS_A].at;
    const size_t n = c->in[CVL_AS_A].number;
    int64_t sum = before.low;
    /* a sum past 64 bits was past 32 before, in a rank before this one */
    if (before.high != 0) return;
    for (size_t from = 0; from < n && c->status.number == CVL_DONE; from += CVL_BLOCK) {
        const size_t count = n - from < CVL_BLOCK ? n - from : CVL_BLOCK;
        int64_t own = 0;
        CvlStatus status = cvl_checked_scan_after(sum, a + from, count, sums, count);
        if (status.place >= 0) status.place += (int64_t)from;
        cvl_say(c, status);
        cvl_say(c, cvl_exact_sum(a + from, count, &own));
        sum += own;
    }
}

CvlStatus cvl_checked_scan_over_ranks(CvlCall *c) {
    const CvlFold before = cvl_before(c->ranks, own_sum(c));
    c->op = CVL_ADD;
    if (c->status.number == CVL_DONE) look_at_sums(c, before);
    if (cvl_agree(c, own_number(c))) scan_after(c, fits(before) ? before.low : 0);
    return c->status;
}

/* ---- counts and packs ---- */

/* How many of this rank's flags are true. */
static size_t own_trues(CvlCall *c) {
    int32_t count = 0;
    if (c->status.number == CVL_DONE) cvl_say(c, cvl_count(c->in[CVL_AS_FLAGS].at, c->in[CVL_AS_FLAGS].number, &count));
    return (size_t)count;
}

CvlStatus cvl_count_over_ranks(CvlCall *c) {
    const size_t count = own_trues(c);
    if (!cvl_agree(c, own_number(c))) return c->status;
    *(int32_t *)cvl_room(c) = (int32_t)cvl_all(c->ranks, cvl_fold(CVL_JOIN_COUNTS, 0, 0, (int64_t)count, 0)).low;
    return c->status;
}

/* What a rank packs stays with it. Segments change nothing of it, once their lengths are those of the vector. */
CvlStatus cvl_pack_over_ranks(CvlCall *c) {
    size_t *const told = (size_t *)c->in[CVL_AS_TOLD].at, kept = 0;
    const CvlSlot a = c->in[CVL_AS_A], out = c->in[CVL_AS_OUT];
    const size_t count = own_trues(c);
    if (c->status.number == CVL_DONE && count > out.number) {
        c->status = cvl_status(CVL_LENGTH_MISMATCH, -1);
        c->short_room = 1;
    }
    cvl_clean(c);
    const bool *const flags = c->in[CVL_AS_FLAGS].at;
    const bool agree = cvl_agree(c, own_number(c));
    if (agree || c->short_room) *told = count;
    if (!agree) return c->status;
    const void *const values = c->in[CVL_AS_A].at;
    if (cvl_has_bools(c)) cvl_say(c, cvl_pack_bool(values, a.number, flags, a.number, (bool *)out.at, out.number, &kept));
    else cvl_say(c, cvl_pack_int(values, a.number, flags, a.number, (int32_t *)out.at, out.number, &kept));
    return c->status;
}

/* ---- single elements ---- */

/* Where the call's place stands, from this rank's first element on, or nothing if another rank has it; 10 if none has. */
static bool is_own_place(CvlCall *c, size_t *at) {
    const size_t n = c->in[CVL_AS_A].number;
    const int64_t place = (int64_t)c->in[CVL_AS_PLACE].number;
    if (!cvl_agree_on_numbers(c)) return 0;
    const uint64_t before = places_before(c, n);
    if (place < 0 || (uint64_t)place >= c->total) {
        cvl_say(c, cvl_status(CVL_INDEX_OUT_OF_RANGE, 0));
        return 0;
    }
    *at = (size_t)((uint64_t)place - before);
    return (uint64_t)place >= before && *at < n;
}

CvlStatus cvl_extract_over_ranks(CvlCall *c) {
    const void *const vector = c->in[CVL_AS_A].at;
    CvlFold element = cvl_fold(CVL_JOIN_COUNTS, 0, 0, 0, 0);
    size_t at = 0;
    if (!cvl_agree(c, c->in[CVL_AS_A].number)) return c->status;
    if (is_own_place(c, &at)) element.low = cvl_has_bools(c) ? ((const bool *)vector)[at] != 0 : ((const int32_t *)vector)[at];
    if (c->status.number != CVL_DONE) return c->status;
    element = cvl_all(c->ranks, element);
    if (cvl_has_bools(c)) *(bool *)cvl_room(c) = element.low != 0;
    else *(int32_t *)cvl_room(c) = (int32_t)element.low;
    return c->status;
}

/* Each rank copies its part, and then one of them writes the element. */
CvlStatus cvl_replace_over_ranks(CvlCall *c) {
    const CvlSlot a = c->in[CVL_AS_A];
    const size_t value = c->in[CVL_AS_VALUE].number;
    size_t at = 0;
    if (!cvl_agree(c, a.number)) return c->status;
    const bool own = is_own_place(c, &at);
    if (c->status.number != CVL_DONE) return c->status;
    if (cvl_has_bools(c)) {
        cvl_say(c, cvl_bool1(CVL_CPY, a.at, a.number, cvl_room(c), a.number));
        if (own) ((bool *)cvl_room(c))[at] = value != 0;
    } else {
        cvl_say(c, cvl_int1(CVL_CPY, a.at, a.number, cvl_room(c), a.number));
        if (own) ((int32_t *)cvl_room(c))[at] = (int32_t)value;
    }
    return c->status;
}

/* ---- lengths as a vector ---- */

CvlStatus cvl_lengths_over_ranks(CvlCall *c) {
    const CvlLengths lengths = {c->in[CVL_AS_LENGTHS].at, c->in[CVL_AS_LENGTHS].number};
    size_t total = 0;
    if (c->status.number == CVL_DONE) cvl_say(c, cvl_make_descriptor(lengths, &total));
    if (!cvl_agree(c, lengths.segments)) return c->status;
    const CvlFold all = cvl_all(c->ranks, cvl_fold(CVL_JOIN_COUNTS, 0, 0, (int64_t)total, 0));
    if (all.low > CVL_MOST_ELEMENTS) return cvl_status(CVL_TOO_LONG, -1);
    *(size_t *)c->in[CVL_AS_TOLD].at = (size_t)all.low;
    return c->status;
}
