/*
 * Calls on segments over ranks. A rank's range is the rest of a segment that goes on from ranks before, its head, and segments that start
 * in the rank, of which the last may go on in ranks behind. What stands before the head comes from the ranks before, and what belongs to
 * the last from those behind; the plain family makes what lies between.
 */
#include "driver.h"
#include "ranks.h"

/* The elements from a place of the rank to another one. */
static CvlSlot range(CvlSlot all, size_t size, size_t from, size_t to) {
    const CvlSlot found = {from == 0 ? all.at : (const char *)all.at + from * size, to - from};
    return found;
}

/* The lengths of the segments that start in the rank, or of all but the last of them. */
static CvlSlot starting(const CvlRankSegments *s, size_t count) {
    const CvlSlot lengths = {s->goes_on ? s->lengths + 1 : s->lengths, count};
    return lengths;
}

static size_t bytes_of(const CvlCall *c) { return cvl_has_bools(c) ? sizeof(bool) : sizeof(int32_t); }

/* Where the last piece begins that starts in the rank, or where the range begins where none does. */
static size_t last_start(const CvlRankSegments *s) { return s->starts > 0 ? s->total - (size_t)s->lengths[s->pieces - 1] : 0; }

/* ---- scans and reduces ---- */

/* What elements of the rank join to. */
static CvlFold reduce_of(CvlCall *c, size_t from, size_t to) {
    const bool starts = c->status.number == CVL_DONE && c->segments->starts > 0;
    CvlFold fold = cvl_own_reduce(c, range(c->in[CVL_AS_A], bytes_of(c), from, to));
    fold.starts = starts;
    return fold;
}

static void scan_head(CvlCall *c, int64_t before) {
    const size_t head = cvl_head_of(c->segments);
    if (cvl_has_bools(c)) cvl_say(c, cvl_bool_scan_after(c->op, before != 0, c->in[CVL_AS_A].at, head, cvl_room(c), head));
    else cvl_say(c, cvl_int_scan_after(c->op, (int32_t)before, c->in[CVL_AS_A].at, head, cvl_room(c), head));
}

/* Makes the plain family on the segments that start in the rank, which have these elements and these of the room. */
static void make_starting(CvlCall *c, CvlSlot a, size_t count, CvlSlot out) {
    const CvlSlot s[] = {a, starting(c->segments, count), out};
    cvl_say(c, c->family->row.make(c->op, s));
}

CvlStatus cvl_seg_scan_over_ranks(CvlCall *c) {
    const size_t n = c->in[CVL_AS_A].number, size = bytes_of(c);
    cvl_clean(c);
    const CvlFold mine = reduce_of(c, c->status.number == CVL_DONE ? last_start(c->segments) : 0, n);
    if (!cvl_agree(c, n)) return c->status;
    const size_t head = cvl_head_of(c->segments);
    const CvlFold before = cvl_before(c->ranks, mine);
    scan_head(c, before.low);
    make_starting(c, range(c->in[CVL_AS_A], size, head, n), c->segments->starts, range(c->in[CVL_AS_OUT], size, head, n));
    return c->status;
}

/* Joins to the last segment that starts in the rank what it has in ranks behind. */
static void join_last(CvlCall *c, CvlFold after) {
    const size_t starts = c->segments->starts;
    if (starts == 0) return;
    CvlFold last = after;
    last.low = cvl_has_bools(c) ? ((bool *)cvl_room(c))[starts - 1] : ((int32_t *)cvl_room(c))[starts - 1];
    last = cvl_joined(last, after);
    if (cvl_has_bools(c)) ((bool *)cvl_room(c))[starts - 1] = last.low != 0;
    else ((int32_t *)cvl_room(c))[starts - 1] = (int32_t)last.low;
}

CvlStatus cvl_seg_reduce_over_ranks(CvlCall *c) {
    const size_t n = c->in[CVL_AS_A].number;
    const CvlFold mine = reduce_of(c, 0, c->status.number == CVL_DONE ? cvl_head_of(c->segments) : 0);
    if (!cvl_agree(c, c->in[CVL_AS_OUT].number)) return c->status;
    make_starting(c, range(c->in[CVL_AS_A], bytes_of(c), cvl_head_of(c->segments), n), c->segments->starts, c->in[CVL_AS_OUT]);
    join_last(c, cvl_after(c->ranks, mine));
    return c->status;
}

CvlStatus cvl_seg_count_over_ranks(CvlCall *c) {
    const CvlSlot flags = c->in[CVL_AS_FLAGS];
    int32_t count = 0;
    if (c->status.number == CVL_DONE) cvl_say(c, cvl_count(flags.at, cvl_head_of(c->segments), &count));
    if (!cvl_agree(c, c->in[CVL_AS_OUT].number)) return c->status;
    const size_t starts = c->segments->starts;
    make_starting(c, range(flags, sizeof(bool), cvl_head_of(c->segments), flags.number), starts, c->in[CVL_AS_OUT]);
    const CvlFold after = cvl_after(c->ranks, cvl_fold(CVL_JOIN_COUNTS, 0, 0, count, starts > 0));
    if (starts > 0) ((int32_t *)cvl_room(c))[starts - 1] += (int32_t)after.low;
    return c->status;
}

/* ---- sums that never wrap ---- */

/* The exact sum of elements of the rank. */
static CvlFold sum_of(CvlCall *c, size_t from, size_t to) {
    CvlFold fold = cvl_nothing(CVL_JOIN_EXACT, 0);
    if (c->status.number != CVL_DONE) return fold;
    const CvlSlot a = range(c->in[CVL_AS_A], sizeof(int32_t), from, to);
    cvl_say(c, cvl_exact_sum(a.at, a.number, &fold.low));
    fold.starts = c->segments->starts > 0;
    return fold;
}

/* Says a fault whose place counts from a place of the rank. */
static void say_from(CvlCall *c, size_t from, CvlStatus status) {
    if (status.place >= 0) status.place += (int64_t)from;
    cvl_say(c, status);
}

CvlStatus cvl_seg_checked_scan_over_ranks(CvlCall *c) {
    const CvlSlot a = c->in[CVL_AS_A];
    const CvlFold before = cvl_before(c->ranks, sum_of(c, c->status.number == CVL_DONE ? last_start(c->segments) : 0, a.number));
    cvl_set_aside(c);
    if (c->status.number == CVL_DONE) {
        const size_t head = cvl_head_of(c->segments), rest = a.number - head;
        int32_t *const out = cvl_room(c);
        /* a sum past 64 bits was past 32 before, in a rank before this one */
        if (before.high == 0) cvl_say(c, cvl_checked_scan_after(before.low, a.at, head, out, head));
        const CvlSlot lengths = starting(c->segments, c->segments->starts), from_head = range(a, sizeof(int32_t), head, a.number);
        const CvlLengths starts = {lengths.at, lengths.number};
        if (c->status.number == CVL_DONE) say_from(c, head, cvl_seg_checked_scan(from_head.at, rest, starts, out + head, rest));
    }
    if (cvl_agree(c, a.number)) cvl_move_in(c);
    return c->status;
}

/* The sums of the segments that start in the rank; the last one's with what it has in ranks behind. */
static void sum_starting(CvlCall *c, CvlFold after) {
    const size_t starts = c->segments->starts, head = cvl_head_of(c->segments), last = last_start(c->segments);
    int32_t *const out = cvl_room(c);
    if (starts == 0) return;
    const CvlSlot out_slot = {out, starts - 1};
    make_starting(c, range(c->in[CVL_AS_A], sizeof(int32_t), head, last), starts - 1, out_slot);
    const CvlFold sum = cvl_joined(sum_of(c, last, c->in[CVL_AS_A].number), after);
    if (sum.high != 0 || sum.low < INT32_MIN || sum.low > INT32_MAX) cvl_say(c, cvl_status(CVL_OVERFLOW, (int64_t)starts - 1));
    else out[starts - 1] = (int32_t)sum.low;
}

CvlStatus cvl_seg_checked_reduce_over_ranks(CvlCall *c) {
    const CvlFold after = cvl_after(c->ranks, sum_of(c, 0, c->status.number == CVL_DONE ? cvl_head_of(c->segments) : 0));
    cvl_set_aside(c);
    if (c->status.number == CVL_DONE) sum_starting(c, after);
    if (cvl_agree(c, c->in[CVL_AS_OUT].number)) cvl_move_in(c);
    return c->status;
}

/* ---- copies and numbers ---- */

/* What the last segment that starts in the rank has at its start: a value, or a number and its stride. */
static CvlFold last_of(const CvlCall *c) {
    const CvlSlot a = c->in[CVL_AS_A], b = c->in[CVL_AS_B];
    CvlFold fold = cvl_nothing(CVL_JOIN_FIRST, 0);
    if (c->status.number != CVL_DONE || a.number == 0) return fold;
    fold.low = cvl_has_bools(c) ? ((const bool *)a.at)[a.number - 1] : ((const int32_t *)a.at)[a.number - 1];
    if (b.at != NULL) fold.high = ((const int32_t *)b.at)[a.number - 1];
    fold.starts = 1;
    return fold;
}

/* Writes what a segment of ranks before has at the front of the rank: its value, or its numbers in steps. */
static void write_head(CvlCall *c, CvlFold before) {
    const int64_t head = (int64_t)cvl_head_of(c->segments);
    const uint32_t reached = (uint32_t)before.low + (uint32_t)c->segments->head_before * (uint32_t)before.high;
    if (cvl_has_bools(c)) cvl_say(c, cvl_dis_vub(before.low != 0, head, cvl_room(c)));
    else cvl_say(c, cvl_ind_luz((int32_t)reached, (int32_t)before.high, head, cvl_room(c)));
}

/* Writes the segments that start in the rank. The plain family makes them, and asks for no memory. */
static void write_starting(CvlCall *c) {
    const CvlRow *const row = &c->family->row;
    const CvlSlot out = c->in[CVL_AS_OUT];
    CvlSlot s[CVL_MOST_OPERANDS] = {{NULL, 0}};
    for (size_t k = 0; k < row->operands; k++)
        s[k] = cvl_is_cut_by(row, k) ? starting(c->segments, c->segments->starts) : c->s[k];
    s[row->out] = range(out, bytes_of(c), cvl_head_of(c->segments), out.number);
    cvl_say(c, row->make(c->op, s));
}

CvlStatus cvl_seg_values_over_ranks(CvlCall *c) {
    cvl_clean(c);
    const CvlFold before = cvl_before(c->ranks, last_of(c));
    if (cvl_agree(c, c->in[CVL_AS_OUT].number)) {
        write_head(c, before);
        write_starting(c);
    }
    return c->status;
}
