/* A call over ranks: what a rank checks before it asks others, its memory, and the call of the plain family. */
#include "driver.h"
#include "ranks.h"

bool cvl_are_ranks(const CvlRanks *ranks) {
    int ended = 0;
    if (ranks == NULL) return 0;
    MPI_Finalized(&ended);
    return !ended;
}

/* ---- what a rank checks by itself, in the order of a plain call ---- */

/* Where a call keeps the descriptor of an operand. */
static const CvlRankSegments **held_as(CvlCall *c, unsigned char as) {
    return as == CVL_AS_LENGTHS ? &c->segments : as == CVL_AS_THIRD_LENGTHS ? &c->third : &c->other;
}

static const CvlRankSegments *held(const CvlCall *c, unsigned char as) {
    return as == CVL_AS_LENGTHS ? c->segments : as == CVL_AS_THIRD_LENGTHS ? c->third : c->other;
}

/* Puts the lengths of descriptors into their slots: copies, with which no array of the caller's shares memory. */
static void hold(CvlCall *c) {
    const CvlRow *const row = &c->family->row;
    for (size_t k = 0; k < row->operands && c->family->held; k++) {
        if (!cvl_is_cut_by(row, k)) continue;
        const CvlRankSegments *const segments = c->s[k].at;
        const bool made = segments != NULL && segments->ranks == c->ranks;
        const CvlSlot lengths = {made ? segments->lengths : NULL, made ? segments->pieces : 0};
        if (!made) cvl_say(c, cvl_status(CVL_NO_DESCRIPTOR, -1));
        *held_as(c, row->operand[k].as) = segments;
        c->s[k] = lengths;
    }
}

/* How many elements an operand counts for others: of lengths, the segments that start in the rank. */
static size_t number_of(const CvlCall *c, size_t k) {
    const CvlRow *const row = &c->family->row;
    if (!c->family->held || !cvl_is_cut_by(row, k)) return c->s[k].number;
    return held(c, row->operand[k].as)->starts;
}

static bool is_too_long(const CvlCall *c) {
    const CvlRow *const row = &c->family->row;
    for (size_t k = 0; k < row->operands; k++) {
        if ((row->operand[k].is & CVL_TOO_MANY) && c->s[k].number > row->most) return 1;
    }
    return 0;
}

/* Whether operands are as long as others say, and as the rank's pieces add up to. Segments of two descriptors agree if all ranks are. */
static bool do_agree(const CvlCall *c) {
    const CvlRow *const row = &c->family->row;
    for (size_t k = 0; k < row->operands; k++) {
        const CvlOperand *const o = &row->operand[k];
        const bool lengths = c->family->held && cvl_is_cut_by(row, k);
        if (!lengths && o->relation == CVL_SAME && c->s[k].number != number_of(c, o->like)) return 0;
        if (lengths && o->total != k && c->s[o->total].number != held(c, o->as)->total) return 0;
    }
    return 1;
}

static void look(CvlCall *c) {
    const CvlRow *const row = &c->family->row;
    if (!cvl_are_apart(row, c->s)) cvl_say(c, cvl_overlap());
    hold(c);
    if (c->status.number != CVL_DONE) return;
    if (!cvl_is_known(row, c->op)) cvl_say(c, cvl_status(CVL_UNKNOWN_CALL, -1));
    if ((row->is & CVL_COUNTED) && c->in[CVL_AS_COUNT].number > CVL_MOST_ELEMENTS) {
        cvl_say(c, cvl_status(c->in[CVL_AS_COUNT].number > INT64_MAX ? CVL_NEGATIVE_LENGTH : CVL_TOO_LONG, -1));
    }
    if (is_too_long(c)) cvl_say(c, cvl_status(CVL_TOO_LONG, -1));
    if (!do_agree(c)) cvl_say(c, cvl_status(CVL_LENGTH_MISMATCH, -1));
}

static void name_slots(CvlCall *c) {
    for (size_t k = 0; k < c->family->row.operands; k++) c->in[c->family->row.operand[k].as] = c->s[k];
}

/* ---- memory ---- */

void cvl_set_aside(CvlCall *c) {
    if (c->status.number == CVL_DONE) c->aside = cvl_take(c, c->in[CVL_AS_OUT].number, cvl_room_size(c));
}

void cvl_clean(CvlCall *c) {
    for (size_t k = 0; k < c->family->row.operands; k++) {
        const CvlSlot flags = c->s[k];
        const bool copied = (c->family->row.operand[k].is & CVL_COPIED) && k != c->family->row.out;
        if (c->status.number != CVL_DONE || !copied || cvl_are_flags(flags.at, flags.number)) continue;
        c->copies[k] = cvl_take(c, flags.number, sizeof(bool));
        if (c->copies[k] == NULL) return;
        memcpy(c->copies[k], flags.at, flags.number);
        cvl_make_flags(c->copies[k], flags.number);
        c->s[k].at = c->copies[k];
    }
    name_slots(c);
}

static void let_go(CvlCall *c) {
    for (size_t k = 0; k < c->family->row.operands; k++) free(c->copies[k]);
    free(c->aside);
}

/* ---- the plain family ---- */

void cvl_make_own(CvlCall *c) {
    CvlSlot s[CVL_MOST_OPERANDS];
    if (c->status.number != CVL_DONE) return;
    memcpy(s, c->s, sizeof s);
    if (c->aside != NULL) s[c->family->row.out].at = c->aside;
    cvl_say(c, c->family->row.make(c->op, s));
}

void cvl_move_in(CvlCall *c) {
    const size_t bytes = c->in[CVL_AS_OUT].number * cvl_room_size(c);
    if (c->aside != NULL && bytes > 0) memcpy((void *)c->in[CVL_AS_OUT].at, c->aside, bytes);
}

#ifdef CVL_COMPARE_CALLS
bool cvl_is_one_call(CvlRanks *ranks, uint32_t call) {
    bool short_room = 0;
    uint64_t none;
    return cvl_agreed(ranks, cvl_done(), call, 0, UINT64_MAX, &short_room, &none).number == CVL_DONE;
}
#else
bool cvl_is_one_call(CvlRanks *ranks, uint32_t call) {
    (void)ranks, (void)call;
    return 1;
}
#endif

CvlStatus cvl_over_ranks(CvlRanks *ranks, const CvlRankRow *family, uint32_t op, const CvlSlot *s) {
    CvlCall c;
    if (!cvl_are_ranks(ranks)) return cvl_status(CVL_NO_DESCRIPTOR, -1);
    if (!cvl_is_one_call(ranks, (uint32_t)family->call << 8)) return cvl_status(CVL_UNKNOWN_CALL, -1);
    memset(&c, 0, sizeof c);
    c.ranks = ranks, c.family = family, c.op = op, c.status = cvl_done();
    memcpy(c.s, s, family->row.operands * sizeof *s);
    name_slots(&c);
    look(&c);
    name_slots(&c);
    c.status = family->way(&c);
    let_go(&c);
    /* cppcheck-suppress returnDanglingLifetime ; a status has no pointer in it */
    return c.status;
}
