/* The driver of calls that are long, have flags that are neither 0 nor 1, or come with a pool. */
#include "driver.h"
#include "parts.h"
#include "segments.h"

CvlStatus cvl_alone(const CvlRow *row, uint32_t op, const CvlSlot *s) { return cvl_make_alone(row, op, s); }

/*
 * On the elements from the place on, so that it is the first one there. Elements before it are copied once the export is done,
 * since it may be refused memory.
 */
CvlStatus cvl_make_far(const CvlRow *row, uint32_t op, const CvlSlot *s) {
    const size_t before = s[1].number;
    CvlSlot rest[CVL_MOST_OPERANDS];
    for (size_t k = 0; k < row->operands; k++) {
        rest[k] = s[k];
        if (row->operand[k].like != 0) continue;
        rest[k].at = (const char *)s[k].at + before * row->operand[k].size;
        rest[k].number -= before;
    }
    rest[1].number = 0;
    const CvlStatus status = row->make(op, rest);
    if (status.number != CVL_DONE || row->operand[row->out].like != 0) return status;
    memcpy((void *)s[row->out].at, s[0].at, before * row->operand[0].size);
    if (row->is & CVL_OF_BOOLS) cvl_proved_make_flags((bool *)s[row->out].at, before);
    return status;
}

/* Copies flags that are neither 0 nor 1 into memory that the caller frees, and answers whether there was memory. */
static bool copy(CvlSlot *slot, bool **copied) {
    if (cvl_proved_are_flags(slot->at, slot->number)) return 1;
    *copied = malloc(slot->number);
    if (*copied == NULL) return 0;
    memcpy(*copied, slot->at, slot->number);
    cvl_proved_make_flags(*copied, slot->number);
    slot->at = *copied;
    return 1;
}

CvlStatus cvl_make_on_copies(const CvlRow *row, uint32_t op, const CvlSlot *s) {
    CvlSlot mine[CVL_MOST_OPERANDS];
    bool *copies[CVL_MOST_OPERANDS] = {NULL}, done = 1;
    CvlStatus status = cvl_told(row, op, s);
    if (status.number != CVL_DONE) return status;
    for (size_t k = 0; k < row->operands && done; k++) {
        mine[k] = s[k];
        if (row->operand[k].is & CVL_COPIED) done = copy(&mine[k], &copies[k]);
    }
    status = done ? cvl_make(row, op, mine) : cvl_status(CVL_NO_RESOURCES, -1);
    for (size_t k = 0; k < row->operands; k++) {
        /* a room that holds what stands before was copied, too, and the copy has the result */
        if (copies[k] != NULL && (row->operand[k].is & CVL_WRITTEN) && status.number == CVL_DONE)
            memcpy((void *)s[k].at, copies[k], s[k].number);
        free(copies[k]);
    }
    return status;
}

/* ---- by a pool ---- */

/*
 * Whether a call has no fault that the driver can see, so that it may be cut. Flags that stand in the room before have to be 0 and 1, since
 * parts write into the room itself.
 */
/*@ requires is_call(row, s) && ((row->is & CVL_AT_PLACE) != 0 ==> row->operands > 1);
    assigns \nothing;
    ensures \result ==> are_apart(row, s) && do_agree(row, op, s);
    ensures \result ==> is_clean(row, s, row->out);
    ensures \result && (row->is & CVL_AT_PLACE) != 0 ==> s[1].number < s[0].number; */
static bool may_be_cut(const CvlRow *row, uint32_t op, const CvlSlot *s) {
    if (row->steps == 0 || !cvl_are_apart(row, s) || !cvl_do_agree(row, op, s)) return 0;
    if ((row->operand[row->out].is & CVL_COPIED) && !cvl_is_clean(s[row->out])) return 0;
    return !(row->is & CVL_AT_PLACE) || s[1].number < s[0].number;
}

/* Rows that come by offsets: the same call by their lengths. */
/*@ requires is_call(row, s) && row->by_lengths != \null;
    assigns rooms, told, runs;
    ensures \result.number != CVL_DONE ==> rooms == \old(rooms);
    ensures !are_apart(row, s) ==> \result.number == CVL_OVERLAP; */
static CvlStatus on_rows(const CvlPool *pool, const CvlRow *row, uint32_t op, const CvlSlot *s) {
    CvlSlot by_lengths[CVL_MOST_OPERANDS];
    int32_t *const lengths = cvl_are_apart(row, s) && cvl_do_agree(row, op, s) ? cvl_lengths_between(s[0].at, s[0].number) : NULL;
    if (lengths == NULL) return cvl_alone(row, op, s);
    for (size_t k = 0; k < row->operands; k++) by_lengths[k] = s[k];
    by_lengths[0].at = lengths, by_lengths[0].number = s[0].number - 1;
    const CvlStatus status = cvl_on(pool, row->by_lengths, op, by_lengths);
    free(lengths);
    return status;
}

/* Runs the steps of a call's row. None fails that fills a room for good, and a fault ends a call before that: so the laws of its steps say. */
/*@ assigns *w, rooms, told, runs;
    ensures !\result ==> rooms == \old(rooms);
    ensures \result && w->told.number != CVL_DONE ==> rooms == \old(rooms); */
static bool run_parts(const CvlPool *pool, CvlWork *w) { return cvl_steps_in_parts(pool, w); }

/*
 * Cuts a call that is in order and runs its parts. If they are not done, the rooms are as they were; w->left_out says whether the pool left
 * a part out of a step that reads.
 */
/*@ requires is_call(row, s) && are_apart(row, s) && do_agree(row, op, s) && is_clean(row, s, row->out) && \separated(w, row);
    assigns *w, rooms, told, runs;
    ensures !\result ==> rooms == \old(rooms);
    ensures \result && w->told.number != CVL_DONE ==> rooms == \old(rooms); */
static bool are_parts_done(const CvlPool *pool, CvlWork *w, const CvlRow *row, uint32_t op, const CvlSlot *s) {
    if (!cvl_cut(pool, w, row, s)) return 0;
    w->row = row, w->op = op;
    /*@ loop invariant 0 <= k <= row->operands;
        loop assigns k, w->in[0 .. CVL_ROLES - 1]; */
    for (size_t k = 0; k < row->operands; k++) w->in[row->operand[k].as] = s[k];
    const bool done = run_parts(pool, w);
    cvl_let_go(w);
    return done;
}

/* If a pool left out a part of a step that reads, the call is refused: it may leave out more. */
CvlStatus cvl_on(const CvlPool *pool, const CvlRow *row, uint32_t op, const CvlSlot *s) {
    CvlWork w;
    if (row->by_lengths != NULL) return on_rows(pool, row, op, s);
    w.left_out = 0;
    if (may_be_cut(row, op, s) && are_parts_done(pool, &w, row, op, s)) return w.told;
    return w.left_out ? cvl_status(CVL_NO_RESOURCES, -1) : cvl_alone(row, op, s);
}
