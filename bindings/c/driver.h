/*
 * driver.h: how a call goes. A public function puts its arguments into slots and hands them to the driver with the row of its family.
 *
 * A call returns the first of these: arrays overlap; the count is out of range; the operator is none of the family; lengths or offsets have
 * a fault; a vector is too long; arrays are not as long as they have to be; there is no memory; what the export returns.
 */
#ifndef CVL_DRIVER_H
#define CVL_DRIVER_H

#include "explain.h"
#include "proved.h"
#include "rows.h"
#include "segments.h"
#include "threads.h"

/*
 * The compiler unrolls a walk over a row that it knows, so only the checks of a function written for the call are left. Long calls, and
 * calls with a fault, go to driver.c.
 */
#if defined(__GNUC__) && !defined(__FRAMAC__)
#define CVL_WALKS static inline __attribute__((always_inline))
#define CVL_UNROLLED _Pragma("GCC unroll 8")
#else
#define CVL_WALKS static inline
#define CVL_UNROLLED
#endif

/*
 * A row is well formed if its operands name one another, and a call if its arrays end before the memory does. Operands are apart if what is
 * written shares memory with nothing else, except in place.
 */
/*@ predicate is_row{L}(CvlRow *row) =
      row->operands <= CVL_MOST_OPERANDS && row->out < row->operands && row->cut < row->operands &&
      (row->operand[row->out].is & CVL_WRITTEN) != 0 &&
      (\forall integer k; 0 <= k < row->operands ==>
        row->operand[k].like < row->operands && row->operand[k].total < row->operands && row->operand[k].as < CVL_ROLES) &&
      (\forall integer k; 0 <= k < row->operands && (row->operand[k].is & CVL_IN_PLACE) != 0 ==> (row->operand[k].is & CVL_READ) != 0);

    predicate is_read{L}(CvlRow *row, integer k) = (row->operand[k].is & CVL_READ) != 0;
    predicate is_written{L}(CvlRow *row, integer k) = (row->operand[k].is & CVL_WRITTEN) != 0;

    predicate is_call{L}(CvlRow *row, CvlSlot *s) =
      \valid_read(row) && is_row(row) && \valid_read(s + (0 .. row->operands - 1)) &&
      \forall integer k; 0 <= k < row->operands && (is_read(row, k) || is_written(row, k)) ==>
        row->operand[k].size > 0 && (uintptr_t)s[k].at + s[k].number * row->operand[k].size <= UINTPTR_MAX + 1;

    predicate is_compared{L}(CvlRow *row, integer j, integer k) =
      is_written(row, j) && (is_read(row, k) || (k > j && is_written(row, k)));

    predicate do_meet{L}(CvlRow *row, CvlSlot *s, integer j, integer k) =
      in_common((uintptr_t)s[j].at, s[j].number * row->operand[j].size, (uintptr_t)s[k].at, s[k].number * row->operand[k].size);

    predicate is_shared{L}(CvlRow *row, CvlSlot *s, integer j, integer k) = is_compared(row, j, k) && do_meet(row, s, j, k);

    predicate is_in_place{L}(CvlRow *row, integer k) = (row->operand[k].is & CVL_IN_PLACE) != 0;

    predicate may_be_one{L}(CvlRow *row, CvlSlot *s, integer j, integer k) =
      is_in_place(row, k) && s[j].at == s[k].at && s[j].number == s[k].number;

    predicate is_apart{L}(CvlRow *row, CvlSlot *s, integer j) =
      \forall integer k; 0 <= k < row->operands && is_shared(row, s, j, k) ==> may_be_one(row, s, j, k);

    predicate are_two_in_place{L}(CvlRow *row, CvlSlot *s) =
      \exists integer k, m; 0 <= k < m < row->operands && is_in_place(row, k) && is_in_place(row, m) &&
        do_meet(row, s, row->out, k) && do_meet(row, s, row->out, m);

    predicate are_apart{L}(CvlRow *row, CvlSlot *s) =
      (\forall integer j; 0 <= j < row->operands ==> is_apart(row, s, j)) &&
      ((row->is & CVL_TOGETHER) != 0 || !are_two_in_place(row, s)); */

/* Whether two operands may have no memory in common: one is written, and the other is read, or written too. */
/*@ requires \valid_read(row) && j < CVL_MOST_OPERANDS && k < CVL_MOST_OPERANDS;
    assigns \nothing;
    ensures \result <==> is_compared(row, j, k); */
CVL_WALKS bool cvl_is_compared(const CvlRow *row, size_t j, size_t k) {
    return (row->operand[j].is & CVL_WRITTEN) &&
        ((row->operand[k].is & CVL_READ) || (k > j && (row->operand[k].is & CVL_WRITTEN)));
}

/* Whether two operands have memory in common. */
/*@ requires is_call(row, s) && j < row->operands && k < row->operands && is_compared(row, j, k);
    assigns \nothing;
    ensures \result <==> do_meet(row, s, j, k); */
CVL_WALKS bool cvl_do_meet(const CvlRow *row, const CvlSlot *s, size_t j, size_t k) {
    return cvl_meet(s[j].at, s[j].number, row->operand[j].size, s[k].at, s[k].number, row->operand[k].size);
}

/*@ requires is_call(row, s) && j < row->operands;
    assigns \nothing;
    ensures \result <==> is_apart(row, s, j); */
CVL_WALKS bool cvl_is_apart(const CvlRow *row, const CvlSlot *s, size_t j) {
    CVL_UNROLLED
    /*@ loop invariant 0 <= k <= row->operands;
        loop invariant \forall integer m; 0 <= m < k && is_shared(row, s, j, m) ==> may_be_one(row, s, j, m);
        loop assigns k;
        loop variant row->operands - k; */
    for (size_t k = 0; k < row->operands; k++) {
        if (!cvl_is_compared(row, j, k) || !cvl_do_meet(row, s, j, k)) continue;
        if (!(row->operand[k].is & CVL_IN_PLACE) || !cvl_is_one(s[j], s[k])) return 0;
    }
    return 1;
}

/* Whether the room is two operands. */
/*@ requires is_call(row, s);
    assigns \nothing;
    ensures \result <==> are_two_in_place(row, s); */
CVL_WALKS bool cvl_are_two_in_place(const CvlRow *row, const CvlSlot *s) {
    bool is_one = 0;
    CVL_UNROLLED
    /*@ loop invariant 0 <= k <= row->operands;
        loop invariant is_one == 0 ==> \forall integer m; 0 <= m < k ==> !(is_in_place(row, m) && do_meet(row, s, row->out, m));
        loop invariant is_one != 0 ==> \exists integer m; 0 <= m < k && is_in_place(row, m) && do_meet(row, s, row->out, m);
        loop invariant \forall integer i, m; 0 <= i < m < k && is_in_place(row, i) && is_in_place(row, m) ==>
          !(do_meet(row, s, row->out, i) && do_meet(row, s, row->out, m));
        loop assigns k, is_one;
        loop variant row->operands - k; */
    for (size_t k = 0; k < row->operands; k++) {
        if (!(row->operand[k].is & CVL_IN_PLACE) || !cvl_do_meet(row, s, row->out, k)) continue;
        if (is_one) return 1;
        is_one = 1;
    }
    return 0;
}

/*@ requires is_call(row, s);
    assigns \nothing;
    ensures \result <==> are_apart(row, s); */
CVL_WALKS bool cvl_are_apart(const CvlRow *row, const CvlSlot *s) {
    CVL_UNROLLED
    /*@ loop invariant 0 <= j <= row->operands && \forall integer i; 0 <= i < j ==> is_apart(row, s, i);
        loop assigns j;
        loop variant row->operands - j; */
    for (size_t j = 0; j < row->operands; j++) {
        if (!cvl_is_apart(row, s, j)) return 0;
    }
    return (row->is & CVL_TOGETHER) || !cvl_are_two_in_place(row, s);
}

/* Operands agree if the operator is one of the family, and each is as long as another one says, and no longer than it may be. */
/*@ predicate is_known{L}(CvlRow *row, integer op) = row->operators == 0 || (op < 32 && (row->operators >> op & 1) != 0);

    predicate is_long_enough{L}(CvlRow *row, CvlSlot *s, integer k) =
      \let number = s[k].number; \let other = s[row->operand[k].like].number; \let relation = row->operand[k].relation;
      relation == CVL_ONE_MORE ? number == other + 1 && other <= row->most :
      relation == CVL_A_BIT_EACH ? number == (size_t)(other + 31) / 32 :
      relation == CVL_FROM_LOWEST ? other + number <= row->most :
      number == other && ((row->operand[k].is & CVL_BOUNDED) != 0 ==> number <= row->most);

    predicate do_agree{L}(CvlRow *row, integer op, CvlSlot *s) =
      is_known(row, op) && \forall integer k; 0 <= k < row->operands ==> is_long_enough(row, s, k); */

/*@ requires \valid_read(row);
    assigns \nothing;
    ensures \result <==> is_known(row, op); */
CVL_WALKS bool cvl_is_known(const CvlRow *row, uint32_t op) {
    return row->operators == 0 || (op < 32 && (row->operators >> op & 1));
}

/*@ requires is_call(row, s) && k < row->operands;
    assigns \nothing;
    ensures \result <==> is_long_enough(row, s, k); */
CVL_WALKS bool cvl_is_long_enough(const CvlRow *row, const CvlSlot *s, size_t k) {
    const CvlOperand *o = &row->operand[k];
    const size_t number = s[k].number, other = s[o->like].number;
    if (o->relation == CVL_ONE_MORE) return number >= 1 && number - 1 <= row->most && number - 1 == other;
    if (o->relation == CVL_A_BIT_EACH) return number == (other + 31) / 32;
    if (o->relation == CVL_FROM_LOWEST) return other <= row->most && number <= row->most - other;
    return number == other && (!(o->is & CVL_BOUNDED) || number <= row->most);
}

/*@ requires is_call(row, s);
    assigns \nothing;
    ensures \result <==> do_agree(row, op, s); */
CVL_WALKS bool cvl_do_agree(const CvlRow *row, uint32_t op, const CvlSlot *s) {
    if (!cvl_is_known(row, op)) return 0;
    CVL_UNROLLED
    /*@ loop invariant 0 <= k <= row->operands && \forall integer j; 0 <= j < k ==> is_long_enough(row, s, j);
        loop assigns k;
        loop variant row->operands - k; */
    for (size_t k = 0; k < row->operands; k++) {
        if (!cvl_is_long_enough(row, s, k)) return 0;
    }
    return 1;
}

/* Flags are clean if the export takes them: those that it takes only as 0 and 1 are. */
/*@ predicate is_clean{L}(CvlRow *row, CvlSlot *s, integer k) =
      (row->operand[k].is & CVL_COPIED) != 0 ==> are_flags((uintptr_t)s[k].at, s[k].number);

    predicate are_clean{L}(CvlRow *row, CvlSlot *s) = \forall integer k; 0 <= k < row->operands ==> is_clean(row, s, k); */

/* Whether flags are 0 and 1, by an export. */
/*@ assigns \nothing;
    ensures \result <==> are_flags((uintptr_t)flags.at, flags.number); */
CVL_WALKS bool cvl_is_clean(CvlSlot flags) { return cvl_proved_are_flags(flags.at, flags.number); }

/*@ requires is_call(row, s);
    assigns \nothing;
    ensures \result <==> are_clean(row, s); */
CVL_WALKS bool cvl_are_clean(const CvlRow *row, const CvlSlot *s) {
    CVL_UNROLLED
    /*@ loop invariant 0 <= k <= row->operands && \forall integer j; 0 <= j < k ==> is_clean(row, s, j);
        loop assigns k;
        loop variant row->operands - k; */
    for (size_t k = 0; k < row->operands; k++) {
        if (!(row->operand[k].is & CVL_COPIED) || cvl_is_clean(s[k])) continue;
        /*@ assert !is_clean(row, s, k); */
        return 0;
    }
    return 1;
}

/* The count of a row that has one, which says how long the room is. One below 0 is above all others here. */
/*@ predicate is_counted{L}(CvlRow *row, CvlSlot *s) =
      (row->is & CVL_COUNTED) != 0 ==> s[row->operand[row->cut].like].number <= CVL_MOST_ELEMENTS; */

/*@ requires is_call(row, s);
    assigns \nothing;
    ensures \result == s[row->operand[row->cut].like].number; */
CVL_WALKS size_t cvl_count_given(const CvlRow *row, const CvlSlot *s) { return s[row->operand[row->cut].like].number; }

/* The last place that an export can name, since its places have 32 bits. A build for tests has another. */
#ifndef CVL_LAST_NAMED
#define CVL_LAST_NAMED INT32_MAX
#endif

/* Whether a call takes or replaces an element behind the last place that its export can name. */
/*@ requires is_call(row, s) && ((row->is & CVL_AT_PLACE) != 0 ==> row->operands > 1);
    assigns \nothing;
    ensures \result <==> (row->is & CVL_AT_PLACE) != 0 && CVL_LAST_NAMED < s[1].number < s[0].number; */
CVL_WALKS bool cvl_is_far(const CvlRow *row, const CvlSlot *s) {
    return (row->is & CVL_AT_PLACE) && s[1].number > CVL_LAST_NAMED && s[1].number < s[0].number;
}

/* Makes such a call: driver.c. */
/*@ requires is_call(row, s) && are_apart(row, s) && row->operands > 1 && s[1].number < s[0].number;
    requires (row->is & CVL_ASKED) != 0 ==> do_agree(row, op, s) && are_clean(row, s);
    assigns rooms;
    ensures \result.number != CVL_DONE ==> rooms == \old(rooms); */
CVL_HIDDEN CvlStatus cvl_make_far(const CvlRow *row, uint32_t op, const CvlSlot *s);

/*
 * Calls the export, or the one in place, with nothing but what the export takes. What an export leaves in its rooms after a fault is proved
 * with it.
 */
/*@ requires is_call(row, s) && are_apart(row, s) && is_counted(row, s);
    requires (row->is & CVL_ASKED) != 0 ==> do_agree(row, op, s) && are_clean(row, s);
    assigns rooms;
    ensures \result.number != CVL_DONE ==> rooms == \old(rooms); */
CVL_WALKS CvlStatus cvl_make(const CvlRow *row, uint32_t op, const CvlSlot *s) {
    return cvl_is_far(row, s) ? cvl_make_far(row, op, s) : row->make(op, s);
}

/* ---- a call that is not in order: checks.c ---- */

/* The fault of a count that is out of range. */
/*@ assigns \nothing;
    ensures \result.number == (count > INT64_MAX ? CVL_NEGATIVE_LENGTH : CVL_TOO_LONG); */
CVL_HIDDEN CvlStatus cvl_count_told(size_t count);

/* The first fault of a call that comes before memory is asked for, or that it is done. */
/*@ predicate is_too_long{L}(CvlRow *row, CvlSlot *s, integer k) = (row->operand[k].is & CVL_TOO_MANY) != 0 &&
      (row->operand[k].relation == CVL_FROM_LOWEST ? !is_long_enough(row, s, k) : s[k].number > row->most);

    predicate are_too_long{L}(CvlRow *row, CvlSlot *s) = \exists integer k; 0 <= k < row->operands && is_too_long(row, s, k);

    predicate is_flat{L}(CvlRow *row) = \forall integer k; 0 <= k < row->operands ==> row->operand[k].total == k; */
/*@ requires is_call(row, s) && are_apart(row, s);
    assigns told;
    ensures !is_known(row, op) ==> \result.number == CVL_UNKNOWN_CALL;
    ensures is_known(row, op) && is_flat(row) && are_too_long(row, s) ==> \result.number == CVL_TOO_LONG;
    ensures is_known(row, op) && is_flat(row) && !are_too_long(row, s) && !do_agree(row, op, s) ==> \result.number == CVL_LENGTH_MISMATCH;
    ensures !do_agree(row, op, s) ==> \result.number != CVL_DONE; */
CVL_HIDDEN CvlStatus cvl_told(const CvlRow *row, uint32_t op, const CvlSlot *s);

/* The first fault that comes before the one that the export answered. */
/*@ requires is_call(row, s) && are_apart(row, s) && status.number != CVL_DONE;
    assigns told;
    ensures \result.number != CVL_DONE; */
CVL_HIDDEN CvlStatus cvl_told_late(const CvlRow *row, uint32_t op, const CvlSlot *s, CvlStatus status);

/* ---- the driver ---- */

/* Makes a call with flags of which some are copied: driver.c. */
/*@ requires is_call(row, s) && are_apart(row, s) && is_counted(row, s) && do_agree(row, op, s);
    assigns rooms, told;
    ensures \result.number != CVL_DONE ==> rooms == \old(rooms); */
CVL_HIDDEN CvlStatus cvl_make_on_copies(const CvlRow *row, uint32_t op, const CvlSlot *s);

/* Makes a call by the thread that calls. */
/*@ requires is_call(row, s);
    assigns rooms, told;
    ensures \result.number != CVL_DONE ==> rooms == \old(rooms);
    ensures !are_apart(row, s) ==> \result.number == CVL_OVERLAP;
    ensures are_apart(row, s) && !is_counted(row, s) ==>
      \result.number == (s[row->operand[row->cut].like].number > INT64_MAX ? CVL_NEGATIVE_LENGTH : CVL_TOO_LONG);
    ensures are_apart(row, s) && is_counted(row, s) && (row->is & CVL_ASKED) != 0 && !is_known(row, op) ==> \result.number == CVL_UNKNOWN_CALL;
    ensures (row->is & CVL_ASKED) != 0 && !do_agree(row, op, s) ==> \result.number != CVL_DONE; */
CVL_WALKS CvlStatus cvl_make_alone(const CvlRow *row, uint32_t op, const CvlSlot *s) {
    if (!cvl_are_apart(row, s)) return cvl_overlap();
    if ((row->is & CVL_COUNTED) && cvl_count_given(row, s) > CVL_MOST_ELEMENTS) return cvl_count_told(cvl_count_given(row, s));
    if (row->is & CVL_ASKED) {
        if (!cvl_do_agree(row, op, s)) return cvl_told(row, op, s);
        if (!cvl_are_clean(row, s)) return cvl_make_on_copies(row, op, s);
    }
    const CvlStatus status = cvl_make(row, op, s);
    if (status.number == CVL_DONE || !(row->is & (CVL_LATE | CVL_READS_TEXT))) return status;
    return cvl_told_late(row, op, s, status);
}

/* The same of any row: driver.c. */
/*@ requires is_call(row, s);
    assigns rooms, told;
    ensures \result.number != CVL_DONE ==> rooms == \old(rooms);
    ensures !are_apart(row, s) ==> \result.number == CVL_OVERLAP; */
CVL_HIDDEN CvlStatus cvl_alone(const CvlRow *row, uint32_t op, const CvlSlot *s);

/* Makes a call by a pool: driver.c. */
/*@ requires is_call(row, s) && ((row->is & CVL_AT_PLACE) != 0 ==> row->operands > 1);
    assigns rooms, told, runs;
    ensures \result.number != CVL_DONE ==> rooms == \old(rooms);
    ensures !are_apart(row, s) ==> \result.number == CVL_OVERLAP; */
CVL_HIDDEN CvlStatus cvl_on(const CvlPool *pool, const CvlRow *row, uint32_t op, const CvlSlot *s);

/* Makes a call: a long one by the threads of the process, if nobody has them. */
CVL_WALKS CvlStatus cvl_call(const CvlRow *row, uint32_t op, const CvlSlot *s) {
    if (row->least != 0 && s[row->cut].number >= row->least) {
        const CvlPool *pool = cvl_take_threads();
        if (pool != NULL) return cvl_fault_kept(row, s, cvl_give_threads(cvl_on(pool, row, op, s)));
    }
    return cvl_fault_kept(row, s, cvl_make_alone(row, op, s));
}

/* The same by a pool of the caller's. */
CVL_WALKS CvlStatus cvl_call_on(const CvlPool *pool, const CvlRow *row, uint32_t op, const CvlSlot *s) {
    return cvl_fault_kept(row, s, cvl_on(pool, row, op, s));
}

/* ---- lengths that come by a descriptor ---- */

CVL_WALKS bool cvl_is_cut_by(const CvlRow *row, size_t k) {
    const unsigned char as = row->operand[k].as;
    return as == CVL_AS_LENGTHS || as == CVL_AS_OTHER_LENGTHS || as == CVL_AS_THIRD_LENGTHS;
}

/* Whether what is written shares memory with no descriptor. */
CVL_WALKS bool cvl_are_apart_from_descriptors(const CvlRow *row, const CvlSlot *s) {
    CVL_UNROLLED
    for (size_t j = 0; j < row->operands; j++) {
        CVL_UNROLLED
        for (size_t k = 0; k < row->operands; k++) {
            if (!(row->operand[j].is & CVL_WRITTEN) || !cvl_is_cut_by(row, k)) continue;
            if (cvl_meet(s[j].at, s[j].number, row->operand[j].size, s[k].at, 1, sizeof(CvlSegments))) return 0;
        }
    }
    return 1;
}

/* Makes a call whose slots of lengths have descriptors. */
CVL_WALKS CvlStatus cvl_call_on_segments(const CvlRow *row, uint32_t op, const CvlSlot *s) {
    CvlSlot by_lengths[CVL_MOST_OPERANDS];
    if (!cvl_are_apart_from_descriptors(row, s)) return cvl_keep_fault(NULL, NULL, cvl_overlap());
    CVL_UNROLLED
    for (size_t k = 0; k < row->operands; k++) {
        const CvlSegments *const segments = s[k].at;
        by_lengths[k] = s[k];
        if (!cvl_is_cut_by(row, k)) continue;
        if (!cvl_is_made(segments)) return cvl_keep_fault(NULL, NULL, cvl_status(CVL_NO_DESCRIPTOR, -1));
        by_lengths[k].at = segments->lengths, by_lengths[k].number = segments->segments;
    }
    return cvl_call(row, op, by_lengths);
}

#endif
