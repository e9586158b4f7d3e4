/* Calls in parts whose rows name their steps: what a part has of each operand, and the order of the steps. */
#include "parts.h"

/* ---- what a part has ---- */

/* How many places a part has. */
/*@ requires \valid_read(w) && \valid_read(o) && o->as < CVL_ROLES && k < CVL_MOST_PARTS && w->from[k] <= w->from[k + 1];
    assigns \nothing;
    ensures \result.number == w->from[k + 1] - w->from[k]; */
static CvlSlot number_of_part(const CvlWork *w, const CvlOperand *o, size_t k) {
    CvlSlot slot = w->in[o->as];
    slot.number = w->from[k + 1] - w->from[k];
    return slot;
}

/* Where part k begins by some boundaries; in a record it has its own place. */
/*@ logic integer begins{L}(CvlWork *w, integer by, integer k) =
      by == CVL_BY_PART ? k : by == CVL_BY_FROM ? w->from[k] : by == CVL_BY_FIRST ? w->first[k] : by == CVL_BY_START ? w->start[k] :
      by == CVL_BY_THIRD ? w->third[k] : by == CVL_BY_DIGITS ? k * CVL_DIGITS : w->other[k]; */
/*@ requires \valid_read(w);
    assigns \nothing;
    ensures \valid_read(\result + (0 .. CVL_MOST_PARTS));
    ensures by != CVL_BY_PART && by != CVL_BY_DIGITS ==> \forall integer k; 0 <= k <= CVL_MOST_PARTS ==> \result[k] == begins(w, by, k); */
static const size_t *boundaries(const CvlWork *w, CvlBy by) {
    switch (by) {
    case CVL_BY_FROM: return w->from;
    case CVL_BY_FIRST: return w->first;
    case CVL_BY_START: return w->start;
    case CVL_BY_THIRD: return w->third;
    default: return w->other;
    }
}

/*@ requires \valid_read(w) && k <= CVL_MOST_PARTS;
    assigns \nothing;
    ensures \result == begins(w, by, k); */
static size_t begin_of(const CvlWork *w, CvlBy by, size_t k) {
    if (by == CVL_BY_PART) return k;
    return by == CVL_BY_DIGITS ? k * CVL_DIGITS : boundaries(w, by)[k];
}

/* The number that an operand is for a part: what stands in a record, or where the part begins. */
/*@ predicate is_number(integer by) =
      by == CVL_BY_INT || by == CVL_BY_FLAG || by == CVL_BY_LONG || by == CVL_BY_SIZE || by == CVL_BY_KEPT || by == CVL_BY_AT_FROM ||
      by == CVL_BY_AT_FIRST || by == CVL_BY_AT_OTHER || by == CVL_BY_AT_THIRD || by == CVL_BY_OF_FIRST;

    logic integer number_at{L}(CvlWork *w, integer by, integer k) =
      by == CVL_BY_INT ? (size_t)w->before_parts.ints[k] : by == CVL_BY_FLAG ? (size_t)w->before_parts.flags[k] :
      by == CVL_BY_LONG ? (size_t)w->before_parts.longs[k] : by == CVL_BY_SIZE ? w->before_parts.sizes[k] :
      by == CVL_BY_KEPT ? w->counts[k] : by == CVL_BY_AT_FROM ? w->from[k] : by == CVL_BY_AT_FIRST ? w->first[k] :
      by == CVL_BY_AT_OTHER ? w->other[k] : by == CVL_BY_AT_THIRD ? w->third[k] : w->first[k + 1] - w->first[k]; */
/*@ requires \valid_read(w) && k < w->parts <= CVL_MOST_PARTS && is_number(by);
    requires by == CVL_BY_OF_FIRST ==> w->first[k] <= w->first[k + 1];
    assigns \nothing;
    ensures \result == number_at(w, by, k); */
static size_t number_at(const CvlWork *w, CvlBy by, size_t k) {
    switch (by) {
    case CVL_BY_INT: return (size_t)w->before_parts.ints[k];
    case CVL_BY_FLAG: return (size_t)w->before_parts.flags[k];
    case CVL_BY_LONG: return (size_t)w->before_parts.longs[k];
    case CVL_BY_SIZE: return w->before_parts.sizes[k];
    case CVL_BY_KEPT: return w->counts[k];
    case CVL_BY_AT_FROM: return w->from[k];
    case CVL_BY_AT_FIRST: return w->first[k];
    case CVL_BY_AT_OTHER: return w->other[k];
    case CVL_BY_AT_THIRD: return w->third[k];
    default: return w->first[k + 1] - w->first[k];
    }
}

/* So many elements of an array, from a place on. */
/*@ requires place <= CVL_MOST_OWN;
    assigns \nothing;
    ensures \result.at == (char *)slot.at + place * size && \result.number == count; */
static CvlSlot slot_from(CvlSlot slot, size_t place, size_t count, unsigned char size) {
    slot.at = (const char *)slot.at + place * size;
    slot.number = count;
    return slot;
}

/* How many elements of a part go on from an earlier segment; and where its last segment starts, or it begins. */
/*@ logic integer head_of{L}(CvlWork *w, integer k) = (w->start[k] < w->from[k + 1] ? w->start[k] : w->from[k + 1]) - w->from[k];

    logic integer last_of{L}(CvlWork *w, integer k) =
      w->first[k + 1] == w->first[k] ? w->from[k] :
      w->start[k + 1] == w->from[k + 1] ? w->from[k + 1] : start_of(w->lengths, w->first[k + 1] - 1);

    logic integer owner_of{L}(CvlWork *w, integer k) = w->first[k] - (head_of(w, k) > 0 ? 1 : 0);

    logic integer done_of{L}(CvlWork *w, integer k) =
      head_of(w, k) > 0 ? w->from[k] - start_of(w->lengths, w->first[k] - 1) : 0;

    logic integer is_cut_behind{L}(CvlWork *w, integer k) =
      w->first[k + 1] > w->first[k] && w->start[k + 1] > w->from[k + 1] ? 1 : 0; */
/* How many elements the segment has before a part that goes on in it, or 0. */
/*@ requires \valid_read(w) && has_segments(w) && knows_starts(w) && k < w->parts;
    requires p.from == w->from[k] && p.head - p.from == head_of(w, k) && p.first == w->first[k];
    assigns \nothing;
    ensures \result == done_of(w, k); */
static size_t done_before(const CvlWork *w, CvlPiece p, size_t k) {
    return p.head > p.from ? p.from - (w->start[k] - (size_t)w->lengths[p.first - 1]) : 0;
}

/* What a part has of segments. */
/*@ predicate is_piece(integer by) =
      by == CVL_BY_HEAD || by == CVL_BY_FRONT || by == CVL_BY_DONE || by == CVL_BY_WHOLE || by == CVL_BY_LAST || by == CVL_BY_OWNERS; */
/*@ requires \valid_read(w) && \valid_read(o) && o->as < CVL_ROLES && is_piece(o->by);
    requires has_segments(w) && knows_starts(w) && k < w->parts;
    assigns \nothing;
    ensures o->by == CVL_BY_HEAD || o->by == CVL_BY_FRONT ==> \result.number == head_of(w, k);
    ensures o->by == CVL_BY_FRONT ==> \result.at == (char *)w->in[o->as].at + w->from[k] * o->size;
    ensures o->by == CVL_BY_WHOLE ==> \result.at == (char *)w->in[o->as].at + w->first[k] * o->size;
    ensures o->by == CVL_BY_WHOLE ==> w->first[k] + \result.number == w->first[k + 1] - is_cut_behind(w, k);
    ensures o->by == CVL_BY_DONE ==> \result.number == done_of(w, k);
    ensures o->by == CVL_BY_OWNERS ==> \result.at == (char *)w->in[o->as].at + owner_of(w, k) * o->size;
    ensures o->by == CVL_BY_OWNERS ==> \result.number == w->first[k + 1] - owner_of(w, k);
    ensures o->by == CVL_BY_LAST ==> \result.at == (char *)w->in[o->as].at + last_of(w, k) * o->size;
    ensures o->by == CVL_BY_LAST ==> \result.number == w->from[k + 1] - last_of(w, k); */
static CvlSlot slot_of_piece(const CvlWork *w, const CvlOperand *o, size_t k) {
    const CvlPiece p = cvl_piece(w, k);
    CvlSlot slot = w->in[o->as];
    switch (o->by) {
    case CVL_BY_HEAD: slot.number = p.head - p.from; return slot;
    case CVL_BY_DONE: slot.number = done_before(w, p, k); return slot;
    case CVL_BY_FRONT: return slot_from(slot, p.from, p.head - p.from, o->size);
    case CVL_BY_WHOLE: return slot_from(slot, p.first, p.count, o->size);
    default: break;
    }
    const bool owners = o->by == CVL_BY_OWNERS;
    const size_t owner = p.head > p.from ? p.first - 1 : p.first, last = p.starts ? p.tail : p.from;
    const size_t from = owners ? owner : last, to = owners ? w->first[k + 1] : p.to;
    const CvlSlot range = slot_from(slot, from, to - from, o->size);
    /*@ assert from == (o->by == CVL_BY_OWNERS ? owner_of(w, k) : last_of(w, k)); */
    /*@ assert range.at == (char *)w->in[o->as].at + from * o->size; */
    return range;
}

/* What a part has of an operand by boundaries. */
/*@ predicate is_share(integer by) = by == CVL_BY_SHARE || by == CVL_BY_AT_SHARE;
    predicate is_range(integer by) = !is_number(by) && !is_share(by) && by != CVL_BY_NONE; */
/*@ requires \valid_read(w) && \valid_read(o) && o->as < CVL_ROLES && k < CVL_MOST_PARTS && is_range(o->by);
    requires begins(w, o->by, k) <= begins(w, o->by, k + 1) <= CVL_MOST_OWN;
    requires w->from[k] <= w->from[k + 1] <= CVL_MOST_ELEMENTS;
    assigns \nothing;
    ensures o->size > 0 ==> \result.number == begins(w, o->by, k + 1) - begins(w, o->by, k);
    ensures o->size > 0 ==> \result.at == (char *)w->in[o->as].at + begins(w, o->by, k) * o->size;
    ensures o->size == 0 ==> \result.number == w->from[k + 1] - w->from[k]; */
static CvlSlot slot_of_range(const CvlWork *w, const CvlOperand *o, size_t k) {
    if (o->size == 0) return number_of_part(w, o, k);
    const size_t from = begin_of(w, o->by, k), to = begin_of(w, o->by, k + 1);
    return slot_from(w->in[o->as], from, to - from, o->size);
}

/* A part's share of an operand, or where it begins, or a number. */
/*@ requires \valid_read(w) && \valid_read(o) && o->as < CVL_ROLES && k < w->parts <= CVL_MOST_PARTS;
    requires is_share(o->by) || is_number(o->by);
    requires o->by == CVL_BY_OF_FIRST ==> w->first[k] <= w->first[k + 1];
    requires o->by == CVL_BY_SHARE ==> w->in[o->as].number <= CVL_MOST_ELEMENTS;
    requires even_place(w->in[o->as].number, w->parts, k) <= even_place(w->in[o->as].number, w->parts, k + 1);
    assigns \nothing;
    ensures \let from = even_place(w->in[o->as].number, w->parts, k); \let to = even_place(w->in[o->as].number, w->parts, k + 1);
      o->by == CVL_BY_SHARE ==> \result.at == (char *)w->in[o->as].at + from * o->size && \result.number == to - from;
    ensures o->by == CVL_BY_AT_SHARE ==> \result.number == even_place(w->in[o->as].number, w->parts, k);
    ensures is_number(o->by) ==> \result.number == number_at(w, o->by, k); */
static CvlSlot slot_of_share(const CvlWork *w, const CvlOperand *o, size_t k) {
    CvlSlot slot = w->in[o->as];
    const size_t len = slot.number;
    if (o->by != CVL_BY_SHARE && o->by != CVL_BY_AT_SHARE) {
        slot.number = number_at(w, o->by, k);
        return slot;
    }
    const size_t from = cvl_part_from(w, len, k), to = cvl_part_from(w, len, k + 1);
    if (o->by == CVL_BY_SHARE) return slot_from(slot, from, to - from, o->size);
    slot.number = from;
    return slot;
}

/* What a part has of an operand. */
static CvlSlot slot_of_part(const CvlWork *w, const CvlOperand *o, size_t k) {
    switch (o->by) {
    case CVL_BY_NONE: return w->in[o->as];
    case CVL_BY_HEAD:
    case CVL_BY_FRONT:
    case CVL_BY_DONE:
    case CVL_BY_WHOLE:
    case CVL_BY_LAST:
    case CVL_BY_OWNERS: return slot_of_piece(w, o, k);
    case CVL_BY_FROM:
    case CVL_BY_FIRST:
    case CVL_BY_START:
    case CVL_BY_OTHER:
    case CVL_BY_THIRD:
    case CVL_BY_DIGITS:
    case CVL_BY_PART: return slot_of_range(w, o, k);
    default: return slot_of_share(w, o, k);
    }
}

/* ---- steps ---- */

/* What a part does in the step; of a step that is made once, all of it. */
static CvlStatus step_part(CvlWork *w, size_t k) {
    const CvlStepRow *const step = w->step;
    CvlSlot s[CVL_MOST_OPERANDS];
    for (size_t j = 0; j < step->operands; j++) s[j] = slot_of_part(w, &step->operand[j], k);
    const CvlStatus status = step->make(step->op == CVL_OP_OF_CALL ? w->op : step->op, s);
    return step->kind == CVL_LOOKS ? cvl_looked(status) : status;
}

/* Keeps what stands in the part's range of a room, if the step writes there. */
static void keep_range(const CvlWork *w, CvlAs room, CvlAs kept, size_t k) {
    for (size_t j = 0; j < w->step->operands; j++) {
        const CvlOperand *const o = &w->step->operand[j];
        if (o->as != room) continue;
        const CvlSlot range = slot_of_part(w, o, k);
        const size_t before = (size_t)((const char *)range.at - (const char *)w->in[room].at);
        if (range.number > 0) memcpy((char *)w->in[kept].at + before, range.at, range.number * o->size);
    }
}

/* What a part does in a step that may fail. */
static CvlStatus try_part(CvlWork *w, size_t k) {
    keep_range(w, CVL_AS_OUT, CVL_AS_KEPT_OUT, k);
    keep_range(w, CVL_AS_OTHER_OUT, CVL_AS_KEPT_OTHER_OUT, k);
    return step_part(w, k);
}

/* Both rooms have elements of one size. */
static void put_back_room(const CvlWork *w, CvlAs room, CvlAs kept) {
    const size_t bytes = w->in[room].number * cvl_size(w);
    if (w->in[kept].at != NULL && bytes > 0) memcpy((void *)w->in[room].at, w->in[kept].at, bytes);
}

/* Puts back what stood in the rooms, which the parts kept. */
/*@ assigns rooms;
    ensures rooms == kept; */
static void put_back(const CvlWork *w) {
    put_back_room(w, CVL_AS_OUT, CVL_AS_KEPT_OUT);
    put_back_room(w, CVL_AS_OTHER_OUT, CVL_AS_KEPT_OTHER_OUT);
}

/* ---- the records and the memory of a call ---- */

static CvlSlot slot(const void *at, size_t number) {
    const CvlSlot made = {at, number};
    return made;
}

/* The records of a call, as operands of its steps; arrays of its own have no memory yet. */
/*@ assigns w->in[0 .. CVL_ROLES - 1];
    ensures w->parts == \old(w->parts); */
static void hold_records(CvlWork *w) {
    const CvlSlot out = w->in[CVL_AS_OUT], other_out = w->in[CVL_AS_OTHER_OUT];
    const size_t parts = w->parts;
    const bool bools = cvl_of_bools(w);
    w->in[CVL_AS_SUMS] = slot(bools ? (const void *)w->of_parts.flags : w->of_parts.ints, parts);
    w->in[CVL_AS_BEFORE] = slot(bools ? (const void *)w->before_parts.flags : w->before_parts.ints, parts);
    w->in[CVL_AS_TOTALS] = slot(w->of_parts.longs, parts), w->in[CVL_AS_CARRIES] = slot(w->before_parts.longs, parts);
    w->in[CVL_AS_COUNTS] = slot(w->of_parts.ints, parts), w->in[CVL_AS_COUNTS_BEHIND] = slot(w->before_parts.ints, parts);
    w->in[CVL_AS_KEPT] = slot(w->counts, parts), w->in[CVL_AS_STARTS] = slot(w->starts, parts);
    w->in[CVL_AS_FROMS] = slot(w->from, parts + 1), w->in[CVL_AS_FIRSTS] = slot(w->first, parts + 1);
    w->in[CVL_AS_SEGMENT_STARTS] = slot(w->start, parts + 1);
    w->in[CVL_AS_PLACES] = slot(w->other, parts + 1), w->in[CVL_AS_THIRDS] = slot(w->third, parts + 1);
    w->in[CVL_AS_BEGINS] = slot(w->third, parts), w->in[CVL_AS_BEHINDS] = slot(w->before_parts.sizes, parts);
    w->in[CVL_AS_SECOND_OWN] = w->in[CVL_AS_KEPT_OUT] = slot(NULL, out.number);
    w->in[CVL_AS_KEPT_OTHER_OUT] = slot(NULL, other_out.number);
    w->in[CVL_AS_KEYS] = w->in[CVL_AS_A], w->in[CVL_AS_MOVES] = slot(&w->moves, 1), w->in[CVL_AS_PARTS] = slot(NULL, parts);
    w->in[CVL_AS_NOTHING] = slot(NULL, 0), w->in[CVL_AS_ONE] = slot(NULL, 1), w->in[CVL_AS_TWO] = slot(NULL, 2);
    if (w->row->is & CVL_ONE_SEGMENT) w->in[CVL_AS_LENGTHS] = slot(w->lengths, w->segments);
    if (w->row->is & CVL_AT_PLACE)
        w->in[CVL_AS_AT_PLACE] = slot((const char *)out.at + w->in[CVL_AS_PLACE].number * cvl_size(w), 1);
}

/* How many elements an array of the call's own has. */
static size_t length_of(const CvlWork *w, const CvlOperand *o) {
    return o->by == CVL_BY_NONE ? w->in[o->as].number : begin_of(w, o->by, w->parts);
}

/* Where an array of the call's own begins behind so many bytes: each at a multiple of the bytes of the widest element. */
static size_t begin_behind(size_t bytes) { return (bytes + 7) / 8 * 8; }

/* Asks for memory for the arrays of the step, which stand one behind another. */
/*@ assigns *w, kept;
    ensures \result ==> kept == rooms;
    ensures !\result ==> w->kept == \null;
    ensures w->parts == \old(w->parts) && w->wrote == \old(w->wrote) && w->tried == \old(w->tried); */
static bool take(CvlWork *w) {
    const CvlStepRow *const step = w->step;
    size_t bytes = 0;
    for (size_t j = 0; j < step->operands; j++)
        bytes = begin_behind(bytes) + length_of(w, &step->operand[j]) * step->operand[j].size;
    w->kept = cvl_memory(bytes);
    if (w->kept == NULL) return 0;
    bytes = 0;
    for (size_t j = 0; j < step->operands; j++) {
        const CvlOperand *const o = &step->operand[j];
        const size_t begin = begin_behind(bytes);
        w->in[o->as] = slot(w->kept + begin, length_of(w, o));
        bytes = begin + w->in[o->as].number * o->size;
    }
    return 1;
}

/* ---- the order of the steps ---- */

/*
 * What the rooms held before the call is known: unless a step has written there that cannot fail, they hold it, or else it is kept.
 */
/*@ predicate are_known{L}(CvlWork *w, integer before) =
      w->wrote != 0 || (w->tried != 0 ? kept == before : rooms == before && (w->kept != \null ==> kept == before)); */

/* Makes a step once, on the records. */
/*@ assigns *w;
    ensures goes_on{Pre, Post}(w); */
static bool join_records(CvlWork *w) { return step_part(w, 0).number == CVL_DONE; }

/* Makes a step once that writes what the call gives, or leaves it as it was. */
/*@ assigns *w, rooms;
    ensures w->parts == \old(w->parts) && w->kept == \old(w->kept) && w->tried == \old(w->tried);
    ensures \result ? w->wrote != 0 : rooms == \old(rooms) && w->wrote == \old(w->wrote); */
static bool give(CvlWork *w) {
    if (step_part(w, 0).number != CVL_DONE) return 0;
    w->wrote = 1;
    return 1;
}

/* Makes a step once whose status is the call's. */
/*@ assigns *w;
    ensures goes_on{Pre, Post}(w); */
static bool fit_room(CvlWork *w) {
    w->told = step_part(w, 0);
    return 1;
}

/* Runs a step that writes rooms. One that may fail keeps what stood there. */
/*@ requires \valid(w) && w->parts <= CVL_MOST_PARTS && made != 0;
    assigns *w, rooms, runs;
    ensures w->parts == \old(w->parts) && w->kept == \old(w->kept);
    ensures may_fail != 0 ? w->tried != 0 && w->wrote == \old(w->wrote) : w->wrote != 0; */
static bool write_rooms(const CvlPool *pool, CvlWork *w, bool may_fail) {
    if (may_fail) w->tried = 1;
    else w->wrote = 1, w->in[CVL_AS_KEYS] = w->in[CVL_AS_OUT];
    return cvl_step(pool, w, CVL_WRITES, may_fail ? try_part : step_part);
}

/*
 * Runs the step, and answers whether it is done. One that looks for faults that the operator does not have is left out. Flags are copied
 * before an export takes them only as 0 and 1, before a part writes, and before the call's own count is written: memory may be refused. No
 * memory is asked for once a room is written, and none is written by a step that may fail before there is memory to keep it.
 */
/*@ requires \valid(w) && w->parts <= CVL_MOST_PARTS;
    assigns *w, rooms, kept, made, runs;
    ensures w->parts == \old(w->parts);
    ensures \forall integer r; \old(are_known(w, r)) ==> are_known(w, r); */
static bool run_step(const CvlPool *pool, CvlWork *w) {
    const CvlStepRow *const step = w->step;
    const unsigned char kind = step->kind, on_flags = step->on_flags;
    const bool writes = kind == CVL_FILLS || kind == CVL_TRIES;
    if (kind == CVL_LOOKS && !(w->row->faulty >> w->op & 1)) return 1;
    if ((on_flags || writes || kind == CVL_FITS) && !cvl_make_all(pool, w)) return 0;
    switch (kind) {
    case CVL_TAKES: return !w->tried && take(w);
    case CVL_JOINS: return join_records(w);
    case CVL_GIVES: return give(w);
    case CVL_FITS: return fit_room(w);
    default: break;
    }
    if (writes) return (kind == CVL_FILLS || w->kept != NULL) && write_rooms(pool, w, kind == CVL_TRIES);
    return cvl_step(pool, w, kind == CVL_DRAFTS ? CVL_COPIES : CVL_READS, step_part);
}

/* Whether the room has no more places for each part than there are elements for it. */
/*@ assigns \nothing; */
static bool has_few_places(const CvlWork *w) { return w->in[CVL_AS_OUT].number * w->parts <= w->from[w->parts]; }

/* Whether a step is run. */
/*@ assigns \nothing; */
static bool is_run(const CvlWork *w, CvlWhen when, bool few) {
    switch (when) {
    case CVL_ALWAYS: return 1;
    case CVL_IF_FEW: return few;
    case CVL_IF_MANY: return !few;
    default: return w->moves >> (when - CVL_IF_PASS_0) & 1;
    }
}

/* Each step begins once all parts of the one before are done, and none after a fault that is the call's. */
bool cvl_steps_in_parts(const CvlPool *pool, CvlWork *w) {
    const bool few = has_few_places(w);
    hold_records(w);
    w->told = cvl_done();
    /*@ loop invariant w->parts == \at(w->parts, Pre) && are_known(w, \at(rooms, Pre));
        loop assigns j, *w, rooms, kept, made, runs; */
    for (size_t j = 0; j < w->row->steps && w->told.number == CVL_DONE; j++) {
        w->step = &w->row->step[j];
        /*@ assert are_known(w, \at(rooms, Pre)); */
        if (!is_run(w, w->step->when, few) || run_step(pool, w)) continue;
        /*@ assert are_known(w, \at(rooms, Pre)); */
        if (w->tried) put_back(w);
        return 0;
    }
    return 1;
}
