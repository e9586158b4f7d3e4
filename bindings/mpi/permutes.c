/*
 * Permutes, first senders and combining permutes over ranks: each element goes to the rank that has its place, and that rank makes the plain
 * call of what it gets. Elements of one place come in the order of the vector, and so do all if an index is bad. A place that is named twice is
 * named twice at one rank, so the first repeated index is the least of those that ranks find; its sender knows where it stands.
 */
#include "permutes.h"

/* ---- what is sent ---- */

/* A permute in which a rank has its part. */
typedef struct Sending {
    int32_t *places;      /* of each index, the place in the whole; -1 if none is sent, also for one that is out of range */
    int64_t out_of_range; /* the first index that is out of range, or -1 */
    int32_t *sent_places, *got_places; /* within the rank that has them */
    void *sent, *got;                  /* the elements */
    size_t received;
    CvlTargets targets;
    CvlBins bins;
} Sending;

bool cvl_has(const CvlCall *c, CvlAs as) {
    for (size_t k = 0; k < c->family->row.operands; k++) {
        if (c->family->row.operand[k].as == as) return 1;
    }
    return 0;
}

/* Whether all indices go somewhere, so that the result has as many places; or only those whose flags are true. */
static bool is_simple(const CvlCall *c) {
    return cvl_has(c, CVL_AS_A) && !cvl_has(c, CVL_AS_B) && !cvl_has(c, CVL_AS_FLAGS) && !c->combines;
}
static bool is_select(const CvlCall *c) { return cvl_has(c, CVL_AS_A) && cvl_has(c, CVL_AS_FLAGS); }

/* The elements that go somewhere, and those that stand where none goes. */
static const void *source_of(const CvlCall *c) { return c->in[c->replaces ? CVL_AS_B : CVL_AS_A].at; }
static const void *defaults_of(const CvlCall *c) {
    if (c->replaces) return c->in[CVL_AS_A].at;
    return cvl_has(c, CVL_AS_B) ? c->in[CVL_AS_B].at : c->in[CVL_AS_OUT].at;
}

static size_t element_size(const CvlCall *c) { return cvl_has(c, CVL_AS_A) && cvl_has_bools(c) ? sizeof(bool) : sizeof(int32_t); }

/* Whether only places are sent, to be counted. */
static bool are_places_enough(const CvlCall *c) { return c->combines && !cvl_has(c, CVL_AS_A); }

/* Whether an index may be named twice. */
static bool may_repeat(const CvlCall *c) { return c->combines || !cvl_has(c, CVL_AS_A); }

/* Finds the place of each index, and counts what each bin and each rank gets. */
static void find_places(CvlCall *c, Sending *s) {
    const int32_t *index = c->in[CVL_AS_INDEX].at;
    const bool *flags = cvl_has(c, CVL_AS_FLAGS) ? c->in[CVL_AS_FLAGS].at : NULL;
    size_t k = 0;
    memset(c->ranks->sends, 0, (size_t)c->ranks->size * sizeof *c->ranks->sends);
    if (c->status.number != CVL_DONE) return;
    for (size_t p = 0; p < s->targets.pieces; p++) {
        const int64_t start = s->targets.starts[p], places = s->targets.places[p];
        for (const size_t to = k + cvl_indices_of(&s->targets, p); k < to; k++) {
            s->places[k] = -1;
            if (flags != NULL && !flags[k]) continue;
            if (index[k] >= 0 && index[k] < places) {
                s->places[k] = (int32_t)(start + index[k]);
                cvl_bin_of(&s->bins, s->places[k])->next++;
            } else if (s->out_of_range < 0) {
                s->out_of_range = (int64_t)k;
            }
        }
    }
    for (size_t b = 0; b < s->bins.count; b++) c->ranks->sends[s->bins.bin[b].rank] += (int)s->bins.bin[b].next;
    cvl_start_bins(&s->bins);
}

/* Puts places and elements in the order of the bins that they are for, or in that of the ranks alone. */
static void fill(CvlCall *c, Sending *s, bool in_order) {
    CvlRanks *const ranks = c->ranks;
    const size_t n = c->in[CVL_AS_INDEX].number;
    const int32_t *const ints = source_of(c);
    const bool *const bools = source_of(c);
    const bool is_bool = element_size(c) == sizeof(bool), senders = !cvl_has(c, CVL_AS_A);
    size_t at = 0, until = n > 0 ? cvl_indices_of(&s->targets, 0) : 0, p = 0;
    int64_t first = s->targets.first_place;
    for (size_t k = 0; k < n; k++) {
        while (senders && k == until) first = 0, at = until, until += cvl_indices_of(&s->targets, ++p);
        if (s->places[k] < 0) continue;
        CvlBin *const bin = cvl_bin_of(&s->bins, s->places[k]);
        const size_t to = in_order ? (size_t)ranks->send_from[bin->rank]++ : bin->next++;
        s->sent_places[to] = (int32_t)((uint32_t)s->places[k] - bin->part);
        if (are_places_enough(c)) continue;
        if (is_bool) ((bool *)s->sent)[to] = bools[k];
        else ((int32_t *)s->sent)[to] = senders ? (int32_t)(first + (int64_t)(k - at)) : ints[k];
    }
    for (int r = 0; r < ranks->size && in_order; r++) ranks->send_from[r] -= ranks->sends[r];
}

/* ---- what is received ---- */

/* Writes at each place the first element sent there, or, if none is, what stands there else. */
static CvlStatus place_received(CvlCall *c, Sending *s) {
    const CvlSlot out = c->in[CVL_AS_OUT];
    const void *const before = defaults_of(c);
    const bool all = !cvl_has(c, CVL_AS_B) && s->received == out.number;
    if (cvl_has_bools(c) && all) return cvl_permute_bool(s->got, s->received, s->got_places, s->received, c->aside, out.number);
    if (cvl_has_bools(c)) {
        return cvl_default_permute_bool(
            s->got, s->received, s->got_places, s->received, before, out.number, c->aside, out.number);
    }
    if (all) return cvl_permute_int(s->got, s->received, s->got_places, s->received, c->aside, out.number);
    return cvl_default_permute_int(s->got, s->received, s->got_places, s->received, before, out.number, c->aside, out.number);
}

/* The first sender of each place of the rank; what is sent is where each sender stands. */
static CvlStatus name_senders(CvlCall *c, Sending *s) {
    const CvlSlot out = c->in[CVL_AS_OUT];
    int32_t *const first = c->aside;
    const CvlStatus status = cvl_first_senders(s->got_places, s->received, first, out.number);
    for (size_t k = 0; k < out.number && status.number == CVL_DONE; k++) {
        if (first[k] >= 0) first[k] = ((const int32_t *)s->got)[first[k]];
    }
    return status;
}

CvlStatus cvl_combine_plainly(const CvlCall *c, CvlSlot a, CvlSlot index, void *room, size_t room_len, bool is_of_sums) {
    if (!cvl_has(c, CVL_AS_A)) return cvl_counts(index.at, index.number, room, room_len);
    if (is_of_sums) return cvl_combine_exact_sums(a.at, a.number, index.at, index.number, room, room_len);
    if (cvl_adds_up(c)) return cvl_combine_checked_int(a.at, a.number, index.at, index.number, room, room_len);
    if (cvl_has_bools(c)) return cvl_combine_permute_bool(c->op, a.at, a.number, index.at, index.number, room, room_len);
    return cvl_combine_permute_int(c->op, a.at, a.number, index.at, index.number, room, room_len);
}

/* Joins what the rank gets with what stands in its room, or counts it. */
static CvlStatus combine_received(CvlCall *c, Sending *s) {
    const CvlSlot out = c->in[CVL_AS_OUT], got = {s->got, s->received}, places = {s->got_places, s->received};
    if (!are_places_enough(c) && out.number > 0) memcpy(c->aside, out.at, out.number * cvl_room_size(c));
    if (cvl_has_bools(c)) cvl_make_flags(c->aside, out.number);
    return cvl_combine_plainly(c, got, places, c->aside, out.number, cvl_has_sums(c));
}

static CvlStatus write_received(CvlCall *c, Sending *s) {
    if (c->combines) return combine_received(c, s);
    return cvl_has(c, CVL_AS_A) ? place_received(c, s) : name_senders(c, s);
}

/* ---- the first fault ---- */

/* Reports to the sender of the first repeated place which of its elements it is. */
static void tell_sender(CvlRanks *ranks, int64_t repeated) {
    int sender = -1;
    for (int r = 0; r < ranks->size; r++) {
        if (repeated >= ranks->receive_from[r] && repeated < ranks->receive_from[r] + ranks->receives[r]) sender = r;
    }
    for (int r = 0; r < ranks->size; r++) ranks->receives[r] = r == sender ? (int)(repeated - ranks->receive_from[r]) : -1;
    MPI_Alltoall(ranks->receives, 1, MPI_INT, ranks->sends, 1, MPI_INT, ranks->comm);
}

/* The first index of this rank that another one found repeated, or -1. */
static int64_t first_repeated(CvlCall *c, const Sending *s) {
    CvlRanks *const ranks = c->ranks;
    memset(ranks->receive_from, 0, (size_t)ranks->size * sizeof *ranks->receive_from);
    for (size_t k = 0; k < c->in[CVL_AS_INDEX].number; k++) {
        if (s->places[k] < 0) continue;
        const int owner = cvl_owner(ranks, (uint64_t)s->places[k]);
        if (ranks->receive_from[owner]++ == ranks->sends[owner]) return (int64_t)k;
    }
    return -1;
}

/* Has the ranks find the first bad index of the whole, if there is one. */
static void find_first(CvlCall *c, const Sending *s, CvlStatus own) {
    tell_sender(c->ranks, own.number == CVL_INDEX_REPEATED ? own.place : -1);
    const int64_t repeated = first_repeated(c, s);
    const bool out_of_range = s->out_of_range >= 0 && (repeated < 0 || s->out_of_range < repeated);
    c->status = cvl_done();
    if (out_of_range) c->status = cvl_status(CVL_INDEX_OUT_OF_RANGE, s->out_of_range);
    else if (repeated >= 0) c->status = cvl_status(CVL_INDEX_REPEATED, repeated);
    cvl_agree(c, c->in[CVL_AS_INDEX].number);
}

/* ---- the call ---- */

/* Whether as many are sent as the result has places, if nothing else is written; else 7, before 100. */
static void look_at_room(CvlCall *c, uint64_t room) {
    const bool select = is_select(c);
    int32_t trues = 0;
    if (!select && !is_simple(c)) return;
    if (select && c->status.number == CVL_DONE) cvl_say(c, cvl_count(c->in[CVL_AS_FLAGS].at, c->in[CVL_AS_FLAGS].number, &trues));
    const uint64_t own = select ? (uint64_t)trues : c->in[CVL_AS_INDEX].number;
    const CvlFold all = cvl_all(c->ranks, cvl_fold(CVL_JOIN_COUNTS, 0, 0, (int64_t)own, 0));
    if ((uint64_t)all.low != room) cvl_say(c, cvl_status(CVL_LENGTH_MISMATCH, -1));
}

static void take_for_sending(CvlCall *c, Sending *s) {
    const size_t n = c->in[CVL_AS_INDEX].number;
    if (c->status.number != CVL_DONE) return;
    s->places = cvl_take(c, n, sizeof(int32_t));
    s->sent_places = cvl_take(c, n, sizeof(int32_t));
    s->sent = cvl_take(c, n, element_size(c));
    cvl_take_targets(c, &s->targets);
    cvl_set_aside(c);
}

static void take_for_received(CvlCall *c, Sending *s) {
    if (c->status.number != CVL_DONE) return;
    s->got_places = cvl_take(c, s->received, sizeof(int32_t));
    s->got = cvl_take(c, s->received, element_size(c));
}

static void let_go(Sending *s) {
    free(s->places), free(s->sent_places), free(s->sent), free(s->got_places), free(s->got);
    free(s->targets.starts), free(s->targets.places);
    cvl_free_bins(&s->bins);
}

/* Sends, and writes aside what is received; answers what this rank finds. */
static CvlStatus send_and_write(CvlCall *c, Sending *s, bool in_order) {
    fill(c, s, in_order);
    cvl_send(c->ranks, s->sent_places, s->got_places, sizeof(int32_t));
    if (!are_places_enough(c)) cvl_send(c->ranks, s->sent, s->got, element_size(c));
    const CvlStatus own = write_received(c, s);
    c->status = own.number == CVL_DONE && s->out_of_range >= 0 ? cvl_status(CVL_INDEX_OUT_OF_RANGE, s->out_of_range) : own;
    return own;
}

static bool is_of_index(CvlStatus status) {
    return status.number == CVL_INDEX_OUT_OF_RANGE || status.number == CVL_INDEX_REPEATED;
}

/* None is sent to them. */
bool cvl_may_grow(CvlCall *c) {
    const CvlSlot out = c->in[CVL_AS_OUT];
    const int32_t none = 0;
    if (!cvl_has_sums(c)) return 1;
    c->status = cvl_combine_exact_sums(&none, 0, &none, 0, (int64_t *)out.at, out.number);
    return cvl_agree(c, out.number);
}

/*
 * Sends in the order of bins. If an index is bad, sends once more in the order of the vector, by which the ranks find the first bad one. If
 * elements are combined, all indices are right by then, and only a sum of the room can be at fault.
 */
static void exchange(CvlCall *c, Sending *s) {
    const size_t n = c->in[CVL_AS_INDEX].number, at_fault = c->combines ? c->in[CVL_AS_OUT].number : n;
    if (!cvl_may_grow(c)) return;
    cvl_offsets(c->ranks, c->in[CVL_AS_OUT].number);
    cvl_take_bins(c, &s->bins);
    find_places(c, s);
    s->received = cvl_exchange_counts(c);
    take_for_received(c, s);
    if (may_repeat(c) && s->out_of_range >= 0) cvl_say(c, cvl_status(CVL_INDEX_OUT_OF_RANGE, s->out_of_range));
    if (!cvl_agree(c, n)) return;
    send_and_write(c, s, 0);
    if (cvl_agree(c, at_fault) || !is_of_index(c->status)) return;
    const CvlStatus own = send_and_write(c, s, 1);
    if (!cvl_agree(c, n) && is_of_index(c->status)) find_first(c, s, own);
}

CvlStatus cvl_permute_over_ranks(CvlCall *c) {
    Sending s;
    memset(&s, 0, sizeof s);
    s.out_of_range = -1;
    const uint64_t room = cvl_offsets(c->ranks, c->in[CVL_AS_OUT].number);
    if (room > CVL_MOST_ELEMENTS) cvl_say(c, cvl_status(CVL_TOO_LONG, -1));
    cvl_look_at_targets(c);
    look_at_room(c, room);
    cvl_clean(c);
    take_for_sending(c, &s);
    if (cvl_agree(c, c->in[CVL_AS_INDEX].number) && cvl_find_targets(c, &s.targets, room, is_select(c))) {
        exchange(c, &s);
        if (c->status.number == CVL_DONE) cvl_move_in(c);
    }
    let_go(&s);
    return c->status;
}

/* What is sent to a place is joined with what stands there, in the order of the senders; or counted. */
CvlStatus cvl_combine_over_ranks(CvlCall *c) {
    c->combines = 1;
    return cvl_permute_over_ranks(c);
}

/* A replace is a permute of the values over the vector. */
CvlStatus cvl_seg_replace_over_ranks(CvlCall *c) {
    c->by_segment = c->replaces = 1;
    return cvl_permute_over_ranks(c);
}
