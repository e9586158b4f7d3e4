/*
 * Segments appended to segments over ranks: each rank finds where its pieces of both vectors stand in the result, and sends them there, a
 * run for each rank that has a part of a piece.
 */
#include "permutes.h"
#include "runs.h"
#include "shares.h"

/* One of the two vectors. */
typedef struct Side {
    const CvlRankSegments *held;
    const void *elements;
    int64_t *starts;  /* of each piece, where its segment of the other vector starts; then where the piece begins in the result */
    int64_t *lengths; /* and how long that segment is */
    int32_t *from, *counts;         /* of each run: where it begins in the part of the rank that has it, and its elements */
    int32_t *got_from, *got_counts; /* the same of those that this rank gets */
    size_t runs, got_runs;
    void *got; /* their elements */
} Side;

/* ---- where pieces stand in the result ---- */

/*
 * A piece stands behind the pieces before it, and as much of the other vector as stands before: of the second one also the segment that it
 * is appended to.
 */
static void place_pieces(Side *side, bool is_second) {
    uint64_t own = side->held->offset;
    for (size_t p = 0; p < side->held->pieces; p++) {
        side->starts[p] += (int64_t)own + (is_second ? side->lengths[p] : 0);
        own += (uint64_t)side->held->lengths[p];
    }
}

static bool find_places(CvlCall *c, Side *side, bool is_second) {
    CvlTargets targets = {0};
    const CvlRankSegments *const first = c->segments, *const second = c->other;
    if (is_second) c->segments = second, c->other = first;
    side->held = c->segments;
    cvl_take_targets(c, &targets);
    cvl_fetch_segments(c, &targets);
    c->segments = first, c->other = second;
    side->starts = targets.starts, side->lengths = targets.places;
    if (c->status.number == CVL_DONE) place_pieces(side, is_second);
    return c->status.number == CVL_DONE;
}

/* ---- runs ---- */

static CvlPieces pieces_of(const Side *side) {
    const CvlPieces pieces = {side->held->pieces, side->held->lengths, (const uint64_t *)side->starts};
    return pieces;
}

/* Sends each rank the number of runs that it gets, and takes memory for them. */
static void count_runs(CvlCall *c, Side *side) {
    CvlRanks *const ranks = c->ranks;
    const CvlPieces pieces = pieces_of(side);
    CvlRun run = {0};
    memset(ranks->sends, 0, (size_t)ranks->size * sizeof *ranks->sends);
    for (; cvl_next_run(ranks, &pieces, &run); side->runs++) ranks->sends[run.owner]++;
    side->got_runs = cvl_exchange_counts(c);
    if (c->status.number == CVL_DONE) side->from = cvl_take(c, side->runs, 2 * sizeof *side->from);
    if (c->status.number == CVL_DONE) side->got_from = cvl_take(c, side->got_runs, 2 * sizeof *side->got_from);
    if (c->status.number == CVL_DONE) side->counts = side->from + side->runs, side->got_counts = side->got_from + side->got_runs;
}

/* Sends the runs, which stand in the order of the ranks; then ranks->sends and its like are the elements of each. */
static void send_runs(CvlCall *c, Side *side) {
    CvlRanks *const ranks = c->ranks;
    const CvlPieces pieces = pieces_of(side);
    CvlRun run = {0};
    for (size_t k = 0; cvl_next_run(ranks, &pieces, &run); k++) {
        side->from[k] = (int32_t)(run.place - ranks->offsets[run.owner]), side->counts[k] = (int32_t)run.count;
    }
    cvl_send(ranks, side->from, side->got_from, sizeof *side->from);
    cvl_send(ranks, side->counts, side->got_counts, sizeof *side->counts);
    const int32_t *own = side->counts, *got = side->got_counts;
    for (int r = 0; r < ranks->size; r++) {
        const int sent = ranks->sends[r], received = ranks->receives[r];
        ranks->sends[r] = ranks->receives[r] = 0;
        for (int k = 0; k < sent; k++) ranks->sends[r] += *own++;
        for (int k = 0; k < received; k++) ranks->receives[r] += *got++;
    }
}

/* Sends the elements of one vector to the ranks of their places. */
static bool exchange(CvlCall *c, Side *side, size_t size) {
    CvlRanks *const ranks = c->ranks;
    count_runs(c, side);
    if (!cvl_agree(c, 0)) return 0;
    send_runs(c, side);
    cvl_lay_out(ranks->sends, ranks->send_from, ranks->size);
    side->got = cvl_take(c, cvl_lay_out(ranks->receives, ranks->receive_from, ranks->size), size);
    if (!cvl_agree(c, 0)) return 0;
    cvl_send(ranks, side->elements, side->got, size);
    return 1;
}

static void write_runs(const Side *side, size_t size, char *out) {
    const char *got = side->got;
    for (size_t k = 0; k < side->got_runs; k++) {
        const size_t bytes = (size_t)side->got_counts[k] * size;
        memcpy(out + (size_t)side->got_from[k] * size, got, bytes);
        got += bytes;
    }
}

static void let_go(Side *side) {
    free(side->starts), free(side->lengths), free(side->from), free(side->got_from), free(side->got);
}

/* ---- the call ---- */

/* The result has as many elements as both vectors. */
static void look_at_room(CvlCall *c) {
    const int64_t more = (int64_t)c->in[CVL_AS_OUT].number - (int64_t)c->in[CVL_AS_A].number - (int64_t)c->in[CVL_AS_B].number;
    if (cvl_all(c->ranks, cvl_fold(CVL_JOIN_COUNTS, 0, 0, more, 0)).low != 0) cvl_say(c, cvl_status(CVL_LENGTH_MISMATCH, -1));
}

CvlStatus cvl_append_over_ranks(CvlCall *c) {
    const size_t size = cvl_room_size(c);
    Side first = {0}, second = {0};
    cvl_look_at_targets(c);
    look_at_room(c);
    cvl_clean(c);
    if (cvl_agree(c, c->in[CVL_AS_A].number) && find_places(c, &first, 0) && find_places(c, &second, 1)) {
        first.elements = c->in[CVL_AS_A].at, second.elements = c->in[CVL_AS_B].at;
        cvl_offsets(c->ranks, c->in[CVL_AS_OUT].number);
        if (exchange(c, &first, size) && exchange(c, &second, size)) {
            write_runs(&first, size, cvl_room(c));
            write_runs(&second, size, cvl_room(c));
        }
    }
    let_go(&first), let_go(&second);
    return c->status;
}
