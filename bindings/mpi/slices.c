/*
 * Slices over ranks: each rank asks the owners of the source for the runs that its slices have there, and gets their elements. What it has
 * itself it copies.
 */
#include "runs.h"
#include "shares.h"

/* ---- where slices begin ---- */

/* The first segment that starts in the rank whose slice is not within the source, or -1. */
static int64_t first_bad(const CvlRankSegments *held, const int32_t *starts, uint64_t source) {
    const size_t skipped = held->goes_on;
    for (size_t k = 0; k < held->starts; k++) {
        const uint64_t length = (uint64_t)held->lengths[k + skipped] + (k + 1 == held->starts ? held->last_after : 0);
        if (starts[k] < 0 || (uint64_t)starts[k] + length > source) return (int64_t)k;
    }
    return -1;
}

/* Where each piece begins, the first one behind what ranks before have of its segment. */
static void find_places(const CvlRankSegments *held, const int32_t *starts, CvlFold before, uint64_t *places) {
    const size_t skipped = held->goes_on;
    if (skipped > 0) places[0] = (uint64_t)before.low + held->head_before;
    for (size_t k = 0; k < held->starts; k++) places[k + skipped] = (uint64_t)starts[k];
}

/* Finds where the slices begin; all ranks agree whether each is within the source. */
static bool find_slices(CvlCall *c, uint64_t **places, uint64_t source) {
    const CvlSlot starts = c->in[CVL_AS_B];
    CvlFold last = cvl_nothing(CVL_JOIN_FIRST, 0);
    if (c->status.number == CVL_DONE) *places = cvl_take(c, c->segments->pieces, sizeof **places);
    if (c->status.number == CVL_DONE && starts.number > 0) {
        const int64_t bad = first_bad(c->segments, starts.at, source);
        last.low = ((const int32_t *)starts.at)[starts.number - 1], last.starts = 1;
        if (bad >= 0) cvl_say(c, cvl_status(CVL_INDEX_OUT_OF_RANGE, bad));
    }
    const CvlFold before = cvl_before(c->ranks, last);
    if (!cvl_agree(c, starts.number)) return 0;
    find_places(c->segments, starts.at, before, *places);
    return 1;
}

/* ---- what is asked for ---- */

/* The runs of pieces that other ranks have, and what is asked for and answered. */
typedef struct Runs {
    const CvlPieces *pieces;
    int32_t *from, *counts; /* of each run, in the order of the ranks: where it begins in its owner's part, and its elements */
    int32_t *got_from, *got_counts; /* of each run that others ask for */
    void *sent, *got;               /* elements */
    int *asked;                     /* how many elements each rank is asked for */
} Runs;

/* The next run that another rank has. */
static bool next_of_others(const CvlRanks *ranks, const Runs *s, CvlRun *run) {
    while (cvl_next_run(ranks, s->pieces, run)) {
        if (run->owner != ranks->rank) return 1;
    }
    return 0;
}

static void count_asked(CvlCall *c, Runs *s, size_t *runs) {
    CvlRanks *const ranks = c->ranks;
    CvlRun run = {0};
    memset(ranks->sends, 0, (size_t)ranks->size * sizeof *ranks->sends);
    if (c->status.number != CVL_DONE) return;
    memset(s->asked, 0, (size_t)ranks->size * sizeof *s->asked);
    for (; next_of_others(ranks, s, &run); ++*runs) ranks->sends[run.owner]++, s->asked[run.owner] += (int)run.count;
}

/* Tells each owner how many runs it is asked for, and takes memory for them. */
static bool count_runs(CvlCall *c, Runs *s) {
    size_t runs = 0;
    s->asked = cvl_take(c, (size_t)c->ranks->size, sizeof *s->asked);
    count_asked(c, s, &runs);
    const size_t got = cvl_exchange_counts(c);
    if (c->status.number == CVL_DONE) s->from = cvl_take(c, runs, 2 * sizeof *s->from);
    if (c->status.number == CVL_DONE) s->got_from = cvl_take(c, got, 2 * sizeof *s->got_from);
    if (c->status.number == CVL_DONE) s->counts = s->from + runs, s->got_counts = s->got_from + got;
    return cvl_agree(c, 0);
}

static void send_runs(CvlCall *c, Runs *s) {
    CvlRanks *const ranks = c->ranks;
    CvlRun run = {0};
    while (next_of_others(ranks, s, &run)) {
        const int to = ranks->send_from[run.owner]++;
        s->from[to] = (int32_t)(run.place - ranks->offsets[run.owner]), s->counts[to] = (int32_t)run.count;
    }
    for (int r = 0; r < ranks->size; r++) ranks->send_from[r] -= ranks->sends[r];
    cvl_send(ranks, s->from, s->got_from, sizeof *s->from);
    cvl_send(ranks, s->counts, s->got_counts, sizeof *s->counts);
}

/* ---- what is answered ---- */

/* Counts what each rank is sent, and takes memory for it and for what this one gets. */
static bool take_answers(CvlCall *c, Runs *s, size_t size) {
    CvlRanks *const ranks = c->ranks;
    uint64_t all = 0;
    for (int r = 0, run = 0; r < ranks->size; r++) {
        uint64_t own = 0;
        for (int k = 0; k < ranks->receives[r]; k++) own += (uint64_t)s->got_counts[run++];
        all += own;
        ranks->sends[r] = (int)(own < INT32_MAX ? own : INT32_MAX);
    }
    if (all > INT32_MAX) cvl_say(c, cvl_status(CVL_NO_RESOURCES, -1));
    if (c->status.number == CVL_DONE) s->sent = cvl_take(c, (size_t)all, size);
    if (c->status.number == CVL_DONE) s->got = cvl_take(c, c->in[CVL_AS_OUT].number, size);
    return cvl_agree(c, 0);
}

/* Sends the elements of the runs, one behind another. */
static void send_answers(CvlCall *c, Runs *s, size_t size) {
    CvlRanks *const ranks = c->ranks;
    const char *const source = c->in[CVL_AS_A].at;
    char *to = s->sent;
    int runs = 0;
    for (int r = 0; r < ranks->size; r++) runs += ranks->receives[r];
    for (int k = 0; k < runs; k++) {
        const size_t bytes = (size_t)s->got_counts[k] * size;
        memcpy(to, source + (size_t)s->got_from[k] * size, bytes);
        to += bytes;
    }
    memcpy(ranks->receives, s->asked, (size_t)ranks->size * sizeof *ranks->receives);
    cvl_lay_out(ranks->sends, ranks->send_from, ranks->size);
    cvl_lay_out(ranks->receives, ranks->receive_from, ranks->size);
    cvl_send(ranks, s->sent, s->got, size);
}

/* Writes the runs into the room, each from where its owner's elements stand. */
static void write_runs(CvlCall *c, const Runs *s, size_t size) {
    CvlRanks *const ranks = c->ranks;
    const uint64_t own = ranks->offsets[ranks->rank];
    char *out = cvl_room(c);
    CvlRun run = {0};
    while (cvl_next_run(ranks, s->pieces, &run)) {
        const size_t got = (size_t)ranks->receive_from[run.owner];
        const char *const from = run.owner == ranks->rank ? (const char *)c->in[CVL_AS_A].at + (size_t)(run.place - own) * size
                                                          : (const char *)s->got + got * size;
        memcpy(out, from, run.count * size);
        ranks->receive_from[run.owner] += (int)run.count;
        out += run.count * size;
    }
}

void cvl_fetch_pieces(CvlCall *c, const CvlPieces *pieces) {
    const size_t size = cvl_room_size(c);
    Runs s = {0};
    s.pieces = pieces;
    if (count_runs(c, &s)) {
        send_runs(c, &s);
        if (take_answers(c, &s, size)) {
            send_answers(c, &s, size);
            write_runs(c, &s, size);
        }
    }
    free(s.asked), free(s.from), free(s.got_from), free(s.sent), free(s.got);
}

CvlStatus cvl_gather_over_ranks(CvlCall *c) {
    uint64_t *places = NULL;
    cvl_clean(c);
    const uint64_t source = cvl_offsets(c->ranks, c->in[CVL_AS_A].number);
    if (find_slices(c, &places, source)) {
        const CvlPieces pieces = {c->segments->pieces, c->segments->lengths, places};
        cvl_fetch_pieces(c, &pieces);
    }
    free(places);
    return c->status;
}
