/* Cuts a call into parts, and runs its steps. */
#include "parts.h"
#include "pools.h"

#include <stdatomic.h>

/* The number of a part's status before it is run. */
enum { NOT_RUN = 0x7fffffff };

/* A step of a call in parts: what it does, what each part does, whether that has begun, and its status. */
typedef struct Step {
    CvlWork *work;
    CvlKind kind;
    CvlStepPart part;
    atomic_bool begun[CVL_MOST_PARTS];
    CvlStatus told[CVL_MOST_PARTS];
} Step;

/* A part has begun if it has a status, and ran as often as it began. */
/*@ predicate is_step{L}(Step *s) =
      \valid(s) && \valid(s->work) && \separated(s, s->work) && s->work->parts <= CVL_MOST_PARTS &&
      \forall integer k; 0 <= k < s->work->parts ==> s->begun[k] == (s->told[k].number == NOT_RUN ? 0 : 1);

    predicate is_same{L1, L2}(Step *s) =
      goes_on{L1, L2}(\at(s->work, L1)) && \at(s->work, L2) == \at(s->work, L1) && \at(s->kind, L2) == \at(s->kind, L1) &&
      (\at(s->kind, L1) != CVL_WRITES ==> \at(rooms, L2) == \at(rooms, L1));

    predicate are_counted{L1, L2}(Step *s) =
      \forall integer k; 0 <= k < \at(s->work->parts, L1) ==>
        \at(s->begun[k], L1) <= \at(s->begun[k], L2) &&
        times{L2}(k) - times{L1}(k) == \at(s->begun[k], L2) - \at(s->begun[k], L1); */

/* What a part does, which writes a room only in a step that does, and tells a status. */
/*@ assigns *s->work, rooms, runs;
    ensures times{Post}(k) == times{Pre}(k) + 1 && \forall integer j; j != k ==> times{Post}(j) == times{Pre}(j);
    ensures s->kind != CVL_WRITES ==> rooms == \old(rooms);
    ensures \result.number != NOT_RUN && goes_on{Pre, Post}(s->work); */
static CvlStatus status_of(const Step *s, size_t k) { return s->part(s->work, k); }

/* A part is run once, however often the pool runs it. */
/*@ requires is_step(s);
    assigns *s->work, rooms, runs, s->begun[part], s->told[part];
    ensures is_step(s) && is_same{Pre, Post}(s) && are_counted{Pre, Post}(s);
    ensures part < s->work->parts ==> s->begun[part] == 1; */
static void run_once(Step *s, size_t part) {
    if (part >= s->work->parts || atomic_exchange(&s->begun[part], 1)) return;
    s->told[part] = status_of(s, part);
}

static void run_part(void *step, size_t part) { run_once(step, part); }

/* Hands a step to a pool, which runs any parts in any order, and has ended them when it returns. */
/*@ requires is_step(s);
    assigns *s, *s->work, rooms, runs;
    ensures is_step(s) && is_same{Pre, Post}(s) && are_counted{Pre, Post}(s); */
static void run_by(const CvlPool *pool, Step *s) { pool->run(pool->state, run_part, s, s->work->parts); }

bool cvl_step(const CvlPool *pool, CvlWork *w, CvlKind kind, CvlStepPart part) {
    Step step;
    bool done = 1;
    step.work = w, step.kind = kind, step.part = part;
    /*@ loop invariant 0 <= k <= w->parts;
        loop invariant \forall integer j; 0 <= j < k ==> step.begun[j] == 0 && step.told[j].number == NOT_RUN;
        loop assigns k, step.begun[0 .. CVL_MOST_PARTS - 1], step.told[0 .. CVL_MOST_PARTS - 1]; */
    for (size_t k = 0; k < w->parts; k++) {
        atomic_init(&step.begun[k], 0);
        step.told[k] = cvl_status(NOT_RUN, -1);
    }
    run_by(pool, &step);
    /*@ loop invariant 0 <= k <= w->parts && is_step(&step) && goes_on{Pre, Here}(w) && step.work == w && step.kind == kind;
        loop invariant kind != CVL_WRITES ==> rooms == \at(rooms, Pre);
        loop invariant \forall integer j; 0 <= j < w->parts ==> times{Here}(j) == times{Pre}(j) + step.begun[j];
        loop invariant kind != CVL_READS || done ==> \forall integer j; 0 <= j < k ==> step.begun[j] == 1;
        loop invariant \forall integer j; 0 <= j < k && step.begun[j] == 0 ==> w->left_out != 0 && done == 0;
        loop assigns k, done, step.begun[0 .. CVL_MOST_PARTS - 1], step.told[0 .. CVL_MOST_PARTS - 1], *w, rooms, runs; */
    for (size_t k = 0; k < w->parts; k++) {
        if (step.told[k].number == NOT_RUN && kind != CVL_READS) run_once(&step, k);
        if (step.told[k].number == NOT_RUN) w->left_out = 1;
        if (step.told[k].number != CVL_DONE) done = 0;
    }
    return done;
}

static CvlStatus no_op_part(CvlWork *w, size_t k) {
    (void)w, (void)k;
    return cvl_done();
}

/* Whether a pool runs each part, as a step without work shows; those of the library do. */
static bool runs_all(const CvlPool *pool, CvlWork *w) {
    return pool->run == cvl_run_alone || pool->run == cvl_run_posix || cvl_step(pool, w, CVL_READS, no_op_part);
}

/*@ requires \valid_read(pool) && each > 0;
    assigns \nothing;
    ensures \result <= CVL_MOST_PARTS && \result * each <= n; */
static size_t parts_of(const CvlPool *pool, size_t n, size_t each) {
    const size_t parts = pool->parts < CVL_MOST_PARTS ? pool->parts : CVL_MOST_PARTS;
    return n / each < parts ? n / each : parts;
}

/* A call of so many parts. */
/*@ requires \valid(w);
    assigns *w;
    ensures w->parts == parts && \forall integer k; 0 <= k <= CVL_MOST_PARTS ==> w->from[k] == 0; */
static void begin(CvlWork *w, size_t parts) {
    memset(w, 0, sizeof *w);
    w->parts = parts;
}

/*@ requires \valid(w) && (pool == \null || \valid_read(pool)) && \separated(pool, w) && each > 0;
    assigns *w;
    ensures \result ==> 2 <= w->parts <= CVL_MOST_PARTS && is_cut(&w->from[0], w->parts, n);
    ensures \result ==> w->parts * each <= n;
    ensures \result ==> \forall integer k; 0 <= k <= w->parts ==> w->from[k] == even_place(n, w->parts, k); */
static bool cut_evenly(const CvlPool *pool, CvlWork *w, size_t n, size_t least, size_t each) {
    const size_t parts = pool == NULL || n > CVL_MOST_ELEMENTS || n < least ? 0 : parts_of(pool, n, each);
    if (parts < 2) return 0;
    begin(w, parts);
    return cvl_proved_even_places(n, w->from, parts + 1).number == CVL_DONE;
}

/*@ requires \valid(w) && (pool == \null || \valid_read(pool)) && \separated(pool, w);
    requires \valid_read(text + (0 .. n - 1)) && \separated(text + (0 .. n - 1), w);
    assigns *w;
    ensures \result ==> 2 <= w->parts <= CVL_MOST_PARTS && is_cut(&w->from[0], w->parts, n); */
static bool cut_at_white(const CvlPool *pool, CvlWork *w, const bool *text, size_t n) {
    const size_t parts = pool == NULL || n < CVL_LEAST_READ ? 0 : parts_of(pool, n, CVL_LEAST_READ_EACH);
    if (parts < 2) return 0;
    begin(w, parts);
    return cvl_proved_white_places(text, n, w->from, parts + 1).number == CVL_DONE;
}

/* ---- segments: the elements are cut, and each part finds the segments that start in it ---- */

/* How many elements the segments of a part's share of the lengths have. */
/*@ requires \valid(w) && k < w->parts <= CVL_MOST_PARTS && w->segments <= CVL_MOST_ELEMENTS;
    requires w->third[k] == even_place(w->segments, w->parts, k) && w->third[k + 1] == even_place(w->segments, w->parts, k + 1);
    requires \valid_read(w->lengths + (0 .. w->segments - 1)) && \separated(w->lengths + (0 .. w->segments - 1), w);
    assigns w->counts[k];
    ensures \result.number == CVL_DONE ==> w->counts[k] == start_of(w->lengths + w->third[k], w->third[k + 1] - w->third[k]); */
static CvlStatus lengths_part(CvlWork *w, size_t k) {
    return cvl_proved_make_descriptor(w->lengths + w->third[k], w->third[k + 1] - w->third[k], &w->counts[k]);
}

/* The first segment that starts in the part or behind it. */
/*@ requires \valid(w) && has_segments(w) && k < w->parts;
    requires are_share_starts(w->lengths, w->segments, &w->other[0], w->parts) && w->other[w->parts] == w->from[w->parts];
    assigns w->first[k], w->start[k];
    ensures knows_first(w, k); */
static CvlStatus start_part(CvlWork *w, size_t k) {
    return cvl_proved_first_start(w->lengths, w->segments, w->other, w->parts + 1, w->from[k], &w->first[k], &w->start[k]);
}

/* An empty segment that stands at a cut starts in the part behind it, and one behind the last element in the last part. */
static bool cut_segments(const CvlPool *pool, CvlWork *w, size_t n, CvlSlot lengths, size_t least, size_t each) {
    if (lengths.number > CVL_MOST_ELEMENTS || !cut_evenly(pool, w, n, least, each)) return 0;
    w->lengths = lengths.at, w->segments = lengths.number;
    if (cvl_proved_even_places(w->segments, w->third, w->parts + 1).number != CVL_DONE) return 0;
    if (!cvl_step(pool, w, CVL_READS, lengths_part)) return 0;
    if (cvl_proved_exact_places(w->counts, w->parts, n, w->other, w->parts + 1).number != CVL_DONE) return 0;
    if (!cvl_step(pool, w, CVL_READS, start_part)) return 0;
    w->first[w->parts] = w->segments, w->start[w->parts] = n;
    for (size_t k = 0; k < w->parts; k++) w->starts[k] = w->first[k + 1] > w->first[k];
    return 1;
}

/* A vector without segments is one segment, which starts in the first part. */
static bool cut_one_segment(const CvlPool *pool, CvlWork *w, size_t n, size_t least, size_t each) {
    if (!cut_evenly(pool, w, n, least, each)) return 0;
    w->length = (int32_t)n;
    w->lengths = &w->length, w->segments = 1, w->starts[0] = 1;
    for (size_t k = 1; k <= w->parts; k++) w->first[k] = 1, w->start[k] = n;
    return 1;
}

bool cvl_cut(const CvlPool *pool, CvlWork *w, const CvlRow *row, const CvlSlot *s) {
    const size_t n = s[row->cut].number;
    for (size_t k = 0; k < row->operands; k++) {
        if (row->operand[k].as == CVL_AS_LENGTHS && k != row->cut) return cut_segments(pool, w, n, s[k], row->least, row->each);
    }
    if (row->is & CVL_READS_TEXT) return cut_at_white(pool, w, s[row->cut].at, n) && runs_all(pool, w);
    if (row->is & CVL_ONE_SEGMENT) return cut_one_segment(pool, w, n, row->least, row->each) && runs_all(pool, w);
    return cut_evenly(pool, w, n, row->least, row->each) && runs_all(pool, w);
}

CvlPiece cvl_piece(const CvlWork *w, size_t k) {
    CvlPiece p;
    /*@ assert w->from[k] <= w->start[k] && w->from[k + 1] <= w->start[k + 1]; */
    /*@ assert w->first[k] <= w->first[k + 1] <= w->segments; */
    p.from = w->from[k], p.to = w->from[k + 1], p.first = w->first[k];
    p.head = w->start[k] < p.to ? w->start[k] : p.to;
    p.starts = w->first[k + 1] > p.first;
    p.cut = p.starts && w->start[k + 1] > p.to;
    p.count = w->first[k + 1] - p.first - p.cut;
    p.tail = p.cut ? w->start[k + 1] - (size_t)w->lengths[w->first[k + 1] - 1] : p.to;
    return p;
}

/* ---- flags that are neither 0 nor 1: looked at in parts, and copied at once ---- */

size_t cvl_part_from(const CvlWork *w, size_t len, size_t k) {
    return len / w->parts * k + (k < len % w->parts ? k : len % w->parts);
}

/* The next operand, from k on, of flags that have to be 0 and 1, or the number of operands. */
static size_t next_copied(const CvlRow *row, size_t k) {
    while (k < row->operands && !(row->operand[k].is & CVL_COPIED_IN_PARTS)) k++;
    return k;
}

static CvlStatus flags_part(CvlWork *w, size_t k) {
    for (size_t j = next_copied(w->row, 0); j < w->row->operands; j = next_copied(w->row, j + 1)) {
        const CvlSlot flags = w->in[w->row->operand[j].as];
        const size_t from = cvl_part_from(w, flags.number, k), to = cvl_part_from(w, flags.number, k + 1);
        if (!cvl_proved_are_flags((const bool *)flags.at + from, to - from)) return cvl_status(CVL_NO_RESOURCES, -1);
    }
    return cvl_done();
}

/* Each part copies its share of all of them, one array behind the other. */
static CvlStatus copies_part(CvlWork *w, size_t k) {
    bool *copy = w->copies;
    for (size_t j = next_copied(w->row, 0); j < w->row->operands; j = next_copied(w->row, j + 1)) {
        const CvlSlot flags = w->in[w->row->operand[j].as];
        const size_t from = cvl_part_from(w, flags.number, k), n = cvl_part_from(w, flags.number, k + 1) - from;
        if (n > 0) memcpy(copy + from, (const bool *)flags.at + from, n);
        cvl_proved_make_flags(copy + from, n);
        copy += flags.number;
    }
    return cvl_done();
}

bool cvl_make_all(const CvlPool *pool, CvlWork *w) {
    const CvlRow *const row = w->row;
    size_t bytes = 0;
    if (w->made || next_copied(row, 0) == row->operands) return 1;
    w->made = cvl_step(pool, w, CVL_READS, flags_part);
    if (w->made || w->left_out) return w->made;
    for (size_t j = next_copied(row, 0); j < row->operands; j = next_copied(row, j + 1))
        bytes += w->in[row->operand[j].as].number;
    w->copies = cvl_memory(bytes);
    if (w->copies == NULL || !cvl_step(pool, w, CVL_COPIES, copies_part)) return 0;
    const bool *copy = w->copies;
    for (size_t j = next_copied(row, 0); j < row->operands; j = next_copied(row, j + 1)) {
        w->in[row->operand[j].as].at = copy;
        copy += w->in[row->operand[j].as].number;
    }
    w->made = 1;
    return 1;
}

/* ---- memory ---- */

void cvl_let_go(CvlWork *w) {
    free(w->kept);
    free(w->copies);
}
