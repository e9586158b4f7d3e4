/*
 * Nested texts over ranks. What a rank makes of its part depends only on the state, one of five, in which the ranks before end. So each
 * rank finds where it leads from each state, one Exscan of 32 bytes gives the state in which it begins, and it reads its words by the plain
 * function.
 */
#include "texts.h"

/* Where a text stands: before its first bracket, between two lists, in a list, behind its last bracket, or behind a fault. */
typedef enum State { BEFORE, BETWEEN, INSIDE, BEHIND, AT_FAULT, STATES } State;

static State after(State state, char token) {
    switch (state) {
    case BEFORE: return token == '[' ? BETWEEN : AT_FAULT;
    case BETWEEN: return token == '[' ? INSIDE : token == ']' ? BEHIND : AT_FAULT;
    case INSIDE: return token == ']' ? BETWEEN : token == '[' ? AT_FAULT : INSIDE;
    default: return AT_FAULT;
    }
}

static bool is_bracket(char byte) { return byte == '[' || byte == ']'; }

/* The place of the next word or bracket, or the end of the text; `at` is then behind it. */
static size_t next_token(const char *text, size_t text_len, size_t *at) {
    size_t from = *at;
    while (from < text_len && cvl_is_white(text[from])) from++;
    *at = from < text_len ? from + 1 : from;
    if (from == text_len || is_bracket(text[from])) return from;
    while (*at < text_len && !cvl_is_white(text[*at]) && !is_bracket(text[*at])) ++*at;
    return from;
}

/* ---- what a rank's part has ---- */

/* A rank's part of a nested text. */
typedef struct Nested {
    const char *text;
    size_t text_len, tokens, words, opened; /* words and brackets, words, and opening brackets */
    uint64_t ends;                          /* where it leads from each state, a byte each */
    char *without;                          /* the text with blanks for brackets */
    int32_t *numbers, *lengths;             /* of the words, and of the pieces of lists */
    size_t pieces;
    bool goes_on;
} Nested;

static void look(Nested *n) {
    State ends[STATES] = {BEFORE, BETWEEN, INSIDE, BEHIND, AT_FAULT};
    for (size_t at = 0;;) {
        const size_t from = next_token(n->text, n->text_len, &at);
        if (from == n->text_len) break;
        n->tokens++;
        n->words += !is_bracket(n->text[from]), n->opened += n->text[from] == '[';
        for (int k = 0; k < STATES; k++) ends[k] = after(ends[k], n->text[from]);
    }
    for (int k = 0; k < STATES; k++) n->ends |= (uint64_t)ends[k] << 8 * k;
}

/* The words as numbers; 15 at the first that is no integer, as the place of a word. */
static CvlStatus read_words(Nested *n) {
    n->without = malloc(n->text_len + 1);
    n->numbers = malloc((n->words + 1) * sizeof *n->numbers);
    n->lengths = malloc((n->opened + 1) * sizeof *n->lengths);
    if (n->without == NULL || n->numbers == NULL || n->lengths == NULL) return cvl_status(CVL_NO_RESOURCES, -1);
    for (size_t k = 0; k < n->text_len; k++) n->without[k] = is_bracket(n->text[k]) ? ' ' : n->text[k];
    size_t count = 0;
    return cvl_read_ints(n->without, n->text_len, n->numbers, n->words, &count);
}

/*
 * The pieces of the lists, from the state in which the ranks before end; 15 at the first word or bracket that cannot stand where it does.
 */
static CvlStatus read_lists(Nested *n, State state, CvlStatus words) {
    int64_t token = 0, word = 0;
    if (state == AT_FAULT) return cvl_done();
    if (state == INSIDE && n->tokens > 0) n->goes_on = 1, n->lengths[n->pieces++] = 0;
    for (size_t at = 0; token < (int64_t)n->tokens; token++) {
        const char first = n->text[next_token(n->text, n->text_len, &at)];
        const bool is_word = !is_bracket(first), is_list = state == BETWEEN && first == '[';
        state = after(state, first);
        if (state == AT_FAULT || (is_word && words.number == CVL_BAD_INPUT && word == words.place))
            return cvl_status(CVL_BAD_INPUT, token);
        if (is_list) n->lengths[n->pieces++] = 0;
        if (is_word) n->lengths[n->pieces - 1]++, word++;
    }
    return cvl_done();
}

static State state_in(CvlFold ends, State from) { return (State)((uint64_t)ends.low >> 8 * from & 0xff); }

/* The first fault of the whole that this rank has; the last rank reports a text that ends too early. */
static CvlStatus fault_of(CvlRanks *ranks, Nested *n, CvlStatus words) {
    const CvlFold mine = cvl_fold(CVL_JOIN_STATES, 0, 0, (int64_t)n->ends, 0);
    const State state = state_in(cvl_before(ranks, mine), BEFORE);
    if (words.number != CVL_DONE && words.number != CVL_BAD_INPUT) return words;
    const CvlStatus status = read_lists(n, state, words);
    const State end = state_in(mine, state);
    const bool too_early = ranks->rank + 1 == ranks->size && end != BEHIND && end != AT_FAULT;
    return status.number == CVL_DONE && too_early ? cvl_status(CVL_BAD_INPUT, (int64_t)n->tokens) : status;
}

/* ---- reading ---- */

static bool do_meet(
    const char *text, size_t text_len, const int32_t *out, size_t out_len, const int32_t *lengths, size_t lengths_len) {
    return cvl_meet(text, text_len, 1, out, out_len, sizeof *out) ||
        cvl_meet(text, text_len, 1, lengths, lengths_len, sizeof *lengths) ||
        cvl_meet(out, out_len, sizeof *out, lengths, lengths_len, sizeof *lengths);
}

static void copy(int32_t *to, const int32_t *from, size_t count) {
    if (count > 0) memcpy(to, from, count * sizeof *to);
}

CvlStatus cvl_seg_read_ints_mpi(
    CvlRanks *ranks, const char *text, size_t text_len, int32_t *out, size_t out_len, size_t *count, int32_t *lengths,
    size_t lengths_len, size_t *pieces, bool *goes_on) {
    Nested n = {.text = text, .text_len = text_len};
    bool short_room = 0;
    uint64_t none;
    if (!cvl_are_ranks(ranks)) return cvl_status(CVL_NO_DESCRIPTOR, -1);
    if (!cvl_is_one_call(ranks, CVL_CALL_NEST_READ)) return cvl_status(CVL_UNKNOWN_CALL, -1);
    look(&n);
    CvlStatus status = fault_of(ranks, &n, read_words(&n));
    if (do_meet(text, text_len, out, out_len, lengths, lengths_len)) status = cvl_overlap();
    status = cvl_agreed(ranks, status, CVL_CALL_NEST_READ, n.tokens, UINT64_MAX, &short_room, &none);
    if (status.number == CVL_DONE) {
        /* the rooms are compared last, since only the text says how long the results are */
        short_room = n.words > out_len || n.pieces > lengths_len;
        const CvlStatus room = short_room ? cvl_status(CVL_LENGTH_MISMATCH, -1) : cvl_done();
        status = cvl_agreed(ranks, room, CVL_CALL_NEST_READ + 1, 0, UINT64_MAX, &short_room, &none);
        *count = n.words, *pieces = n.pieces, *goes_on = n.goes_on;
        if (status.number == CVL_DONE) copy(out, n.numbers, n.words), copy(lengths, n.lengths, n.pieces);
    }
    free(n.without), free(n.numbers), free(n.lengths);
    return status;
}

/* ---- writing ---- */

/*
 * A rank's pieces as lists of its own. The first one's opening bracket may stand in an earlier rank, and the last one's closing bracket in
 * a later one: where its segment has its last element, or, if it has none, where it starts.
 */
static void cut_brackets(const CvlRankSegments *s, CvlWritten *w) {
    const bool open = s->pieces > 0 && s->last_after > 0;
    const size_t head = cvl_head_of(s), last = s->pieces > 0 ? (size_t)s->lengths[s->pieces - 1] : 0;
    w->follows = s->goes_on ? head > 0 && s->head_before > 0 : s->starts > 0 && s->first > 0;
    if (s->goes_on) w->front = head == 0 ? 2 : 1;
    if (open && !(s->goes_on && s->pieces == 1 && last == 0)) w->back = 1;
}

static CvlStatus write_lists(
    const void *a, size_t a_len, const CvlRankSegments *s, bool are_bools, char *room, size_t room_len, size_t *length) {
    const CvlLengths lengths = {s->lengths, s->pieces};
    if (are_bools) return cvl_seg_write_bools(a, a_len, lengths, room, room_len, length);
    return cvl_seg_write_ints(a, a_len, lengths, room, room_len, length);
}

/* The rank's own part as a text. */
static CvlStatus write_own(const void *a, size_t a_len, const CvlRankSegments *s, bool are_bools, CvlWritten *w) {
    if (a_len != s->total) return cvl_status(CVL_LENGTH_MISMATCH, -1);
    CvlStatus status = write_lists(a, a_len, s, are_bools, NULL, 0, &w->length);
    if (status.number != CVL_LENGTH_MISMATCH) return status;
    cut_brackets(s, w);
    w->whole = malloc(w->length);
    if (w->whole == NULL) return cvl_status(CVL_NO_RESOURCES, -1);
    return write_lists(a, a_len, s, are_bools, w->whole, w->length, &w->length);
}

static CvlStatus write_nest(
    CvlRanks *ranks, const void *a, size_t a_len, const CvlRankSegments *s, bool are_bools, char *text, size_t text_len,
    size_t *count) {
    CvlWritten w = {.length = 2};
    bool short_room = 0;
    uint64_t none;
    CvlStatus status = cvl_done();
    if (!cvl_are_ranks(ranks)) return cvl_status(CVL_NO_DESCRIPTOR, -1);
    w.first = ranks->rank == 0, w.last = ranks->rank + 1 == ranks->size;
    if (s == NULL || s->ranks != ranks) status = cvl_status(CVL_NO_DESCRIPTOR, -1);
    else if (cvl_meet(a, a_len, are_bools ? sizeof(bool) : sizeof(int32_t), text, text_len, 1)) status = cvl_overlap();
    else status = write_own(a, a_len, s, are_bools, &w);
    if (status.number == CVL_DONE && cvl_length_of(&w) > text_len) {
        status = cvl_status(CVL_LENGTH_MISMATCH, -1);
        short_room = 1;
    }
    status = cvl_agreed(ranks, status, CVL_CALL_NEST_WRITE + are_bools, 0, UINT64_MAX, &short_room, &none);
    if (status.number == CVL_DONE || short_room) *count = cvl_length_of(&w);
    if (status.number == CVL_DONE) cvl_put_text(&w, text);
    free(w.whole);
    return status;
}

CvlStatus cvl_seg_write_ints_mpi(
    CvlRanks *ranks, const int32_t *a, size_t a_len, const CvlRankSegments *segments, char *out, size_t out_len, size_t *count) {
    return write_nest(ranks, a, a_len, segments, 0, out, out_len, count);
}

CvlStatus cvl_seg_write_bools_mpi(
    CvlRanks *ranks, const bool *a, size_t a_len, const CvlRankSegments *segments, char *out, size_t out_len, size_t *count) {
    return write_nest(ranks, a, a_len, segments, 1, out, out_len, count);
}
