/*
 * Holds each function of cvl.h and cvl_parallel.h against the plain reading of reading.h, on arguments at random: its status, its
 * place, its counts and every byte of the memory around. Booleans are any bytes; rooms are inputs, or overlap them; lengths
 * differ; places and counts are outside of 32 bits; vectors are too long, where they must not be read; each request for memory is
 * refused in turn; vectors of a few elements are cut into 1 to 9 parts, by one thread or by several, and by pools that leave
 * parts out, run them twice, or show that no part reads or writes what another one wrote; and the functions that are not in parts
 * run once more by the threads of the process. `tests/c/run differential [CASES [PART OF A NAME]]` builds and runs it under
 * sanitizers. It prints what differs, and its status is then 1.
 */
#define _DEFAULT_SOURCE
#include "reading.h"

#include <stdatomic.h>
#include <stdio.h>
#include <sys/mman.h>
#include <unistd.h>

enum { SECONDS = 60, MOST_PLACES = 256, SLOT = 1 << 11, MEMORY = (MOST_OPERANDS + 1) * SLOT, THREADS = 3, MOST_SHARED = 1 << 17 };

/* As many bytes as the longest vector of exact sums has, and some more, which nobody may touch. */
static const size_t far_bytes = ((size_t)CVL_MOST_ELEMENTS + 1) * 8 + (1 << 14);

static unsigned char memory[MEMORY], wanted[MEMORY], before[MEMORY];
static unsigned char *far_memory[MOST_OPERANDS];
static CvlThreads *threads;
static long tried, calls, refused, faults, failed;

/* ---- memory that is refused ---- */

static atomic_long requests;
static long refuse_at = -1;

/* What the parts of a call share: its rooms, and the memory that it asks for between its steps, of sorts 8,192 bytes a part and more. */
typedef struct Shared {
    unsigned char *at, before[MOST_SHARED];
    bool taken[MOST_SHARED]; /* which bytes a part of the step wrote */
    size_t size;
} Shared;

static Shared shared[2 * MOST_OPERANDS];
static size_t shared_count;
static bool watches, in_part, misses;

static void share(void *at, size_t size) {
    misses = misses || size > MOST_SHARED || shared_count == sizeof shared / sizeof *shared;
    if (misses || size == 0) return;
    shared[shared_count].at = (unsigned char *)at;
    shared[shared_count++].size = size;
}

/* The linker puts this in the place of malloc (--wrap). */
void *__real_malloc(size_t size);
void *__wrap_malloc(size_t size);
void *__wrap_malloc(size_t size) {
    void *const found = requests++ == refuse_at ? NULL : __real_malloc(size);
    if (watches && !in_part && found != NULL) share(found, size);
    return found;
}

/* ---- pools ---- */

static size_t runs, skipped;

static void run_backwards(void *state, CvlPart part, void *work, size_t parts) {
    (void)state;
    for (size_t k = parts; k > 0; k--) part(work, k - 1);
}

/* Leaves out one part: in each step, in the first, or in later ones alone. */
static void run_with_gap(void *state, CvlPart part, void *work, size_t parts) {
    const char *which = (const char *)state;
    const bool gap = strcmp(which, "all") == 0 || (strcmp(which, "first") == 0) == (runs == 0);
    const size_t left_out = parts - 1 - runs % parts;
    runs++;
    for (size_t k = 0; k < parts; k++) {
        if (!gap || k != left_out) part(work, k);
        else skipped += strcmp(which, "later") != 0;
    }
}

static void run_twice(void *state, CvlPart part, void *work, size_t parts) {
    run_backwards(state, part, work, parts);
    run_backwards(state, part, work, parts);
    part(work, parts);
}

static bool meets;

/* Turns over each byte that an earlier part of the step wrote. */
static void turn_over(void) {
    for (size_t j = 0; j < shared_count; j++) {
        for (size_t k = 0; k < shared[j].size; k++) shared[j].at[k] ^= shared[j].taken[k] ? 0xff : 0;
    }
}

/* Takes the bytes that a part wrote, and turns those of earlier parts back. No byte is written by two. */
static void take_written(void) {
    for (size_t j = 0; j < shared_count; j++) {
        for (size_t k = 0; k < shared[j].size; k++) {
            const bool wrote = shared[j].at[k] != shared[j].before[k];
            meets = meets || (wrote && shared[j].taken[k]);
            if (shared[j].taken[k]) shared[j].at[k] ^= 0xff;
            shared[j].taken[k] = shared[j].taken[k] || wrote;
        }
    }
}

/*
 * Runs each part while all that earlier parts of the step wrote is turned over. So a part that reads any of it has another
 * result, and one that writes there too is seen. Threads would show neither but at the wrong time.
 */
static void run_apart(void *state, CvlPart part, void *work, size_t parts) {
    const bool backwards = *(const bool *)state;
    meets = meets || misses;
    for (size_t j = 0; j < shared_count; j++) memset(shared[j].taken, 0, shared[j].size);
    for (size_t k = 0; k < parts; k++) {
        turn_over();
        for (size_t j = 0; j < shared_count; j++) memcpy(shared[j].before, shared[j].at, shared[j].size);
        in_part = true;
        part(work, backwards ? parts - 1 - k : k);
        in_part = false;
        take_written();
    }
}

/* ---- the rows ---- */

/* Functions of descriptors, on lengths in the place of one. */
static CvlStatus tell_offsets(const Given *g) {
    const CvlSegments segments = {(const int32_t *)g->at[0], g->len[0], true};
    return cvl_segments_offsets(&segments, g->at[1], g->len[1]);
}

static CvlStatus tell_numbers(const Given *g) {
    const CvlSegments segments = {(const int32_t *)g->at[0], g->len[0], true};
    return cvl_segments_numbers(&segments, g->at[1], g->len[1]);
}

/* A descriptor is there where the call is done, and else none, but that an overlap leaves the one before: or it answers no status. */
static CvlStatus from_offsets(const Given *g) {
    CvlSegments segments = {(const int32_t *)g->at[0], g->len[0], true};
    const CvlStatus status = cvl_segments_from_offsets(g->at[0], g->len[0], g->at[1], g->len[1], &segments);
    const bool is_made = segments.some && segments.lengths == g->at[1] && segments.segments == g->len[1];
    const bool is_before = segments.some && segments.lengths == g->at[0] && segments.segments == g->len[0];
    const bool right = status.number == CVL_DONE ? is_made : status.number == CVL_OVERLAP ? is_before : !segments.some;
    return right ? status : status_of(UINT32_MAX, -1);
}

#define OF_LENGTHS NONE, NO_OPERATORS, NO_LIMIT, FAMILY
static const Row of_lengths[] = {
    {"cvl_segments_offsets",
     TELL_OFFSETS,
     {OTHER_ARRAY(LENGTHS, TOTAL, ELEMENTS), OTHER_ARRAY(ROOM, OFFSETS, ELEMENTS)},
     OF_LENGTHS,
     tell_offsets},
    {"cvl_segments_numbers",
     TELL_NUMBERS,
     {OTHER_ARRAY(LENGTHS, TOTAL, ELEMENTS), OTHER_ARRAY(ROOM, TOTAL, ELEMENTS)},
     OF_LENGTHS,
     tell_numbers},
    {"cvl_segments_from_offsets",
     FROM_OFFSETS,
     {OTHER_ARRAY(READS, OFFSETS, OFFSETS), OTHER_ARRAY(ROOM, SEGMENTS, LENGTHS)},
     OF_LENGTHS,
     from_offsets},
};
enum { OTHER_ROWS = sizeof of_lengths / sizeof *of_lengths, ALL_ROWS = OTHER_ROWS + ROWS };

/* Each row but those of descriptors. */
static const Row *row_at(size_t k) {
    const Row *row = k < OTHER_ROWS ? &of_lengths[k] : &rows[k - OTHER_ROWS];
    size_t j = 0;
    while (j < count_of(row) && kind_of(row, j) != KIND_SEGMENTS) j++;
    return j < count_of(row) ? NULL : row;
}

/* The status of a call on the memory at hand; `wanted` is then the memory that it leaves. */
static CvlStatus expect(const Row *row, const Given *g) {
    memcpy(wanted, memory, MEMORY);
    for (size_t k = 0; k < count_of(row); k++) {
        const uintptr_t at = (uintptr_t)g->at[k] - (uintptr_t)memory;
        written_at[k] = is_written(row, k) && at < MEMORY ? wanted + at : NULL;
    }
    const CvlStatus status = reading(row, g);
    if (!is_left(status)) memcpy(wanted, memory, MEMORY);
    return status;
}

/* ---- arguments at random ---- */

static uint64_t state = 1;

static size_t below(size_t limit) {
    state = state * 6364136223846793005u + 1442695040888963407u;
    return limit == 0 ? 0 : (size_t)((state >> 33) % limit);
}

static bool chance(size_t of) { return below(of) == 0; }

static int32_t any_int(void) {
    static const int32_t odd[] = {INT32_MIN, INT32_MAX, -1, 0, 1, 31, 32};
    return chance(4) ? odd[below(7)]
        : chance(2)  ? (int32_t)below(19) - 9
                     : (int32_t)(below(1u << 31) * 2 + below(2) - (1u << 31));
}

static void fill_bytes(void) {
    for (size_t k = 0; k < MEMORY; k += sizeof state) {
        below(1);
        memcpy(memory + k, &state, sizeof state);
    }
}

/* Lengths of so many segments that add up to a total. */
static void fill_lengths(int32_t *lengths, size_t segments, size_t total) {
    for (size_t s = 0; s < segments; s++) lengths[s] = 0;
    while (segments > 0 && total > 0) {
        const size_t s = below(segments), more = chance(3) ? total : 1 + below(total);
        lengths[s] += (int32_t)more;
        total -= more;
    }
    if (segments > 0 && chance(10)) lengths[below(segments)] += (int32_t)below(3) - 1;
    if (segments > 0 && chance(20))
        lengths[below(segments)] = chance(2) ? -1 - (int32_t)below(9) : chance(2) ? CVL_MOST_OF_TEXT : CVL_MOST_ELEMENTS;
}

/* What an index may be in a segment of a result with so many places: each once, or any. */
static void fill_index(int32_t *index, size_t count, size_t places, bool once) {
    for (size_t k = 0; k < count; k++) index[k] = once && places > 0 ? (int32_t)(k % places) : (int32_t)below(places);
    for (size_t k = count; once && k > 1; k--) {
        const size_t other = below(k);
        const int32_t moved = index[k - 1];
        index[k - 1] = index[other];
        index[other] = moved;
    }
}

static bool has_negative(const Given *g, const Row *row) {
    for (size_t k = 0; k < count_of(row); k++) {
        for (size_t s = 0; role_of(row, k) == ROLE_LENGTHS && s < g->len[k]; s++) {
            const int32_t length = ((const int32_t *)g->at[k])[s];
            if (length < 0 || length > MOST_PLACES / 4) return true;
        }
    }
    return false;
}

/* The indices of a permute, or of elements in segments, without a fault; then sometimes with one. */
static void fill_indices(const Row *row, Given *g, size_t n, size_t m) {
    const bool back = row->model == BACK_PERMUTE || row->model == SEG_BACK_PERMUTE, selects = uses(row, USE_MASK);
    const bool others = row->model == DEFAULT_PERMUTE || row->model == SEG_DEFAULT_PERMUTE;
    const bool single = row->model == SEG_EXTRACT || row->model == SEG_REPLACE;
    int32_t *index = (int32_t *)g->at[1], some[MOST_PLACES];
    const size_t many = g->len[1];
    if (has_negative(g, row)) return;
    const Cuts first = cuts_of(row, g, 0, n), second = cuts_of(row, g, 1, back ? many : m);
    for (size_t s = 0; s < first.count && s < second.count; s++) {
        const Cuts *by = back ? &second : &first;
        const size_t start = by->start[s], length = by->start[s + 1] - start;
        const size_t trues = selects ? trues_of(row, g, 2, start, start + length) : length;
        const size_t places = back ? first.start[s + 1] - first.start[s] : others ? second.start[s + 1] - second.start[s] : trues;
        if (single) index[s] = (int32_t)below(length);
        if (single || start + length > MOST_PLACES) continue;
        fill_index(some, trues, places, !back);
        for (size_t k = 0, j = 0; k < length; k++) index[start + k] = selects && !get(row, g, 2, start + k) ? -7 : some[j++];
    }
    if (many > 0 && chance(3))
        index[below(many)] = chance(2) ? index[below(many)]
            : chance(2)                ? -1 - (int32_t)below(2)
            : chance(2)                ? INT32_MAX
                                       : (int32_t)m;
}

/* Offsets that begin with 0 and never fall; then sometimes others. */
static void fill_offsets(int32_t *offsets, size_t count) {
    for (size_t k = 0; k < count; k++) offsets[k] = k == 0 ? 0 : offsets[k - 1] + (int32_t)below(4);
    for (size_t other = chance(3) ? below(3) : 0; other > 0 && count > 0; other--) offsets[below(count)] = any_int();
}

/* Offsets of rows that have so many entries in all; then sometimes with some that are not. */
static void fill_row_offsets(int32_t *offsets, size_t count, size_t entries) {
    for (size_t k = 0; k < count; k++) {
        const size_t start = k == 0 ? 0 : (size_t)offsets[k - 1] + below(6);
        offsets[k] = (int32_t)(k > 0 && (k + 1 == count || start > entries) ? entries : start);
    }
    for (size_t other = chance(4) ? 1 + below(2) : 0; other > 0 && count > 0; other--) {
        offsets[chance(3) ? 0 : below(count)] = chance(2) ? (int32_t)below(entries + 2) - 1 : any_int();
    }
}

/* The indices of first senders or combining permutes, most times each a place of its segment of the result; those whose flag is false are no
 * places. */
static void fill_senders(const Row *row, Given *g) {
    const bool selects = uses(row, USE_MASK);
    const size_t out = operand(row, ROLE_ROOM), from_place = operand_for(row, USE_INDEX), many = g->len[from_place];
    int32_t *index = (int32_t *)g->at[from_place];
    if (has_negative(g, row)) return;
    const Cuts from = cuts_of(row, g, 0, many),
               to = cuts_of(row, g, 1, g->len[out] + (extent_of(row, out) == EXTENT_RANGE ? below(9) : 0));
    for (size_t s = 0; s < from.count && s < to.count; s++) {
        const size_t length = to.start[s + 1] - to.start[s];
        for (size_t k = from.start[s]; k < from.start[s + 1] && k < many; k++) {
            index[k] = selects && k < g->len[1] && !get(row, g, 1, k) ? -7 : (int32_t)below(length);
        }
    }
    for (size_t bad = many > 0 && chance(3) ? 1 + below(3) : 0; bad > 0; bad--) {
        index[below(many)] = chance(2) ? -1 - (int32_t)below(2) : chance(2) ? INT32_MAX : (int32_t)g->len[out];
    }
}

/* The indices of a call: of senders first, or with what they join; or of a permute or of elements, into as many places as there are others. */
static void fill_places(const Row *row, Given *g, size_t n, size_t m) {
    const bool of_others = uses(row, USE_LOWEST) || extent_of(row, operand_for(row, USE_INDEX)) == EXTENT_SEGMENTS;
    if (operand_for(row, USE_INDEX) == 0 || combines(row)) fill_senders(row, g);
    else fill_indices(row, g, n, of_others ? n : m);
}

/* Starts from which on each segment lies in the source; then sometimes others. */
static void fill_starts(const Row *row, Given *g) {
    int32_t *starts = (int32_t *)g->at[1];
    const size_t many = g->len[1], places = g->len[0];
    if (has_negative(g, row)) return;
    const Cuts cuts = cuts_of(row, g, 0, 0);
    for (size_t s = 0; s < many && s < cuts.count; s++) {
        const size_t length = cuts.start[s + 1] - cuts.start[s];
        starts[s] = length > places ? 0 : (int32_t)below(places - length + 1);
    }
    for (size_t bad = many > 0 && chance(3) ? 1 + below(3) : 0; bad > 0; bad--) {
        starts[below(many)] = chance(2) ? -1 - (int32_t)below(2) : chance(2) ? INT32_MAX : (int32_t)(places - below(2));
    }
}

/* Lengths of what flags keep and leave of each segment; then sometimes others, which add up to as much or not. */
static void fill_sides(const Row *row, Given *g) {
    int32_t *const sides[2] = {(int32_t *)g->at[4], (int32_t *)g->at[5]};
    const int32_t *lengths = (const int32_t *)g->at[3];
    size_t start = 0;
    for (size_t s = 0; s < g->len[3]; s++) {
        if (lengths[s] < 0 || start + (size_t)lengths[s] > MOST_PLACES) return;
        const size_t trues = trues_of(row, g, 0, start, start + (size_t)lengths[s]);
        sides[0][s] = (int32_t)trues, sides[1][s] = lengths[s] - (int32_t)trues;
        start += (size_t)lengths[s];
    }
    if (g->len[3] == 0 || !chance(4)) return;
    int32_t *const side = sides[below(2)];
    side[below(g->len[3])]++;
    if (chance(2)) side[below(g->len[3])]--;
}

/* So many rows and columns as there are elements for; then sometimes others. */
static void fill_matrix(Given *g) {
    const size_t elements = g->len[0], some = 1 + below(5), many = elements % some == 0 ? some : 1;
    if (chance(5)) return;
    g->number[1] = (int64_t)(elements == 0 && chance(2) ? below(9) : many);
    g->number[2] = (int64_t)(elements == 0 && g->number[1] == 0 ? below(9) : elements / many);
    /* of a product beyond 64 bits as many are left as there are elements */
    if (chance(20)) g->number[1] = (int64_t)1 << 33, g->number[2] = (int64_t)1 << (elements == 0 ? 31 : 33);
}

/* A range of the transpose, which mostly ends within it. */
static void fill_turned(Given *g) {
    const size_t elements = g->len[0], lowest = below(elements + 1);
    fill_matrix(g);
    g->number[3] = (int64_t)lowest;
    g->len[4] = below(elements - lowest + 1) + (chance(12) ? 1 : 0);
    if (chance(20)) g->number[3] = below(2) == 0 ? (int64_t)CVL_MOST_ELEMENTS : -1;
}

/* Columns of which each is a place of the vector; then sometimes with some that are not. */
static void fill_columns(Given *g) {
    int32_t *columns = (int32_t *)g->at[1];
    const size_t many = g->len[1], places = g->len[3];
    for (size_t k = 0; k < many; k++) columns[k] = (int32_t)below(places);
    for (size_t bad = chance(3) ? 1 + below(3) : 0; bad > 0 && many > 0; bad--) {
        columns[below(many)] = chance(2) ? -1 - (int32_t)below(2) : chance(2) ? INT32_MAX : (int32_t)places;
    }
}

static void fill_text(const Row *row, char *text, size_t length) {
    static const char *const words[] = {"5", "-1", "007", "-0", "2147483647", "-2147483648", "12", "3"};
    static const char *const bad[] = {"x", "+1", "2147483648", "-", "--1", "]", "[", "1-"};
    const bool nested = row->model == SEG_READ, spoiled = chance(3);
    size_t at = 0, depth = 0;
    memset(text, ' ', length);
    if (nested && length >= 2) text[at++] = '[', depth = 1;
    while (at + 14 < length && !chance(30)) {
        const char *word = spoiled && chance(8) ? bad[below(8)] : words[below(8)];
        if (nested && depth == 1 && !(spoiled && chance(9))) word = "[", depth = 2;
        else if (nested && depth == 2 && chance(3)) word = "]", depth = 1;
        memcpy(text + at, word, strlen(word));
        at += strlen(word);
        if (!nested || chance(2) || (word[0] != '[' && word[0] != ']')) text[at++] = " \t\n\r"[below(4)];
    }
    for (; nested && depth > 0 && at < length && !(spoiled && chance(4)); depth--) text[at++] = ']';
}

/* The fault of an operator, where it has one. */
static uint32_t fault_of(uint32_t op) {
    size_t k = 0;
    while (k < ALL_OPERATORS && operators[k].number != op) k++;
    return k < ALL_OPERATORS ? operators[k].fault : (uint32_t)CVL_DONE;
}

/* Elements on which an operator has a value; then sometimes some on which it has none, several, so that the first is told from the others. */
static void fill_seconds(uint32_t fault, int32_t *ints, size_t count) {
    const bool shifts = fault == CVL_SHIFT_OUT_OF_RANGE;
    for (size_t j = 0; j < count; j++) ints[j] = shifts ? (int32_t)below(32) : ints[j] == 0 ? 7 : ints[j];
    for (size_t bad = chance(3) ? 1 + below(3) : 0; bad > 0 && count > 0; bad--)
        ints[below(count)] = shifts ? (chance(2) ? 32 : -1) : 0;
}

/* Sums that stand in a room before, of which each may grow; then sometimes some at the bounds of those, and beyond. */
static void fill_sums(unsigned char *at, size_t count, bool small) {
    static const int64_t bounds[] = {((int64_t)1 << 62) - 1,  -((int64_t)1 << 62), (int64_t)1 << 62,
                                     -((int64_t)1 << 62) - 1, INT64_MAX,           INT64_MIN};
    int64_t sum;
    for (size_t j = 0; j < count; j++) {
        sum = small ? (int64_t)below(19) - 9 : any_int() * ((int64_t)1 << 30) + any_int();
        memcpy(at + j * sizeof sum, &sum, sizeof sum);
    }
    for (size_t other = chance(3) ? 1 + below(3) : 0; other > 0 && count > 0; other--) {
        sum = bounds[below(chance(2) ? 2 : 6)];
        memcpy(at + below(count) * sizeof sum, &sum, sizeof sum);
    }
}

/* Has most elements as the one before them, so that runs go on over several parts. */
static void lengthen_runs(char *at, size_t n, size_t size) {
    for (size_t j = 1; j < n; j++) {
        if (below(8) > 0) memcpy(at + j * size, at + (j - 1) * size, size);
    }
}

static void fill(const Row *row, Given *g, size_t k, size_t n, size_t m) {
    int32_t *ints = (int32_t *)g->at[k];
    unsigned char *bytes = (unsigned char *)g->at[k];
    const bool small = chance(2), plain = chance(2);
    /* a combining permute of booleans is cut only if those in the room are 0 and 1 */
    const bool joins = (row->model == COMBINE_PERMUTE || row->model == COMBINE_PERMUTE_RANGE) && role_of(row, k) == ROLE_ROOM &&
        kind_of(row, k) == KIND_FLAGS;
    for (size_t j = 0; j < g->len[k] && joins && plain; j++) bytes[j] = (unsigned char)below(2);
    if (role_of(row, k) == ROLE_ROOM && kind_of(row, k) == KIND_SUMS && adds_up(row)) fill_sums(bytes, g->len[k], small);
    for (size_t j = 0; j < g->len[k] && row->operands[k].is_over && kind_of(row, k) == KIND_INTS; j++)
        ints[j] = small ? (int32_t)below(19) - 9 : any_int();
    if (role_of(row, k) == ROLE_LENGTHS)
        fill_lengths(ints, g->len[k], extent_of(row, k) == EXTENT_N || extent_of(row, k) == EXTENT_TOTAL ? n : m);
    if (role_of(row, k) != ROLE_READS) return;
    for (size_t j = 0; j < g->len[k] && kind_of(row, k) == KIND_INTS; j++) ints[j] = small ? (int32_t)below(19) - 9 : any_int();
    /* neighbours that are equal */
    const bool has_runs = row->model >= RUN_LENGTHS && row->model <= SEG_RUN_COUNTS && plain;
    for (size_t j = 0; j < g->len[k] && has_runs && kind_of(row, k) == KIND_INTS; j++) ints[j] = (int32_t)below(2);
    for (size_t j = 0; j < g->len[k] && kind_of(row, k) == KIND_FLAGS; j++)
        bytes[j] = chance(2) ? 0 : plain || chance(2) ? 1 : (unsigned char)below(256);
    if (has_runs && small) lengthen_runs(g->at[k], g->len[k], size_of(kind_of(row, k)));
    for (size_t j = 0; j < g->len[k] && kind_of(row, k) == KIND_BYTES; j++) bytes[j] = (unsigned char)below(256);
    for (size_t j = 0; j < g->len[k] && row->model == BYTES_FROM_INTS; j++) ints[j] = (int32_t)below(256);
    for (size_t bad = row->model == BYTES_FROM_INTS && chance(3) ? 1 + below(3) : 0; bad > 0 && g->len[k] > 0; bad--)
        ints[below(g->len[k])] = any_int();
    if (kind_of(row, k) == KIND_TEXT) fill_text(row, (char *)g->at[k], g->len[k]);
    if (row->model == FROM_OFFSETS) fill_offsets(ints, g->len[k]);
    if (extent_of(row, k) == EXTENT_OFFSETS && is_by_offsets(row)) fill_row_offsets(ints, g->len[k], n);
    if (row->model == BINARY && k == 1 && kind_of(row, k) == KIND_INTS && fault_of(g->op) != CVL_DONE)
        fill_seconds(fault_of(g->op), ints, g->len[k]);
}

/* How many elements an array of an extent has. */
static size_t long_as(Extent extent, size_t n, size_t m, size_t segments, int64_t count, size_t room) {
    switch (extent) {
    case EXTENT_N:
    case EXTENT_TOTAL: return n;
    case EXTENT_M: return m;
    case EXTENT_BOTH: return n + m;
    case EXTENT_SEGMENTS: return segments;
    case EXTENT_OFFSETS: return segments + 1;
    case EXTENT_COUNT: return count < 0 || count > MOST_PLACES ? 0 : (size_t)count;
    default: return room;
    }
}

static void fill_numbers(const Row *row, Given *g, size_t n) {
    static const int64_t far[] = {
        -1, (int64_t)1 << 32, ((int64_t)1 << 32) + 1, INT64_MIN, INT64_MAX, (int64_t)CVL_MOST_ELEMENTS + 1, (int64_t)1 << 31};
    for (size_t k = 0; k < count_of(row); k++) {
        const Role role = role_of(row, k);
        const Kind kind = kind_of(row, k);
        if (role == ROLE_VALUE)
            g->number[k] = kind == KIND_FLAGS ? (int64_t)below(2)
                : kind == KIND_SUMS           ? any_int() * (chance(3) ? (int64_t)5 : 1)
                : kind == KIND_SIZES          ? (int64_t)below(n + 2)
                                              : any_int();
        if (role == ROLE_VALUE && kind == KIND_SIZES && chance(20))
            g->number[k] = chance(2) ? INT64_MAX : CVL_MOST_ELEMENTS + (int64_t)below(2);
        if (role == ROLE_PLACE) g->number[k] = chance(4) ? (chance(2) ? (int64_t)n : far[below(7)]) : (int64_t)below(n);
        if (role == ROLE_COUNT) g->number[k] = chance(6) ? far[below(7)] : (int64_t)n;
    }
}

/* A room on an input, from the first to the last element, or somewhere over it. */
static void move_rooms(const Row *row, Given *g) {
    const size_t room = operand(row, ROLE_ROOM), count = count_of(row);
    if (row->in_place != NONE && chance(3)) {
        bool is_first = true;
        for (size_t k = 0; k < count; k++) {
            if ((row->in_place >> k & 1) == 0) continue;
            if (chance(2) || is_first) g->at[k] = g->at[room];
            is_first = false;
        }
    }
    for (size_t k = 0; k < count && chance(6); k++) {
        const size_t other = below(count);
        if (!is_written(row, k) || other == k || g->at[other] == NULL) continue;
        g->at[k] = (unsigned char *)g->at[other] + (below(9) - 4) * size_of(kind_of(row, k));
        if (size_of(kind_of(row, k)) == sizeof(size_t)) g->at[k] = memory + ((unsigned char *)g->at[k] - memory) / 8 * 8;
    }
}

static void make(const Row *row, Given *g) {
    const bool few_places = (combines(row) || row->model == COUNTS) && chance(2);
    const size_t n = few_places || chance(9) ? below(MOST_PLACES / 4) : below(14);
    const size_t m = few_places ? 1 + below(n / 8) : chance(3) ? below(14) : n + below(5);
    const size_t segments = chance(9) ? 0 : 1 + below(chance(4) ? 40 : 5), count = count_of(row),
                 marks = operand_of(row, ROLE_ROOM, KIND_MARKS);
    memset(g, 0, sizeof *g);
    fill_bytes();
    g->op = chance(30) && !row->is_call ? (uint32_t)below(24) : operator_from(row, (uint32_t)below(32));
    fill_numbers(row, g, n);
    const int64_t times = operand(row, ROLE_COUNT) < count ? g->number[operand(row, ROLE_COUNT)] : 0;
    for (size_t k = 0; k < count; k++) {
        const bool text = kind_of(row, k) == KIND_TEXT;
        const size_t room = chance(3) ? below(n + 2) : text ? 40 + 14 * n : n + below(3);
        g->len[k] = role_of(row, k) == ROLE_LENGTHS ? segments
            : text && role_of(row, k) == ROLE_READS ? below(160)
                                                    : long_as(extent_of(row, k), n, m, segments, times, room);
        g->at[k] = memory + k * SLOT + SLOT / 4 + 8 * below(16);
        if (!row->is_call && is_array(row, k) && chance(25)) g->len[k] += below(2) == 0 && g->len[k] > 0 ? (size_t)-1 : 1;
    }
    if (marks < count) g->len[marks] = (g->len[marks - 1] + 31) / 32 + (chance(20) ? 1 : 0);
    for (size_t k = 0; k < count; k++) fill(row, g, k, n, m);
    for (size_t k = 0; k < count; k++) {
        const size_t by = operand_for(row, USE_MASK);
        if (role_of(row, k) == ROLE_LENGTHS || (extent_of(row, k) != EXTENT_TRUES && extent_of(row, k) != EXTENT_FALSES))
            continue;
        const size_t of_trues = trues_of(row, g, by, 0, g->len[by]);
        g->len[k] = (extent_of(row, k) == EXTENT_TRUES ? of_trues : g->len[by] - of_trues) + (chance(12) ? 1 : 0);
    }
    if (uses(row, USE_INDEX)) fill_places(row, g, n, m);
    if (uses(row, USE_STARTS)) fill_starts(row, g);
    if (uses(row, USE_TRUE_LENGTHS)) fill_sides(row, g);
    if (row->model == TRANSPOSE) fill_matrix(g);
    if (row->model == TRANSPOSE_RANGE) fill_turned(g);
    if (uses(row, USE_COLUMNS)) fill_columns(g);
    move_rooms(row, g);
    for (size_t k = 0; k < count; k++) {
        if (is_array(row, k) && g->len[k] == 0 && chance(3)) g->at[k] = NULL;
    }
}

/* ---- a call, and what it has to be ---- */

static void fail(const Row *row, const char *what, CvlStatus status, CvlStatus expected) {
    if (failed++ >= 40) return;
    printf(
        "%s, %s: %u at %lld, and %u at %lld by the reading%s\n", row->name, what, (unsigned)status.number,
        (long long)status.place, (unsigned)expected.number, (long long)expected.place,
        memcmp(memory, wanted, MEMORY) == 0 ? "" : "; other memory");
}

static CvlStatus call(const Row *row, const Given *g, long refusing) {
    requests = 0;
    refuse_at = refusing;
    const CvlStatus status = row->call(g);
    refuse_at = -1;
    calls++;
    return status;
}

static bool is_as(CvlStatus status, CvlStatus expected) {
    return status.number == expected.number && status.place == expected.place && memcmp(memory, wanted, MEMORY) == 0;
}

static bool is_refused(CvlStatus status) {
    return status.number == CVL_NO_RESOURCES && status.place == -1 && memcmp(memory, before, MEMORY) == 0;
}

/* Whether a fault may stand behind want of memory: one of elements, or of a text that is read. */
static bool may_be_behind(const Row *row, CvlStatus expected) {
    const bool reads = row->model == READ || row->model == READ_AFTER || row->model == SEG_READ;
    return expected.number == CVL_DONE || (expected.number >= CVL_DIVIDE_BY_ZERO && expected.number <= CVL_INDEX_REPEATED) ||
        expected.number == CVL_OVERFLOW || expected.number == CVL_BAD_INPUT ||
        (expected.number == CVL_LENGTH_MISMATCH && (reads || expected.place >= 0));
}

static void choose_pool(void) {
    pool = cvl_pool_alone(1);
    if (chance(3)) pool.run = run_backwards;
    if (chance(4)) pool = cvl_pool_posix(threads);
    pool.parts = 1 + below(9);
}

static void refuse_each(const Row *row, const Given *g, CvlStatus expected) {
    pool = cvl_pool_alone(pool.parts);
    memcpy(memory, before, MEMORY);
    call(row, g, -1);
    const long all = requests;
    for (long j = 0; j < all; j++) {
        memcpy(memory, before, MEMORY);
        const CvlStatus status = call(row, g, j);
        refused++;
        if (!is_as(status, expected) && !(is_refused(status) && may_be_behind(row, expected)))
            fail(row, "without memory", status, expected);
    }
}

static void by_other_pools(const Row *row, const Given *g, CvlStatus expected) {
    static char all[] = "all", first[] = "first", later[] = "later";
    char *const which[] = {all, first, later};
    const size_t parts = pool.parts;
    for (size_t k = 0; k < 4; k++) {
        pool.parts = parts, pool.run = k < 3 ? run_with_gap : run_twice, pool.state = k < 3 ? which[k] : NULL;
        memcpy(memory, before, MEMORY);
        runs = skipped = 0;
        const CvlStatus status = call(row, g, -1);
        const bool may = which[k % 3] == later && k < 3 && is_refused(status);
        if (skipped > 0 ? !is_refused(status) : !is_as(status, expected) && !may)
            fail(row, k < 3 ? which[k] : "parts run twice", status, expected);
    }
}

/* The same result where each part runs as if the others had written anything. */
static void by_parts_apart(const Row *row, const Given *g, CvlStatus expected) {
    bool backwards = chance(2);
    pool.run = run_apart, pool.state = &backwards;
    shared_count = 0, meets = misses = false;
    for (size_t k = 0; k < count_of(row); k++) {
        if (is_written(row, k)) share(g->at[k], (is_array(row, k) ? g->len[k] : 1) * size_of(kind_of(row, k)));
    }
    memcpy(memory, before, MEMORY);
    watches = true;
    const CvlStatus status = call(row, g, -1);
    watches = false;
    if (!is_as(status, expected)) fail(row, "a part that reads what others wrote", status, expected);
    else if (meets) fail(row, "two parts write one byte", status, expected);
}

static void try_one(const Row *row) {
    Given g;
    make(row, &g);
    choose_pool();
    memcpy(before, memory, MEMORY);
    const CvlStatus expected = expect(row, &g), status = call(row, &g, -1);
    faults += expected.number != CVL_DONE;
    if (!is_as(status, expected)) fail(row, "at random", status, expected);
    refuse_each(row, &g, expected);
    if (in_parts(row)) by_other_pools(row, &g, expected);
    if (in_parts(row) && chance(2)) by_parts_apart(row, &g, expected);
}

/* ---- vectors that are too long: nothing of them is read, and no memory is asked for ---- */

static void is_too_long(const Row *row, const Given *g, const char *what) {
    memcpy(before, memory, MEMORY);
    const CvlStatus expected = expect(row, g), status = call(row, g, -1);
    if (!is_as(status, expected) || expected.number != CVL_TOO_LONG) fail(row, what, status, expected);
    if (requests > 0) fail(row, "memory for what is too long", status, expected);
}

static void make_without_fault(const Row *row, Given *g) {
    CvlStatus expected;
    do {
        make(row, g);
        memcpy(before, memory, MEMORY);
        expected = expect(row, g);
    } while (expected.number != CVL_DONE && expected.number < CVL_DIVIDE_BY_ZERO);
}

static void too_long(const Row *row) {
    Given g;
    const size_t count = count_of(row), lengths = operand(row, ROLE_LENGTHS);
    choose_pool();
    if (row->limited >= 0) {
        do make_without_fault(row, &g);
        while (expect(row, &g).number != CVL_DONE);
        for (size_t k = 0; k < count; k++) {
            if (!is_counted(row, k) || extent_of(row, k) != extent_of(row, (size_t)row->limited)) continue;
            g.at[k] = far_memory[k], g.len[k] = most_of(row) + 1;
        }
        is_too_long(row, &g, "too long");
    }
    if (lengths < count) {
        do make_without_fault(row, &g);
        while (expect(row, &g).number != CVL_DONE);
        for (size_t k = 0; k < count; k++) {
            if (extent_of(row, k) == EXTENT_SEGMENTS && role_of(row, k) == ROLE_READS)
                g.at[k] = far_memory[k], g.len[k] = most_of(row) + 1;
        }
        g.at[lengths] = far_memory[lengths], g.len[lengths] = most_of(row) + 1;
        if (role_of(row, count - 1) == ROLE_ROOM && extent_of(row, count - 1) == EXTENT_SEGMENTS)
            g.at[count - 1] = far_memory[count - 1], g.len[count - 1] = most_of(row) + 1;
        is_too_long(row, &g, "too many lengths");
    }
    if ((row->in_place & FIRST) != 0 && (row->in_place & ONE_ALONE) == 0 && lengths == count) {
        make_without_fault(row, &g);
        for (size_t k = 0; k < count; k++) g.at[k] = far_memory[0], g.len[k] = SIZE_MAX;
        g.op = operator_from(row, 0);
        is_too_long(row, &g, "as long as can be");
    }
}

int main(int words, char **word) {
    const long cases = words > 1 ? atol(word[1]) : 150;
    const char *part_of_name = words > 2 ? word[2] : "";
    alarm((unsigned)(SECONDS + 2 * cases));
    setvbuf(stdout, NULL, _IONBF, 0);
    for (size_t k = 0; k < MOST_OPERANDS; k++) {
        far_memory[k] = (unsigned char *)mmap(NULL, far_bytes, PROT_NONE, MAP_PRIVATE | MAP_ANONYMOUS | MAP_NORESERVE, -1, 0);
        if (far_memory[k] == MAP_FAILED) abort();
    }
    if (cvl_threads_start(THREADS, &threads) != 0) abort();
    for (size_t k = 0; k < 2 * ALL_ROWS; k++) {
        const Row *row = row_at(k % ALL_ROWS);
        const bool by_threads = k >= ALL_ROWS;
        if (row == NULL || strstr(row->name, part_of_name) == NULL || (by_threads && in_parts(row))) continue;
        tried += !by_threads;
        if (cvl_set_threads(by_threads ? THREADS : 1) != 0) abort();
        for (long c = 0; c < (by_threads ? cases / 3 : cases); c++) try_one(row);
        for (int c = 0; c < 4; c++) too_long(row);
    }
    cvl_threads_stop(threads);
    printf(
        "%ld functions, %ld calls, %ld of them with memory refused, %ld arguments with a fault, %ld not as the reading\n", tried,
        calls, refused, faults, failed);
    return failed == 0 ? EXIT_SUCCESS : EXIT_FAILURE;
}
