/*
 * Calls every function of cvl.h and cvl_parallel.h as a careless program would: with each two of its arrays overlapping, whole or by one element
 * at either end; in place; with booleans that are any bytes; with null for arrays without elements; with arrays that end or begin
 * at a page that must not be touched; and without a descriptor. It prints what is not as the header promises, and its status is then 1.
 * `tests/c/run careless` builds and runs it under sanitizers and without. The functions are those of calls.h.
 */
#define _DEFAULT_SOURCE
#include "arguments.h"

#include <sys/mman.h>

enum { FEW = 6, LONGEST = 5000, SEGMENTS = 3, SHORT_SLOT = 1 << 11, LONG_SLOT = 1 << 16, PAGE = 1 << 14 };

static unsigned char arena[(MOST_OPERANDS + 1) * LONG_SLOT], before[sizeof arena], wanted[sizeof arena];
static size_t slot;
static uint32_t state = 1;
static long wrong, calls;

static uint32_t next_random(void) { return (state = state * 1664525u + 1013904223u) >> 8; }

static void report(const Row *row, const char *test, const char *why, CvlStatus status) {
    if (wrong++ < 40) {
        printf(
            "%s, %s, %zu elements: %s (status %u at %lld)\n", row->name, test, n, why, (unsigned)status.number,
            (long long)status.place);
    }
}

/* Any integer, as likely to be an odd one. */
static int32_t any_int(void) {
    static const int32_t odd[] = {0, -1, 1, 31, 32, INT32_MAX, INT32_MIN, 2};
    return next_random() % 4 == 0 ? odd[next_random() % 8] : (int32_t)next_random();
}

/* A byte for a boolean: 0, 1 or any. */
static unsigned char any_byte(void) {
    const uint32_t random = next_random();
    return (unsigned char)(random % 2 == 0 ? random >> 1 & 1 : random >> 8);
}

static bool is_read(const Row *row, size_t k, Kind kind) { return role_of(row, k) == ROLE_READS && kind_of(row, k) == kind; }

/* Fills an operand of a call that has no fault, or of one with any integers and flags; a room is as if nobody had written it. */
static void fill_any(const Row *row, size_t k, unsigned char *at, bool any) {
    int32_t *ints = (int32_t *)(void *)at;
    fill(row, k, at, is_written(row, k));
    for (size_t place = 0; any && place < elements_of(row, k); place++) {
        if (is_read(row, k, KIND_INTS) && use_of(row, k) == USE_ELEMENTS) ints[place] = any_int();
        if (is_read(row, k, KIND_FLAGS)) at[place] = any_byte();
    }
}

/* Puts each operand of the call into a slot of its own, and fills it. */
static void apart(const Row *row, unsigned char **at, bool any) {
    memset(arena, UNTOUCHED, (MOST_OPERANDS + 1) * slot);
    measure_segments(row);
    for (size_t k = 0; k < count_of(row); k++) {
        at[k] = arena + k * slot + slot / 2;
        if (is_in_memory(row, k)) fill_any(row, k, at[k], any);
    }
}

static CvlStatus call_at(const Row *row, unsigned char *const *at) {
    const Given g = given_at(row, at);
    calls++;
    const CvlStatus status = row->call(&g);
    if (has(row, ROLE_ROOM, KIND_SEGMENTS) && status.number == CVL_DONE)
        cvl_segments_free(g.at[operand_of(row, ROLE_ROOM, KIND_SEGMENTS)]);
    return status;
}

static void remember(unsigned char *as) { memcpy(as, arena, (MOST_OPERANDS + 1) * slot); }

static bool is_as(const unsigned char *as) { return memcmp(arena, as, (MOST_OPERANDS + 1) * slot) == 0; }

static void set_size(size_t elements) {
    n = elements;
    segments = elements == 0 ? 0 : SEGMENTS;
    trues = trues_in(0, n);
    text_room = elements == 0 ? 0 : 512;
    for (size_t s = 0; s < segments; s++)
        lengths[s] = (int32_t)(s + 1 == segments ? n - n / SEGMENTS * (segments - 1) : n / SEGMENTS);
}

/* ---- two arrays that overlap, or that stand beside each other */

static long down(long x, long to) { return x - (x % to + to) % to; }

static bool may_be_in_place(const Row *row, size_t input, size_t room) {
    return is_room(row, room) && (row->in_place >> input & 1) != 0;
}

/* The call with array j moved to `by` bytes after array i: it is refused with nothing written where they overlap, unless it is in
 * place, and else it answers as where they are apart. */
static void move_and_call(const Row *row, size_t i, size_t j, long by, const char *test) {
    unsigned char *at[MOST_OPERANDS];
    const long i_bytes = (long)bytes_of(row, i), j_bytes = (long)bytes_of(row, j);
    const bool overlap = by < i_bytes && -by < j_bytes, in_place = by == 0 && may_be_in_place(row, i, j);
    apart(row, at, false);
    const CvlStatus plain = call_at(row, at);
    if (plain.number != CVL_DONE) report(row, "apart", "it is not done", plain);
    apart(row, at, false);
    at[j] = at[i] + by;
    if (!in_place) fill_any(row, j, at[j], false);
    remember(before);
    const CvlStatus status = call_at(row, at);
    if (overlap && !in_place) {
        if (status.number != CVL_OVERLAP || status.place != -1) report(row, test, "the overlap is not told", status);
        if (!is_as(before)) report(row, test, "something was written", status);
    } else if (status.number != plain.number) {
        report(row, test, "another status than apart", status);
    }
}

static void overlap_two(const Row *row, size_t i, size_t j) {
    const long i_size = (long)size_of(kind_of(row, i)), j_size = (long)size_of(kind_of(row, j));
    const long i_bytes = (long)bytes_of(row, i), j_bytes = (long)bytes_of(row, j);
    move_and_call(row, i, j, 0, "the same start");
    move_and_call(row, i, j, j_size, "one element later");
    move_and_call(row, i, j, -j_size, "one element earlier");
    move_and_call(row, i, j, down(i_bytes - i_size, j_size), "over the last element");
    move_and_call(row, i, j, down(i_size - 1, j_size) + j_size - j_bytes, "over the first element");
    move_and_call(row, i, j, down(i_bytes - 1, j_size) + j_size, "right behind");
    move_and_call(row, i, j, -j_bytes, "right before");
}

static void overlap_each(const Row *row) {
    slot = SHORT_SLOT;
    set_size(FEW);
    for (size_t j = 0; j < count_of(row); j++) {
        for (size_t i = 0; i < j; i++) {
            if (!is_in_memory(row, i) || !is_in_memory(row, j)) continue;
            if (is_written(row, i) || is_written(row, j)) overlap_two(row, i, j);
        }
    }
}

/* Whether two operands that are read hold the same. */
static bool are_alike(const Row *row, size_t i, size_t j) {
    const bool are_read = is_array(row, i) && is_array(row, j) && !is_written(row, i) && !is_written(row, j);
    return are_read && kind_of(row, i) == kind_of(row, j) && use_of(row, i) == use_of(row, j) &&
        role_of(row, i) == role_of(row, j) && elements_of(row, i) == elements_of(row, j);
}

/* Inputs may overlap: two that hold the same are one. */
static void shared_inputs(const Row *row) {
    unsigned char *at[MOST_OPERANDS];
    slot = SHORT_SLOT;
    set_size(FEW);
    for (size_t j = 0; j < count_of(row); j++) {
        for (size_t i = 0; i < j; i++) {
            if (!are_alike(row, i, j)) continue;
            apart(row, at, false);
            memset(at[j], UNTOUCHED, bytes_of(row, j));
            at[j] = at[i];
            const CvlStatus status = call_at(row, at);
            if (status.number != CVL_DONE) report(row, "two inputs that are one", "it is not done", status);
        }
    }
}

/* ---- in place */

/* The call with these of its inputs, by a bit each, in the place of its room, and the same call apart. */
static void compare_in_place(const Row *row, unsigned inputs, bool any) {
    unsigned char *at[MOST_OPERANDS];
    const size_t room = operand(row, ROLE_ROOM), bytes = bytes_of(row, room);
    size_t first = 0;
    while ((inputs >> first & 1) == 0) first++;
    apart(row, at, any);
    for (size_t k = first + 1; k < room; k++) {
        if (inputs >> k & 1) memcpy(at[k], at[first], bytes);
    }
    remember(before);
    const CvlStatus apart_status = call_at(row, at);
    remember(wanted);
    memcpy(arena, before, (MOST_OPERANDS + 1) * slot);
    memcpy(at[room], at[first], bytes);
    if (apart_status.number != CVL_DONE) memcpy(wanted + (at[room] - arena), at[room], bytes);
    for (size_t k = 0; k < room; k++) {
        if (inputs >> k & 1) at[k] = at[room];
    }
    const CvlStatus status = call_at(row, at);
    if (status.number != apart_status.number || status.place != apart_status.place)
        report(row, "in place", "another status than apart", status);
    if (!is_as(wanted)) report(row, "in place", "another result than apart", status);
}

/* The call with several inputs in the place of its room, of which only one may be it, is refused with nothing written. */
static void refuse_in_place(const Row *row, unsigned inputs) {
    unsigned char *at[MOST_OPERANDS];
    const size_t room = operand(row, ROLE_ROOM);
    if (bytes_of(row, room) == 0) return;
    apart(row, at, true);
    for (size_t k = 0; k < room; k++) {
        if (inputs >> k & 1) at[k] = at[room];
    }
    remember(before);
    const CvlStatus status = call_at(row, at);
    if (status.number != CVL_OVERLAP || status.place != -1)
        report(row, "several inputs in place", "the overlap is not told", status);
    if (!is_as(before)) report(row, "several inputs in place", "something was written", status);
}

static void in_place(const Row *row) {
    static const size_t sizes[] = {0, 1, 2, 3, 4, 5, 7, 8, 9, 15, 16, 17, 31, 33, 63, 64, 65, 100, 1000, 4096, 4097, LONGEST};
    const size_t room = operand(row, ROLE_ROOM);
    slot = LONG_SLOT;
    for (size_t s = 0; s < sizeof sizes / sizeof *sizes && row->in_place != NONE; s++) {
        set_size(sizes[s]);
        for (unsigned inputs = 1; inputs < 1u << room; inputs++) {
            const bool several = (inputs & (inputs - 1)) != 0, one_alone = (row->in_place & ONE_ALONE) != 0;
            bool may = true;
            for (size_t k = 0; k < room; k++) may = may && ((inputs >> k & 1) == 0 || may_be_in_place(row, k, room));
            if (may && several && one_alone) refuse_in_place(row, inputs);
            for (int round = 0; may && !(several && one_alone) && round < 4; round++) compare_in_place(row, inputs, round > 0);
        }
    }
}

/* ---- booleans that are neither 0 nor 1 */

enum { WHOLE, ONE, EACH_TRUE, ANY, WAYS };

/* What a way of writing booleans puts at place k of an array of them, with this byte. */
static unsigned char odd_byte(int way, unsigned char byte, size_t k) {
    switch (way) {
    case WHOLE: return byte;
    case ONE: return k == n / 2 ? byte : flag_at(k);
    case EACH_TRUE: return flag_at(k) ? byte : 0;
    default: return any_byte();
    }
}

/* The call on booleans of these bytes tells and writes what it does on 1 for each byte that isn't 0. */
static void compare_bytes(const Row *row, int way, unsigned char byte) {
    static unsigned char odd[MOST_OPERANDS][LONG_SLOT];
    unsigned char *at[MOST_OPERANDS];
    apart(row, at, false);
    for (size_t j = 0; j < count_of(row); j++) {
        if (!is_read(row, j, KIND_FLAGS)) continue;
        for (size_t k = 0; k < bytes_of(row, j); k++) {
            odd[j][k] = odd_byte(way, byte, k);
            at[j][k] = odd[j][k] != 0;
        }
    }
    const CvlStatus plain = call_at(row, at);
    remember(wanted);
    apart(row, at, false);
    for (size_t j = 0; j < count_of(row); j++) {
        if (!is_read(row, j, KIND_FLAGS)) continue;
        memcpy(at[j], odd[j], bytes_of(row, j));
        memcpy(wanted + (at[j] - arena), odd[j], bytes_of(row, j));
    }
    const CvlStatus status = call_at(row, at);
    if (status.number != plain.number || status.place != plain.place)
        report(row, "bytes", "another status than on 0 and 1", status);
    if (!is_as(wanted)) report(row, "bytes", "another result than on 0 and 1", status);
}

static void odd_booleans(const Row *row) {
    static const size_t sizes[] = {1, 3, FEW, 17, 100};
    if (!has(row, ROLE_READS, KIND_FLAGS)) return;
    slot = SHORT_SLOT;
    for (size_t s = 0; s < sizeof sizes / sizeof *sizes; s++) {
        set_size(sizes[s]);
        for (int byte = 0; byte < 256; byte += in_parts(row) ? 51 : 1) {
            for (int way = 0; way < WAYS; way++) compare_bytes(row, way, (unsigned char)byte);
        }
    }
}

/* ---- no elements */

/* Each array without elements may be null, and all at once; and it overlaps nothing, wherever it is. */
static void nulls(const Row *row) {
    unsigned char *at[MOST_OPERANDS], *empty_at[MOST_OPERANDS];
    const size_t all = count_of(row), over_the_last = all + 1;
    slot = SHORT_SLOT;
    set_size(0);
    apart(row, at, false);
    const CvlStatus plain = call_at(row, at);
    remember(wanted);
    for (size_t which = 0; which <= over_the_last; which++) {
        apart(row, at, false);
        for (size_t k = 0; k < all; k++) {
            const bool moves = bytes_of(row, k) == 0 && (which == k || which >= all);
            empty_at[k] = !moves ? at[k] : which == over_the_last ? at[all - 1] : NULL;
        }
        const CvlStatus status = call_at(row, empty_at);
        if (status.number != plain.number || status.place != plain.place) report(row, "no elements", "another status", status);
        if (!is_as(wanted)) report(row, "no elements", "another result", status);
    }
}

/* ---- pages that must not be touched */

static unsigned char *pages[MOST_OPERANDS];

static void map_pages(void) {
    for (size_t k = 0; k < MOST_OPERANDS; k++) {
        pages[k] = mmap(NULL, 3 * PAGE, PROT_NONE, MAP_PRIVATE | MAP_ANONYMOUS, -1, 0);
        if (pages[k] == MAP_FAILED || mprotect(pages[k] + PAGE, PAGE, PROT_READ | PROT_WRITE) != 0) abort();
    }
}

/* The call where each array ends or begins at such a page, and the same call elsewhere. */
static void guard(const Row *row, bool at_end) {
    unsigned char *at[MOST_OPERANDS], *guarded[MOST_OPERANDS];
    apart(row, at, false);
    for (size_t k = 0; k < count_of(row); k++) {
        const size_t bytes = bytes_of(row, k);
        guarded[k] = pages[k] + PAGE + (at_end ? PAGE - bytes : 0);
        memcpy(guarded[k], at[k], bytes);
    }
    const CvlStatus plain = call_at(row, at), status = call_at(row, guarded);
    if (status.number != plain.number || status.place != plain.place) report(row, "guarded", "another status", status);
    for (size_t k = 0; k < count_of(row); k++) {
        if (memcmp(guarded[k], at[k], bytes_of(row, k)) != 0) report(row, "guarded", "another result", status);
    }
}

static void guards(const Row *row) {
    static const size_t sizes[] = {1, 3, FEW, 8, 17, 64, 100, 1001};
    slot = LONG_SLOT;
    for (size_t s = 0; s < sizeof sizes / sizeof *sizes; s++) {
        set_size(sizes[s]);
        guard(row, true);
        guard(row, false);
    }
}

/* ---- descriptors */

/* There is no descriptor before one is made, after one was let go and after one could not be made. */
static void descriptors(void) {
    static const int32_t lengths[] = {2, 0, 3}, below[] = {2, -1};
    const CvlLengths of_three = {lengths, 3}, of_below = {below, 2};
    const Row row = {.name = "a descriptor"};
    CvlSegments made = CVL_NO_SEGMENTS;
    size_t total = 0;
    if (cvl_segments_total(&made, &total).number != CVL_NO_DESCRIPTOR)
        report(&row, "before it is made", "there is one", cvl_segments_free(&made));
    if (cvl_segments_new(of_three, &made).number != CVL_DONE) report(&row, "made", "it is not done", cvl_segments_free(&made));
    if (cvl_segments_total(&made, &total).number != CVL_DONE || total != 5)
        report(&row, "made", "another total", cvl_segments_free(&made));
    if (cvl_segments_new(of_below, &made).number != CVL_NEGATIVE_LENGTH)
        report(&row, "not made", "no fault", cvl_segments_free(&made));
    if (cvl_segments_total(&made, &total).number != CVL_NO_DESCRIPTOR)
        report(&row, "not made", "there is one", cvl_segments_free(&made));
    if (cvl_segments_new(of_three, &made).number != CVL_DONE)
        report(&row, "made again", "it is not done", cvl_segments_free(&made));
    if (cvl_segments_free(&made).number != CVL_DONE) report(&row, "let go", "it is not done", cvl_segments_free(&made));
    if (cvl_segments_free(&made).number != CVL_DONE) report(&row, "let go twice", "it is not done", cvl_segments_free(&made));
    if (cvl_segments_total(&made, &total).number != CVL_NO_DESCRIPTOR)
        report(&row, "let go", "there is one", cvl_segments_free(&made));
}

int main(void) {
    setvbuf(stdout, NULL, _IONBF, 0);
    map_pages();
    make_memory(0, SEGMENTS);
    pool = cvl_pool_alone(3);
    for (size_t k = 0; k < ROWS; k++) {
        overlap_each(&rows[k]);
        shared_inputs(&rows[k]);
        in_place(&rows[k]);
        odd_booleans(&rows[k]);
        nulls(&rows[k]);
        guards(&rows[k]);
    }
    descriptors();
    printf("%d functions, %ld calls, %ld not as promised\n", (int)ROWS, calls, wrong);
    return wrong == 0 ? EXIT_SUCCESS : EXIT_FAILURE;
}
