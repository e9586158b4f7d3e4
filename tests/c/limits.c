/*
 * Calls on nested texts, lists, vectors and counts that are exactly as long as may be, and longer by one: whole and in parts, with
 * memory and without. The first are taken; the others are 13 TooLong, with all rooms as they were. Other texts are taken at both
 * lengths, and tell their last word if it is wrong. An element behind the last place of 32 bits is taken and replaced as any
 * other. It prints what differs, and its status is then 1. `tests/c/run limits` builds and runs it.
 */
#define _GNU_SOURCE
#include "cvl_parallel.h"
#include "far.h"

#include <stdio.h>
#include <stdlib.h>
#include <string.h>

enum { MOST = CVL_MOST_OF_TEXT, MANY = MOST + 1, PARTS = 3, FEW = 10, TEXT = 3 * MANY + 2 * FEW, UNTOUCHED = 77, SECONDS = 300 };

static char text[TEXT], text_room[TEXT];
static size_t text_length;
static int32_t zeros[MANY], lengths[MANY], int_room[MANY], length_room[MANY];
static bool flags[MANY];
static size_t count, lists;
static CvlPool pool;
static int failed, calls;

static void fail(const char *call, const char *why, long long got, long long right) {
    printf("%s: %s: %lld and not %lld\n", call, why, got, right);
    failed = 1;
}

/* ---- memory: the linker puts these in the place of malloc and realloc (--wrap) */

static bool refusing;
static long refused;

void *__real_malloc(size_t size);
void *__real_realloc(void *block, size_t size);
void *__wrap_malloc(size_t size);
void *__wrap_realloc(void *block, size_t size);

void *__wrap_malloc(size_t size) {
    refused += refusing;
    return refusing ? NULL : __real_malloc(size);
}

void *__wrap_realloc(void *block, size_t size) {
    refused += refusing;
    return refusing ? NULL : __real_realloc(block, size);
}

/* ---- rooms */

static void reset(void) {
    memset(text_room, UNTOUCHED, sizeof text_room);
    memset(int_room, UNTOUCHED, sizeof int_room);
    memset(length_room, UNTOUCHED, sizeof length_room);
    count = lists = UNTOUCHED;
}

static bool is_untouched(const void *room, size_t bytes) {
    const unsigned char *at = (const unsigned char *)room;
    return at[0] == UNTOUCHED && memcmp(at, at + 1, bytes - 1) == 0;
}

static bool are_untouched(void) {
    return is_untouched(text_room, sizeof text_room) && is_untouched(int_room, sizeof int_room) &&
        is_untouched(length_room, sizeof length_room) && count == UNTOUCHED && lists == UNTOUCHED;
}

/* The call has this status, without a place, and has left all rooms as they were but where it is done. */
static void tells(const char *call, CvlStatus status, uint32_t right, bool left) {
    calls++;
    if (status.number != right) fail(call, "another status", status.number, right);
    if (status.place != -1) fail(call, "a place", (long long)status.place, -1);
    if (status.number != CVL_DONE && !left) fail(call, "something was written", 1, 0);
}

/* ---- texts and lists */

static CvlLengths segments_of(size_t segments) {
    const CvlLengths found = {lengths, segments};
    return found;
}

/* Puts a text of two bytes, so many times, between two others. */
static void put_text(const char *before, const char *each, size_t times, const char *behind) {
    text_length = strlen(before);
    memcpy(text, before, text_length);
    for (size_t k = 0; k < times; k++, text_length += 2) memcpy(text + text_length, each, 2);
    memcpy(text + text_length, behind, strlen(behind));
    text_length += strlen(behind);
}

static void put_words(size_t words) { put_text("", "1 ", words, ""); }
static void put_lists(size_t empty) { put_text("[", "[]", empty, "]"); }
static void put_one_list(size_t words) { put_text("[[", "1 ", words, "]]"); }

/* Few elements, all of them in the first of so many segments. */
static void put_segments(size_t segments) {
    memset(lengths, 0, sizeof lengths);
    lengths[0] = segments > 0 ? FEW : 0;
}

/* Two segments of so many elements. */
static void put_halves(size_t elements) {
    lengths[0] = (int32_t)(elements / 2);
    lengths[1] = (int32_t)(elements - elements / 2);
}

static CvlStatus read_words(size_t words) { return cvl_read_ints(text, text_length, int_room, words, &count); }
static CvlStatus read_words_on(size_t words) { return cvl_read_ints_on(&pool, text, text_length, int_room, words, &count); }
static CvlStatus read_words_after(size_t words) { return cvl_read_ints_after(3, text, text_length, int_room, words, &count); }
static CvlStatus read_lists(size_t empty) {
    return cvl_seg_read_ints(text, text_length, int_room, 0, &count, length_room, empty, &lists);
}
static CvlStatus read_list(size_t words) {
    return cvl_seg_read_ints(text, text_length, int_room, words, &count, length_room, 1, &lists);
}
static CvlStatus write_ints(size_t elements) { return cvl_write_ints(zeros, elements, text_room, TEXT, &count); }
static CvlStatus write_ints_on(size_t elements) { return cvl_write_ints_on(&pool, zeros, elements, text_room, TEXT, &count); }
static CvlStatus write_bools(size_t elements) { return cvl_write_bools(flags, elements, text_room, TEXT, &count); }
static CvlStatus write_bools_on(size_t elements) { return cvl_write_bools_on(&pool, flags, elements, text_room, TEXT, &count); }
static CvlStatus write_segments(size_t segments) {
    return cvl_seg_write_ints(zeros, FEW, segments_of(segments), text_room, TEXT, &count);
}
static CvlStatus write_segments_on(size_t segments) {
    return cvl_seg_write_ints_on(&pool, zeros, FEW, segments_of(segments), text_room, TEXT, &count);
}
static CvlStatus write_halves(size_t elements) {
    return cvl_seg_write_bools(flags, elements, segments_of(2), text_room, TEXT, &count);
}
static CvlStatus write_halves_on(size_t elements) {
    return cvl_seg_write_bools_on(&pool, flags, elements, segments_of(2), text_room, TEXT, &count);
}

/* A call, what it is made of, and the count that it tells: so many for each, and some more. */
static const struct Row {
    const char *name;
    void (*put)(size_t most);
    CvlStatus (*call)(size_t most);
    size_t each, more;
    bool ends; /* whether a text may be no longer */
} rows[] = {
    {"cvl_read_ints", put_words, read_words, 1, 0, false},
    {"cvl_read_ints_on", put_words, read_words_on, 1, 0, false},
    {"cvl_read_ints_after", put_words, read_words_after, 1, 0, false},
    {"cvl_seg_read_ints, many lists", put_lists, read_lists, 0, 0, true},
    {"cvl_seg_read_ints, one list", put_one_list, read_list, 1, 0, true},
    {"cvl_write_ints", put_halves, write_ints, 2, 1, false},
    {"cvl_write_ints_on", put_halves, write_ints_on, 2, 1, false},
    {"cvl_write_bools", put_halves, write_bools, 2, 1, false},
    {"cvl_write_bools_on", put_halves, write_bools_on, 2, 1, false},
    {"cvl_seg_write_ints, many segments", put_segments, write_segments, 3, 2 * FEW, false},
    {"cvl_seg_write_ints_on, many segments", put_segments, write_segments_on, 3, 2 * FEW, false},
    {"cvl_seg_write_bools, two segments", put_halves, write_halves, 2, 5, false},
    {"cvl_seg_write_bools_on, two segments", put_halves, write_halves_on, 2, 5, false},
};

static void with_memory(const struct Row *row, size_t most, uint32_t right) {
    reset();
    const CvlStatus status = row->call(most);
    tells(row->name, status, right, right == CVL_DONE || are_untouched());
    const size_t wanted = row->each * most + row->more, wanted_lists = row->put == put_lists ? most : lists;
    if (right == CVL_DONE && count != wanted) fail(row->name, "another count", (long long)count, (long long)wanted);
    if (right == CVL_DONE && lists != wanted_lists) fail(row->name, "other lists", (long long)lists, (long long)wanted_lists);
}

/* Without memory the call says so, or it asks for none, and what is too long is told as ever. */
static void without_memory(const struct Row *row, size_t most, uint32_t right) {
    reset();
    refusing = true, refused = 0;
    const CvlStatus status = row->call(most);
    refusing = false;
    tells(row->name, status, right == CVL_DONE && refused > 0 ? (uint32_t)CVL_NO_RESOURCES : right, are_untouched());
}

static void texts(void) {
    for (size_t k = 0; k < sizeof rows / sizeof *rows; k++) {
        for (size_t most = MOST; most <= MANY; most++) {
            const uint32_t right = most == MOST || !rows[k].ends ? CVL_DONE : CVL_TOO_LONG;
            rows[k].put(most);
            with_memory(&rows[k], most, right);
            without_memory(&rows[k], most, right);
        }
    }
}

/* The last word of a text is wrong, behind as many as a nested text may have. */
static void last_words(void) {
    static CvlStatus (*const calls_of[])(size_t) = {read_words, read_words_on, read_words_after};
    for (size_t k = 0; k < sizeof calls_of / sizeof *calls_of; k++) {
        put_words(MANY);
        text[2 * MOST] = 'x';
        reset();
        const CvlStatus status = calls_of[k](MANY);
        const long long place = k == 2 ? MOST + 3 : MOST;
        calls++;
        if (status.number != CVL_BAD_INPUT || status.place != place)
            fail("the last word", "another place", (long long)status.place, place);
        if (!are_untouched()) fail("the last word", "something was written", 1, 0);
    }
}

/* ---- counts */

/* The families that take a count, whole and in parts. */
static CvlStatus counted(int which, int64_t times, size_t room) {
    switch (which) {
    case 0: return cvl_distribute_int(9, times, int_room, room);
    case 1: return cvl_distribute_bool(true, times, (bool *)(void *)int_room, room);
    case 2: return cvl_index(5, 3, times, int_room, room);
    case 3: return cvl_distribute_int_on(&pool, 9, times, int_room, room);
    case 4: return cvl_distribute_bool_on(&pool, true, times, (bool *)(void *)int_room, room);
    default: return cvl_index_on(&pool, 5, 3, times, int_room, room);
    }
}

/* A count, how long the room is said to be, and the status. */
static const struct Count {
    int64_t times;
    size_t room;
    uint32_t right;
} counts[] = {
    {3, 3, CVL_DONE},
    {2, 3, CVL_LENGTH_MISMATCH},
    {4, 3, CVL_LENGTH_MISMATCH},
    {-1, 3, CVL_NEGATIVE_LENGTH},
    {-1, SIZE_MAX, CVL_NEGATIVE_LENGTH},
    {INT64_MIN, 0, CVL_NEGATIVE_LENGTH},
    {(int64_t)3 - ((int64_t)1 << 32), 3, CVL_NEGATIVE_LENGTH},
    {CVL_MOST_ELEMENTS, 3, CVL_LENGTH_MISMATCH},
    {(int64_t)CVL_MOST_ELEMENTS + 1, 3, CVL_TOO_LONG},
    {(int64_t)CVL_MOST_ELEMENTS + 1, (size_t)CVL_MOST_ELEMENTS + 1, CVL_TOO_LONG},
    {((int64_t)1 << 32) + 3, 3, CVL_TOO_LONG},
    {((int64_t)1 << 32) + 3, ((size_t)1 << 32) + 3, CVL_TOO_LONG},
    {INT64_MAX, SIZE_MAX, CVL_TOO_LONG},
};

static void numbers(void) {
    for (size_t k = 0; k < sizeof counts / sizeof *counts; k++) {
        for (int which = 0; which < 6; which++) {
            char name[40];
            sprintf(name, "a count of %lld", (long long)counts[k].times);
            memset(int_room, UNTOUCHED, FEW * sizeof *int_room);
            const CvlStatus status = counted(which, counts[k].times, counts[k].room);
            tells(name, status, counts[k].right, is_untouched(int_room, FEW * sizeof *int_room));
        }
    }
}

/* ---- vectors as long as may be: their first elements have a fault, or the room is another's, so that no other is looked at */

static void vectors(void) {
    const size_t most = CVL_MOST_ELEMENTS, bytes = (most + 1) * sizeof(int32_t);
    int32_t *a = (int32_t *)far_zeros(most + 1, sizeof *a), *room = (int32_t *)far_zeros(most + 1, sizeof *room);
    a[0] = -1;
    for (size_t n = most; n <= most + 1; n++) {
        const CvlStatus status[] = {
            cvl_int2(CVL_DIV, a, n, a + 1, n, room, n),
            cvl_back_permute_int(a, n, a, n, room, n),
            cvl_first_senders(a, n, room, n),
            cvl_combine_permute_int(CVL_ADD, a, n, a, n, room, n),
            cvl_combine_permute_int(CVL_ADD, a, 1, a, 1, room, n),
            cvl_counts(a, n, room, n),
            cvl_counts(a, 1, room, n),
            cvl_order(a, n, room, 1),
            cvl_rank(a, n, room, 1),
            cvl_sort(a, n, room, 1),
            cvl_gather_segments_int(a, 1, a, n, (CvlLengths){room, n}, NULL, 0),
        };
        const uint32_t of_elements[] = {
            CVL_DIVIDE_BY_ZERO,     CVL_INDEX_OUT_OF_RANGE, CVL_INDEX_OUT_OF_RANGE, CVL_INDEX_OUT_OF_RANGE,
            CVL_INDEX_OUT_OF_RANGE, CVL_INDEX_OUT_OF_RANGE, CVL_INDEX_OUT_OF_RANGE, CVL_LENGTH_MISMATCH,
            CVL_LENGTH_MISMATCH,    CVL_LENGTH_MISMATCH,    CVL_INDEX_OUT_OF_RANGE,
        };
        for (size_t k = 0; k < sizeof status / sizeof *status; k++, calls++) {
            const uint32_t right = n == most ? of_elements[k] : CVL_TOO_LONG;
            if (status[k].number != right) fail("a long vector", "another status", status[k].number, right);
            if (status[k].place != (right == CVL_TOO_LONG || right == CVL_LENGTH_MISMATCH ? -1 : 0))
                fail("a long vector", "another place", (long long)status[k].place, 0);
        }
    }
    munmap(a, bytes);
    munmap(room, bytes);
}

/* ---- an element behind the last place of 32 bits ---- */

enum { PIECE = 1 << 24, REST = 100 };

/* The places of a long vector: the last one that ends a whole piece, one of the rest behind, and how many there are. */
static const size_t last_whole = ((size_t)1 << 31) - 1, far_place = ((size_t)1 << 31) + 5, far_count = ((size_t)1 << 31) + REST;

static void told_far(const char *call, CvlStatus status, uint32_t right) {
    calls++;
    if (status.number != right) fail(call, "another status", status.number, right);
    if (status.place != (right == CVL_INDEX_OUT_OF_RANGE ? 0 : -1)) fail(call, "another place", (long long)status.place, 0);
}

/* Indices that no element has, among them one that has it in 32 bits. */
static const int64_t no_places[] = {((int64_t)1 << 31) + REST, ((int64_t)1 << 32) + 5, -1, INT64_MIN, INT64_MAX};
enum { NO_PLACES = sizeof no_places / sizeof *no_places };

static void take_far(const int32_t *ints, const bool *bools) {
    int32_t number = UNTOUCHED;
    bool flag = false;
    told_far("cvl_ext_vuz", cvl_ext_vuz(ints, far_count, (int64_t)far_place, &number), CVL_DONE);
    if (number != 9) fail("cvl_ext_vuz", "another element", number, 9);
    told_far("cvl_ext_vub", cvl_ext_vub(bools, far_count, (int64_t)far_place, &flag), CVL_DONE);
    if (*(const unsigned char *)&flag != 1) fail("cvl_ext_vub", "another element", *(const unsigned char *)&flag, 1);
    for (size_t k = 0; k < NO_PLACES; k++) {
        told_far("cvl_ext_vuz", cvl_ext_vuz(ints, far_count, no_places[k], &number), CVL_INDEX_OUT_OF_RANGE);
        told_far("cvl_ext_vub", cvl_ext_vub(bools, far_count, no_places[k], &flag), CVL_INDEX_OUT_OF_RANGE);
    }
    if (number != 9) fail("cvl_ext_vuz", "another element after a fault", number, 9);
}

/* As many bytes, of which those of the rest are memory of their own. */
static unsigned char *far_bytes(void) {
    unsigned char *const found = far_pieces(last_whole + 1, PIECE);
    if (mprotect(found + last_whole + 1, PIECE, PROT_READ | PROT_WRITE) != 0) abort();
    return found;
}

static void replace_far(const bool *bools) {
    unsigned char *const room = far_bytes(), *const rest = room + last_whole + 1;
    bool *const out = (bool *)(void *)room;
    memset(room, UNTOUCHED, PIECE);
    memset(rest, UNTOUCHED, REST);
    for (size_t k = 0; k < NO_PLACES; k++) {
        told_far("cvl_rep_vub", cvl_rep_vub(bools, no_places[k], true, out, far_count), CVL_INDEX_OUT_OF_RANGE);
    }
    if (!is_untouched(room, PIECE) || !is_untouched(rest, REST)) fail("cvl_rep_vub", "something was written", 1, 0);
    told_far("cvl_rep_vub", cvl_rep_vub(bools, (int64_t)far_place, false, out, far_count), CVL_DONE);
    for (size_t place = last_whole - 9; place < far_count; place++) {
        const int right = place == last_whole || place == far_place + 1;
        if (room[place] != right) fail("cvl_rep_vub", "another element", room[place], right);
    }
    munmap(room, last_whole + 1 + PIECE);
}

/* Without memory nothing is written. */
static void replace_far_without_memory(const int32_t *ints) {
    int32_t *const out = (int32_t *)far_zeros(far_count, sizeof *out);
    refusing = true;
    const CvlStatus status = cvl_rep_vuz(ints, (int64_t)far_place, 7, out, far_count);
    refusing = false;
    told_far("cvl_rep_vuz", status, CVL_NO_RESOURCES);
    if (out[far_place] != 0 || out[last_whole] != 0) fail("cvl_rep_vuz", "something was written", 1, 0);
    munmap(out, far_count * sizeof *out);
}

static void far_places(void) {
    int32_t *const ints = (int32_t *)far_zeros(far_count, sizeof *ints);
    unsigned char *const bytes = far_bytes();
    const bool *const bools = (const bool *)(void *)bytes;
    ints[last_whole] = 4, ints[far_place] = 9;
    bytes[last_whole] = 200, bytes[far_place] = 3, bytes[far_place + 1] = 255;
    take_far(ints, bools);
    replace_far(bools);
    replace_far_without_memory(ints);
    munmap(ints, far_count * sizeof *ints);
    munmap(bytes, last_whole + 1 + PIECE);
}

int main(void) {
    alarm(SECONDS);
    setvbuf(stdout, NULL, _IONBF, 0);
    pool = cvl_pool_alone(PARTS);
    texts();
    last_words();
    numbers();
    vectors();
    far_places();
    printf("%d calls at the limits\n", calls);
    return failed ? EXIT_FAILURE : EXIT_SUCCESS;
}
