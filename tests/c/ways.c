/*
 * Tries at which lengths calls change the way in which they are made. No result depends on the way, and no time is sure to show
 * it; but the number of instructions does, which grows alike from length to length until another way is taken. The lengths are
 * those of the crates of the kernels: segmented_permutes, sparse_products, range_walks, stable_sorts, transposes, segment_values
 * and combining_permutes. It prints what is not as it should be, and its status is then 1.
 */
#define _DEFAULT_SOURCE
#include "cvl.h"
#include "steps.h"

#include <stdbool.h>
#include <stdio.h>

enum { MOST = 4096, SEGMENTS = 64, LONGEST = 32, MANY_SEGMENTS = 512 };

static int32_t lengths[MANY_SEGMENTS], source_lengths[SEGMENTS], index[MOST], columns[MOST], values[MOST], elements[MOST];
static int32_t out[MOST];
static bool flags[MOST];
static int failed;

static void check(const char *what, bool is_so) {
    if (!is_so) {
        printf("ways: %s\n", what);
        failed = 1;
    }
}

/* ---- calls, each with the number of its instructions */

static _Atomic uint64_t steps_of_call;

/* The number of instructions of a call, which has no fault. */
#define STEPS(call) (begin_steps(&steps_of_call), steps_after(call))

static uint64_t steps_after(CvlStatus status) {
    end_steps();
    if (status.number != CVL_DONE) abort();
    return atomic_load(&steps_of_call);
}

/* A back permute of segments of so many elements, where the last segment of the source has one. */
static uint64_t back_permute(size_t length) {
    for (size_t s = 0; s < SEGMENTS; s++) lengths[s] = source_lengths[s] = (int32_t)length;
    source_lengths[SEGMENTS - 1] = 1;
    const CvlLengths of_source = {source_lengths, SEGMENTS}, of_index = {lengths, SEGMENTS};
    const size_t n = SEGMENTS * length;
    return STEPS(cvl_seg_back_permute_int(elements, n - length + 1, index, n, of_source, of_index, out, n));
}

static uint64_t product(size_t rows, size_t entries) {
    return STEPS(cvl_sparse_product((CvlLengths){lengths, rows}, columns, entries, values, entries, elements, MOST, out, rows));
}

/* Cuts so many entries into 64 rows. */
static void cut(size_t entries) {
    for (size_t r = 0; r < SEGMENTS; r++) lengths[r] = (int32_t)(entries / SEGMENTS);
    lengths[0] += (int32_t)(entries % SEGMENTS);
}

/* A product of 64 rows with so many entries in all. */
static uint64_t product_of_rows(size_t entries) {
    cut(entries);
    return product(SEGMENTS, entries);
}

/* The same with 64 more rows, of one entry each. */
static uint64_t product_of_two_groups(size_t entries) {
    cut(entries);
    for (size_t r = SEGMENTS; r < 2 * SEGMENTS; r++) lengths[r] = 1;
    return product(2 * SEGMENTS, entries + SEGMENTS);
}

/* The length of a segment of three elements, or, from a place on up to another, of two, three or four in turn. */
static int32_t length_at(size_t s, size_t from, size_t to) { return s >= from && s < to ? (int32_t)(s % 3) + 2 : 3; }

/* Segments of some three elements, whose lengths vary from one segment on up to another; how many elements they have. */
static size_t vary(size_t segments, size_t from, size_t to) {
    size_t n = 0;
    for (size_t s = 0; s < segments; s++) {
        lengths[s] = length_at(s, from, to);
        n += (size_t)lengths[s];
    }
    return n;
}

/* A scan and a reduce of many such segments. */
static uint64_t scan_by(uint32_t op, size_t from, size_t to) {
    const size_t n = vary(MANY_SEGMENTS, from, to);
    return STEPS(cvl_seg_int_scan(op, elements, n, (CvlLengths){lengths, MANY_SEGMENTS}, out, n));
}

/* Scans of sums and of maxima. */
static uint64_t sums(size_t from, size_t to) { return scan_by(CVL_ADD, from, to); }
static uint64_t maxima(size_t from, size_t to) { return scan_by(CVL_MAX, from, to); }

static uint64_t reduce(size_t from, size_t to) {
    const size_t n = vary(MANY_SEGMENTS, from, to);
    return STEPS(cvl_seg_int_reduce(CVL_ADD, elements, n, (CvlLengths){lengths, MANY_SEGMENTS}, out, MANY_SEGMENTS));
}

/* A scan of the maxima of so many segments, all of which vary. */
static uint64_t scan_of_segments(size_t segments) {
    const size_t n = vary(segments, 0, segments);
    return STEPS(cvl_seg_int_scan(CVL_MAX, elements, n, (CvlLengths){lengths, segments}, out, n));
}

/* A sort of so many keys that are in order, of which eight are equal each time. */
static uint64_t sort(size_t n) {
    for (size_t k = 0; k < n; k++) elements[k] = (int32_t)(k / 8);
    return STEPS(cvl_sort(elements, n, out, n));
}

/* A sort of so many keys that differ in all their bits. */
static uint64_t sort_of_any(size_t n) {
    for (size_t k = 0; k < n; k++) elements[k] = (int32_t)((uint32_t)k * 2654435761u);
    return STEPS(cvl_sort(elements, n, out, n));
}

/* A transpose of a matrix of eight times so many rows and of 40 columns. */
static uint64_t transpose(size_t rows) {
    return STEPS(cvl_transpose_int(elements, 8 * rows * 40, 8 * rows, 40, out, 8 * rows * 40));
}

/* A search among so many flags, none of which is true. */
static uint64_t first_true(size_t n) { return STEPS(cvl_first_true(flags, n, out)); }

/* Joins so many elements, none of which is sent to the range. */
static uint64_t join_none(size_t n) {
    size_t named;
    return STEPS(cvl_combine_permute_int_range(CVL_ADD, values, n, index, n, 100, out, 50, &named));
}

/* ---- where the way changes */

/* From `first` to `end` a call takes another way behind the length `last`, and behind no other: from one length to the next the
 * number of its instructions grows by about as much, but for this once. */
static void changes(const char *what, uint64_t (*call)(size_t length), size_t first, size_t last, size_t end) {
    int64_t least = INT64_MAX, greatest = INT64_MIN, other = 0;
    /* what is loaded at a first call is no part of the others */
    (void)call(end);
    uint64_t before = call(first);
    for (size_t length = first; length < end; length++) {
        const uint64_t next = call(length + 1);
        const int64_t growth = (int64_t)(next - before);
        before = next;
        if (length == last) {
            other = growth;
        } else {
            least = growth < least ? growth : least;
            greatest = growth > greatest ? growth : greatest;
        }
    }
    const int64_t apart = other > greatest ? other - greatest : least - other;
    if (apart <= 100 + (greatest - least)) {
        printf(
            "ways: %s: behind %zu the number of instructions grows by %lld, and else by %lld to %lld\n", what, last,
            (long long)other, (long long)least, (long long)greatest);
        failed = 1;
    }
}

/*
 * Segments are walked many at once, which takes more instructions, where the lengths of the first or of the last 128 vary; and one
 * by one where only others do, though more of them.
 */
static void walks(const char *what, uint64_t (*call)(size_t from, size_t to)) {
    (void)call(0, 0);
    const uint64_t first = call(0, 128), middle = call(128, MANY_SEGMENTS - 128), last = call(MANY_SEGMENTS - 128, MANY_SEGMENTS);
    if (first > middle + MANY_SEGMENTS && last > middle + MANY_SEGMENTS) return;
    printf(
        "ways: %s: %llu instructions where the first vary, %llu where the last do, and %llu where others do\n", what,
        (unsigned long long)first, (unsigned long long)last, (unsigned long long)middle);
    failed = 1;
}

/* A call, and the length behind which its way changes, among others. */
static const struct {
    const char *what;
    uint64_t (*call)(size_t length);
    size_t first, last, end;
} ways[] = {
    {"a segment of up to 32 indices is short", back_permute, 30, 32, 35},
    {"rows of 1,024 entries are added up together", product_of_rows, 1021, 1023, 1026},
    {"64 rows of up to 2,048 entries are a group", product_of_two_groups, 2046, 2048, 2050},
    {"eight segments whose lengths vary are scanned at once", scan_of_segments, 5, 7, 10},
    {"up to 48 keys are sorted by insertion", sort, 46, 48, 51},
    {"up to 1,535 keys are sorted by digits of 8 bits", sort, 1533, 1535, 1537},
    {"up to 32 rows are transposed together", transpose, 2, 4, 7},
    {"128 flags are tested together", first_true, 125, 127, 130},
};

int main(void) {
    (void)back_permute(0);
    check("a segment of one index has no loop", 2 * (back_permute(1) - back_permute(0)) < back_permute(3) - back_permute(2));
    for (size_t k = 0; k < sizeof ways / sizeof *ways; k++) {
        changes(ways[k].what, ways[k].call, ways[k].first, ways[k].last, ways[k].end);
    }
    /* all indices are 0, but for one that is no place of the shortest segment of the source */
    const uint64_t at_once = back_permute(LONGEST);
    index[0] = 1;
    check(
        "no segment is looked at alone where each index is a place of the shortest",
        at_once + SEGMENTS * 10 < back_permute(LONGEST));
    index[0] = 0;
    walks("segments that vary are scanned many at once, and others one by one", maxima);
    check(
        "a scan of segments that vary keeps one sum, and a maximum for each",
        maxima(0, MANY_SEGMENTS) - sums(0, MANY_SEGMENTS) > 2 * (maxima(0, 0) - sums(0, 0)));
    walks("segments that vary are reduced many at once, and others one by one", reduce);
    check("a digit that all keys share is passed over", 3 * sort(1600) < 2 * sort_of_any(1600));
    /* a block of 1,024 indices */
    const uint64_t block = join_none(1024), next_block = join_none(2048) - block;
    check("indices are counted before they are listed where none of the last block named a place", 2 * next_block < block);
    return failed;
}
