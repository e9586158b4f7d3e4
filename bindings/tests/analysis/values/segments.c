/* segments.c: calls in parts on segments: steps.c and what it takes of cut.c. */
#include "drivers.h"

enum { SEGMENTS = 3 };

ARRAYS(int32_t, per_segment);
ARRAYS(int32_t, segment_room);
ARRAYS(bool, per_segment_flags);
ARRAYS(bool, segment_flag_room);

static int32_t length[SEGMENTS], other_length[2] = {1, 1};
static CvlLengths cut = {length, 0};
static const CvlLengths other_cut = {other_length, 2};

static void scan_ints(size_t n) { (void)cvl_seg_int_scan_on(&pool, CVL_MAX, ints[n], n, cut, room[n], n); }
static void scan_bools(size_t n) { (void)cvl_seg_bool_scan_on(&pool, CVL_AND, bools[n], n, cut, bool_room[n], n); }
static void checked_scan(size_t n) { (void)cvl_seg_checked_scan_on(&pool, ints[n], n, cut, room[n], n); }
static void reduce_ints(size_t n) {
    (void)cvl_seg_int_reduce_on(&pool, CVL_ADD, ints[n], n, cut, segment_room[cut.segments], cut.segments);
}
static void reduce_bools(size_t n) {
    (void)cvl_seg_bool_reduce_on(&pool, CVL_IOR, bools[n], n, cut, segment_flag_room[cut.segments], cut.segments);
}
static void checked_reduce(size_t n) {
    (void)cvl_seg_checked_reduce_on(&pool, ints[n], n, cut, segment_room[cut.segments], cut.segments);
}
static void count_flags(size_t n) { (void)cvl_seg_count_on(&pool, flags[n], n, cut, segment_room[cut.segments], cut.segments); }
static void run_lengths(size_t n) { (void)cvl_seg_run_lengths_int_on(&pool, ints[n], n, cut, room[n], n, &count); }
static void run_starts(size_t n) { (void)cvl_seg_run_starts_bool_on(&pool, bools[n], n, cut, room[n], n, &count); }
static void run_counts(size_t n) {
    (void)cvl_seg_run_counts_int_on(&pool, ints[n], n, cut, segment_room[cut.segments], cut.segments);
}
static void run_counts_of_bools(size_t n) {
    (void)cvl_seg_run_counts_bool_on(&pool, bools[n], n, cut, segment_room[cut.segments], cut.segments);
}
static void copies(size_t n) { (void)cvl_seg_distribute_int_on(&pool, per_segment[cut.segments], cut.segments, cut, room[n], n); }
static void copies_of_bools(size_t n) {
    (void)cvl_seg_distribute_bool_on(&pool, per_segment_flags[cut.segments], cut.segments, cut, bool_room[n], n);
}
static void numbers(size_t n) {
    (void)cvl_seg_index_on(
        &pool, per_segment[cut.segments], cut.segments, per_segment[cut.segments], cut.segments, cut, room[n], n);
}
static void extract(size_t n) {
    (void)cvl_seg_extract_int_on(
        &pool, ints[n], n, per_segment[cut.segments], cut.segments, cut, segment_room[cut.segments], cut.segments);
}
static void replace_bools(size_t n) {
    (void)cvl_seg_replace_bool_on(
        &pool, bools[n], n, per_segment[cut.segments], cut.segments, per_segment_flags[cut.segments], cut.segments, cut,
        bool_room[n], n);
}
static void pack(size_t n) { (void)cvl_seg_pack_int_on(&pool, ints[n], n, flags[n], n, cut, room[n], n, &count); }
static void packed_lengths(size_t n) {
    (void)cvl_seg_packed_lengths_on(&pool, flags[n], n, cut, segment_room[cut.segments], cut.segments);
}
static void total(size_t n) {
    size_t found;
    (void)n, (void)cvl_make_descriptor_on(&pool, cut, &found);
}

static void select_permute(size_t n) {
    size_t m = 0;
    for (size_t k = 0; k < n; k++) m += flags[n][k] != 0;
    (void)cvl_seg_select_permute_int_on(&pool, ints[n], n, others[n], n, flags[n], n, cut, room[m], m);
}

/* The second vector has two segments of one element. */
static void back_permute(size_t n) {
    if (cut.segments == 2) (void)cvl_seg_back_permute_int_on(&pool, ints[n], n, others[2], 2, cut, other_cut, room[2], 2);
}

static void default_permute(size_t n) {
    if (cut.segments == 2)
        (void)cvl_seg_default_permute_bool_on(&pool, bools[n], n, others[n], n, flags[2], 2, cut, other_cut, bool_room[2], 2);
}

/* The room has two segments of one element, too, and holds what stands before: 0 and 1, or a byte that is neither, and then it is copied. */
static bool clean_room;

static void combine(size_t n) {
    fill_flags(bool_room, 5, clean_room);
    if (cut.segments == 2)
        (void)cvl_seg_combine_permute_bool_on(&pool, CVL_XOR, bools[n], n, others[n], n, cut, other_cut, bool_room[2], 2);
}

/* Each way to cut n elements into so many segments: what is left goes to the last one. */
static void each_cut_of(Call *call, size_t n, size_t segments, int32_t more) {
    cut.segments = segments;
    for (size_t first = 0; first <= (segments > 1 ? n : 0); first++) {
        for (size_t second = 0; second <= (segments > 2 ? n - first : 0); second++) {
            length[0] = (int32_t)first, length[1] = (int32_t)second;
            length[segments - 1] = (int32_t)(n - first - (segments > 2 ? second : 0)) + more;
            for (size_t parts = 2; parts <= PARTS; parts++) make(call, n, parts, -1);
        }
    }
}

/* Each way to cut, lengths that are none, and then refusals on one that goes through a part's end. */
static void each_cut(Call *call, int requests, size_t steps) {
    for (size_t segments = 1; segments <= SEGMENTS; segments++) each_cut_of(call, MOST - 1, segments, 0);
    cut.segments = 2, length[0] = -1, length[1] = MOST;
    make(call, MOST, 2, -1);
    length[0] = 1, length[1] = MOST;
    make(call, MOST, 2, -1);
    length[0] = 1, length[1] = MOST - 1;
    for (int k = 0; k < requests; k++) make(call, MOST, 2, k);
    for (left_out = 0; left_out < steps; left_out++) {
        pool.parts = 2, pool.run = run_with_gap, pool.state = NULL;
        step = 0, asked = 0;
        call(MOST);
    }
}

static void begin(unsigned pattern, bool clean) {
    fill(pattern, clean);
    fill_ints(per_segment);
    fill_flags(per_segment_flags, pattern, clean);
}

void segment_scans(void) {
    begin(5, 1);
    each_cut(scan_ints, 12, 4);
    each_cut(checked_scan, 14, 5);
    each_cut(scan_bools, 12, 4);
    begin(6, 0);
    each_cut(scan_bools, 12, 5);
}

void segment_reduces(void) {
    begin(6, 0);
    each_cut(reduce_ints, 10, 3);
    each_cut(reduce_bools, 10, 3);
    each_cut(checked_reduce, 12, 4);
    each_cut(count_flags, 10, 3);
    each_cut(total, 4, 2);
}

void segment_copies(void) {
    begin(6, 0);
    each_cut(copies, 10, 4);
    each_cut(copies_of_bools, 10, 5);
    each_cut(numbers, 10, 4);
}

void between_segments(void) {
    begin(6, 0);
    each_cut(extract, 8, 4);
    each_cut(replace_bools, 9, 5);
    each_cut(pack, 9, 5);
    each_cut(packed_lengths, 8, 4);
    each_cut(select_permute, 10, 5);
    each_cut(back_permute, 10, 5);
    each_cut(default_permute, 10, 5);
    begin(5, 1);
    each_cut(select_permute, 0, 0);
}

void combines_of_segments(void) {
    begin(5, 1);
    clean_room = 1;
    each_cut(combine, 6, 3);
    clean_room = 0;
    each_cut(combine, 4, 0);
}

void runs_of_segments(void) {
    begin(6, 0);
    fill_ints(room);
    each_cut(run_starts, 14, 5);
    each_cut(run_counts_of_bools, 14, 3);
    for (size_t each = 1; each <= MOST; each++) {
        fill_runs(ints, each);
        each_cut(run_lengths, 12, 5);
        each_cut(run_counts, 12, 3);
    }
}
