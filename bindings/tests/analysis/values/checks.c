/* checks.c: calls that are not in order, descriptors, and copies of flags, by the thread that calls: checks.c, driver.c and segments.c. */
#include "drivers.h"

static int32_t length[2];
static const CvlLengths cut = {length, 2};
static char text[16];

/* Calls that are not in order: lengths of any numbers, counts that are none, and rooms whose length only a walk tells. */
static void seg_scan(size_t n) { (void)cvl_seg_int_scan(CVL_ADD, ints[n], n, cut, room[n], n); }
static void seg_checked_scan(size_t n) { (void)cvl_seg_checked_scan(ints[n], n, cut, room[n], n); }
static void seg_permute(size_t n) { (void)cvl_seg_permute_int(ints[n], n, others[n], n, cut, room[n], n); }
static void divide_into_less(size_t n) { (void)cvl_int2(CVL_DIV, ints[n], n, others[n], n, room[n > 1], n > 1); }
static void no_operator(size_t n) { (void)cvl_int2(CVL_NOT, ints[n], n, others[n], n, room[n], n); }
static void into_itself(size_t n) { (void)cvl_permute_int(ints[n], n, others[n], n, ints[n], n); }
static void no_count(size_t n) { (void)cvl_index(1, 2, (int64_t)n - 3, room[n], n); }
static void pack(size_t n) { (void)cvl_pack_int(ints[n], n, flags[n], n, room[n > 1], n > 1, &count); }
static void select_permute(size_t n) { (void)cvl_select_permute_int(ints[n], n, others[n], n, flags[n], n, room[n > 1], n > 1); }
static void write_ints(size_t n) { (void)cvl_write_ints(ints[n], n, text, sizeof text, &count); }
static void write_bools(size_t n) { (void)cvl_write_bools(bools[n], n, text, sizeof text, &count); }
static void seg_write_ints(size_t n) { (void)cvl_seg_write_ints(ints[n], n, cut, text, sizeof text, &count); }
static void seg_write_bools(size_t n) { (void)cvl_seg_write_bools(bools[n], n, cut, text, sizeof text, &count); }
static void merge(size_t n) {
    (void)cvl_merge_by_flags_bool(flags[n], n, bools[n > 1], n > 1, bools[n > 0], n > 0, bool_room[n], n);
}
static void append(size_t n) { (void)cvl_append_segments_bool(bools[MOST], MOST, bools[MOST], MOST, cut, cut, bool_room[n], n); }

static void lengths_of_any(void) {
    fill(6, 1);
    fill_ints(room);
    length[0] = any_int(), length[1] = any_int();
    each_length(seg_scan, 2, 0);
    each_length(seg_checked_scan, 2, 0);
    each_length(seg_permute, 2, 0);
    each_length(divide_into_less, 2, 0);
    each_length(no_operator, 1, 0);
    each_length(into_itself, 1, 0);
    each_length(no_count, 1, 0);
}

static void rooms_of_any(void) {
    length[0] = 1, length[1] = MOST - 1;
    each_pattern(pack, 3, 0);
    each_pattern(select_permute, 3, 0);
    each_pattern(write_ints, 2, 0);
    each_pattern(write_bools, 2, 0);
    each_pattern(seg_write_ints, 2, 0);
    each_pattern(seg_write_bools, 2, 0);
    each_pattern(merge, 3, 0);
    each_pattern(append, 3, 0);
}

/* A call on flags that are copied by the thread that calls, with no memory for them too. */
static void scan_bools(size_t n) { (void)cvl_bool_scan(CVL_IOR, bools[n], n, bool_room[n], n); }

static void copies(void) {
    each_pattern(scan_bools, 4, 0);
    cvl_make_flags(flags[MOST], MOST);
    if (cvl_are_flags(flags[MOST], MOST)) reads_flags(flags[MOST], MOST);
}

/* The offsets and the numbers of a descriptor, into rooms of each length, and with each request refused. */
static void told_of(const CvlSegments *segments) {
    for (size_t n = 0; n <= MOST; n++) {
        for (refused = -1; refused < 4; refused++) {
            asked = 0;
            (void)cvl_segments_offsets(segments, room[n], n);
            asked = 0;
            (void)cvl_segments_numbers(segments, room[n], n);
        }
    }
    refused = -1;
}

/* Two segments, cut in each way; lengths that are none, or too many; rooms that are the lengths or the descriptor; and none made. */
void descriptors_told(void) {
    CvlSegments made = {length, 2, 1}, empty = CVL_NO_SEGMENTS;
    told_of(NULL);
    told_of(&empty);
    empty.some = 1;
    told_of(&empty);
    for (int32_t first = -1; first < MOST; first++) {
        length[0] = first, length[1] = MOST - 1 - first;
        told_of(&made);
    }
    length[0] = length[1] = INT32_MAX;
    told_of(&made);
    (void)cvl_segments_offsets(&made, length, 2);
    (void)cvl_segments_numbers(&made, length, 2);
    (void)cvl_segments_offsets(&made, (int32_t *)&made, 3);
    (void)cvl_segments_numbers(&made, (int32_t *)&made, 3);
}

static void descriptors(void) {
    CvlSegments segments = CVL_NO_SEGMENTS, made = {length, 2, 1};
    size_t total;
    (void)cvl_segments_total(&segments, &total);
    (void)cvl_segments_new(cut, NULL);
    for (int32_t first = -1; first < 2; first++) {
        length[0] = first, length[1] = Frama_C_interval(0, INT32_MAX);
        (void)cvl_segments_new(cut, &segments);
        (void)cvl_segments_total(&made, &total);
        (void)cvl_segments_free(&segments);
    }
    (void)cvl_segments_free(NULL);
    (void)cvl_version();
    (void)cvl_build();
}

/* Two rows of an element each, by a pool of one part: the export that makes their lengths gives any, which no part could be cut by here. */
static void product_on_a_pool(size_t n) {
    const int32_t offsets[3] = {0, 1, 2};
    (void)cvl_sparse_product_by_offsets_on(&pool, offsets, 3, others[2], 2, ints[2], 2, ints[n], n, room[2], 2);
}

/* Offsets of any numbers: as rows of a matrix, and as a descriptor. */
static void rows_by_offsets(void) {
    int32_t offsets[3] = {Frama_C_interval(-1, 1), any_int(), any_int()};
    CvlSegments made = CVL_NO_SEGMENTS;
    for (size_t n = 0; n <= 3; n++) {
        const size_t rows = n > 0 ? n - 1 : 0;
        for (refused = -1; refused < 1; refused++) {
            asked = 0;
            free(cvl_lengths_between(offsets, n));
        }
        refused = -1;
        if (n > 0) (void)cvl_segments_from_offsets(offsets, n, length, rows, &made);
        (void)cvl_sparse_product_by_offsets(offsets, n, others[2], 2, ints[2], 2, ints[1], 1, room[rows], rows);
    }
    for (int k = -1; k < 3; k++) make(product_on_a_pool, 2, 1, k);
}

void checks(void) {
    lengths_of_any();
    rooms_of_any();
    copies();
    descriptors();
    rows_by_offsets();
}
