/*
 * flat.c: calls in parts on whole vectors, and permutes: steps.c and what it takes of cut.c.
 */
#include "drivers.h"

static int32_t number;
static bool flag;

static void add(size_t n) { (void)cvl_int2_on(&pool, CVL_ADD, ints[n], n, others[n], n, room[n], n); }
static void divide(size_t n) { (void)cvl_int2_on(&pool, CVL_DIV, ints[n], n, others[n], n, room[n], n); }
static void divide_in_place(size_t n) { (void)cvl_int2_on(&pool, CVL_DIV, room[n], n, others[n], n, room[n], n); }
static void select_bools(size_t n) { (void)cvl_select_bool_on(&pool, flags[n], n, bools[n], n, flags[n], n, bool_room[n], n); }
static void replace_int(size_t n) { (void)cvl_replace_int_on(&pool, ints[n], n, (int64_t)n - 1, any_int(), room[n], n); }
static void replace_bool(size_t n) { (void)cvl_replace_bool_on(&pool, bools[n], n, (int64_t)n - 1, any_true(), bool_room[n], n); }
static void reduce_ints(size_t n) { (void)cvl_int_reduce_on(&pool, CVL_MIN, ints[n], n, &number); }
static void reduce_bools(size_t n) { (void)cvl_bool_reduce_on(&pool, CVL_XOR, bools[n], n, &flag); }
static void scan_ints(size_t n) { (void)cvl_int_scan_on(&pool, CVL_ADD, ints[n], n, room[n], n); }
static void scan_in_place(size_t n) { (void)cvl_int_scan_on(&pool, CVL_ADD, room[n], n, room[n], n); }
static void scan_bools(size_t n) { (void)cvl_bool_scan_on(&pool, CVL_IOR, bools[n], n, bool_room[n], n); }
static void checked_reduce(size_t n) { (void)cvl_checked_reduce_on(&pool, ints[n], n, &number); }
static void checked_scan(size_t n) { (void)cvl_checked_scan_on(&pool, ints[n], n, room[n], n); }
static void count_flags(size_t n) { (void)cvl_count_on(&pool, flags[n], n, &number); }
static void pack_ints(size_t n) { (void)cvl_pack_int_on(&pool, ints[n], n, flags[n], n, room[n], n, &count); }
static void pack_bools(size_t n) { (void)cvl_pack_bool_on(&pool, bools[n], n, flags[n], n, bool_room[n], n, &count); }
static void pack_into_less(size_t n) { (void)cvl_pack_int_on(&pool, ints[n], n, flags[n], n, room[n > 0], n > 0, &count); }
static void permute_ints(size_t n) { (void)cvl_permute_int_on(&pool, ints[n], n, others[n], n, room[n], n); }
static void permute_bools(size_t n) { (void)cvl_permute_bool_on(&pool, bools[n], n, others[n], n, bool_room[n], n); }

static size_t trues_of(const bool *array, size_t n) {
    size_t found = 0;
    for (size_t k = 0; k < n; k++) found += array[k] != 0;
    return found;
}

static void select_permute_ints(size_t n) {
    const size_t m = trues_of(flags[n], n);
    (void)cvl_select_permute_int_on(&pool, ints[n], n, others[n], n, flags[n], n, room[m], m);
}

static void select_permute_bools(size_t n) {
    const size_t m = trues_of(flags[n], n);
    (void)cvl_select_permute_bool_on(&pool, bools[n], n, others[n], n, flags[n], n, bool_room[m], m);
}

static void default_permute_ints(size_t n) {
    (void)cvl_default_permute_int_on(&pool, ints[1], 1, others[1], 1, ints[n], n, room[n], n);
}
static void default_permute_bools(size_t n) {
    (void)cvl_default_permute_bool_on(&pool, flags[1], 1, others[1], 1, bools[n], n, bool_room[n], n);
}

static void first_senders(size_t n) { (void)cvl_first_senders_on(&pool, others[n], n, room[n], n); }
static void select_first_senders(size_t n) { (void)cvl_select_first_senders_on(&pool, others[n], n, flags[n], n, room[n], n); }

void places(void) {
    fill(5, 1);
    fill_ints(room);
    each_length(add, 2, 3);
    each_length(divide, 5, 4);
    each_length(divide_in_place, 5, 4);
    each_length(replace_int, 3, 2);
    each_pattern(select_bools, 3, 2);
    each_pattern(replace_bool, 4, 3);
}

void reduces(void) {
    each_length(reduce_ints, 6, 2);
    each_pattern(reduce_bools, 6, 2);
    each_length(scan_ints, 7, 3);
    each_length(scan_in_place, 7, 3);
    each_pattern(scan_bools, 8, 4);
    each_length(checked_reduce, 4, 2);
    each_length(checked_scan, 8, 4);
}

void packs(void) {
    each_pattern(count_flags, 3, 2);
    each_pattern(pack_ints, 7, 4);
    each_pattern(pack_bools, 7, 4);
    each_pattern(pack_into_less, 7, 3);
    fill(0, 1);
    each_length(pack_into_less, 0, 0);
}

void permutes(void) {
    fill(5, 1);
    each_length(permute_ints, 5, 3);
    each_length(default_permute_ints, 5, 3);
    each_pattern(permute_bools, 6, 4);
    each_pattern(select_permute_ints, 7, 4);
    each_pattern(select_permute_bools, 7, 4);
    each_pattern(default_permute_bools, 6, 4);
}

/* The room of a combining permute holds what stands before: 0 and 1, or bytes of which one is neither, and then it is copied. */
static bool clean_room;

static void combine_ints(size_t n) { (void)cvl_combine_permute_int_on(&pool, CVL_ADD, ints[n], n, others[n], n, room[n], n); }
static void combine_bools(size_t n) {
    fill_flags(bool_room, 5, clean_room);
    (void)cvl_combine_permute_bool_on(&pool, CVL_XOR, bools[n], n, others[n], n, bool_room[n], n);
}

/* One place, for which each part has a room of its own. */
static void combine_few_ints(size_t n) { (void)cvl_combine_permute_int_on(&pool, CVL_ADD, ints[n], n, others[n], n, room[1], 1); }
static void count_few(size_t n) { (void)cvl_counts_on(&pool, others[n], n, room[1], 1); }
static void combine_few_bools(size_t n) {
    fill_flags(bool_room, 5, 1);
    (void)cvl_combine_permute_bool_on(&pool, CVL_XOR, bools[n], n, others[n], n, bool_room[1], 1);
}

static void combine_checked(size_t n) { (void)cvl_combine_checked_int_on(&pool, ints[n], n, others[n], n, room[n], n); }
static void combine_checked_few(size_t n) { (void)cvl_combine_checked_int_on(&pool, ints[n], n, others[n], n, room[1], 1); }

static int64_t sums_room[6];

static void combine_sums(size_t n) {
    writes_sums(sums_room, n);
    (void)cvl_combine_exact_sums_on(&pool, ints[n], n, others[n], n, sums_room, n);
}
static void combine_sums_few(size_t n) {
    writes_sums(sums_room, 1);
    (void)cvl_combine_exact_sums_on(&pool, ints[n], n, others[n], n, sums_room, 1);
}

/*
 * Indices that fall, but for one. The room is cut where sorted ones say, so that their numbers have to be known: of any numbers each order
 * would be followed, and none would say that a part ends behind its beginning.
 */
static int32_t odd;

static void put_indices(size_t n) {
    for (size_t k = 0; k < n; k++) others[n][k] = (int32_t)(n - k) - 1;
    if (n > 0) others[n][n / 2] = odd;
}

static void combine_known_ints(size_t n) { put_indices(n), combine_ints(n); }
static void combine_known_bools(size_t n) { put_indices(n), combine_bools(n); }
static void combine_known_checked(size_t n) { put_indices(n), combine_checked(n); }
static void combine_known_sums(size_t n) { put_indices(n), combine_sums(n); }

void combines(void) {
    static const int32_t odds[] = {INT32_MIN, 0, 2, INT32_MAX};
    fill_ints(room);
    fill(5, 1);
    each_length(combine_few_ints, 1, 0), each_length(combine_few_bools, 1, 0), each_length(count_few, 1, 0);
    each_length(combine_checked_few, 1, 0), each_length(combine_sums_few, 1, 0);
    for (size_t k = 0; k < sizeof odds / sizeof *odds; k++) {
        odd = odds[k];
        fill(5, 1);
        each_length(combine_known_ints, 1, 0);
        each_length(combine_known_checked, 1, 0), each_length(combine_known_sums, 1, 0);
        clean_room = 1;
        each_length(combine_known_bools, 1, 0);
        clean_room = 0;
        each_pattern(combine_known_bools, 4, 0);
    }
}

/* Matrices of two rows or fewer, which have as many elements or not. */
static void turn_ints(size_t n) { (void)cvl_transpose_int_on(&pool, ints[n], n, n > 2 ? 2 : n, n > 2 ? n / 2 : 1, room[n], n); }
static void turn_bools(size_t n) {
    (void)cvl_transpose_bool_on(&pool, bools[n], n, n > 2 ? 2 : n, n > 2 ? n / 2 : 1, bool_room[n], n);
}
static void turn_range(size_t n) { (void)cvl_transpose_bool_range(bools[MOST], MOST, 2, MOST / 2, n - 1, bool_room[n], n); }

void turns(void) {
    fill(5, 1);
    each_length(turn_ints, 2, 1);
    each_pattern(turn_bools, 4, 3);
    each_pattern(turn_range, 2, 0);
}

void senders(void) {
    fill(5, 1);
    each_length(first_senders, 4, 2);
    each_pattern(select_first_senders, 7, 4);
}

static void sort(size_t n) { (void)cvl_sort_on(&pool, ints[n], n, room[n], n); }
static void sort_in_place(size_t n) { (void)cvl_sort_on(&pool, room[n], n, room[n], n); }
static void order(size_t n) { (void)cvl_order_on(&pool, ints[n], n, room[n], n); }
static void rank(size_t n) { (void)cvl_rank_on(&pool, ints[n], n, room[n], n); }

void sorts(void) {
    fill(5, 1);
    fill_ints(room);
    each_length(sort, 8, 4);
    each_length(sort_in_place, 1, 1);
    each_length(order, 8, 5);
    each_length(rank, 8, 6);
}

/* Numbers by a stride, and copies of one, whose parts begin with numbers of their own. */
static void index_room(size_t n) { (void)cvl_index_on(&pool, any_int(), any_int(), (int64_t)n, room[n], n); }
static void copy_number(size_t n) { (void)cvl_distribute_int_on(&pool, any_int(), (int64_t)n, room[n], n); }

void progressions(void) {
    each_length(index_room, 3, 2);
    each_length(copy_number, 3, 2);
}

static void run_lengths(size_t n) { (void)cvl_run_lengths_int_on(&pool, ints[n], n, room[n], n, &count); }
static void run_starts(size_t n) { (void)cvl_run_starts_int_on(&pool, ints[n], n, room[n], n, &count); }
static void lengths_into_one(size_t n) { (void)cvl_run_lengths_int_on(&pool, ints[n], n, room[n > 0], n > 0, &count); }
static void runs_of_bools(size_t n) { (void)cvl_run_lengths_bool_on(&pool, bools[n], n, room[n], n, &count); }

/* Each run within a part, over some, and over all. */
void runs(void) {
    fill_ints(room);
    for (size_t each = 1; each <= MOST; each++) {
        fill_runs(ints, each);
        each_length(run_lengths, 12, 3);
        each_length(run_starts, 14, 3);
        each_length(lengths_into_one, 12, 3);
    }
    each_pattern(runs_of_bools, 12, 3);
}
