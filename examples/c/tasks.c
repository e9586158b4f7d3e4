/*
 * The lines in C of docs/user/tasks.md, a task each, with their arrays.
 * `examples/c/run tasks` builds it over the library and runs it.
 */
#include "cvl.h"

#include <stdio.h>
#include <stdlib.h>

static const int32_t v[] = {3, 1, 4, 1, 5}, two[] = {2, 2, 2, 2, 2}, none[] = {-1, -1, -1, -1, -1}, places[] = {0, 1, 2, 3, 4};
static const int32_t keys[] = {2, 0, 2, 1, 2}, amounts[] = {10, 20, 30, 40, 50}, prices[] = {7, 8, 9};
static const int32_t lengths_of_rows[] = {2, 0, 3};
static const CvlLengths rows = {lengths_of_rows, 3};

/* Ends the program where a call is not done. */
static void must(CvlStatus status) {
    if (status.number == CVL_DONE) return;
    printf("fault %u at %lld\n", (unsigned)status.number, (long long)status.place);
    exit(EXIT_FAILURE);
}

static void print(const char *name, const int32_t *a, size_t n) {
    printf("%s =", name);
    for (size_t k = 0; k < n; k++) printf(" %d", (int)a[k]);
    printf("\n");
}

static void add_up_each_row(void) {
    int32_t sums[3];
    must(cvl_add_rez(v, 5, rows, sums));
    print("sums", sums, 3);
}

static void keep_a_running_total(void) {
    int32_t total[5];
    must(cvl_add_suz(v, total, 5));
    must(cvl_add_wuz(total, v, total, 5));
    print("total", total, 5);
}

static void count_by_key(void) {
    int32_t counts[4];
    must(cvl_counts(keys, 5, counts, 4));
    print("counts", counts, 4);
}

static void sum_by_key(void) {
    int32_t sums[4] = {0};
    must(cvl_combine_permute_int(CVL_ADD, amounts, 5, keys, 5, sums, 4)); /* sums begin as 0 */
    print("sums by key", sums, 4);
}

static void sort_or_order(void) {
    int32_t sorted[5], order[5], own[5], moved[5];
    must(cvl_cpy_wuz(v, own, 5));
    must(cvl_cpy_wuz(amounts, moved, 5));
    must(cvl_sort(v, 5, sorted, 5));
    must(cvl_order(v, 5, order, 5));
    must(cvl_sort_by_key_descending(own, 5, moved, 5));
    print("sorted", sorted, 5), print("order", order, 5), print("descending", own, 5), print("moved", moved, 5);
}

static void sort_by_two_columns(void) {
    int32_t by_v[5], sorted[5], lengths[5], seconds[5], within[5], order[5];
    size_t many;
    must(cvl_order(v, 5, by_v, 5));
    must(cvl_bck_puz(v, 5, by_v, sorted, 5));
    must(cvl_run_lengths_int(sorted, 5, lengths, 5, &many));
    const CvlLengths ties = {lengths, many};
    must(cvl_bck_puz(amounts, 5, by_v, seconds, 5));
    must(cvl_not_wuz(seconds, seconds, 5)); /* the greatest first */
    must(cvl_seg_order(seconds, 5, ties, within, 5));
    must(cvl_bck_pez(by_v, 5, within, ties, ties, order, 5));
    print("by two columns", order, 5);
}

static void find_the_greatest(void) {
    int32_t descending[5], order[5];
    must(cvl_not_wuz(v, descending, 5));
    must(cvl_order(descending, 5, order, 5)); /* order[0] to order[k - 1] */
    print("top", order, 2);
}

static void take_the_first_of_each_row(void) {
    int32_t starts[3], heads[3], first[5], many;
    must(cvl_add_suz(lengths_of_rows, starts, 3));
    must(cvl_min_wuz(lengths_of_rows, two, heads, 3)); /* two of each row, or fewer */
    must(cvl_add_ruz(heads, 3, &many));
    must(cvl_gather_segments_int(v, 5, starts, 3, (CvlLengths){heads, 3}, first, (size_t)many));
    print("first of each row", first, (size_t)many);
}

static void remove_duplicates(void) {
    int32_t sorted[5], first[5], unique[5];
    size_t many;
    must(cvl_sort(v, 5, sorted, 5));
    must(cvl_run_starts_int(sorted, 5, first, 5, &many));
    must(cvl_bck_puz(sorted, 5, first, unique, many));
    print("unique", unique, many);
}

static void join_two_tables(void) {
    const int32_t product[] = {2, 0, 2, 1};
    int32_t price[4];
    must(cvl_bck_puz(prices, 3, product, price, 4));
    print("price", price, 4);
}

static void filter(void) {
    int32_t kept[5];
    bool flags[5];
    size_t many;
    must(cvl_grt_wuz(v, two, flags, 5));
    must(cvl_pck_luz(v, flags, 5, kept, 5, &many));
    print("kept", kept, many);
}

static void find_runs(void) {
    const int32_t r[] = {4, 4, 9, 9, 9};
    int32_t begins[5], lengths[5], each[5];
    size_t many;
    must(cvl_run_starts_int(r, 5, begins, 5, &many));
    must(cvl_run_lengths_int(r, 5, lengths, 5, &many));
    must(cvl_bck_puz(r, 5, begins, each, many));
    print("each", each, many), print("lengths", lengths, many);
}

static void find_earlier_true(void) {
    const bool flags[] = {false, true, false, true, false};
    int32_t at[5], last[5];
    must(cvl_sel_wuz(flags, places, none, at, 5)); /* none is -1 everywhere */
    must(cvl_max_suz(at, last, 5));
    must(cvl_max_wuz(last, none, last, 5));
    print("last", last, 5);
}

static void transpose(void) {
    const int32_t matrix[] = {1, 2, 3, 4, 5, 6};
    int32_t turned[6];
    must(cvl_transpose_int(matrix, 6, 2, 3, turned, 6));
    print("turned", turned, 6);
}

static void multiply_a_sparse_matrix(void) {
    const int32_t columns[] = {0, 2, 0, 1, 2}, entries[] = {2, 1, 5, 3, 4}, x[] = {1, 2, 3};
    int32_t y[3];
    must(cvl_sparse_product(rows, columns, 5, entries, 5, x, 3, y, 3));
    print("y", y, 3);
}

static void scatter(void) {
    const int32_t index[] = {2, 0, 2};
    int32_t out[3];
    CvlStatus status = cvl_smp_puz(prices, index, out, 3); /* status.number 10: outside; 11: repeated; at status.place */
    printf("scatter: fault %u at %lld\n", (unsigned)status.number, (long long)status.place);
}

static void split_and_merge(void) {
    int32_t high[5], low[5], again[5];
    bool large[5], small[5];
    size_t many, others;
    must(cvl_grt_wuz(v, two, large, 5));
    must(cvl_pck_luz(v, large, 5, high, 5, &many));
    must(cvl_not_wub(large, small, 5));
    must(cvl_pck_luz(v, small, 5, low, 5, &others));
    must(cvl_merge_by_flags_int(large, 5, high, many, low, others, again, 5));
    print("high", high, many), print("low", low, others), print("again", again, 5);
}

static void find_words(void) {
    const uint8_t text[] = {'t', 'o', ' ', 'b', 'e', ' ', 'o', 'r'};
    int32_t letters[8], blanks[8], numbers[8], words[8];
    bool shows[8], hidden[8], begin[8];
    size_t many;
    must(cvl_dis_vuz(' ', 8, blanks));
    must(cvl_ind_luz(0, 1, 8, numbers));
    must(cvl_ints_from_bytes(text, 8, letters, 8));
    must(cvl_neq_wuz(letters, blanks, shows, 8));
    must(cvl_not_wub(shows, hidden, 8));
    must(cvl_and_wub(shows + 1, hidden, begin + 1, 7));
    begin[0] = shows[0];
    must(cvl_pck_luz(numbers, begin, 8, words, 8, &many));
    print("words", words, many);
}

int main(void) {
    add_up_each_row(), keep_a_running_total(), count_by_key(), sum_by_key(), sort_or_order(), sort_by_two_columns(),
        find_the_greatest();
    take_the_first_of_each_row(), remove_duplicates();
    join_two_tables(), filter(), find_runs(), find_earlier_true(), transpose(), multiply_a_sparse_matrix(), scatter(),
        split_and_merge();
    find_words();
    return EXIT_SUCCESS;
}
