/*
 * A join of two tables by a key: each two rows, one of either table, whose keys are equal. Keys that lie close together are numbers of
 * places already; to others one order of all keys gives numbers. In the order of their numbers the right rows are one run for each
 * number, and each left row takes the run of its own.
 * `examples/c/run join` builds it over the library and runs it.
 */
#define CVL_SHORT_NAMES
#include "cvl.h"

#include <stdio.h>
#include <stdlib.h>

/* Pairs of rows: the left and the right one of each. Whoever has them frees `left`. */
typedef struct Pairs {
    int32_t *left, *right;
    size_t n;
} Pairs;

/* Ends the program where a call is not done. */
static void must(CvlStatus status) {
    if (status.number != CVL_DONE) {
        printf("fault %u at %lld\n", (unsigned)status.number, (long long)status.place);
        exit(EXIT_FAILURE);
    }
}

static void *room(size_t n, size_t size) {
    void *found = calloc(n + 1, size);
    if (found == NULL) exit(EXIT_FAILURE);
    return found;
}

/* The order of the keys, and by it a number for each key, from 0 on in ascending order, and how many numbers there are. */
size_t number_keys(const int32_t *keys, size_t n, int32_t *order, int32_t *numbers) {
    int32_t *sorted = room(2 * n, sizeof *sorted), *steps = sorted + n;
    bool *differs = room(n, sizeof *differs);
    must(cvl_order(keys, n, order, n));
    must(bck_puz(keys, n, order, sorted, n));
    if (n > 1) must(neq_wuz(sorted + 1, sorted, differs + 1, n - 1));
    must(int_wub(differs, steps, n));
    must(add_suz(steps, sorted, n));
    must(add_wuz(sorted, steps, sorted, n));
    must(smp_puz(sorted, order, numbers, n));
    const size_t many = n == 0 ? 0 : (size_t)sorted[n - 1] + 1;
    free(sorted), free(differs);
    return many;
}

/* Those of an order that are n or more, less n: the order of what stands behind the first n. */
static void keep_behind(int32_t *order, size_t all, size_t n) {
    int32_t *limits = room(2 * all, sizeof *limits), *behind = limits + all;
    bool *flags = room(all, sizeof *flags);
    size_t some;
    must(dis_vuz((int32_t)n, (int64_t)all, limits));
    must(geq_wuz(order, limits, flags, all));
    must(pck_luz(order, flags, all, behind, all, &some));
    must(sub_wuz(behind, limits, order, some));
    free(limits), free(flags);
}

/* The pairs of rows whose keys are equal numbers below `many`, in the order of the left rows; `order` is that of the right ones. */
static Pairs join_numbers(const int32_t *left, size_t n, const int32_t *right, size_t m, size_t many, const int32_t *order) {
    int32_t *counts = room(2 * many + 3 * n, sizeof *counts), *starts = counts + many;
    int32_t *lengths = starts + many, *from = lengths + n, *rows = from + n;
    const CvlLengths runs = {lengths, n};
    int64_t total;
    must(cvl_counts(right, m, counts, many));
    must(add_suz(counts, starts, many));
    must(bck_puz(counts, many, left, lengths, n));
    must(bck_puz(starts, many, left, from, n));
    must(cvl_exact_sum(lengths, n, &total));
    const size_t all = (size_t)total;
    int32_t *pairs = room(2 * all, sizeof *pairs);
    must(ind_luz(0, 1, (int64_t)n, rows));
    must(dis_vez(rows, runs, pairs, all));
    must(cvl_gather_segments_int(order, m, from, n, runs, pairs + all, all));
    free(counts);
    return (Pairs){pairs, pairs + all, all};
}

/* All pairs of rows whose keys are equal, in the order of the left rows. */
Pairs join(const int32_t *left, size_t n, const int32_t *right, size_t m) {
    const size_t all = n + m;
    int32_t *keys = room(3 * all, sizeof *keys), *numbers = keys + all, *order = numbers + all, least, greatest;
    must(cpy_wuz(left, keys, n));
    must(cpy_wuz(right, keys + n, m));
    must(min_ruz(keys, all, &least));
    must(max_ruz(keys, all, &greatest));
    const int64_t span = (int64_t)greatest - least + 1;
    size_t many;
    if (all > 0 && span <= 4 * (int64_t)all) {
        many = (size_t)span;
        must(dis_vuz(least, (int64_t)all, order));
        must(sub_wuz(keys, order, numbers, all));
        must(cvl_order(numbers + n, m, order, m));
    } else {
        many = number_keys(keys, all, order, numbers);
        keep_behind(order, all, n);
    }
    const Pairs pairs = join_numbers(numbers, n, numbers + n, m, many, order);
    free(keys);
    return pairs;
}

int main(void) {
    const int32_t customers[] = {7000, 3, -9}, orders[] = {-9, 7000, -9, 1, 7000};
    const Pairs pairs = join(customers, 3, orders, 5);
    for (size_t k = 0; k < pairs.n; k++) printf("customer %d has order %d\n", (int)pairs.left[k], (int)pairs.right[k]);
    free(pairs.left);
    return EXIT_SUCCESS;
}
