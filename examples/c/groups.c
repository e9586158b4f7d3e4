/*
 * Sums of groups: each value has a key, the number of its group, and goes to its group's sum. How many values a group has, the least
 * and the greatest come the same way. The values may come in batches, in any order.
 * Where a key may be any integer, or a group's values are needed side by side, as for a median, the values go in the order of their
 * keys: each group is a segment then.
 * `examples/c/run groups` builds it over the library and runs it.
 */
#include "cvl.h"

#include <stdio.h>
#include <stdlib.h>

/* What is known of each group. A group without values has the sum 0, INT32_MAX as its least value and INT32_MIN as its greatest. */
typedef struct Groups {
    size_t many;
    int32_t *counts, *sums, *least, *greatest, *more;
} Groups;

/* Groups without values, or none where there is no memory. */
static Groups groups_of(size_t many) {
    int32_t *const all = malloc((5 * many + 1) * sizeof *all);
    Groups g = {0, NULL, NULL, NULL, NULL, NULL};
    if (all == NULL) return g;
    g.many = many;
    g.counts = all, g.sums = all + many, g.least = all + 2 * many, g.greatest = all + 3 * many, g.more = all + 4 * many;
    for (size_t k = 0; k < many; k++) g.counts[k] = g.sums[k] = 0, g.least[k] = INT32_MAX, g.greatest[k] = INT32_MIN;
    return g;
}

/* Adds a batch of values to their groups. If a key is no group, the status has its place, and the groups stay as they were. */
CvlStatus add_up(const int32_t *keys, const int32_t *values, size_t n, Groups *g) {
    CvlStatus status = cvl_counts(keys, n, g->more, g->many);
    if (status.number == CVL_DONE) status = cvl_add_wuz(g->counts, g->more, g->counts, g->many);
    if (status.number == CVL_DONE) status = cvl_combine_permute_int(CVL_ADD, values, n, keys, n, g->sums, g->many);
    if (status.number == CVL_DONE) status = cvl_combine_permute_int(CVL_MIN, values, n, keys, n, g->least, g->many);
    if (status.number == CVL_DONE) status = cvl_combine_permute_int(CVL_MAX, values, n, keys, n, g->greatest, g->many);
    return status;
}

/* Groups whose keys may be any integers, in ascending order: the key and the count of each, its lower median, and its sum in 64 bits. */
typedef struct SortedGroups {
    size_t many;
    int32_t *keys, *counts, *medians;
    int64_t *sums;
} SortedGroups;

/* Ends the program where a call is not done. */
static void must(CvlStatus status) {
    if (status.number != CVL_DONE) {
        printf("fault %u at %lld\n", (unsigned)status.number, (long long)status.place);
        exit(EXIT_FAILURE);
    }
}

static void *room(size_t n, size_t size) {
    void *found = calloc(n + 1, size);
    if (found == NULL) exit(EXIT_FAILURE);
    return found;
}

/* Cuts keys in ascending order where they differ: the starts of the groups, and in `g` their keys and counts. */
static void cut_groups(const int32_t *keys, size_t n, int32_t *starts, SortedGroups *g) {
    bool *first = room(n, sizeof *first);
    if (n > 0) first[0] = true;
    if (n > 1) must(cvl_neq_wuz(keys + 1, keys, first + 1, n - 1));
    must(cvl_ind_luz(0, 1, (int64_t)n, g->counts));
    must(cvl_pck_luz(g->counts, first, n, starts, n, &g->many));
    must(cvl_pck_luz(keys, first, n, g->keys, n, &g->many));
    starts[g->many] = (int32_t)n;
    must(cvl_sub_wuz(starts + 1, starts, g->counts, g->many));
    free(first);
}

/* The groups of n values, in rooms for as many groups. */
void sort_groups(const int32_t *keys, const int32_t *values, size_t n, SortedGroups *g) {
    int32_t *order = room(4 * n + 1, sizeof *order), *sorted = order + n, *starts = sorted + n, *middles = starts + n + 1;
    must(cvl_order(keys, n, order, n));
    must(cvl_bck_puz(keys, n, order, sorted, n));
    cut_groups(sorted, n, starts, g);
    const CvlLengths groups = {g->counts, g->many};
    must(cvl_bck_puz(values, n, order, sorted, n));
    must(cvl_seg_exact_sums(sorted, n, groups, g->sums, g->many));
    // the lower median stands half of the way from the first to the last
    must(cvl_seg_sort(sorted, n, groups, sorted, n));
    must(cvl_add_wuz(starts, starts + 1, middles, g->many));
    must(cvl_dis_vuz(1, (int64_t)g->many, order));
    must(cvl_sub_wuz(middles, order, middles, g->many));
    must(cvl_rsh_wuz(middles, order, middles, g->many));
    must(cvl_bck_puz(sorted, n, middles, g->medians, g->many));
    free(order);
}

int main(void) {
    const int32_t keys[] = {2, 0, 2, 1}, values[] = {5, 6, 7, 8}, more_keys[] = {0, 2}, more_values[] = {-1, 4}, wrong[] = {3, 4};
    Groups g = groups_of(4);
    if (g.many == 0 || add_up(keys, values, 4, &g).number != CVL_DONE || add_up(more_keys, more_values, 2, &g).number != CVL_DONE)
        return EXIT_FAILURE;
    for (size_t k = 0; k < g.many; k++) {
        printf("group %zu: count %d", k, (int)g.counts[k]);
        if (g.counts[k] > 0) printf(", sum %d, least %d, greatest %d", (int)g.sums[k], (int)g.least[k], (int)g.greatest[k]);
        printf("\n");
    }
    const CvlStatus status = add_up(wrong, values, 2, &g);
    printf("keys 3 4: fault %u at %lld\n", (unsigned)status.number, (long long)status.place);
    free(g.counts);
    const int32_t years[] = {1999, -44, 1999, 1999}, amounts[] = {INT32_MAX, 3, 1, 5};
    int32_t rooms[12];
    int64_t sums[4];
    SortedGroups s = {0, rooms, rooms + 4, rooms + 8, sums};
    sort_groups(years, amounts, 4, &s);
    for (size_t k = 0; k < s.many; k++)
        printf(
            "key %d: count %d, sum %lld, median %d\n", (int)s.keys[k], (int)s.counts[k], (long long)s.sums[k], (int)s.medians[k]);
    return EXIT_SUCCESS;
}
