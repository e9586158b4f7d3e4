/*
 * Duplicates removed from keys in no order: of equal keys the first stays, and what stays keeps its order. In the order of the keys
 * equal ones stand side by side, the earliest first, so a key that differs from the one before it stays. A permute brings the flags
 * back to where the keys are.
 * `examples/c/run distinct` builds it over the library and runs it.
 */
#define CVL_SHORT_NAMES
#include "cvl.h"

#include <stdio.h>
#include <stdlib.h>

/* Ends the program where a call is not done. */
static void must(CvlStatus status) {
    if (status.number != CVL_DONE) {
        printf("fault %u at %lld\n", (unsigned)status.number, (long long)status.place);
        exit(EXIT_FAILURE);
    }
}

/* The keys without duplicates, and how many they are; there is room for all. */
size_t distinct(const int32_t *keys, size_t n, int32_t *out) {
    int32_t *order = malloc((2 * n + 1) * sizeof *order), *sorted = order + n;
    bool *stays = malloc((2 * n + 1) * sizeof *stays), *first = stays + n;
    size_t some;
    if (order == NULL || stays == NULL) exit(EXIT_FAILURE);
    must(cvl_order(keys, n, order, n));
    must(bck_puz(keys, n, order, sorted, n));
    if (n > 0) first[0] = true;
    if (n > 1) must(neq_wuz(sorted + 1, sorted, first + 1, n - 1));
    must(smp_pub(first, order, stays, n));
    must(pck_luz(keys, stays, n, out, n, &some));
    free(order), free(stays);
    return some;
}

int main(void) {
    const int32_t keys[] = {7, -2, 7, 7, 0, -2, 31};
    int32_t found[7];
    const size_t some = distinct(keys, 7, found);
    printf("distinct =");
    for (size_t k = 0; k < some; k++) printf(" %d", (int)found[k]);
    printf("\n");
    return EXIT_SUCCESS;
}
