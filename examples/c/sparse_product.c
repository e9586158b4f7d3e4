/*
 * A sparse matrix, kept in rows, times a vector: fetch the vector's element for each entry, multiply, and sum up each row.
 * `examples/c/run sparse_product` builds it over the library and runs it.
 */
#define CVL_SHORT_NAMES
#include "cvl.h"

#include <stdio.h>
#include <stdlib.h>

enum { ROWS = 3, COLUMNS = 3, ENTRIES = 4 };

static const int32_t row_lengths[ROWS] = {2, 0, 2}; /* the number of entries of each row */
static const CvlLengths rows = {row_lengths, ROWS};
static const int32_t columns[ENTRIES] = {0, 2, 1, 2}; /* the column of each entry, row after row */
static const int32_t entries[ENTRIES] = {2, 1, 3, 4}; /* its value */

/* The product, or the first fault, and then y is as it was. */
static CvlStatus sparse_product(const int32_t *x, int32_t *y) {
    int32_t fetched[ENTRIES], products[ENTRIES];
    CvlStatus status = bck_puz(x, COLUMNS, columns, fetched, ENTRIES);
    if (status.number == CVL_DONE) status = mul_wuz(entries, fetched, products, ENTRIES);
    if (status.number == CVL_DONE) status = add_rez(products, ENTRIES, rows, y);
    return status;
}

int main(void) {
    const int32_t x[COLUMNS] = {1, 2, 3};
    int32_t y[ROWS];
    CvlStatus status = sparse_product(x, y);
    if (status.number != CVL_DONE) {
        printf("fault %u at %lld\n", (unsigned)status.number, (long long)status.place);
        return EXIT_FAILURE;
    }
    printf("y =");
    for (int row = 0; row < ROWS; row++) printf(" %d", (int)y[row]);
    printf("\n");
    return EXIT_SUCCESS;
}
