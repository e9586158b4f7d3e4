/*
 * The transpose of a sparse matrix that is kept in rows: each column becomes a row, with its entries from the first row of the
 * matrix on. The order of the entries by their columns says where each comes from, since entries of one column keep theirs.
 * `examples/c/run sparse_transpose` builds it over the library and runs it.
 */
#define CVL_SHORT_NAMES
#include "cvl.h"

#include <stdio.h>
#include <stdlib.h>

/* Ends the program where a call is not done. */
static void must(CvlStatus status) {
    if (status.number != CVL_DONE) {
        printf("fault %u at %lld\n", (unsigned)status.number, (long long)status.place);
        exit(EXIT_FAILURE);
    }
}

/* The transpose of a matrix of n entries in rows and so many columns: how many entries each column has, and column after column
 * the row and the value of each. A column outside of the matrix is fault 10 at its entry, and then the rooms are as they were. */
CvlStatus transpose(
    CvlLengths rows, const int32_t *columns, const int32_t *values, size_t n, size_t width, int32_t *lengths,
    int32_t *row_of_each, int32_t *transposed) {
    CvlSegments segments = CVL_NO_SEGMENTS;
    int32_t *numbers = malloc((2 * n + 1) * sizeof *numbers), *order = numbers + n;
    if (numbers == NULL) exit(EXIT_FAILURE);
    CvlStatus status = cvl_segments_new(rows, &segments);
    if (status.number == CVL_DONE) status = cvl_segments_numbers(&segments, numbers, n);
    if (status.number == CVL_DONE) status = cvl_counts(columns, n, lengths, width);
    if (status.number == CVL_DONE) {
        must(cvl_order(columns, n, order, n));
        must(bck_puz(numbers, n, order, row_of_each, n));
        must(bck_puz(values, n, order, transposed, n));
    }
    free(numbers);
    return status;
}

static void print(const char *name, const int32_t *numbers, size_t n) {
    printf("%s =", name);
    for (size_t k = 0; k < n; k++) printf(" %d", (int)numbers[k]);
    printf("\n");
}

int main(void) {
    const int32_t row_lengths[] = {2, 0, 2}, columns[] = {0, 2, 1, 2}, values[] = {2, 1, 3, 4};
    const CvlLengths rows = {row_lengths, 3};
    int32_t lengths[3], row_of_each[4], transposed[4];
    must(transpose(rows, columns, values, 4, 3, lengths, row_of_each, transposed));
    print("entries of each column", lengths, 3);
    print("their rows", row_of_each, 4);
    print("their values", transposed, 4);
    return EXIT_SUCCESS;
}
