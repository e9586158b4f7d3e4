/*
 * The product of two sparse matrices that are kept in rows. Each entry of the left one meets the row of the right one that its column
 * names: these rows are gathered one behind another and multiplied. Then each row of the product is put in the order of its columns,
 * and what stands in one column is added up.
 * Source: Gustavson, Two Fast Algorithms for Sparse Matrices.
 * `examples/c/run matrix_product` builds it over the library and runs it.
 */
#define CVL_SHORT_NAMES
#include "cvl.h"

#include <stdio.h>
#include <stdlib.h>

/* A matrix of n entries: how many each row has, and row after row the column and the value of each. */
typedef struct Matrix {
    int32_t *lengths, *columns, *values;
    size_t rows, n;
} Matrix;

/* Ends the program where a call is not done. */
static void must(CvlStatus status) {
    if (status.number != CVL_DONE) {
        printf("fault %u at %lld\n", (unsigned)status.number, (long long)status.place);
        exit(EXIT_FAILURE);
    }
}

static void *room(size_t n, size_t size) {
    void *found = calloc(n + 1, size);
    if (found == NULL) exit(EXIT_FAILURE);
    return found;
}

/* Multiplies each entry of a by the row of b that its column names. */
static Matrix multiplied(Matrix a, Matrix b) {
    int32_t *starts = room(b.rows + 2 * a.n, sizeof *starts), *from = starts + b.rows, *lengths = from + a.n;
    const CvlLengths rows = {a.lengths, a.rows}, met = {lengths, a.n};
    int64_t total;
    must(add_suz(b.lengths, starts, b.rows));
    must(bck_puz(starts, b.rows, a.columns, from, a.n));
    must(bck_puz(b.lengths, b.rows, a.columns, lengths, a.n));
    must(cvl_exact_sum(lengths, a.n, &total));
    const size_t n = (size_t)total;
    int32_t *made = room(a.rows + 3 * n, sizeof *made), *others = made + a.rows + 2 * n;
    const Matrix found = {made, made + a.rows, made + a.rows + n, a.rows, n};
    must(add_rez(lengths, a.n, rows, found.lengths));
    must(cvl_gather_segments_int(b.columns, b.n, from, a.n, met, found.columns, n));
    must(cvl_gather_segments_int(b.values, b.n, from, a.n, met, found.values, n));
    must(dis_vez(a.values, met, others, n));
    must(mul_wuz(found.values, others, found.values, n));
    free(starts);
    return found;
}

/* Puts each row in the order of its columns, and adds up what stands in one column. */
static Matrix added_up(Matrix a) {
    const CvlLengths rows = {a.lengths, a.rows};
    const size_t n = a.n;
    int32_t *order = room(6 * n, sizeof *order), *columns = order + n, *values = columns + n, *row = values + n,
            *places = row + n;
    int32_t *runs = places + n + 1, *made = room(a.rows + 2 * n, sizeof *made);
    bool *first = room(2 * n, sizeof *first), *other_row = first + n;
    Matrix found = {made, made + a.rows, made + a.rows + n, a.rows, 0};
    must(cvl_seg_order(a.columns, n, rows, order, n));
    must(bck_pez(a.columns, n, order, rows, rows, columns, n));
    must(bck_pez(a.values, n, order, rows, rows, values, n));
    must(ind_luz(0, 1, (int64_t)a.rows, found.lengths));
    must(dis_vez(found.lengths, rows, row, n));
    if (n > 0) first[0] = true;
    if (n > 1) {
        must(neq_wuz(columns + 1, columns, first + 1, n - 1));
        must(neq_wuz(row + 1, row, other_row + 1, n - 1));
        must(ior_wub(first, other_row, first, n));
    }
    must(cnt_leb(first, n, rows, found.lengths));
    must(pck_luz(columns, first, n, found.columns, n, &found.n));
    // a run of one column goes on up to the next one's first place
    must(ind_luz(0, 1, (int64_t)n, order));
    must(pck_luz(order, first, n, places, n, &found.n));
    places[found.n] = (int32_t)n;
    must(sub_wuz(places + 1, places, runs, found.n));
    must(add_rez(values, n, (CvlLengths){runs, found.n}, found.values));
    free(order), free(first);
    return found;
}

/* The product of a and b, of whose entries `lengths` is what the caller frees; its columns ascend in each row. Sums wrap. */
Matrix matrix_product(Matrix a, Matrix b) {
    const Matrix all = multiplied(a, b), found = added_up(all);
    free(all.lengths);
    return found;
}

static void print(const char *name, const int32_t *numbers, size_t n) {
    printf("%s =", name);
    for (size_t k = 0; k < n; k++) printf(" %d", (int)numbers[k]);
    printf("\n");
}

int main(void) {
    int32_t lengths[] = {2, 0, 2}, columns[] = {0, 2, 1, 2}, values[] = {2, 1, 3, 4};
    const Matrix a = {lengths, columns, values, 3, 4}, squared = matrix_product(a, a);
    print("entries of each row", squared.lengths, 3);
    print("their columns", squared.columns, squared.n);
    print("their values", squared.values, squared.n);
    free(squared.lengths);
    return EXIT_SUCCESS;
}
