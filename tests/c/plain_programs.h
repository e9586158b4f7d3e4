/* The work of the programs of the examples by plain loops, which `programs.c` holds them against and measures beside them. */
#ifndef PLAIN_PROGRAMS_H
#define PLAIN_PROGRAMS_H

#include <ctype.h>
#include <stdbool.h>
#include <stdint.h>
#include <stdlib.h>
#include <string.h>

/* What the programs give: see their files. */
typedef struct Pairs {
    int32_t *left, *right;
    size_t n;
} Pairs;

typedef struct Matrix {
    int32_t *lengths, *columns, *values;
    size_t rows, n;
} Matrix;

typedef struct Tokens {
    int32_t *starts, *lengths, *classes;
    size_t n;
} Tokens;

typedef struct SortedGroups {
    size_t many;
    int32_t *keys, *counts, *medians;
    int64_t *sums;
} SortedGroups;

typedef struct Groups {
    size_t many;
    int32_t *counts, *sums, *least, *greatest, *more;
} Groups;

static void *plain_room(size_t n, size_t size) {
    void *found = calloc(n + 2, size);
    if (found == NULL) abort();
    return found;
}

/* ---- sorts and duplicates ---- */

static int ascending(const void *a, const void *b) {
    const int32_t x = *(const int32_t *)a, y = *(const int32_t *)b;
    return (x > y) - (x < y);
}

static const int32_t *const *compared;
static size_t compared_width;

/* The order of two rows by their columns, and then by their numbers. */
static int ascending_rows(const void *a, const void *b) {
    const int32_t x = *(const int32_t *)a, y = *(const int32_t *)b;
    for (size_t k = 0; k < compared_width; k++) {
        const int order = ascending(&compared[k][x], &compared[k][y]);
        if (order != 0) return order;
    }
    return ascending(a, b);
}

static void sort_rows_plainly(const int32_t *const *columns, size_t width, size_t n, int32_t *rows) {
    compared = columns, compared_width = width;
    for (size_t k = 0; k < n; k++) rows[k] = (int32_t)k;
    if (n > 0) qsort(rows, n, sizeof *rows, ascending_rows);
}

/* The first of equal keys, by a table of places, of which the first free one from a key's hash on is the key's. */
static size_t distinct_plainly(const int32_t *keys, size_t n, int32_t *out) {
    size_t places = 2, some = 0;
    while (places < 2 * n) places *= 2;
    int32_t *table = plain_room(places, sizeof *table);
    memset(table, -1, places * sizeof *table);
    for (size_t k = 0; k < n; k++) {
        size_t place = (size_t)((uint32_t)keys[k] * 2654435769u) & (places - 1);
        while (table[place] >= 0 && out[table[place]] != keys[k]) place = (place + 1) & (places - 1);
        if (table[place] >= 0) continue;
        table[place] = (int32_t)some;
        out[some++] = keys[k];
    }
    free(table);
    return some;
}

/* ---- groups and joins ---- */

static void add_up_plainly(const int32_t *keys, const int32_t *values, size_t n, Groups *g) {
    for (size_t k = 0; k < n; k++) {
        const int32_t key = keys[k], value = values[k];
        g->counts[key]++;
        g->sums[key] = (int32_t)((uint32_t)g->sums[key] + (uint32_t)value);
        if (value < g->least[key]) g->least[key] = value;
        if (value > g->greatest[key]) g->greatest[key] = value;
    }
}

static void sort_groups_plainly(const int32_t *keys, const int32_t *values, size_t n, SortedGroups *g) {
    const int32_t *const columns[] = {keys, values};
    int32_t *rows = plain_room(n, sizeof *rows);
    sort_rows_plainly(columns, 2, n, rows);
    g->many = 0;
    for (size_t k = 0, end; k < n; k = end) {
        int64_t sum = 0;
        for (end = k; end < n && keys[rows[end]] == keys[rows[k]]; end++) sum += values[rows[end]];
        g->keys[g->many] = keys[rows[k]], g->counts[g->many] = (int32_t)(end - k), g->sums[g->many] = sum;
        g->medians[g->many++] = values[rows[k + (end - k - 1) / 2]];
    }
    free(rows);
}

/* By a hash table of the right rows, of which equal hashes are a list in the order of the rows. */
static Pairs join_plainly(const int32_t *left, size_t n, const int32_t *right, size_t m) {
    size_t places = 2, most = n + 1;
    while (places < 2 * m) places *= 2;
    int32_t *heads = plain_room(places, sizeof *heads), *next = plain_room(m, sizeof *next);
    Pairs found = {malloc(most * sizeof(int32_t)), malloc(most * sizeof(int32_t)), 0};
    memset(heads, -1, places * sizeof *heads);
    for (size_t k = m; k > 0; k--) {
        int32_t *head = &heads[((uint32_t)right[k - 1] * 2654435769u) & (places - 1)];
        next[k - 1] = *head, *head = (int32_t)(k - 1);
    }
    for (size_t k = 0; k < n; k++) {
        for (int32_t j = heads[((uint32_t)left[k] * 2654435769u) & (places - 1)]; j >= 0; j = next[j]) {
            if (right[j] != left[k]) continue;
            if (found.n == most) {
                most *= 2;
                found.left = realloc(found.left, most * sizeof(int32_t)),
                found.right = realloc(found.right, most * sizeof(int32_t));
            }
            if (found.left == NULL || found.right == NULL) abort();
            found.left[found.n] = (int32_t)k, found.right[found.n++] = j;
        }
    }
    free(heads), free(next);
    return found;
}

/* ---- sparse matrices ---- */

static void transpose_plainly(
    const int32_t *row_lengths, size_t rows, const int32_t *columns, const int32_t *values, size_t n, size_t width,
    int32_t *lengths, int32_t *row_of_each, int32_t *transposed) {
    size_t *next = plain_room(width, sizeof *next), k = 0;
    memset(lengths, 0, width * sizeof *lengths);
    for (k = 0; k < n; k++) lengths[columns[k]]++;
    for (size_t c = 0; c < width; c++) next[c + 1] = next[c] + (size_t)lengths[c];
    k = 0;
    for (size_t row = 0; row < rows; row++) {
        for (int32_t j = 0; j < row_lengths[row]; j++, k++) {
            const size_t to = next[columns[k]]++;
            row_of_each[to] = (int32_t)row;
            transposed[to] = values[k];
        }
    }
    free(next);
}

/* Row by row, into a row of all columns. Whoever has the product frees its three parts. */
static Matrix product_plainly(Matrix a, Matrix b, size_t width) {
    size_t *starts = plain_room(b.rows, sizeof *starts), most = a.n + 1, k = 0;
    int32_t *sums = plain_room(width, sizeof *sums);
    bool *there = plain_room(width, sizeof *there);
    Matrix c = {plain_room(a.rows, sizeof(int32_t)), malloc(most * sizeof(int32_t)), malloc(most * sizeof(int32_t)), a.rows, 0};
    for (size_t row = 0; row < b.rows; row++) starts[row + 1] = starts[row] + (size_t)b.lengths[row];
    for (size_t row = 0; row < a.rows; row++) {
        const size_t from = c.n;
        for (const size_t end = k + (size_t)a.lengths[row]; k < end; k++) {
            for (size_t j = starts[a.columns[k]]; j < starts[a.columns[k] + 1]; j++) {
                const int32_t column = b.columns[j];
                sums[column] = (int32_t)((uint32_t)sums[column] + (uint32_t)a.values[k] * (uint32_t)b.values[j]);
                if (there[column]) continue;
                there[column] = true;
                if (c.n == most) {
                    most *= 2;
                    c.columns = realloc(c.columns, most * sizeof(int32_t)), c.values = realloc(c.values, most * sizeof(int32_t));
                }
                if (c.columns == NULL || c.values == NULL) abort();
                c.columns[c.n++] = column;
            }
        }
        c.lengths[row] = (int32_t)(c.n - from);
        if (c.n > from) qsort(c.columns + from, c.n - from, sizeof(int32_t), ascending);
        for (size_t j = from; j < c.n; j++) {
            c.values[j] = sums[c.columns[j]];
            sums[c.columns[j]] = 0, there[c.columns[j]] = false;
        }
    }
    free(starts), free(sums), free(there);
    return c;
}

/* ---- tokens ---- */

static bool goes_on(int byte) { return byte > 127 || byte == '_' || isalnum(byte); }

static Tokens tokens_plainly(const char *text, size_t n, int32_t *wrong) {
    Tokens t = {plain_room(n, sizeof(int32_t)), plain_room(n, sizeof(int32_t)), plain_room(n, sizeof(int32_t)), 0};
    *wrong = -1;
    for (size_t k = 0; k < n;) {
        const int byte = (unsigned char)text[k];
        const size_t from = k++;
        if (byte == '#') {
            while (k < n && text[k] != '\n') k++;
            continue;
        }
        if (byte <= 127 && isspace(byte)) continue;
        if (*wrong < 0 && byte <= 127 && iscntrl(byte)) *wrong = (int32_t)from;
        if (goes_on(byte)) {
            while (k < n && goes_on((unsigned char)text[k])) k++;
        }
        t.starts[t.n] = (int32_t)from, t.lengths[t.n] = (int32_t)(k - from);
        t.classes[t.n++] = !goes_on(byte) ? 1 : byte <= 127 && isdigit(byte) ? 2 : 3;
    }
    return t;
}

#endif
