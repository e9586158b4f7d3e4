/*
 * Holds the programs of the examples against plain loops, on keys, values, sparse matrices and texts at random. It prints what
 * differs, and its status is then 1. `tests/c/run programs` builds and runs it under sanitizers; `tests/c/run program_times` prints
 * how long each takes beside a plain loop, in milliseconds.
 */
#define _POSIX_C_SOURCE 200809L
#include "cvl.h"
#include "plain_programs.h"

#include <stdio.h>
#include <time.h>

enum { LONGEST = 400, ROUNDS = 300, WIDTH = 40 };

struct Cut;
void radix_sort(const int32_t *const *columns, size_t width, size_t n, int32_t *rows);
void quicksort(int32_t *keys, size_t n, size_t shortest, void (*show)(const struct Cut *cut));
size_t distinct(const int32_t *keys, size_t n, int32_t *out);
CvlStatus add_up(const int32_t *keys, const int32_t *values, size_t n, Groups *g);
void sort_groups(const int32_t *keys, const int32_t *values, size_t n, SortedGroups *g);
size_t number_keys(const int32_t *keys, size_t n, int32_t *order, int32_t *numbers);
Pairs join(const int32_t *left, size_t n, const int32_t *right, size_t m);
CvlStatus transpose(
    CvlLengths rows, const int32_t *columns, const int32_t *values, size_t n, size_t width, int32_t *lengths,
    int32_t *row_of_each, int32_t *transposed);
Matrix matrix_product(Matrix a, Matrix b);
Tokens tokens_of(const char *text, size_t n, int32_t *wrong);

static uint64_t state = 1;
static int failed;

static size_t below(size_t limit) {
    state = state * 6364136223846793005u + 1442695040888963407u;
    return limit == 0 ? 0 : (size_t)((state >> 33) % limit);
}

static void check(const char *what, size_t n, bool is_so) {
    if (is_so) return;
    printf("%s, of %zu: not as by plain loops\n", what, n);
    failed = 1;
}

static bool same(const void *a, const void *b, size_t n) { return n == 0 || memcmp(a, b, n * sizeof(int32_t)) == 0; }

/* ---- each program on inputs at random ---- */

/* Keys of any kind: any numbers, some that are often the same, all the same, or in order. */
static void fill(int32_t *keys, size_t n) {
    static const int32_t odd[] = {INT32_MIN, INT32_MAX, 0, -1, 1};
    const size_t kind = below(6);
    for (size_t k = 0; k < n; k++) {
        switch (kind) {
        case 0: keys[k] = (int32_t)(uint32_t)(below(1u << 31) * 2 + below(2)); break;
        case 1: keys[k] = (int32_t)below(n / 4 + 1) - 5; break;
        case 2: keys[k] = odd[below(5)]; break;
        case 3: keys[k] = 7; break;
        case 4: keys[k] = (int32_t)k - 3; break;
        default: keys[k] = (int32_t)(n - k) << 20; break;
        }
    }
}

static void keys_at_random(size_t n) {
    int32_t keys[LONGEST], more[LONGEST], sorted[LONGEST], found[LONGEST], wanted[LONGEST];
    const int32_t *const columns[] = {keys, more, keys};
    const size_t bytes = n * sizeof *keys, width = below(4);
    fill(keys, n), fill(more, n);
    radix_sort(columns, width, n, found);
    sort_rows_plainly(columns, width, n, wanted);
    check("radix_sort", n, same(found, wanted, n));
    memcpy(sorted, keys, bytes);
    if (n > 0) qsort(sorted, n, sizeof *sorted, ascending);
    memcpy(found, keys, bytes);
    quicksort(found, n, 1 + below(2) * below(40), NULL);
    check("quicksort", n, same(found, sorted, n));
    const size_t some = distinct(keys, n, found), all = distinct_plainly(keys, n, wanted);
    check("distinct", n, some == all && same(found, wanted, some));
    check("how many numbers keys have", n, number_keys(keys, n, sorted, found) == all);
    for (size_t k = 0; k < n; k++) check("a key's number", n, n < 2 || (keys[k] < keys[n / 2]) == (found[k] < found[n / 2]));
}

static void groups_at_random(size_t n, size_t many) {
    int32_t keys[LONGEST], values[LONGEST], rooms[2][5 * WIDTH], sorted[2][3 * LONGEST];
    int64_t sums[2][LONGEST];
    Groups g[2];
    SortedGroups s[2];
    fill(values, n);
    for (size_t k = 0; k < n; k++) keys[k] = (int32_t)below(many);
    for (size_t k = 0; k < 2; k++) {
        int32_t *const room = rooms[k];
        g[k] = (Groups){many, room, room + many, room + 2 * many, room + 3 * many, room + 4 * many};
        for (size_t j = 0; j < many; j++)
            g[k].counts[j] = g[k].sums[j] = 0, g[k].least[j] = INT32_MAX, g[k].greatest[j] = INT32_MIN;
        s[k] = (SortedGroups){0, sorted[k], sorted[k] + n, sorted[k] + 2 * n, sums[k]};
    }
    for (int batch = 0; batch < 2; batch++) {
        check("sums of groups are done", n, add_up(keys, values, n, &g[0]).number == CVL_DONE);
        add_up_plainly(keys, values, n, &g[1]);
    }
    check("sums of groups", n, same(rooms[0], rooms[1], 4 * many));
    fill(keys, n);
    sort_groups(keys, values, n, &s[0]), sort_groups_plainly(keys, values, n, &s[1]);
    const size_t all = s[1].many;
    check("sorted groups", n, s[0].many == all && same(s[0].keys, s[1].keys, all) && same(s[0].counts, s[1].counts, all));
    check("their medians", n, same(s[0].medians, s[1].medians, all));
    check("their sums", n, same(sums[0], sums[1], 2 * all));
    if (n == 0) return;
    const size_t wrong = below(n);
    for (size_t k = 0; k < n; k++) keys[k] = (int32_t)below(many);
    keys[wrong] = below(2) == 0 ? -1 : (int32_t)many;
    const CvlStatus outside = add_up(keys, values, n, &g[0]);
    check("a key that is no group", n, outside.number == CVL_INDEX_OUT_OF_RANGE && outside.place == (int64_t)wrong);
    check("groups after a fault", n, same(rooms[0], rooms[1], 4 * many));
}

static void join_at_random(size_t n, size_t m) {
    int32_t left[LONGEST], right[LONGEST];
    fill(left, n), fill(right, m);
    const Pairs found = join(left, n, right, m), wanted = join_plainly(left, n, right, m);
    check("pairs", n, found.n == wanted.n && same(found.left, wanted.left, found.n) && same(found.right, wanted.right, found.n));
    free(found.left), free(wanted.left), free(wanted.right);
}

static void text_at_random(size_t n) {
    static const char bytes[] = "ab_Z09 \t\n\n#.(\x01\x7f\xc3\xa9";
    char *const text = plain_room(n, 1);
    int32_t wrong[2];
    const size_t kinds = below(2) == 0 ? 13 : sizeof bytes;
    for (size_t k = 0; k < n; k++) text[k] = bytes[below(kinds)];
    const Tokens found = tokens_of(text, n, &wrong[0]), wanted = tokens_plainly(text, n, &wrong[1]);
    check("a wrong byte", n, wrong[0] == wrong[1]);
    check(
        "tokens", n,
        found.n == wanted.n && same(found.starts, wanted.starts, found.n) && same(found.lengths, wanted.lengths, found.n));
    check("their classes", n, found.n == wanted.n && same(found.classes, wanted.classes, found.n));
    free(found.starts), free(wanted.starts), free(wanted.lengths), free(wanted.classes), free(text);
}

/* The entries of a matrix with so many rows and columns, in rooms for rows of up to so many. */
static Matrix entries_at_random(size_t rows, size_t width, int32_t *lengths, int32_t *columns, int32_t *values) {
    Matrix a = {lengths, columns, values, rows, 0};
    for (size_t row = 0; row < rows; row++) {
        lengths[row] = width == 0 || below(3) == 0 ? 0 : (int32_t)below(LONGEST / WIDTH);
        a.n += (size_t)lengths[row];
    }
    for (size_t k = 0; k < a.n; k++) columns[k] = (int32_t)below(width), values[k] = (int32_t)below(1000) - 500;
    return a;
}

static void product_at_random(size_t rows, size_t inner, size_t width) {
    int32_t lengths[2][WIDTH], columns[2][LONGEST], values[2][LONGEST];
    const Matrix a = entries_at_random(rows, inner, lengths[0], columns[0], values[0]);
    const Matrix b = entries_at_random(inner, width, lengths[1], columns[1], values[1]);
    const Matrix found = matrix_product(a, b), wanted = product_plainly(a, b, width);
    check("entries of a product", a.n, found.n == wanted.n && same(found.lengths, wanted.lengths, rows));
    check(
        "a product", a.n,
        found.n == wanted.n && same(found.columns, wanted.columns, found.n) && same(found.values, wanted.values, found.n));
    free(found.lengths), free(wanted.lengths), free(wanted.columns), free(wanted.values);
}

static void matrix_at_random(size_t rows, size_t width) {
    int32_t row_lengths[WIDTH], columns[LONGEST], values[LONGEST];
    int32_t lengths[2][WIDTH], row_of_each[2][LONGEST], transposed[2][LONGEST];
    const CvlLengths given = {row_lengths, rows};
    const size_t n = entries_at_random(rows, width, row_lengths, columns, values).n;
    const CvlStatus status = transpose(given, columns, values, n, width, lengths[0], row_of_each[0], transposed[0]);
    check("a transpose is done", n, status.number == CVL_DONE);
    transpose_plainly(row_lengths, rows, columns, values, n, width, lengths[1], row_of_each[1], transposed[1]);
    check("entries of columns", n, memcmp(lengths[0], lengths[1], width * sizeof *lengths[0]) == 0);
    check("rows of entries", n, memcmp(row_of_each[0], row_of_each[1], n * sizeof *row_of_each[0]) == 0);
    check("transposed values", n, memcmp(transposed[0], transposed[1], n * sizeof *transposed[0]) == 0);
    if (n == 0) return;
    const size_t wrong = below(n);
    columns[wrong] = below(2) == 0 ? -1 : (int32_t)width;
    const CvlStatus outside = transpose(given, columns, values, n, width, lengths[0], row_of_each[0], transposed[0]);
    check("a column outside", n, outside.number == CVL_INDEX_OUT_OF_RANGE && outside.place == (int64_t)wrong);
    const CvlStatus shorter = transpose(given, columns, values, n - 1, width, lengths[0], row_of_each[0], transposed[0]);
    check("other lengths", n, shorter.number == CVL_LENGTH_MISMATCH);
}

/* ---- how long each takes ---- */

enum { KEYS = 1 << 20, ENTRIES = 1 << 22, LINES = 1 << 18, GROUPS = 1 << 16, FACTORS = 1 << 19, TEXT = 1 << 24 };

static int32_t *keys, *values, *numbers, *room[3], *row_lengths, *columns, *few, *spread;
static int64_t *sums;
static char *text;
static Groups groups;
static SortedGroups sorted_groups;
static Matrix factor;

static void take(void) { memcpy(room[0], keys, KEYS * sizeof *keys); }

static void sort_rows(void (*sort)(const int32_t *const *, size_t, size_t, int32_t *)) {
    const int32_t *const both[] = {few, keys};
    sort(both, 2, KEYS, room[0]);
}

static void by_radix_sort(void) { sort_rows(radix_sort); }
static void by_qsort_of_rows(void) { sort_rows(sort_rows_plainly); }
static void by_quicksort(void) { take(), quicksort(room[0], KEYS, 256, NULL); }
static void by_qsort(void) { take(), qsort(room[0], KEYS, sizeof *keys, ascending); }
static void by_distinct(void) { distinct(keys, KEYS, room[0]); }
static void by_table(void) { distinct_plainly(keys, KEYS, room[0]); }
static void by_groups(void) {
    if (add_up(numbers, values, ENTRIES, &groups).number != CVL_DONE) abort();
}
static void by_loop_over_groups(void) { add_up_plainly(numbers, values, ENTRIES, &groups); }
static void by_sorted_groups(void) { sort_groups(keys, values, KEYS, &sorted_groups); }
static void by_qsort_of_groups(void) { sort_groups_plainly(keys, values, KEYS, &sorted_groups); }
static void by_join(void) { free(join(keys, KEYS, values, KEYS).left); }
static void by_join_of_any(void) { free(join(spread, KEYS, spread + KEYS, KEYS).left); }

static void join_by_hash(const int32_t *left, const int32_t *right) {
    const Pairs pairs = join_plainly(left, KEYS, right, KEYS);
    free(pairs.left), free(pairs.right);
}

static void by_hash_join(void) { join_by_hash(keys, values); }
static void by_hash_join_of_any(void) { join_by_hash(spread, spread + KEYS); }

static void by_transpose(void) {
    const CvlLengths rows = {row_lengths, LINES};
    if (transpose(rows, columns, columns, ENTRIES, LINES, room[0], room[1], room[2]).number != CVL_DONE) abort();
}

static void by_loops(void) { transpose_plainly(row_lengths, LINES, columns, columns, ENTRIES, LINES, room[0], room[1], room[2]); }
static void by_product(void) { free(matrix_product(factor, factor).lengths); }

static void by_rows(void) {
    const Matrix found = product_plainly(factor, factor, factor.rows);
    free(found.lengths), free(found.columns), free(found.values);
}

static void by_tokens(void) {
    int32_t wrong;
    free(tokens_of(text, TEXT, &wrong).starts);
}

static void by_loop_over_text(void) {
    int32_t wrong;
    const Tokens t = tokens_plainly(text, TEXT, &wrong);
    free(t.starts), free(t.lengths), free(t.classes);
}

/* The time of a run, in milliseconds, where it is less than the least so far. */
static void keep_least(void (*run)(void), double *least) {
    struct timespec from, to;
    clock_gettime(CLOCK_MONOTONIC, &from);
    run();
    clock_gettime(CLOCK_MONOTONIC, &to);
    const double took = (double)(to.tv_sec - from.tv_sec) * 1e3 + (double)(to.tv_nsec - from.tv_nsec) / 1e6;
    *least = took < *least ? took : *least;
}

/* The least time of some runs by one thread, by four, and of the loop, in turn. */
static void measure(const char *name, void (*program)(void), const char *other, void (*loop)(void)) {
    double alone = 1e9, by_four = 1e9, plain = 1e9;
    for (int k = 0; k < 7; k++) {
        if (cvl_set_threads(1) != 0) abort();
        keep_least(program, &alone);
        if (cvl_set_threads(4) != 0) abort();
        keep_least(program, &by_four);
        keep_least(loop, &plain);
    }
    printf("%s: 1 thread %.1f, 4 threads %.1f, %s %.1f\n", name, alone, by_four, other, plain);
}

static int32_t *numbers_below(size_t n, size_t limit) {
    int32_t *const found = plain_room(n, sizeof *found);
    for (size_t k = 0; k < n; k++) found[k] = (int32_t)below(limit);
    return found;
}

/* Lines of words, numbers, signs and comments. */
static void make_text(void) {
    static const char *const words[] = {"add ", "x ",  "y1 ",  "sum_of ",       "= ",     "(",
                                        ", ",   ")\n", " 40 ", "# a comment\n", "write ", "\n"};
    text = plain_room(TEXT, 1);
    for (size_t k = 0; k < TEXT; k++) {
        for (const char *word = words[below(12)]; *word != 0 && k < TEXT; word++) text[k++] = *word;
        k--;
    }
}

static void make_all(void) {
    keys = numbers_below(KEYS, KEYS), values = numbers_below(ENTRIES, KEYS), few = numbers_below(KEYS, 1000);
    spread = numbers_below(2 * KEYS, KEYS);
    for (size_t k = 0; k < 2 * KEYS; k++) spread[k] = (int32_t)((uint32_t)spread[k] * 2654435761u);
    numbers = numbers_below(ENTRIES, GROUPS), columns = numbers_below(ENTRIES, LINES),
    row_lengths = plain_room(LINES, sizeof *row_lengths);
    for (size_t k = 0; k < 3; k++) room[k] = plain_room(ENTRIES, sizeof *room[k]);
    for (size_t k = 0; k < LINES; k++) row_lengths[k] = ENTRIES / LINES;
    int32_t *const of_groups = plain_room(5 * GROUPS, sizeof *of_groups);
    groups = (Groups){
        GROUPS, of_groups, of_groups + GROUPS, of_groups + 2 * GROUPS, of_groups + 3 * GROUPS, of_groups + 4 * GROUPS};
    sums = plain_room(KEYS, sizeof *sums);
    sorted_groups = (SortedGroups){0, room[0], room[1], room[2], sums};
    int32_t *const lengths = plain_room(FACTORS / 8, sizeof *lengths);
    for (size_t k = 0; k < FACTORS / 8; k++) lengths[k] = 8;
    factor = (Matrix){lengths, numbers_below(FACTORS, FACTORS / 8), numbers_below(FACTORS, 1000), FACTORS / 8, FACTORS};
    make_text();
}

static void measure_all(void) {
    make_all();
    measure("radix_sort.c, two columns", by_radix_sort, "qsort", by_qsort_of_rows);
    measure("quicksort.c", by_quicksort, "qsort", by_qsort);
    measure("distinct.c", by_distinct, "a hash table", by_table);
    measure("groups.c, add_up", by_groups, "one loop", by_loop_over_groups);
    measure("groups.c, sort_groups", by_sorted_groups, "qsort", by_qsort_of_groups);
    measure("join.c, keys that lie close together", by_join, "a hash table", by_hash_join);
    measure("join.c, keys of any size", by_join_of_any, "a hash table", by_hash_join_of_any);
    measure("sparse_transpose.c", by_transpose, "a count of each column", by_loops);
    measure("matrix_product.c", by_product, "a loop over a row of all columns", by_rows);
    measure("tokens.c", by_tokens, "a loop over the bytes", by_loop_over_text);
}

int main(int words, char **word) {
    if (words > 1 && strcmp(word[1], "times") == 0) {
        measure_all();
        return EXIT_SUCCESS;
    }
    for (size_t k = 0; k < ROUNDS; k++) {
        const size_t n = k < 5 ? k : below(k % 5 == 0 ? LONGEST : 20);
        keys_at_random(n);
        groups_at_random(n, 1 + below(WIDTH));
        join_at_random(n, k < 9 ? k / 3 : below(LONGEST));
        text_at_random(n);
    }
    for (size_t k = 0; k < ROUNDS; k++) {
        const size_t rows = k < 3 ? k : below(WIDTH), width = k < 6 ? k / 3 : below(WIDTH);
        matrix_at_random(rows, width);
        product_at_random(rows, width, below(WIDTH));
    }
    // several pieces
    for (size_t k = 0; k < 4; k++) text_at_random(1000000 - k);
    if (!failed) printf("the programs of the examples on %d inputs as plain loops\n", 6 * ROUNDS + 4);
    return failed;
}
