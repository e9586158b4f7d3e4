/*
 * The time of some calls by one thread, in parts by the threads of OpenMP, and by as many threads of the library's own, in memory that was written
 * before: the best of some rounds, in milliseconds. The last column is how long the faster of the two takes beside a copy of as many bytes by
 * as many threads, where the bytes lie side by side: 1.00 is memory's speed.
 *
 *     docs/dev/performance/in_c threads [ROUNDS [ELEMENTS ..]]
 *
 * `docs/dev/performance/in_c threads` builds it over the library, by -O3, and runs it, on 4,194,304 elements where none are named; 67,108,864 take 2 GB.
 * `docs/dev/performance/in_c lengths` builds it with a library that shares each call of 32,768 elements or more, and runs it on lengths around the one
 * from which calls take the threads. OMP_NUM_THREADS says how many threads there are. The machine should be idle.
 */
#define CVL_SHORT_NAMES
#include "cvl_openmp.h"

#include <stdio.h>
#include <stdlib.h>
#include <string.h>

enum { SEGMENT = 1000, USUAL = 4194304, ROUNDS = 25 };

static size_t n, kept;
static int32_t *a, *b, *small, *in_order, *shuffled, *lengths, *out, *segment_out;
static bool *flags, *bools;
static CvlLengths cut;
static CvlPool pool;

/* Rows of the table: a call, how many bytes it reads and writes for an element where these lie side by side, and its arguments. */
/* clang-format off */
#define CALLS(X)                                                                                                               \
    X(add, "add_wuz", 12, add_wuz, a, b, out, n)                                                                               \
    X(less, "les_wuz", 9, les_wuz, a, b, bools, n)                                                                             \
    X(select, "sel_wuz", 13, sel_wuz, flags, a, b, out, n)                                                                     \
    X(divide, "div_wuz", 12, div_wuz, a, b, out, n)                                                                            \
    X(scan, "add_suz", 8, add_suz, a, out, n)                                                                                  \
    X(reduce, "add_ruz", 4, add_ruz, a, n, out)                                                                                \
    X(checked_scan, "tot_suz", 8, tot_suz, small, out, n)                                                                      \
    X(checked_reduce, "tot_ruz", 4, tot_ruz, small, n, out)                                                                    \
    X(count, "cnt_lub", 1, cnt_lub, flags, n, out)                                                                             \
    X(seg_scan, "add_sez, of 1,000", 8, add_sez, a, cut, out, n)                                                               \
    X(seg_reduce, "add_rez, of 1,000", 4, add_rez, a, n, cut, segment_out)                                                     \
    X(pack, "pck_luz, of a half", 7, pck_luz, a, flags, n, out, n, &kept)                                                      \
    X(copies, "dis_vez, of 1,000", 4, dis_vez, b, cut, out, n)                                                                 \
    X(numbers, "ind_lez, of 1,000", 4, ind_lez, b, a, cut, out, n)                                                             \
    X(flat_copies, "dis_vuz", 4, dis_vuz, 7, (int64_t)n, out)                                                                  \
    X(gather_in_order, "bck_puz, in order", 12, bck_puz, a, n, in_order, out, n)                                               \
    X(gather, "bck_puz, at random", 0, bck_puz, a, n, shuffled, out, n)                                                        \
    X(scatter_in_order, "smp_puz, in order", 12, smp_puz, a, in_order, out, n)                                                 \
    X(scatter, "smp_puz, at random", 0, smp_puz, a, shuffled, out, n)
/* clang-format on */

#define DEFINED(id, name, bytes, call, ...)                         \
    static CvlStatus plain_##id(void) { return call(__VA_ARGS__); } \
    static CvlStatus parts_##id(void) { return call##_on(&pool, __VA_ARGS__); }
CALLS(DEFINED)

typedef CvlStatus Call(void);
typedef struct Row {
    const char *name;
    double bytes;
    Call *plain, *parts;
} Row;
#define ROW(id, name, bytes, ...) {name, bytes, plain_##id, parts_##id},
static const Row rows[] = {CALLS(ROW)};

/* ---- a copy ---- */

static CvlStatus copied(void) {
    const CvlStatus done = {CVL_DONE, -1};
    return done;
}

static CvlStatus plain_copy(void) {
    memcpy(out, a, n * sizeof *a);
    return copied();
}

static CvlStatus copy_by_threads(void) {
    const size_t parts = pool.parts;
#pragma omp parallel for
    for (size_t k = 0; k < parts; k++)
        memcpy(out + n * k / parts, a + n * k / parts, (n * (k + 1) / parts - n * k / parts) * sizeof *a);
    return copied();
}

/* ---- the time ---- */

/* The best time of a call by so many threads of the library's, in milliseconds. */
static double best(Call *call, size_t threads, int rounds) {
    double least = 1e9;
    if (cvl_set_threads(threads) != 0) abort();
    for (int round = 0; round < rounds; round++) {
        const double since = omp_get_wtime();
        const CvlStatus status = call();
        const double time = omp_get_wtime() - since;
        if (status.number != CVL_DONE) abort();
        if (time < least) least = time;
    }
    return least * 1e3;
}

static void measure(const Row *row, double copy_of_a_byte, int rounds) {
    const double alone = best(row->plain, 1, rounds), parts = best(row->parts, 1, rounds),
                 threads = best(row->plain, pool.parts, rounds);
    printf("%-20s %10.3f %10.3f %10.3f", row->name, alone, parts, threads);
    if (row->bytes > 0) printf(" %10.2f", (parts < threads ? parts : threads) / ((double)n * row->bytes * copy_of_a_byte));
    printf("\n");
}

/* ---- the arrays ---- */

static uint32_t state = 1;

static uint32_t next(void) { return state = state * 1664525u + 1013904223u; }

static void *array(size_t count, size_t size) {
    void *found = malloc(count * size);
    if (found == NULL) abort();
    memset(found, 1, count * size);
    return found;
}

static void make_arrays(size_t most) {
    int32_t **const of_ints[] = {&a, &b, &small, &in_order, &shuffled, &out};
    for (size_t k = 0; k < sizeof of_ints / sizeof *of_ints; k++) *of_ints[k] = array(most, sizeof(int32_t));
    lengths = array(most / SEGMENT + 1, sizeof *lengths), segment_out = array(most / SEGMENT + 1, sizeof *segment_out);
    flags = array(most, sizeof *flags), bools = array(most, sizeof *bools);
    for (size_t k = 0; k < most; k++) {
        a[k] = (int32_t)next();
        b[k] = (int32_t)(state >> 7) | 1;
        small[k] = (int32_t)(state >> 24) - 128;
        flags[k] = (state >> 13 & 1) != 0;
        in_order[k] = (int32_t)k;
    }
}

/* Cuts the elements, and puts each index of them once into `shuffled`, at random. */
static void begin(size_t count) {
    n = count;
    cut.lengths = lengths, cut.segments = n / SEGMENT + (n % SEGMENT != 0);
    for (size_t s = 0; s < cut.segments; s++) lengths[s] = (int32_t)(n - s * SEGMENT < SEGMENT ? n % SEGMENT : SEGMENT);
    memcpy(shuffled, in_order, n * sizeof *shuffled);
    for (size_t k = n - 1; k > 0; k--) {
        const size_t other = (size_t)((uint64_t)next() * (k + 1) >> 32);
        const int32_t index = shuffled[k];
        shuffled[k] = shuffled[other];
        shuffled[other] = index;
    }
}

static void measure_all(size_t count, int rounds) {
    begin(count);
    const double alone = best(plain_copy, 1, rounds), shared = best(copy_by_threads, 1, rounds);
    printf("%zu elements, in milliseconds, by %zu threads\n", n, pool.parts);
    printf(
        "%-20s %10s %10s %10s %10s\n%-20s %10.3f %10.3f\n", "", "one thread", "in parts", "threads", "of a copy", "memcpy", alone,
        shared);
    for (size_t k = 0; k < sizeof rows / sizeof *rows; k++) measure(&rows[k], shared / ((double)n * 8), rounds);
}

int main(int words, char **word) {
    const int rounds = words > 1 ? atoi(word[1]) : ROUNDS;
    size_t most = words > 2 ? 0 : USUAL;
    for (int k = 2; k < words; k++) most = (size_t)atol(word[k]) > most ? (size_t)atol(word[k]) : most;
    setvbuf(stdout, NULL, _IONBF, 0);
    pool = cvl_pool_openmp();
    make_arrays(most);
    if (words <= 2) measure_all(USUAL, rounds);
    for (int k = 2; k < words; k++) measure_all((size_t)atol(word[k]), rounds);
    return EXIT_SUCCESS;
}
