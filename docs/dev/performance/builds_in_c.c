/*
 * The time of calls by the library that the loader takes, each on its own thread: the best of many rounds, in nanoseconds, of vectors of
 * 1,000 and of 65,536 elements, and of segments that have so many elements on average. `docs/dev/performance/measure` runs it over the
 * build for each kind of processor. `builds_in_c short` makes each call a few times.
 */
#define CVL_SHORT_NAMES
#include "cvl.h"

#include <stdio.h>
#include <stdlib.h>
#include <string.h>
#include <time.h>

enum { MOST = 65536, ROUNDS = 60, LEAST_NANOSECONDS = 20000 };

/* `small` has elements whose sums fit, `shifts` numbers from 0 to 31, `ones` no 0, `shuffled` and `places` each index once, at random: of the
 * vector and of its segment, `keys` few numbers, and `sorted` many equal neighbours. */
static int32_t a[MOST], ones[MOST], small[MOST], shifts[MOST], shuffled[MOST], places[MOST], keys[MOST], sorted[MOST],
    lengths[MOST], firsts[MOST];
static int32_t out[2 * MOST], values[MOST];
static int64_t exact[MOST];
static uint8_t bytes[MOST];
static bool flags[MOST], others[MOST], truths[MOST];
static char text[12 * MOST + 2];
static size_t n, segments, trues, count, text_len;

#define CUT \
    (CvlLengths) { lengths, segments }

/* A call on whole vectors, under its name. */
#define FLAT(ONE)                                                                                    \
    ONE(add_wuz, add_wuz(a, ones, out, n))                                                           \
    ONE(div_wuz, div_wuz(a, ones, out, n))                                                           \
    ONE(mod_wuz, mod_wuz(a, ones, out, n))                                                           \
    ONE(lsh_wuz, lsh_wuz(a, shifts, out, n))                                                         \
    ONE(les_wuz, les_wuz(a, ones, truths, n))                                                        \
    ONE(sel_wuz, sel_wuz(flags, a, ones, out, n))                                                    \
    ONE(not_wuz, not_wuz(a, out, n))                                                                 \
    ONE(cpy_wuz, cpy_wuz(a, out, n))                                                                 \
    ONE(and_wub, and_wub(flags, others, truths, n))                                                  \
    ONE(sel_wub, sel_wub(flags, others, flags, truths, n))                                           \
    ONE(not_wub, not_wub(flags, truths, n))                                                          \
    ONE(cpy_wub, cpy_wub(flags, truths, n))                                                          \
    ONE(int_wub, int_wub(flags, out, n))                                                             \
    ONE(boo_wuz, boo_wuz(small, truths, n))                                                          \
    ONE(add_suz, add_suz(a, out, n))                                                                 \
    ONE(max_suz, max_suz(a, out, n))                                                                 \
    ONE(and_sub, and_sub(others, truths, n))                                                         \
    ONE(tot_suz, tot_suz(small, out, n))                                                             \
    ONE(add_ruz, add_ruz(a, n, out))                                                                 \
    ONE(max_ruz, max_ruz(a, n, out))                                                                 \
    ONE(and_rub, and_rub(others, n, truths))                                                         \
    ONE(tot_ruz, tot_ruz(small, n, out))                                                             \
    ONE(cnt_lub, cnt_lub(flags, n, out))                                                             \
    ONE(smp_puz, smp_puz(a, shuffled, out, n))                                                       \
    ONE(bck_puz, bck_puz(a, n, shuffled, out, n))                                                    \
    ONE(def_puz, def_puz(a, shuffled, n, ones, out, n))                                              \
    ONE(smp_pub, smp_pub(flags, shuffled, truths, n))                                                \
    ONE(bck_pub, bck_pub(flags, n, shuffled, truths, n))                                             \
    ONE(pck_luz, pck_luz(a, flags, n, out, n, &count))                                               \
    ONE(pck_lub, pck_lub(others, flags, n, truths, n, &count))                                       \
    ONE(dis_vuz, dis_vuz(7, (int32_t)n, out))                                                        \
    ONE(ind_luz, ind_luz(5, 3, (int32_t)n, out))                                                     \
    ONE(rep_vuz, rep_vuz(a, 5, 3, out, n))                                                           \
    ONE(cvl_int_scan_after, cvl_int_scan_after(CVL_ADD, 7, a, n, out, n))                            \
    ONE(cvl_exact_sum, cvl_exact_sum(a, n, exact))                                                   \
    ONE(cvl_order, cvl_order(a, n, out, n))                                                          \
    ONE(cvl_rank, cvl_rank(a, n, out, n))                                                            \
    ONE(cvl_sort, cvl_sort(a, n, out, n))                                                            \
    ONE(cvl_sort_by_key, cvl_sort_by_key(copied(a), n, values, n))                                   \
    ONE(cvl_combine_permute_int, cvl_combine_permute_int(CVL_ADD, a, n, keys, n, out, 256))          \
    ONE(cvl_combine_exact_sums, cvl_combine_exact_sums(a, n, keys, n, zeros(), 256))                 \
    ONE(cvl_counts, cvl_counts(keys, n, out, 256))                                                   \
    ONE(cvl_first_senders, cvl_first_senders(keys, n, out, 256))                                     \
    ONE(cvl_run_lengths_int, cvl_run_lengths_int(sorted, n, out, n, &count))                         \
    ONE(cvl_run_starts_int, cvl_run_starts_int(sorted, n, out, n, &count))                           \
    ONE(cvl_merge_by_flags_int, cvl_merge_by_flags_int(flags, n, a, trues, ones, n - trues, out, n)) \
    ONE(cvl_transpose_int, cvl_transpose_int(a, n / 8 * 8, n / 8, 8, out, n / 8 * 8))                \
    ONE(cvl_ints_from_bytes, cvl_ints_from_bytes(bytes, n, out, n))                                  \
    ONE(cvl_bytes_from_ints, cvl_bytes_from_ints(keys, n, bytes, n))                                 \
    ONE(cvl_write_ints, cvl_write_ints(a, n, text, sizeof text, &text_len))                          \
    ONE(cvl_read_ints, cvl_read_ints(text + 1, text_len - 2, out, n, &count))

/* The same on segments. */
#define SEGMENTED(ONE)                                                                         \
    ONE(add_sez, add_sez(a, CUT, out, n))                                                      \
    ONE(max_sez, max_sez(a, CUT, out, n))                                                      \
    ONE(and_seb, and_seb(others, CUT, truths, n))                                              \
    ONE(tot_sez, tot_sez(small, CUT, out, n))                                                  \
    ONE(add_rez, add_rez(a, n, CUT, out))                                                      \
    ONE(max_rez, max_rez(a, n, CUT, out))                                                      \
    ONE(and_reb, and_reb(others, n, CUT, truths))                                              \
    ONE(tot_rez, tot_rez(small, n, CUT, out))                                                  \
    ONE(cnt_leb, cnt_leb(flags, n, CUT, out))                                                  \
    ONE(smp_pez, smp_pez(a, places, CUT, out, n))                                              \
    ONE(bck_pez, bck_pez(a, n, places, CUT, CUT, out, n))                                      \
    ONE(pck_lez, pck_lez(a, flags, n, CUT, out, n, &count))                                    \
    ONE(dis_vez, dis_vez(a, CUT, out, n))                                                      \
    ONE(ind_lez, ind_lez(a, ones, CUT, out, n))                                                \
    ONE(cvl_seg_sort, cvl_seg_sort(a, n, CUT, out, n))                                         \
    ONE(cvl_seg_exact_sums, cvl_seg_exact_sums(a, n, CUT, exact, segments))                    \
    ONE(cvl_gather_segments_int, cvl_gather_segments_int(a, n, firsts, segments, CUT, out, n)) \
    ONE(cvl_append_segments_int, cvl_append_segments_int(a, n, ones, n, CUT, CUT, out, 2 * n)) \
    ONE(cvl_sparse_product, cvl_sparse_product(CUT, shuffled, n, a, n, ones, n, out, segments))

static int32_t *copied(const int32_t *from) { return memcpy(out, from, n * sizeof *from); }
static int64_t *zeros(void) { return memset(exact, 0, 256 * sizeof *exact); }

static void must(const char *name, CvlStatus status) {
    if (status.number == CVL_DONE) return;
    printf("%s: fault %u at %lld\n", name, (unsigned)status.number, (long long)status.place);
    exit(EXIT_FAILURE);
}

#define MAKES(name, made) \
    static void call_##name(void) { must(#name, made); }
FLAT(MAKES)
SEGMENTED(MAKES)

typedef struct Row {
    const char *name;
    void (*call)(void);
} Row;

#define ROW(name, made) {#name, call_##name},
static const Row flat[] = {FLAT(ROW)}, segmented[] = {SEGMENTED(ROW)};

static uint32_t next(uint32_t *state) { return *state = *state * 1664525u + 1013904223u; }

/* Puts each of so many places once, at random. */
static void shuffle(int32_t *index, size_t length, uint32_t *state) {
    for (size_t k = 0; k < length; k++) index[k] = (int32_t)k;
    for (size_t k = length; k > 1; k--) {
        const size_t other = (size_t)((uint64_t)next(state) * k >> 32);
        const int32_t kept = index[k - 1];
        index[k - 1] = index[other];
        index[other] = kept;
    }
}

static void fill(void) {
    uint32_t state = 1;
    trues = 0;
    for (size_t k = 0; k < n; k++) {
        a[k] = values[k] = (int32_t)next(&state);
        ones[k] = (int32_t)(state >> 7) | 1;
        small[k] = (int32_t)(state >> 24) - 128;
        shifts[k] = (int32_t)(state >> 27);
        keys[k] = (int32_t)(state >> 24);
        sorted[k] = (int32_t)(k / 5);
        flags[k] = (state >> 13 & 1) != 0;
        others[k] = state >> 14 != 0;
        trues += flags[k];
    }
    shuffle(shuffled, n, &state);
    must("cvl_write_ints", cvl_write_ints(a, n, text, sizeof text, &text_len));
}

/* Cuts the vectors into segments of from no elements to twice as many as the average, or of one. */
static void cut(size_t average) {
    uint32_t state = 2;
    size_t from = 0;
    for (segments = 0; from < n; segments++) {
        const size_t wanted = average == 1 ? 1 : next(&state) % (2 * average + 1), left = n - from;
        const size_t length = wanted < left ? wanted : left;
        lengths[segments] = (int32_t)length;
        firsts[segments] = (int32_t)from;
        shuffle(places + from, length, &state);
        from += length;
    }
}

static double now(void) {
    struct timespec time;
    clock_gettime(CLOCK_MONOTONIC, &time);
    return (double)time.tv_sec * 1e9 + (double)time.tv_nsec;
}

static double once(void (*call)(void), size_t times) {
    const double start = now();
    for (size_t k = 0; k < times; k++) call();
    return (now() - start) / (double)times;
}

/* The best time of a call, in nanoseconds; one that is shorter than the clock is good for is made several times. */
static double best(void (*call)(void), int rounds) {
    const double first = once(call, 1);
    const size_t times = first < LEAST_NANOSECONDS ? (size_t)(LEAST_NANOSECONDS / (first + 1)) + 1 : 1;
    double least = first;
    for (int round = 0; round < rounds; round++) {
        const double time = once(call, times);
        if (time < least) least = time;
    }
    return least;
}

static void measure(const Row *row, size_t rows, int rounds) {
    for (size_t k = 0; k < rows; k++) {
        printf("%s, %zu elements, %zu segments: %.1f\n", row[k].name, n, segments, best(row[k].call, rounds));
    }
}

int main(int words, char **word) {
    static const size_t elements[] = {1000, MOST}, averages[] = {1, 4, 16, 1000};
    const int rounds = words > 1 && strcmp(word[1], "short") == 0 ? 1 : ROUNDS;
    for (size_t k = 0; k < sizeof elements / sizeof *elements; k++) {
        n = elements[k];
        segments = 1;
        fill();
        measure(flat, sizeof flat / sizeof *flat, rounds);
        for (size_t j = 0; j < sizeof averages / sizeof *averages; j++) {
            cut(averages[j]);
            measure(segmented, sizeof segmented / sizeof *segmented, rounds);
        }
    }
    return EXIT_SUCCESS;
}
