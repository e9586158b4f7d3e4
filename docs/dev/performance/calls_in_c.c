/*
 * The time of some calls beside the same loops in C, for 1,000 and for 4,194,304 elements: the best of many rounds, in
 * microseconds. `docs/dev/performance/in_c calls` builds it over the library, by -O3, and runs it on a machine that should be
 * idle; `docs/dev/performance/in_c calls short` makes each call on 1,000 elements alone, a few times.
 */
#define CVL_SHORT_NAMES
#include "cvl.h"

#include <stdio.h>
#include <stdlib.h>
#include <string.h>
#include <time.h>

enum { MOST = 4194304, SHORT = 1000, SHORT_ROUNDS = 20000, LONG_ROUNDS = 40, SEGMENT = 1000, SEGMENTS = MOST / SEGMENT + 1 };

/* `small` has elements whose sums fit, `shifts` numbers from 0 to 31, and `shuffled` each index once, at random for its length. */
static int32_t a[MOST], b[MOST], small[MOST], shifts[MOST], in_order[MOST], shuffled[MOST], lengths[SEGMENTS], out[MOST];
/* segments of one to seven elements, at random */
static int32_t short_lengths[MOST];
static size_t short_segments;
static bool flags[MOST], others[MOST], taken[MOST];

#define LOOP __attribute__((noinline)) static void

LOOP loop_add(size_t n) {
    for (size_t k = 0; k < n; k++) out[k] = (int32_t)((uint32_t)a[k] + (uint32_t)b[k]);
}
LOOP loop_less(size_t n) {
    for (size_t k = 0; k < n; k++) ((bool *)out)[k] = a[k] < b[k];
}
LOOP loop_select(size_t n) {
    for (size_t k = 0; k < n; k++) out[k] = flags[k] ? a[k] : b[k];
}

LOOP loop_xor(size_t n) {
    for (size_t k = 0; k < n; k++) ((bool *)out)[k] = flags[k] != others[k];
}
LOOP loop_replace(size_t n) { memcpy(out, flags, n), ((bool *)out)[n / 2] = true; }

LOOP loop_count(size_t n) {
    int32_t count = 0;
    for (size_t k = 0; k < n; k++) count += flags[k];
    out[0] = count;
}

LOOP loop_scan_all(size_t n) {
    bool all = true;
    for (size_t k = 0; k < n; k++) {
        ((bool *)out)[k] = all;
        all &= others[k];
    }
}

LOOP loop_divide(size_t n) {
    for (size_t k = 0; k < n; k++) {
        if (b[k] == 0) return;
        out[k] = b[k] == -1 ? (int32_t)(0 - (uint32_t)a[k]) : a[k] / b[k];
    }
}

LOOP loop_shift(size_t n) {
    for (size_t k = 0; k < n; k++) {
        if ((uint32_t)shifts[k] > 31) return;
        out[k] = (int32_t)((uint32_t)a[k] << shifts[k]);
    }
}

LOOP loop_scan(size_t n) {
    uint32_t sum = 0;
    for (size_t k = 0; k < n; k++) {
        out[k] = (int32_t)sum;
        sum += (uint32_t)a[k];
    }
}

LOOP loop_reduce(size_t n) {
    uint32_t sum = 0;
    for (size_t k = 0; k < n; k++) sum += (uint32_t)a[k];
    out[0] = (int32_t)sum;
}

LOOP loop_checked_scan(size_t n) {
    int64_t sum = 0;
    for (size_t k = 0; k < n; k++) {
        out[k] = (int32_t)sum;
        sum += small[k];
        if (sum != (int32_t)sum) return;
    }
}

LOOP loop_checked_reduce(size_t n) {
    int64_t sum = 0;
    for (size_t k = 0; k < n; k++) {
        sum += small[k];
        if (sum != (int32_t)sum) return;
    }
    out[0] = (int32_t)sum;
}

LOOP loop_segmented_scan(size_t n) {
    for (size_t s = 0, k = 0; k < n; s++) {
        uint32_t sum = 0;
        for (size_t end = k + (size_t)lengths[s]; k < end; k++) {
            out[k] = (int32_t)sum;
            sum += (uint32_t)a[k];
        }
    }
}

LOOP loop_segmented_reduce(size_t n) {
    for (size_t s = 0, k = 0; k < n; s++) {
        uint32_t sum = 0;
        for (size_t end = k + (size_t)lengths[s]; k < end; k++) sum += (uint32_t)a[k];
        out[s] = (int32_t)sum;
    }
}

LOOP loop_short_scan(size_t n) {
    for (size_t s = 0, k = 0; k < n; s++) {
        uint32_t sum = 0;
        for (size_t end = k + (size_t)short_lengths[s]; k < end; k++) {
            out[k] = (int32_t)sum;
            sum += (uint32_t)a[k];
        }
    }
}

LOOP loop_short_copies(size_t n) {
    for (size_t s = 0, k = 0; k < n; s++) {
        const int32_t value = a[s];
        for (size_t end = k + (size_t)short_lengths[s]; k < end; k++) out[k] = value;
    }
}

LOOP loop_short_numbers(size_t n) {
    for (size_t s = 0, k = 0; k < n; s++) {
        uint32_t number = (uint32_t)a[s];
        for (size_t end = k + (size_t)short_lengths[s]; k < end; k++) {
            out[k] = (int32_t)number;
            number += (uint32_t)b[s];
        }
    }
}

LOOP loop_sparse_product(size_t n) {
    for (size_t s = 0, k = 0; k < n; s++) {
        uint32_t sum = 0;
        for (size_t end = k + (size_t)lengths[s]; k < end; k++) {
            if ((uint32_t)shuffled[k] >= n) return;
            sum += (uint32_t)a[k] * (uint32_t)b[shuffled[k]];
        }
        out[s] = (int32_t)sum;
    }
}

LOOP loop_segmented_count(size_t n) {
    for (size_t s = 0, k = 0; k < n; s++) {
        int32_t count = 0;
        for (size_t end = k + (size_t)lengths[s]; k < end; k++) count += flags[k];
        out[s] = count;
    }
}

LOOP loop_segmented_all(size_t n) {
    for (size_t s = 0, k = 0; k < n; s++) {
        bool all = true;
        for (size_t end = k + (size_t)lengths[s]; k < end; k++) all &= others[k];
        ((bool *)out)[s] = all;
    }
}

static void gather(const int32_t *index, size_t n) {
    for (size_t k = 0; k < n; k++) {
        if (index[k] < 0 || (size_t)index[k] >= n) return;
        out[k] = a[index[k]];
    }
}

LOOP loop_gather(size_t n) { gather(in_order, n); }
LOOP loop_gather_shuffled(size_t n) { gather(shuffled, n); }

static void scatter(const int32_t *index, size_t n) {
    memset(taken, 0, n);
    for (size_t k = 0; k < n; k++) {
        if (index[k] < 0 || (size_t)index[k] >= n || taken[index[k]]) return;
        taken[index[k]] = true;
        out[index[k]] = a[k];
    }
}

LOOP loop_scatter(size_t n) { scatter(in_order, n); }
LOOP loop_scatter_shuffled(size_t n) { scatter(shuffled, n); }

LOOP loop_pack(size_t n) {
    size_t kept = 0;
    for (size_t k = 0; k < n; k++) {
        if (flags[k]) out[kept++] = a[k];
    }
}

LOOP loop_pack_flags(size_t n) {
    size_t kept = 0;
    for (size_t k = 0; k < n; k++) {
        if (flags[k]) ((bool *)out)[kept++] = others[k];
    }
}

LOOP loop_distribute(size_t n) {
    for (size_t k = 0; k < n; k++) out[k] = a[0];
}
LOOP loop_index(size_t n) {
    for (size_t k = 0; k < n; k++) out[k] = (int32_t)(5 + 3 * (uint32_t)k);
}

static void must(CvlStatus status) {
    if (status.number != CVL_DONE) {
        printf("fault %u at %lld\n", (unsigned)status.number, (long long)status.place);
        exit(EXIT_FAILURE);
    }
}

/* Cuts n elements into segments of 1,000, of which the last may be shorter, and says how many there are. */
static size_t segments_of(size_t n) {
    size_t segments = 0;
    for (size_t k = 0; k < n; k += SEGMENT) lengths[segments++] = (int32_t)(n - k < SEGMENT ? n - k : SEGMENT);
    return segments;
}

/* Cuts n elements into segments of one to seven, at random. */
static void cut_short(size_t n) {
    uint32_t state = 1;
    short_segments = 0;
    for (size_t k = 0; k < n; short_segments++) {
        state = state * 1664525u + 1013904223u;
        const size_t wanted = 1 + (size_t)((uint64_t)state * 7 >> 32), left = n - k;
        short_lengths[short_segments] = (int32_t)(wanted < left ? wanted : left);
        k += (size_t)short_lengths[short_segments];
    }
}

/* Puts each index from 0 to n once into `shuffled`, at random. */
static void shuffle(size_t n) {
    uint32_t state = 1;
    for (size_t k = 0; k < n; k++) shuffled[k] = (int32_t)k;
    for (size_t k = n - 1; k > 0; k--) {
        state = state * 1664525u + 1013904223u;
        size_t other = (size_t)((uint64_t)state * (k + 1) >> 32);
        int32_t index = shuffled[k];
        shuffled[k] = shuffled[other];
        shuffled[other] = index;
    }
}

static void call_add(size_t n) { must(add_wuz(a, b, out, n)); }
static void call_less(size_t n) { must(les_wuz(a, b, (bool *)out, n)); }
static void call_select(size_t n) { must(sel_wuz(flags, a, b, out, n)); }
static void call_xor(size_t n) { must(xor_wub(flags, others, (bool *)out, n)); }
static void call_replace(size_t n) { must(rep_vub(flags, (int32_t)(n / 2), true, (bool *)out, n)); }
static void call_count(size_t n) { must(cnt_lub(flags, n, out)); }
static void call_scan_all(size_t n) { must(and_sub(others, (bool *)out, n)); }
static void call_segmented_count(size_t n) { must(cnt_leb(flags, n, (CvlLengths){lengths, segments_of(n)}, out)); }
static void call_segmented_all(size_t n) { must(and_reb(others, n, (CvlLengths){lengths, segments_of(n)}, (bool *)out)); }
static void call_divide(size_t n) { must(div_wuz(a, b, out, n)); }
static void call_scan(size_t n) { must(add_suz(a, out, n)); }
static void call_reduce(size_t n) { must(add_ruz(a, n, out)); }
static void call_shift(size_t n) { must(lsh_wuz(a, shifts, out, n)); }
static void call_checked_scan(size_t n) { must(tot_suz(small, out, n)); }
static void call_checked_reduce(size_t n) { must(tot_ruz(small, n, out)); }
static void call_segmented_scan(size_t n) { must(add_sez(a, (CvlLengths){lengths, segments_of(n)}, out, n)); }
static void call_segmented_reduce(size_t n) { must(add_rez(a, n, (CvlLengths){lengths, segments_of(n)}, out)); }

#define SHORT_SEGMENTS ((CvlLengths){short_lengths, short_segments})
static void call_short_scan(size_t n) { must(add_sez(a, SHORT_SEGMENTS, out, n)); }
static void call_short_copies(size_t n) { must(dis_vez(a, SHORT_SEGMENTS, out, n)); }
static void call_short_numbers(size_t n) { must(ind_lez(a, b, SHORT_SEGMENTS, out, n)); }

static void call_sparse_product(size_t n) {
    const CvlLengths rows = {lengths, segments_of(n)};
    must(cvl_sparse_product(rows, shuffled, n, a, n, b, n, out, rows.segments));
}

static void call_gather(size_t n) { must(bck_puz(a, n, in_order, out, n)); }
static void call_gather_shuffled(size_t n) { must(bck_puz(a, n, shuffled, out, n)); }
static void call_scatter(size_t n) { must(smp_puz(a, in_order, out, n)); }
static void call_scatter_shuffled(size_t n) { must(smp_puz(a, shuffled, out, n)); }
static void call_distribute(size_t n) { must(dis_vuz(a[0], (int32_t)n, out)); }
static void call_index(size_t n) { must(ind_luz(5, 3, (int32_t)n, out)); }

static void call_pack(size_t n) {
    size_t kept;
    must(pck_luz(a, flags, n, out, n, &kept));
}

static void call_pack_flags(size_t n) {
    size_t kept;
    must(pck_lub(others, flags, n, (bool *)out, n, &kept));
}

static double now(void) {
    struct timespec time;
    clock_gettime(CLOCK_MONOTONIC, &time);
    return (double)time.tv_sec * 1e6 + (double)time.tv_nsec * 1e-3;
}

/* The best time of one run, in microseconds. */
static double best(void (*work)(size_t), size_t n, int rounds) {
    double least = 1e300;
    for (int round = 0; round < rounds; round++) {
        double start = now(), time;
        work(n);
        time = now() - start;
        if (time < least) least = time;
    }
    return least;
}

/* How long the longer vectors are, and how often each is measured. */
static size_t most = MOST;
static int short_rounds = SHORT_ROUNDS, long_rounds = LONG_ROUNDS;

static void measure(const char *name, void (*call)(size_t), void (*loop)(size_t)) {
    shuffle(SHORT);
    segments_of(SHORT);
    cut_short(SHORT);
    double short_call = best(call, SHORT, short_rounds), short_loop = best(loop, SHORT, short_rounds);
    shuffle(most);
    segments_of(most);
    cut_short(most);
    double long_call = best(call, most, long_rounds), long_loop = best(loop, most, long_rounds);
    printf("%-24s %8.2f %8.2f %10.0f %10.0f %6.2f\n", name, short_call, short_loop, long_call, long_loop, long_call / long_loop);
}

int main(int words, char **word) {
    uint32_t state = 1;
    if (words > 1 && strcmp(word[1], "short") == 0) most = SHORT, short_rounds = 3, long_rounds = 3;
    for (size_t k = 0; k < MOST; k++) {
        state = state * 1664525u + 1013904223u;
        a[k] = (int32_t)state;
        b[k] = (int32_t)(state >> 7) | 1;
        small[k] = (int32_t)(state >> 24) - 128;
        shifts[k] = (int32_t)(state >> 27);
        flags[k] = (state >> 13 & 1) != 0;
        others[k] = state >> 14 != 0;
        in_order[k] = (int32_t)k;
    }
    printf("%-24s %8d %8s %10zu %10s %6s\n", "", SHORT, "loop", most, "loop", "ratio");
    measure("add_wuz", call_add, loop_add);
    measure("les_wuz", call_less, loop_less);
    measure("sel_wuz", call_select, loop_select);
    measure("xor_wub", call_xor, loop_xor);
    measure("div_wuz", call_divide, loop_divide);
    measure("lsh_wuz", call_shift, loop_shift);
    measure("add_suz", call_scan, loop_scan);
    measure("add_ruz", call_reduce, loop_reduce);
    measure("and_sub", call_scan_all, loop_scan_all);
    measure("tot_suz", call_checked_scan, loop_checked_scan);
    measure("tot_ruz", call_checked_reduce, loop_checked_reduce);
    measure("add_sez, of 1000", call_segmented_scan, loop_segmented_scan);
    measure("add_rez, of 1000", call_segmented_reduce, loop_segmented_reduce);
    measure("and_reb, of 1000", call_segmented_all, loop_segmented_all);
    measure("cnt_lub", call_count, loop_count);
    measure("cnt_leb, of 1000", call_segmented_count, loop_segmented_count);
    measure("smp_puz, in order", call_scatter, loop_scatter);
    measure("smp_puz, at random", call_scatter_shuffled, loop_scatter_shuffled);
    measure("bck_puz, in order", call_gather, loop_gather);
    measure("bck_puz, at random", call_gather_shuffled, loop_gather_shuffled);
    measure("pck_luz, of a half", call_pack, loop_pack);
    measure("pck_lub, of a half", call_pack_flags, loop_pack_flags);
    measure("rep_vub", call_replace, loop_replace);
    measure("dis_vuz", call_distribute, loop_distribute);
    measure("ind_luz", call_index, loop_index);
    measure("add_sez, of 1 to 7", call_short_scan, loop_short_scan);
    measure("dis_vez, of 1 to 7", call_short_copies, loop_short_copies);
    measure("ind_lez, of 1 to 7", call_short_numbers, loop_short_numbers);
    measure("cvl_sparse_product", call_sparse_product, loop_sparse_product);
    return EXIT_SUCCESS;
}
