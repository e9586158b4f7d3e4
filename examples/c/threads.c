/*
 * Four threads scan one vector together: each reduces the tiles that it takes, one of them scans the reduces, and each scans
 * the tiles that it takes after what stands before them. The result is held against a scan of the whole by one thread, for
 * each operator and several lengths of tiles. `tests/c/run threads` builds and runs it under sanitizers, and
 * `tests/c/run races` under the thread sanitizer.
 */
#define CVL_SHORT_NAMES
#include "cvl.h"

#include <pthread.h>
#include <stdio.h>
#include <stdlib.h>
#include <string.h>

enum { THREADS = 4, ELEMENTS = 100003, MOST_TILES = ELEMENTS };

/* What the threads share: a vector in tiles, and the room for what each step gives. */
static struct {
    uint32_t op;
    bool of_bools;
    size_t tile, tiles;
    size_t next; /* the first tile that no thread took, under the lock */
    pthread_mutex_t lock;
    pthread_barrier_t barrier;
    int failed; /* under the lock */
} work;

static int32_t ints[ELEMENTS], int_sums[MOST_TILES], int_before[MOST_TILES], int_out[ELEMENTS], int_wanted[ELEMENTS];
static bool bools[ELEMENTS], bool_sums[MOST_TILES], bool_before[MOST_TILES], bool_out[ELEMENTS], bool_wanted[ELEMENTS];

static void done(const char *call, CvlStatus status) {
    if (status.number == CVL_DONE && status.place == -1) return;
    pthread_mutex_lock(&work.lock);
    printf("%s: %u at %lld\n", call, (unsigned)status.number, (long long)status.place);
    work.failed = 1;
    pthread_mutex_unlock(&work.lock);
}

/* Takes a tile that no other thread takes in this step, from place *from on, and answers whether one was left. */
static bool take(size_t *tile, size_t *from, size_t *count) {
    pthread_mutex_lock(&work.lock);
    *tile = work.next;
    work.next += *tile < work.tiles;
    pthread_mutex_unlock(&work.lock);
    *from = *tile * work.tile;
    *count = ELEMENTS - *from < work.tile ? ELEMENTS - *from : work.tile;
    return *tile < work.tiles;
}

static void *scan_with_others(void *first) {
    size_t t, from, n;
    while (take(&t, &from, &n)) {
        if (work.of_bools) done("reduce", cvl_bool_reduce(work.op, bools + from, n, &bool_sums[t]));
        else done("reduce", cvl_int_reduce(work.op, ints + from, n, &int_sums[t]));
    }
    pthread_barrier_wait(&work.barrier);
    if (first) {
        if (work.of_bools) done("scan", cvl_bool_scan(work.op, bool_sums, work.tiles, bool_before, work.tiles));
        else done("scan", cvl_int_scan(work.op, int_sums, work.tiles, int_before, work.tiles));
        work.next = 0;
    }
    pthread_barrier_wait(&work.barrier);
    while (take(&t, &from, &n)) {
        if (work.of_bools) done("scan_after", cvl_bool_scan_after(work.op, bool_before[t], bools + from, n, bool_out + from, n));
        else done("scan_after", cvl_int_scan_after(work.op, int_before[t], ints + from, n, int_out + from, n));
    }
    return NULL;
}

/* The scan by four threads, in tiles of this length. */
static void in_threads(uint32_t op, bool of_bools, size_t tile) {
    pthread_t threads[THREADS];
    work.op = op;
    work.of_bools = of_bools;
    work.tile = tile;
    work.tiles = (ELEMENTS + tile - 1) / tile;
    work.next = 0;
    memset(int_out, 0x55, sizeof int_out);
    memset(bool_out, 0, sizeof bool_out);
    for (int k = 0; k < THREADS; k++) {
        if (pthread_create(&threads[k], NULL, scan_with_others, k == 0 ? &work : NULL) != 0) abort();
    }
    for (int k = 0; k < THREADS; k++) pthread_join(threads[k], NULL);
    if (of_bools) {
        done("whole", cvl_bool_scan(op, bools, ELEMENTS, bool_wanted, ELEMENTS));
        work.failed |= memcmp(bool_out, bool_wanted, sizeof bool_out) != 0;
    } else {
        done("whole", cvl_int_scan(op, ints, ELEMENTS, int_wanted, ELEMENTS));
        work.failed |= memcmp(int_out, int_wanted, sizeof int_out) != 0;
    }
    if (work.failed) printf("operator %u in tiles of %zu: another scan\n", (unsigned)op, tile);
}

int main(void) {
    static const size_t tiles[] = {1, 2, 37, 1024, ELEMENTS};
    uint32_t seed = 12345;
    for (size_t k = 0; k < ELEMENTS; k++) {
        seed = seed * 1664525u + 1013904223u;
        ints[k] = (int32_t)(seed >> 1) - 1073741824;
        bools[k] = seed >> 31;
    }
    pthread_mutex_init(&work.lock, NULL);
    pthread_barrier_init(&work.barrier, NULL, THREADS);
    for (size_t k = 0; k < sizeof tiles / sizeof *tiles; k++) {
        for (uint32_t op = CVL_ADD; op <= CVL_XOR; op++) in_threads(op, false, tiles[k]);
        for (uint32_t op = CVL_AND; op <= CVL_XOR; op++) in_threads(op, true, tiles[k]);
    }
    pthread_barrier_destroy(&work.barrier);
    pthread_mutex_destroy(&work.lock);
    if (work.failed) return EXIT_FAILURE;
    printf("50 scans by %d threads, each as by one\n", THREADS);
    return EXIT_SUCCESS;
}
